//! Reading, writing, excerpt, strongest window and report of the archive against the second implementation: captures that are valid, cut at
//! every place, damaged by one byte, and cells of every kind. Number, count and the whole lent buffer are compared.
//! `cargo test --release --test captures -- --long` runs twenty times as much.

mod support;

use host::refusal;
use reference::capture::{number_bytes, CELLS, LONGEST, MARK, MOST_FRAMES};
use reference::prng::Prng;
use support::{Flags, Refusals};

/// What cells and bytes hold before a call, to see that the rest is untouched.
const OLD: u8 = 0xEE;

#[derive(Default)]
struct Seen {
    refusals: Refusals,
    into_nothing: Refusals,
    valid: u64,
    cut: u64,
    damaged: u64,
    written: u64,
    excerpts: u64,
    strongest: u64,
    reports: u64,
    /// Reports with an output byte above 0, and of these on captures in which bit 6 goes off and on again.
    tripped: [u64; 2],
}

/// Cells of so many frames: small changes, large ones, or both. Bit 6 is seldom off, as a relay settles again after it
/// and a report would show no latch.
fn cells(frames: usize, prng: &mut Prng) -> Vec<u16> {
    let spread = [2, 40, 512][prng.below(3) as usize];
    let mut codes = [512i64; 6];
    let mut cells = Vec::with_capacity(CELLS * frames);
    for _ in 0..frames {
        for code in &mut codes {
            *code = match prng.below(40) {
                0 => [0, 1023][prng.below(2) as usize],
                _ => (*code + prng.within(-spread, spread)).clamp(0, 1023),
            };
            cells.push(*code as u16);
        }
        let channels = if prng.once_in(4) { prng.below(64) as u16 } else { 0x3F };
        cells.push(u16::from(!prng.once_in(150)) << 6 | channels);
    }
    cells
}

/// The capture of some cells, by the second implementation.
fn capture(cells: &[u16]) -> Vec<u8> {
    let mut bytes = vec![0; LONGEST];
    let written = reference::write(cells, &mut bytes);
    assert_eq!(written.number, 0);
    bytes.truncate(written.count);
    bytes
}

fn read(bytes: &[u8], room: usize, seen: &mut Seen) -> host::Answer {
    let mut ours = vec![u16::from(OLD); room];
    let mut theirs = ours.clone();
    let answer = host::read(bytes, &mut ours);
    let expected = reference::read(bytes, &mut theirs);
    assert_eq!((answer.refusal, answer.count), (expected.number, expected.count), "{bytes:02X?} into {room} cells");
    assert_eq!(ours, theirs, "{bytes:02X?} into {room} cells");
    seen.refusals.count(answer.refusal);
    answer
}

/// Into all the room that it can need, and into no cells at all: 6 to 10 come before 11, so the refusal is the same, and a right capture that has a
/// frame is 11. Nothing is written before or behind the place of the cells.
fn read_with_and_without_room(bytes: &[u8], seen: &mut Seen) -> host::Answer {
    let answer = read(bytes, bytes.len() * CELLS, seen);
    let expected = if answer.count > 0 { refusal::DOES_NOT_FIT } else { answer.refusal };
    let mut around = [u16::from(OLD); 2 * CELLS];
    let without = host::read(bytes, &mut around[CELLS..CELLS]);
    assert_eq!(without, host::Answer { refusal: expected, count: 0 }, "{bytes:02X?} into no cells");
    assert_eq!(around, [u16::from(OLD); 2 * CELLS], "{bytes:02X?} into no cells");
    assert_eq!(reference::read(bytes, &mut []).number, expected, "{bytes:02X?} into no cells");
    seen.into_nothing.count(expected);
    answer
}

fn write(cells: &[u16], room: usize, seen: &mut Seen) -> u8 {
    let mut ours = vec![OLD; room];
    let mut theirs = ours.clone();
    let answer = host::write(cells, &mut ours);
    let expected = reference::write(cells, &mut theirs);
    assert_eq!((answer.refusal, answer.count), (expected.number, expected.count), "{cells:?} into {room} bytes");
    assert_eq!(ours, theirs, "{cells:?} into {room} bytes");
    seen.refusals.count(answer.refusal);
    seen.written += 1;
    answer.refusal
}

fn strongest(cells: &[u16], channel: usize, seen: &mut Seen) {
    let answer = host::strongest(cells, channel);
    let expected = reference::strongest(cells, channel);
    assert_eq!(
        (answer.refusal, answer.sum, answer.frame),
        (expected.number, expected.sum, expected.frame),
        "channel {channel} of {cells:?}"
    );
    seen.refusals.count(answer.refusal);
    seen.strongest += 1;
}

/// The same cells at the same place: a part is the caller's own.
fn excerpt(cells: &[u16], frame: usize, frames: usize, seen: &mut Seen) {
    let ours = host::excerpt(cells, frame, frames);
    let theirs = reference::excerpt(cells, frame, frames);
    assert_eq!(ours.as_ptr_range(), theirs.as_ptr_range(), "{frames} frames from {frame} of {} cells", cells.len());
    seen.excerpts += 1;
}

fn report(bytes: &[u8], text: &mut [u8], seen: &mut Seen) {
    text.fill(OLD);
    let length = host::report(bytes, text);
    let expected = reference::bench_text(bytes);
    assert_eq!(length, expected.len(), "{bytes:02X?}");
    assert!(text[..length] == expected[..] && text[length..].iter().all(|&byte| byte == OLD), "{bytes:02X?}");
    // Too little room: nothing is written.
    let short = &mut text[1..];
    short.fill(OLD);
    assert!(host::report(bytes, short) == 0 && short.iter().all(|&byte| byte == OLD));
    seen.reports += 1;
    let tripped = expected.split(|&byte| byte == b'\n').any(|line| line.len() > 12 && !line.ends_with(b" 00"));
    seen.tripped[0] += u64::from(tripped);
    seen.tripped[1] += u64::from(tripped && goes_off_and_on(bytes));
}

/// Whether a frame of a right capture has bit 6 on after one with it off.
fn goes_off_and_on(bytes: &[u8]) -> bool {
    let mut cells = vec![0; bytes.len() * CELLS];
    let frames = reference::read(bytes, &mut cells).count;
    let on: Vec<bool> = cells[..CELLS * frames].chunks(CELLS).map(|frame| frame[6] & 0x40 != 0).collect();
    on.windows(2).any(|two| !two[0] && two[1])
}

/// A valid capture, with room that is enough, just enough, or too little, both ways.
fn valid(frames: usize, text: &mut [u8], prng: &mut Prng, seen: &mut Seen) -> Vec<u8> {
    let cells = cells(frames, prng);
    let bytes = capture(&cells);
    seen.valid += 1;
    for room in [cells.len(), cells.len() + prng.below(9) as usize] {
        assert_eq!(read(&bytes, room, seen).refusal, refusal::ACCEPTED);
    }
    assert_eq!(read_with_and_without_room(&bytes, seen), host::Answer { refusal: refusal::ACCEPTED, count: frames });
    assert_eq!(write(&cells, bytes.len(), seen), refusal::ACCEPTED);
    write(&cells, bytes.len() + prng.below(9) as usize, seen);
    if frames > 0 {
        assert_eq!(read(&bytes, cells.len() - 1 - prng.below(7) as usize, seen).refusal, refusal::DOES_NOT_FIT);
    }
    assert_eq!(write(&cells, bytes.len() - 1 - prng.below(3) as usize, seen), refusal::DOES_NOT_FIT);
    report(&bytes, text, seen);
    bytes
}

/// A capture cut at every place, damaged by one byte at every place, and with a byte behind it.
fn cut_and_damaged(bytes: &[u8], text: &mut [u8], prng: &mut Prng, seen: &mut Seen) {
    for place in 0..bytes.len() {
        let cut = if place == 0 { refusal::ACCEPTED } else { refusal::ENDS_EARLY };
        assert_eq!(read_with_and_without_room(&bytes[..place], seen), host::Answer { refusal: cut, count: 0 });
        seen.cut += 1;
        let mut damaged = bytes.to_vec();
        match prng.below(6) {
            0 => damaged[place] ^= 1 << prng.below(8),
            1 => damaged[place] = [0x00, 0x7F, 0x80, 0xFF][prng.below(4) as usize],
            2 => damaged.insert(place, prng.below(256) as u8),
            3 => drop(damaged.remove(place)),
            _ => damaged[place] = prng.below(256) as u8,
        }
        read_with_and_without_room(&damaged, seen);
        seen.damaged += 1;
        if prng.once_in(50) {
            report(&bytes[..place], text, seen);
            report(&damaged, text, seen);
        }
    }
    let mut tailed = bytes.to_vec();
    tailed.push(prng.below(256) as u8);
    assert_eq!(read_with_and_without_room(&tailed, seen).refusal, refusal::BYTES_AFTER);
}

/// No bytes are zero frames, whatever cells are lent; one byte, or two or three of the mark, are not.
fn no_bytes(text: &mut [u8], seen: &mut Seen) {
    for room in 0..300 {
        assert_eq!(read(&[], room, seen), host::Answer { refusal: refusal::ACCEPTED, count: 0 });
    }
    report(&[], text, seen);
    for byte in 0..=255 {
        let expected = if byte == MARK[0] { refusal::ENDS_EARLY } else { refusal::MARK_DIFFERS };
        assert_eq!(read_with_and_without_room(&[byte], seen).refusal, expected);
        report(&[byte], text, seen);
    }
    for length in 1..=3 {
        assert_eq!(read_with_and_without_room(&MARK[..length], seen).refusal, refusal::ENDS_EARLY);
        report(&MARK[..length], text, seen);
    }
}

/// Cells that may be of a wrong shape or out of range, to write and to search, and parts of them.
fn any_cells(prng: &mut Prng, seen: &mut Seen) {
    let frames = prng.below(30) as usize;
    let mut cells = cells(frames, prng);
    if prng.once_in(3) && !cells.is_empty() {
        let at = prng.below(cells.len() as u64) as usize;
        cells[at] = [127, 128, 255, 256, 1023, 1024, 65_535][prng.below(7) as usize];
    }
    if prng.once_in(6) {
        cells.extend((0..prng.within(1, 6)).map(|_| prng.code()));
    }
    let room = (cells.len() as i64 * 13 / 7 + 4 - prng.within(0, 60)).max(0) as usize;
    write(&cells, room, seen);
    strongest(&cells, prng.below(7) as usize, seen);
    for _ in 0..4 {
        let frame = any_frame(frames, prng);
        let count = any_frame(frames, prng);
        excerpt(&cells, frame, count, seen);
        excerpt(&cells, frame, frames.wrapping_sub(frame), seen);
    }
}

/// A frame number around the end of the frames, at times one far beyond.
fn any_frame(frames: usize, prng: &mut Prng) -> usize {
    match prng.below(12) {
        0 => usize::MAX - prng.below(3) as usize,
        1 => usize::MAX / CELLS + prng.below(3) as usize,
        2 => 1 << 63,
        _ => prng.below(frames as u64 + 3) as usize,
    }
}

/// Each count from both sides of every limit, in front of a frame too few, as many frames, and one too many.
fn counts(prng: &mut Prng, seen: &mut Seen) {
    let cells = cells(MOST_FRAMES, prng);
    let whole = capture(&cells);
    let last = &whole[capture(&cells[..CELLS * (MOST_FRAMES - 1)]).len()..];
    for count in [0, 1, 2, 126, 127, 128, 129, 4094, 4095, 4096, 4097, 4098, 8191, 8192, 16_383] {
        let header = [&MARK[..], &number_bytes(count)].concat();
        for frames in [count - 1, count, count + 1] {
            let frames = frames.clamp(0, MOST_FRAMES as i32) as usize;
            let body = &capture(&cells[..CELLS * frames])[MARK.len() + number_bytes(frames as i32).len()..];
            read(&[&header, body].concat(), 2 * CELLS * MOST_FRAMES, seen);
            read(&[&header, body, last].concat(), 2 * CELLS * MOST_FRAMES, seen);
        }
    }
}

/// More frames than a capture may have, and a channel far out of range.
fn ends_of_range(prng: &mut Prng, seen: &mut Seen) {
    for frames in [MOST_FRAMES, MOST_FRAMES + 1, 2 * MOST_FRAMES] {
        let cells = cells(frames, prng);
        write(&cells, 2 * LONGEST, seen);
        strongest(&cells, 3, seen);
        excerpt(&cells, MOST_FRAMES - 1, frames - MOST_FRAMES + 1, seen);
    }
    for channel in [5, 6, 255, 256, 1 << 32, usize::MAX] {
        strongest(&cells(9, prng), channel, seen);
    }
    // Both out of range: the shape and the channel come before the number of frames.
    let many = cells(MOST_FRAMES + 1, prng);
    let no_multiple = [&many[..], &[512]].concat();
    write(&no_multiple, 2 * LONGEST, seen);
    strongest(&no_multiple, 3, seen);
    strongest(&many, 6, seen);
}

fn main() {
    let flags = Flags::given();
    let mut seen = Seen::default();
    let mut text = vec![0; host::REPORT_ROOM];
    let mut prng = flags.prng(1);
    for _ in 0..600 * flags.times {
        let frames = prng.below(16) as usize;
        let bytes = valid(frames, &mut text, &mut prng, &mut seen);
        cut_and_damaged(&bytes, &mut text, &mut prng, &mut seen);
    }
    let mut prng = flags.prng(2);
    for k in 0..200 * flags.times {
        let frames = if k % 20 == 0 { MOST_FRAMES } else { prng.below(400) as usize };
        valid(frames, &mut text, &mut prng, &mut seen);
    }
    let mut prng = flags.prng(3);
    for _ in 0..20_000 * flags.times {
        any_cells(&mut prng, &mut seen);
    }
    counts(&mut prng, &mut seen);
    ends_of_range(&mut prng, &mut seen);
    no_bytes(&mut text, &mut seen);
    println!(
        "captures: {} valid, {} cut, {} damaged by one byte, {} writings, {} excerpts, {} strongest windows, {} reports, seed {}: all agree",
        seen.valid, seen.cut, seen.damaged, seen.written, seen.excerpts, seen.strongest, seen.reports, flags.seed
    );
    println!(
        "  reports with an output byte above 0: {}, of these with bit 6 off and on again {}",
        seen.tripped[0], seen.tripped[1]
    );
    seen.refusals.show(6..=13);
    println!("  the same captures, valid, cut and damaged, into no cells at all:");
    seen.into_nothing.show(6..=11);
    assert!(seen.valid + seen.cut + seen.damaged >= 20_000 && seen.excerpts >= 10_000 && seen.reports >= 1_000);
    assert!(seen.tripped.iter().all(|&count| count >= 50));
}
