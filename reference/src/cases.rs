//! A table of captures, sound and damaged, for comparing bench programs.
//! Deterministic: whole numbers and fixed seeds only.

use crate::amplitude::{amplitude, COSINE, SINE};
use crate::capture::{number_bytes, sent, write, CELLS, LONGEST, MARK, MOST_FRAMES};
use crate::prng::Prng;

pub struct Case {
    pub name: String,
    pub capture: Vec<u8>,
}

/// Frames under construction.
#[derive(Clone)]
struct Frames(Vec<[u16; CELLS]>);

const ALL_ON: u16 = 0x7F;
const DEVICE_OFF: u16 = 0x3F;

impl Frames {
    /// `count` frames with the codes of `code(frame, channel)`, all enabled.
    fn new(count: usize, mut code: impl FnMut(usize, usize) -> u16) -> Frames {
        let frame = |n| std::array::from_fn(|c| if c < 6 { code(n, c) } else { ALL_ON });
        Frames((0..count).map(frame).collect())
    }

    fn enable(mut self, mut enable: impl FnMut(usize) -> u16) -> Frames {
        for (n, frame) in self.0.iter_mut().enumerate() {
            frame[6] = enable(n);
        }
        self
    }

    fn capture(&self) -> Vec<u8> {
        let cells: Vec<u16> = self.0.iter().flatten().copied().collect();
        let mut buffer = vec![0; LONGEST];
        let outcome = write(&cells, &mut buffer);
        assert_eq!(outcome.number, 0);
        buffer.truncate(outcome.count);
        buffer
    }

    /// The place of the enable byte of frame n, and of each of its numbers.
    fn places(&self, n: usize) -> [usize; CELLS] {
        let start = Frames(self.0[..n].to_vec()).capture().len() - count_width(n) + count_width(self.0.len());
        let mut previous = if n == 0 { [512; CELLS] } else { self.0[n - 1] };
        let mut at = start + 1;
        let mut places = [start; CELLS];
        for c in 0..6 {
            places[c + 1] = at;
            let change = i32::from(self.0[n][c]) - i32::from(previous[c]);
            at += number_bytes(sent(change)).len();
            previous[c] = self.0[n][c];
        }
        places
    }
}

fn count_width(frames: usize) -> usize {
    number_bytes(frames as i32).len()
}

/// The code of a steady wave with period eight, of the given peaks in codes.
fn wave(n: usize, cosine_peak: i64, sine_peak: i64) -> u16 {
    let slot = n % 8;
    let sum = cosine_peak * COSINE[slot] + sine_peak * SINE[slot];
    (512 + ((sum + 8192) >> 14)).clamp(0, 1023) as u16
}

/// Peaks far above and far below the bench's levels: pickup 3413 is a peak of
/// about 213 codes, drop 819 one of about 51.
const STRONG: i64 = 300;
const MIDDLE: i64 = 120;

/// Voltages and currents between drop and pickup: nothing latches.
fn quiet(n: usize, c: usize) -> u16 {
    wave(n + c, MIDDLE, 10 * c as i64)
}

fn tripping(n: usize, c: usize) -> u16 {
    match c {
        0 => 512,
        1 => wave(n, STRONG, 0),
        2 => wave(n, 20, 11),
        3 => wave(n, 200, 210),
        4 => wave(n, MIDDLE, 5),
        _ => wave(n + 3, 0, 400),
    }
}

struct Table(Vec<Case>);

impl Table {
    fn add(&mut self, name: impl Into<String>, capture: Vec<u8>) {
        self.0.push(Case { name: name.into(), capture });
    }
}

pub fn all() -> Vec<Case> {
    let mut table = Table(Vec::new());
    lengths(&mut table);
    latches(&mut table);
    settling(&mut table);
    inrushes(&mut table);
    levels(&mut table);
    noise(&mut table);
    refusals(&mut table);
    orders(&mut table);
    random_damage(&mut table);
    table.0
}

fn lengths(table: &mut Table) {
    let mut prng = Prng(1);
    table.add("example", vec![0x50, 0x36, 0x4B, 0x01, 0x7F, 0xC8, 0x01, 0, 0, 0, 0, 0]);
    // Zero frames, as `frames-0000` is.
    table.add("no-bytes", Vec::new());
    for count in [0, 1, 7, 8, 9].into_iter().chain(71..=90) {
        let jitter = prng.within(0, 6);
        let frames = Frames::new(count, |n, c| {
            let code = i64::from(tripping(n, c)) + prng.within(-jitter, jitter);
            code.clamp(0, 1023) as u16
        });
        table.add(format!("frames-{count:04}"), frames.capture());
    }
    // Counts that take the second byte of the frame number.
    for count in [127, 128, 129] {
        table.add(format!("frames-{count:04}"), Frames::new(count, tripping).capture());
    }
    // A long run of small changes, with episodes of every kind.
    let mut enable = ALL_ON;
    let mut peaks = [100; 6];
    let mut prng = Prng(2);
    let frames = Frames::new(MOST_FRAMES, |n, c| {
        if prng.once_in(200) {
            peaks[c] = prng.within(0, 330);
        }
        wave(n, peaks[c], 40)
    });
    let mut prng = Prng(3);
    let frames = frames.enable(|_| {
        if prng.once_in(40) {
            enable = ALL_ON ^ (1 << prng.below(7));
        } else if prng.once_in(10) {
            enable = ALL_ON;
        }
        enable
    });
    table.add("frames-4096", frames.capture());
    let longest = longest();
    assert_eq!(longest.len(), LONGEST);
    table.add("longest", longest);
}

/// Every change takes two bytes: 53,253 bytes in all.
fn longest() -> Vec<u8> {
    let mut prng = Prng(4);
    Frames::new(MOST_FRAMES, |n, _| {
        if n % 2 == 0 {
            prng.within(600, 1023) as u16
        } else {
            prng.within(0, 500) as u16
        }
    })
    .capture()
}

fn latches(table: &mut Table) {
    for c in 3..6 {
        let strong = |n, channel| if channel == c { wave(n, STRONG, 0) } else { quiet(n, channel) };
        table.add(format!("over-{c}"), Frames::new(80, strong).capture());
        // The wave starts late and ends early: the latch stays.
        let burst = |n, channel| {
            if channel == c && (100..110).contains(&n) {
                wave(n, STRONG, 100)
            } else {
                quiet(n, channel)
            }
        };
        table.add(format!("over-burst-{c}"), Frames::new(130, burst).capture());
        // Strong only while age grows: no run is counted, nothing latches.
        let early = |n, channel| if channel == c && n < 60 { wave(n, STRONG, 0) } else { quiet(n, channel) };
        table.add(format!("over-too-early-{c}"), Frames::new(90, early).capture());
    }
    for c in 0..6 {
        let lost = |n, channel| if channel == c { 512 } else { quiet(n, channel) };
        table.add(format!("loss-{c}"), Frames::new(100, lost).capture());
        let late = |n, channel| if channel == c && n >= 90 { 700 } else { quiet(n, channel) };
        table.add(format!("loss-late-{c}"), Frames::new(130, late).capture());
        // Disabled after its latch went on, enabled again, twice.
        let bit = 1 << c;
        let frames = Frames::new(150, tripping_all(c));
        table.add(
            format!("disabled-and-back-{c}"),
            frames.clone().enable(|n| if n / 10 % 2 == 1 && n >= 90 { ALL_ON ^ bit } else { ALL_ON }).capture(),
        );
        // Enabled for a short time only, just short of a full run and just a full run.
        let full = if c < 3 { 16 } else { 4 };
        for (name, on) in [("short", full - 1), ("full", full)] {
            let frames = frames.clone().enable(|n| {
                if n == 149 || (80..80 + on).contains(&n) {
                    ALL_ON
                } else {
                    ALL_ON ^ bit
                }
            });
            table.add(format!("enabled-{name}-{c}"), frames.capture());
        }
    }
    // A disabled frame, or the device off for one, within each run: it starts again,
    // in the latter only after the capture's end, since the device settles.
    for gap in [71, 72, 73, 74, 75, 76, 80, 86, 87, 88] {
        let frames = Frames::new(110, tripping);
        let channels_off = frames.clone().enable(|n| if n == gap { 0x40 } else { ALL_ON });
        table.add(format!("gap-channels-{gap}"), channels_off.capture());
        let device_off = frames.enable(|n| if n == gap { DEVICE_OFF } else { ALL_ON });
        table.add(format!("gap-device-{gap}"), device_off.capture());
    }
    let switch = |from: usize, to: usize| {
        Frames::new(160, tripping)
            .enable(|n| if (from..to).contains(&n) { DEVICE_OFF } else { ALL_ON })
            .capture()
    };
    table.add("device-off-throughout", switch(0, 160));
    table.add("device-off-while-young", switch(0, 72));
    table.add("device-off-then-on", switch(0, 100));
    table.add("device-on-off-on", switch(100, 130));
    table.add("device-off-at-end", switch(120, 160));
    let alternating = Frames::new(160, tripping).enable(|n| if n % 2 == 0 { ALL_ON } else { DEVICE_OFF });
    table.add("device-alternating", alternating.capture());
    let nothing_on = Frames::new(100, tripping).enable(|_| 0);
    table.add("enable-zero", nothing_on.capture());
    let one_by_one = Frames::new(200, tripping).enable(|n| 0x40 | 1 << (n / 17 % 6));
    table.add("one-channel-at-a-time", one_by_one.capture());
}

/// Bit 6 off in the frames of `off`, all else on.
fn device_off_in(off: &[std::ops::Range<usize>]) -> impl Fn(usize) -> u16 + '_ {
    move |n| if off.iter().any(|frames| frames.contains(&n)) { DEVICE_OFF } else { ALL_ON }
}

/// For Paper 5: after a rise of bit 6 at frame T the frames T to T + 71 are not
/// counted, so an over latch needs T + 75 and a loss latch T + 87.
fn settling(table: &mut Table) {
    // Channel 3 trips; the device goes off; when it is back, channel 4 is over and
    // channel 0 dead, and channel 3 has only its latch.
    let delayed = |n, c| match c {
        0 if n >= 90 => 512,
        3 if n < 90 => wave(n, STRONG, 0),
        4 if n >= 90 => wave(n, 0, STRONG),
        _ => quiet(n, c),
    };
    table.add("settling", Frames::new(200, delayed).enable(device_off_in(&[90..100])).capture());

    // Channel 0 is dead and channel 4 over from frame `from` on. Named by the rises.
    let both = |from: usize| {
        move |n, c| match c {
            0 if n >= from => 512,
            4 if n >= from => wave(n, STRONG, 0),
            _ => quiet(n, c),
        }
    };
    for (name, from, count, off) in [
        // Bit 6 in frame 0: on there is no rise, off and then on is one.
        ("none", 0, 100, &[][..]),
        ("at-1", 0, 100, &[0..1]),
        // At ages of 40, 71 and 72.
        ("at-40", 0, 140, &[30..40]),
        ("at-71", 0, 170, &[60..71]),
        ("at-72", 0, 170, &[60..72]),
        // The device is off for one frame.
        ("at-101", 100, 200, &[100..101]),
        // Two rises. Up to the second no frame is counted, or four or five of which
        // the last has the device off; after four with it on channel 4 trips.
        ("at-100-and-150", 90, 250, &[90..100, 149..150]),
        ("at-100-and-172", 90, 270, &[90..100, 171..172]),
        ("at-100-and-176", 90, 270, &[90..100, 175..176]),
        ("at-100-and-177", 90, 270, &[90..100, 176..177]),
        ("at-10-and-20-and-90", 0, 190, &[5..10, 19..20, 80..90]),
    ] {
        table.add(format!("rise-{name}"), Frames::new(count, both(from)).enable(device_off_in(off)).capture());
    }

    // Runs of 15 and of 3 stand when the device goes off: channel 0 is dead and
    // enabled throughout, channel 4 over throughout and enabled from frame 84 on.
    let runs = |n: usize, off: bool| match n {
        0..=83 => ALL_ON ^ 0x10,
        87 if off => DEVICE_OFF,
        _ => ALL_ON,
    };
    for (name, off) in [("cut", true), ("uncut", false)] {
        let frames = Frames::new(200, both(0)).enable(|n| runs(n, off));
        table.add(format!("runs-of-15-and-3-{name}"), frames.capture());
    }

    // A kick that brings channel 4 over pickup, for 4 frames or for 5: it lies in
    // one slot, and another kick ends it. Frame 168 is 71 after the rise.
    for last in [171, 172] {
        let kicked = |n, c| {
            let kick = if c == 4 && (n == 168 || n == last + 1) { 385 } else { 0 };
            if c == 4 {
                wave(n, MIDDLE, 0) + kick
            } else {
                quiet(n, c)
            }
        };
        let frames = Frames::new(200, kicked).enable(device_off_in(&[94..97]));
        table.add(format!("rise-at-97-over-168-to-{last}"), frames.capture());
    }

    // Waves at random with the device off now and then, and on for long enough.
    for seed in 0..2 {
        let mut prng = Prng(400 + seed);
        let mut peaks = [100; 6];
        let frames = Frames::new(500, |n, c| {
            if prng.once_in(60) {
                peaks[c] = prng.within(0, 330);
            }
            wave(n, peaks[c], 10)
        });
        let mut prng = Prng(500 + seed);
        let (mut on, mut left) = (seed == 0, prng.within(2, 120));
        let mixed = frames.enable(|_| {
            if left == 0 {
                on = !on;
                left = if on { prng.within(30, 160) } else { prng.within(1, 5) };
            }
            left -= 1;
            let channels = if prng.once_in(40) { prng.below(64) as u16 } else { 0x3F };
            u16::from(on) << 6 | channels
        });
        table.add(format!("rises-{seed}"), mixed.capture());
    }
}

/// The first frame of an inrush.
const INRUSH: usize = 84;
/// The first frame of the fault in the midst of it.
const FAULT: usize = INRUSH + 40;

/// A load, then on each current a magnetising inrush: a fundamental of 275 codes
/// (4,400 sixteenths), a second harmonic of 40 % of it and an offset, the three
/// currents a third of a cycle apart.
fn inrush(n: usize, c: usize) -> u16 {
    if c < 3 || n < INRUSH {
        return quiet(n, c);
    }
    let (cosine, sine) = [(275, 0), (-138, 238), (-138, -238)][c - 3];
    let (second_cosine, second_sine) = [(110, 0), (-55, -95), (-55, 95)][c - 3];
    let slot = n % 8;
    let double = 2 * n % 8;
    let sum = cosine * COSINE[slot]
        + sine * SINE[slot]
        + second_cosine * COSINE[double]
        + second_sine * SINE[double];
    (512 + 100 + ((sum + 8192) >> 14)) as u16
}

/// For Paper 8: with restraint off all three currents trip on the inrush, with
/// restraint 15 none does, and of the second capture only channel 4 does.
fn inrushes(table: &mut Table) {
    table.add("inrush", Frames::new(160, inrush).capture());
    let fault = |n, c| if c == 4 && n >= FAULT { wave(n, 200, 360) } else { inrush(n, c) };
    table.add("inrush-then-fault", Frames::new(168, fault).capture());
}

/// Channel c trips, a voltage by loss and a current on its wave.
fn tripping_all(c: usize) -> impl Fn(usize, usize) -> u16 {
    move |n, channel| match channel {
        _ if channel != c => quiet(n, channel),
        0..=2 => 512,
        _ => wave(n, STRONG, 50),
    }
}

/// A window of which m is exactly `target`: near a wave of the given direction,
/// in hundredths of cosine and sine. A relay fed with it from frame 0 on has it
/// in its slots unturned, so from frame 7 on m is `target` in every frame.
fn window_at(target: i64, (cosine, sine): (i64, i64), prng: &mut Prng) -> [i16; 8] {
    loop {
        let window = std::array::from_fn(|slot| {
            let sum = (COSINE[slot] * cosine + SINE[slot] * sine) * (target / 16) / 100;
            (((sum + 8192) >> 14) + prng.within(-2, 2)) as i16
        });
        if amplitude(&window) == target {
            return window;
        }
    }
}

/// Steady waves whose amplitudes lie at the bench's levels and next to them.
fn levels(table: &mut Table) {
    let mut prng = Prng(5);
    for target in [818, 819, 820, 3412, 3413, 3414] {
        let window = window_at(target, (100, 0), &mut prng);
        let code = |n: usize, c: usize| {
            if c == 0 || c == 4 {
                (window[n % 8] + 512) as u16
            } else {
                quiet(n, c)
            }
        };
        table.add(format!("level-{target:04}"), Frames::new(100, code).capture());
    }
    levels_in_every_channel(table);
}

/// The same levels with each channel at one of its own: in the three captures at
/// a level every channel has it, the number below and the number above once, and
/// other channels trip in each. A name has the levels of channels 0, 1 and 2
/// (drop) or 3, 4 and 5 (pickup); the other three have them turned by one place.
fn levels_in_every_channel(table: &mut Table) {
    let directions = [(100, 0), (60, 80), (-80, 60), (0, 100), (-60, -80), (96, -28)];
    let mut prng = Prng(7);
    for (name, lowest, named) in [("drop", 818, 0), ("pickup", 3412, 3)] {
        for turn in 0..3 {
            let level = |c: usize| {
                let turned = if c / 3 == named / 3 { 0 } else { 1 };
                lowest + ((c + turn + turned) % 3) as i64
            };
            let windows: [[i16; 8]; 6] = std::array::from_fn(|c| window_at(level(c), directions[c], &mut prng));
            let code = |n: usize, c: usize| (windows[c][n % 8] + 512) as u16;
            let name = format!("{name}-{}-{}-{}", level(named), level(named + 1), level(named + 2));
            table.add(name, Frames::new(96, code).capture());
        }
    }
}

fn noise(table: &mut Table) {
    for seed in 0..10 {
        let mut prng = Prng(100 + seed);
        let spread = prng.within(20, 512);
        let frames = Frames::new(100 + 10 * seed as usize, |_, _| {
            (512 + prng.within(-spread, spread - 1)) as u16
        });
        let mut prng = Prng(200 + seed);
        let mixed = frames.enable(|_| {
            if seed % 2 == 0 || !prng.once_in(30) {
                ALL_ON
            } else {
                prng.below(128) as u16
            }
        });
        table.add(format!("noise-{seed}"), mixed.capture());
    }
    // The extreme codes in every pattern of slots.
    let mut prng = Prng(300);
    let mut pattern = [0; 6];
    let corners = Frames::new(240, |n, c| {
        if n % 24 == 0 {
            pattern[c] = prng.below(256);
        }
        if pattern[c] >> (n % 8) & 1 == 1 {
            1023
        } else {
            0
        }
    });
    table.add("corners", corners.capture());
}

/// A small capture in which frames have numbers of one and of two bytes.
fn small() -> Frames {
    Frames::new(10, |n, c| wave(n + c, if c % 2 == 0 { 300 } else { 30 }, 0))
}

/// `capture` with the bytes from `at` replaced.
fn put(capture: &[u8], at: usize, bytes: &[u8]) -> Vec<u8> {
    let mut damaged = capture.to_vec();
    damaged[at..at + bytes.len()].copy_from_slice(bytes);
    damaged
}

/// `capture` with the whole number at `at` replaced.
fn put_number(capture: &[u8], at: usize, bytes: &[u8]) -> Vec<u8> {
    let width = if capture[at] < 128 { 1 } else { 2 };
    [&capture[..at], bytes, &capture[at + width..]].concat()
}

fn with_mark(rest: &[u8]) -> Vec<u8> {
    [&MARK[..], rest].concat()
}

fn with_tail(capture: &[u8], tail: &[u8]) -> Vec<u8> {
    [capture, tail].concat()
}

fn refusals(table: &mut Table) {
    let frames = small();
    let good = frames.capture();
    table.add("small", good.clone());

    // 6: a mark byte differs.
    for at in 0..3 {
        for wrong in [0, good[at] ^ 1, good[at] ^ 0x20, 0xFF] {
            table.add(format!("6-mark-{at}-{wrong:02x}"), put(&good, at, &[wrong]));
        }
        table.add(format!("6-mark-{at}-last"), put(&good, at, &[0x4A])[..=at].to_vec());
    }

    // 7: the second byte of a number is 0 or has its top bit set.
    for (name, bytes) in [("80-00", [0x80, 0x00]), ("81-00", [0x81, 0x00]), ("ff-80", [0xFF, 0x80]), ("ff-ff", [0xFF, 0xFF])] {
        table.add(format!("7-count-{name}"), put_number(&good, 3, &bytes));
        for (n, c) in [(0, 0), (0, 1), (0, 5), (1, 2), (4, 3), (8, 4), (9, 0), (9, 5)] {
            let at = frames.places(n)[c + 1];
            table.add(format!("7-change-{n}-{c}-{name}"), put_number(&good, at, &bytes));
        }
    }

    // 8: every prefix of a capture of two frames but that of no bytes, and some of
    // the longer one.
    let two = Frames(frames.0[..2].to_vec()).capture();
    for len in 1..two.len() {
        table.add(format!("8-prefix-{len:02}"), two[..len].to_vec());
    }
    for n in [2, 5, 9] {
        for (what, at) in frames.places(n).into_iter().enumerate() {
            table.add(format!("8-frame-{n}-{what}"), good[..at].to_vec());
        }
    }
    table.add("8-last-byte-missing", good[..good.len() - 1].to_vec());
    table.add("8-count-too-high", put_number(&good, 3, &[11]));
    table.add("8-count-4096", put_number(&good, 3, &[0x80, 0x20]));
    table.add("8-longest-cut", longest()[..LONGEST - 1].to_vec());

    // 9: the count, an enable byte or a code out of range.
    table.add("9-count-4097", put_number(&good, 3, &[0x81, 0x20]));
    table.add("9-count-8192", put_number(&good, 3, &[0x80, 0x40]));
    table.add("9-count-16383", put_number(&good, 3, &[0xFF, 0x7F]));
    for n in [0, 1, 5, 9] {
        let at = frames.places(n)[0];
        for enable in [0x80, 0xC0, 0xFF] {
            table.add(format!("9-enable-{n}-{enable:02x}"), put(&good, at, &[enable]));
        }
        for c in [0, 2, 5] {
            let at = frames.places(n)[c + 1];
            let previous = if n == 0 { 512 } else { i32::from(frames.0[n - 1][c]) };
            for (name, code) in [("1024", 1024), ("minus-1", -1), ("2000", 2000), ("minus-5000", -5000)] {
                let bytes = number_bytes(sent(code - previous));
                table.add(format!("9-code-{n}-{c}-{name}"), put_number(&good, at, &bytes));
            }
        }
    }
    let first = frames.places(0)[1];
    table.add("9-code-lowest-number", put_number(&good, first, &[0xFF, 0x7F]));
    table.add("9-code-highest-number", put_number(&good, first, &[0xFE, 0x7F]));

    // Codes 0 and 1023 from 512, and between each other, are accepted.
    let ends = Frames::new(6, |n, c| if (n + c) % 2 == 0 { 1023 } else { 0 });
    table.add("ends-of-range", ends.capture());

    // 10: bytes after the last frame.
    for tail in [&[0][..], &[0x7F], &[0x80], &[0xFF], &[0; 7], &[0xFF; 100], &MARK, &good] {
        let name = format!("10-tail-{:02x}-{}", tail[0], tail.len());
        table.add(name, with_tail(&good, tail));
    }
    table.add("10-tail-of-none", with_mark(&[0, 0]));
    table.add("10-tail-of-none-many", with_mark(&[0; 40]));
    table.add("10-count-too-low", put_number(&good, 3, &[9]));
    table.add("10-count-zero", put_number(&good, 3, &[0]));
    table.add("10-longest-and-1", with_tail(&longest(), &[0]));
    table.add("10-longest-and-2", with_tail(&longest(), &[0xFF, 0xFF]));
    table.add("10-longest-and-2000", with_tail(&longest(), &[0x50; 2000]));
}

/// Two faults in one capture: the first by place, and at one number 8, 7, 9.
fn orders(table: &mut Table) {
    table.add("order-6-before-8", vec![0x50, 0x36, 0x4A]);
    table.add("order-6-before-9", vec![0x51, 0x36, 0x4B, 0x81, 0x20]);
    table.add("order-8-count-first-byte-last", with_mark(&[0x80]));
    table.add("order-8-count-ff-last", with_mark(&[0xFF]));
    table.add("order-7-count-before-9", with_mark(&[0xFF, 0xFF]));
    table.add("order-7-count-then-nothing", with_mark(&[0x80, 0x00]));
    table.add("order-9-count-before-8", with_mark(&[0x81, 0x20]));
    table.add("order-9-enable-before-8", with_mark(&[1, 0x80]));
    table.add("order-9-enable-before-7", with_mark(&[1, 0xFF, 0x80, 0x00, 0, 0, 0, 0, 0]));
    table.add("order-9-enable-before-10", with_mark(&[1, 0x80, 0, 0, 0, 0, 0, 0, 9, 9]));
    table.add("order-8-change-before-9", with_mark(&[1, 0x7F, 0xFF]));
    table.add("order-7-change-before-9", with_mark(&[1, 0x7F, 0xFF, 0xFF]));
    table.add("order-9-change-before-8", with_mark(&[1, 0x7F, 0xFF, 0x7F]));
    table.add("order-9-change-before-7", with_mark(&[1, 0x7F, 0xFF, 0x7F, 0x80, 0x00, 0, 0, 0, 0]));
    table.add("order-7-change-before-9-later", with_mark(&[1, 0x7F, 0x80, 0x00, 0xFF, 0x7F, 0, 0, 0, 0]));
    table.add("order-7-change-before-10", with_mark(&[1, 0x7F, 0, 0, 0, 0, 0, 0x80, 0x00, 9]));
    table.add("order-9-change-before-10", with_mark(&[1, 0x7F, 0, 0, 0, 0, 0, 0x80, 0x08, 9]));
    table.add("order-9-first-frame-before-7-second", with_mark(&[2, 0x7F, 0x80, 0x08, 0, 0, 0, 0, 0, 0x7F, 0x80, 0x00]));
    // Faults in the first frame of a capture longer than any sound one.
    let overlong = with_tail(&longest(), &[0; 500]);
    table.add("order-9-early-in-overlong", put(&overlong, 5, &[0x80]));
}

/// Sound captures of random frames with a few bytes changed, cut out or put in.
fn random_damage(table: &mut Table) {
    let mut prng = Prng(6);
    for index in 0..80 {
        let count = prng.within(1, 40) as usize;
        let spread = prng.within(5, 512);
        let mut bytes = Frames::new(count, |_, _| (512 + prng.within(-spread, spread - 1)) as u16).capture();
        for _ in 0..prng.within(1, 3) {
            let at = prng.below(bytes.len() as u64) as usize;
            let byte = prng.below(256) as u8;
            match prng.below(5) {
                0 => bytes[at] = byte,
                1 => bytes[at] ^= 1 << (byte % 8),
                2 => bytes.insert(at, byte),
                3 if bytes.len() > 1 => {
                    bytes.remove(at);
                }
                _ => bytes.truncate(bytes.len() - usize::from(byte % 2)),
            }
        }
        table.add(format!("damaged-{index:02}"), bytes);
    }
}
