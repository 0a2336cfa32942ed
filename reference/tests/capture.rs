//! Round trips, damaged captures, excerpts and the strongest window.

use reference::capture::{change_of, number_bytes, sent, LONGEST};
use reference::prng::Prng;
use reference::*;

fn random_cells(prng: &mut Prng, frames: usize) -> Vec<u16> {
    let spread = 1 << prng.below(10);
    (0..7 * frames)
        .map(|at| match at % 7 {
            6 => prng.below(128) as u16,
            _ => (512 + prng.within(-spread, spread - 1)) as u16,
        })
        .collect()
}

fn written(cells: &[u16]) -> Vec<u8> {
    let mut buffer = vec![0xAA; LONGEST + 9];
    let outcome = write(cells, &mut buffer);
    assert_eq!(outcome.number, 0);
    assert!(buffer[outcome.count..].iter().all(|&byte| byte == 0xAA));
    // It fits exactly, and in one byte less not at all.
    let mut exact = vec![0; outcome.count];
    assert_eq!(write(cells, &mut exact), outcome);
    assert_eq!(exact, buffer[..outcome.count]);
    let mut less = vec![0xAA; outcome.count - 1];
    assert_eq!(write(cells, &mut less), Outcome { number: 11, count: 0 });
    assert!(less.iter().all(|&byte| byte == 0xAA));
    exact
}

#[test]
fn numbers() {
    for d in -1023..=1023 {
        assert_eq!(change_of(sent(d)), d);
        assert!((0..=2046).contains(&sent(d)));
    }
    for number in 0..1 << 14 {
        let bytes = number_bytes(number);
        assert_eq!(bytes.len(), if number < 128 { 1 } else { 2 });
    }
}

#[test]
fn write_then_read() {
    let mut prng = Prng(31);
    for round in 0..400 {
        let frames = if round < 20 { round } else { prng.below(200) as usize };
        let cells = random_cells(&mut prng, frames);
        let bytes = written(&cells);
        let mut back = vec![0xBEEF; cells.len() + 5];
        assert_eq!(read(&bytes, &mut back), Outcome { number: 0, count: frames });
        assert_eq!(back[..cells.len()], cells);
        assert_eq!(back[cells.len()..], [0xBEEF; 5]);
        if frames > 0 {
            let mut short = vec![0xBEEF; cells.len() - 1];
            assert_eq!(read(&bytes, &mut short), Outcome { number: 11, count: 0 });
            assert!(short.iter().all(|&cell| cell == 0xBEEF));
        }
    }
}

#[test]
fn longest_capture() {
    let cells: Vec<u16> = (0..4096)
        .flat_map(|n| if n % 2 == 0 { [1023, 1023, 1023, 0, 0, 0, 127] } else { [0, 0, 0, 1023, 1023, 1023, 0] })
        .collect();
    let bytes = written(&cells);
    assert_eq!(bytes.len(), LONGEST);
    let mut back = vec![0; cells.len()];
    assert_eq!(read(&bytes, &mut back), Outcome { number: 0, count: 4096 });
    assert_eq!(back, cells);
    // Whatever follows, the first 53,254 bytes decide.
    let long = [&bytes[..], &[0x80; 1000]].concat();
    assert_eq!(read(&long, &mut back).number, 10);
    assert_eq!(read(&long[..LONGEST + 1], &mut back).number, 10);
}

/// A capture has one form: what is read is written back byte for byte. So a
/// damaged capture is either refused, with the cells untouched, or is the one
/// form of the cells it gives. No bytes are the one exception: they are read as
/// zero frames, whose form is the mark and a zero.
#[test]
fn damaged_captures() {
    let mut prng = Prng(32);
    let mut numbers = [0; 14];
    let mut without_bytes = 0;
    for _ in 0..60_000 {
        let frames = prng.below(12) as usize;
        let mut bytes = written(&random_cells(&mut prng, frames));
        for _ in 0..prng.within(1, 2) {
            if bytes.is_empty() {
                break;
            }
            let at = prng.below(bytes.len() as u64) as usize;
            let byte = prng.below(256) as u8;
            match prng.below(4) {
                0 => bytes[at] = byte,
                1 => bytes[at] ^= 1 << (byte % 8),
                2 => bytes.insert(at, byte),
                _ => bytes.truncate(at),
            }
        }
        let mut cells = vec![0xBEEF; 200 * 7];
        let outcome = read(&bytes, &mut cells);
        if bytes.is_empty() {
            without_bytes += 1;
            assert_eq!(outcome, Outcome { number: 0, count: 0 });
            assert!(cells.iter().all(|&cell| cell == 0xBEEF));
            continue;
        }
        numbers[usize::from(outcome.number)] += 1;
        if outcome.number == 0 {
            assert_eq!(written(&cells[..7 * outcome.count]), bytes);
        } else {
            assert_eq!(outcome.count, 0);
            assert!(cells.iter().all(|&cell| cell == 0xBEEF));
        }
    }
    println!("outcomes by number: {numbers:?}, and {without_bytes} without bytes");
    for number in [0, 6, 7, 8, 9, 10] {
        assert!(numbers[number] > 100, "{numbers:?}");
    }
    assert!(without_bytes > 100);
}

/// Every proper prefix ends early but that of no bytes, and no longer tail is
/// accepted.
#[test]
fn prefixes_and_tails() {
    let mut prng = Prng(33);
    for frames in [0, 1, 3, 130] {
        let bytes = written(&random_cells(&mut prng, frames));
        let mut cells = vec![0; 7 * frames];
        assert_eq!(read(&bytes[..0], &mut cells), Outcome { number: 0, count: 0 });
        for len in 1..bytes.len() {
            assert_eq!(read(&bytes[..len], &mut cells).number, 8);
        }
        for tail in [&[0][..], &[0xFF; 3]] {
            assert_eq!(read(&[&bytes[..], tail].concat(), &mut cells).number, 10);
        }
    }
}

#[test]
fn excerpts() {
    let cells: Vec<u16> = (0..70).collect();
    assert_eq!(excerpt(&cells, 2, 3), &cells[14..35]);
    assert_eq!(excerpt(&cells, 0, 10), &cells[..]);
    assert_eq!(excerpt_place(70, 10, 0), (70, 0));
    assert_eq!(excerpt_place(70, 4, 0), (28, 0));
    assert_eq!(excerpt_place(70, 9, 2), (0, 0));
    assert_eq!(excerpt_place(70, 11, 0), (0, 0));
    assert_eq!(excerpt_place(71, 2, 3), (0, 0));
    assert_eq!(excerpt_place(70, usize::MAX, 1), (0, 0));
    assert_eq!(excerpt_place(70, 1, usize::MAX), (0, 0));
    assert_eq!(excerpt_place(70, usize::MAX, usize::MAX), (0, 0));
    assert_eq!(excerpt_place(0, 0, 0), (0, 0));
    // The caller's own cells, no copy.
    assert!(std::ptr::eq(excerpt(&cells, 2, 3), &cells[14..35]));
    assert!(std::ptr::eq(excerpt(&cells, 20, 3), &cells[..0]));
}

#[test]
fn strongest_window() {
    let mut prng = Prng(34);
    for _ in 0..500 {
        let frames = prng.within(8, 60) as usize;
        let cells = random_cells(&mut prng, frames);
        for channel in 0..6 {
            let answer = strongest(&cells, channel);
            let sum_at = |f: usize| -> u32 {
                (f..f + 8).map(|n| (i32::from(cells[7 * n + channel]) - 512).pow(2) as u32).sum()
            };
            assert_eq!(answer.number, 0);
            assert_eq!(answer.sum, sum_at(answer.frame));
            assert!((0..=frames - 8).all(|f| sum_at(f) <= answer.sum));
            assert!((0..answer.frame).all(|f| sum_at(f) < answer.sum));
        }
    }
    // A tie goes to the first.
    let mut cells = [512u16, 512, 512, 512, 512, 512, 0].repeat(40);
    cells[7 * 12 + 4] = 0;
    cells[7 * 30 + 4] = 0;
    assert_eq!(strongest(&cells, 4), Strongest { number: 0, sum: 512 * 512, frame: 5 });
}
