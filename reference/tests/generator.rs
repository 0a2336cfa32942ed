//! Paper 12: "Start from 55 numbers of 32 bits that the user gives; each next number is
//! the sum modulo 2^32 of the numbers 24 and 55 places back. The top ten bits of six
//! successive made numbers, the given 55 not among them, are the codes of a frame,
//! enable byte 7F hexadecimal. Produce up to 4,096 frames. Making n frames equals the
//! first n of making more. Refused: 24 if all 55 are even, before 9 and 11, count 0 and
//! buffer old." Wrong generators are asked the same. Last, the command `generate`.

use reference::capture::{CELLS, LONGEST, MOST_FRAMES};
use reference::prng::Prng;
use reference::*;
use std::collections::HashMap;
use std::fs::{File, OpenOptions};
use std::io::Write;
use std::os::fd::OwnedFd;
use std::os::unix::net::UnixStream;
use std::process::{Command, Output, Stdio};

type Given = [u32; 55];
type Maker<'a> = &'a dyn Fn(Given, usize, &mut [u16]) -> Outcome;

/// Nothing, or the first thing that is not as it should be.
type Asked = Result<(), String>;

const OLD: u16 = 0xBEEF;

/// The numbers of the figures that were worked out by hand: k · 2^26 + 1, k = 1 to 55.
fn figure_numbers() -> Given {
    std::array::from_fn(|i| (i as u32 + 1) * (1 << 26) + 1)
}

const EXTREMES: [u32; 8] = [0, 1, 2, 1 << 31, (1 << 31) - 1, (1 << 31) + 1, u32::MAX - 1, u32::MAX];

/// Numbers that are accepted, each with an odd one in the last place.
fn many_given() -> Vec<Given> {
    let mut prng = Prng(121);
    let mut all = vec![figure_numbers(), [1; 55], [u32::MAX; 55], [(1 << 31) + 1; 55]];
    all.extend((0..5).map(|_| std::array::from_fn(|_| prng.next() as u32)));
    all.extend((0..5).map(|_| std::array::from_fn(|_| EXTREMES[prng.below(8) as usize])));
    all.push(std::array::from_fn(|i| i as u32));
    for given in &mut all {
        given[54] |= 1;
    }
    all
}

/// The number at a place, by the words and with no function of the crate. The made
/// ones are at places 1, 2, 3 and on; the given ones are before them, at −54 to 0.
fn number_at(given: &Given, known: &mut HashMap<i64, u64>, place: i64) -> u64 {
    if place <= 0 {
        return given[(place + 54) as usize].into();
    }
    if let Some(&number) = known.get(&place) {
        return number;
    }
    let sum = number_at(given, known, place - 24) + number_at(given, known, place - 55);
    known.insert(place, sum % 4_294_967_296);
    sum % 4_294_967_296
}

/// The cells of so many frames, by the words.
fn expected(given: &Given, frames: usize) -> Vec<u16> {
    let mut known = HashMap::new();
    let mut cells = Vec::new();
    for frame in 0..frames as i64 {
        for channel in 0..6 {
            let number = number_at(given, &mut known, 6 * frame + channel + 1);
            cells.push((number / 4_194_304) as u16);
        }
        cells.push(127);
    }
    cells
}

/// Making so many frames in so many old cells is answered with this number. Accepted,
/// each cell of the answer is new, whatever it holds, and each other one old.
fn answered(
    maker: Maker,
    given: &Given,
    frames: usize,
    room: usize,
    number: u8,
    why: &str,
) -> Result<Vec<u16>, String> {
    let mut cells = vec![OLD; room];
    let answer = maker(*given, frames, &mut cells);
    let count = if number == 0 { frames } else { 0 };
    if answer != (Outcome { number, count }) {
        return Err(format!("{why}: {frames} frames in {room} cells: {answer:?}, not {number} and {count}"));
    }
    if cells[..7 * count].contains(&OLD) || cells[7 * count..].iter().any(|&cell| cell != OLD) {
        return Err(format!("{why}: {frames} frames in {room} cells: other cells are written"));
    }
    cells.truncate(7 * count);
    Ok(cells)
}

fn accepted(maker: Maker, given: &Given, frames: usize, room: usize, why: &str) -> Asked {
    answered(maker, given, frames, room, 0, why).map(|_| ())
}

fn refused(maker: Maker, given: &Given, frames: usize, room: usize, number: u8, why: &str) -> Asked {
    answered(maker, given, frames, room, number, why).map(|_| ())
}

/// Accepted, with just enough room, and these are the cells.
fn made(maker: Maker, given: &Given, wanted: &[u16], why: &str) -> Asked {
    let frames = wanted.len() / 7;
    if answered(maker, given, frames, wanted.len(), 0, why)? != wanted {
        return Err(format!("{why}: {frames} frames: other cells"));
    }
    Ok(())
}

/// The first three frames of the numbers above; in the third the sum wraps.
fn figures(maker: Maker) -> Asked {
    #[rustfmt::skip]
    let wanted = [
        528, 560, 592, 624, 656, 688, 127,
        720, 752, 784, 816, 848, 880, 127,
        912, 944, 976, 1008, 16, 48, 127,
    ];
    for frames in 1..=3 {
        made(maker, &figure_numbers(), &wanted[..7 * frames], "figures")?;
    }
    Ok(())
}

/// The words' own sequence: up to a frame in which all 55 numbers are made ones, and on.
fn sequence(maker: Maker) -> Asked {
    for (i, given) in many_given().iter().enumerate() {
        for frames in [1, 2, 4, 5, 9, 10, 40] {
            made(maker, given, &expected(given, frames), &format!("numbers {i}"))?;
        }
    }
    Ok(())
}

/// The longest, and some before it.
fn long_sequence(maker: Maker) -> Asked {
    for (i, given) in many_given().iter().enumerate().step_by(4) {
        for frames in [255, 256, 257, 1000 + i, 4095, 4096] {
            made(maker, given, &expected(given, frames), &format!("long, numbers {i}"))?;
        }
    }
    Ok(())
}

/// "Making n frames equals the first n of making more." Nothing is said of what the
/// frames are.
fn first_of_more(maker: Maker) -> Asked {
    let cells_of = |given: &Given, frames: usize| {
        let mut cells = vec![OLD; 7 * frames];
        maker(*given, frames, &mut cells);
        cells
    };
    for given in many_given() {
        let all: Vec<Vec<u16>> = (0..60).map(|frames| cells_of(&given, frames)).collect();
        for n in 0..60 {
            for m in n..60 {
                if all[n] != all[m][..7 * n] {
                    return Err(format!("{n} frames are not the first of {m}"));
                }
            }
        }
    }
    let most = cells_of(&figure_numbers(), MOST_FRAMES);
    for n in [0, 1, 100, 255, 256, 257, 1000, 2048, 4095] {
        if cells_of(&figure_numbers(), n) != most[..7 * n] {
            return Err(format!("{n} frames are not the first of 4,096"));
        }
    }
    Ok(())
}

/// Each set of faults is refused by the first of 24, 9 and 11, whatever else is wrong.
fn order_of_checks(maker: Maker) -> Asked {
    for faults in 1..8 {
        let (even, many, short) = (faults & 1 != 0, faults & 2 != 0, faults & 4 != 0);
        let given = if even { [2; 55] } else { figure_numbers() };
        let number = if even {
            24
        } else if many {
            9
        } else {
            11
        };
        for frames in if many { [4097, 4098, 5000] } else { [1, 20, 4096] } {
            for room in
                if short { [0, 7 * frames - 7, 7 * frames - 1] } else { [7 * frames, 7 * frames + 1, 7 * frames + 8] }
            {
                refused(maker, &given, frames, room, number, &format!("even {even}, many {many}, short {short}"))?;
            }
        }
    }
    Ok(())
}

/// One odd number, wherever it is and whatever the others are, is enough.
fn one_odd(maker: Maker) -> Asked {
    for even in [0, 2, 1 << 31, u32::MAX - 1] {
        for place in 0..55 {
            for odd in [1, u32::MAX, (1 << 31) + 1] {
                let mut given = [even; 55];
                given[place] = odd;
                accepted(maker, &given, 12, 84, &format!("{odd} in place {place} among {even}"))?;
            }
        }
    }
    Ok(())
}

/// One even number among odd ones is no fault.
fn one_even(maker: Maker) -> Asked {
    for place in 0..55 {
        let mut given = [3; 55];
        given[place] = 4;
        accepted(maker, &given, 2, 14, &format!("4 in place {place} among 3"))?;
    }
    Ok(())
}

/// All even: refused by 24, also where no frames are asked for.
fn all_even(maker: Maker) -> Asked {
    let mut prng = Prng(122);
    let mut all = vec![[0; 55], [2; 55], [1 << 31; 55], [u32::MAX - 1; 55]];
    all.extend((0..20).map(|_| std::array::from_fn(|_| prng.next() as u32 & !1)));
    for given in &all {
        for (frames, room) in [(1, 7), (3, 30), (4096, 28_672)] {
            refused(maker, given, frames, room, 24, "all even")?;
        }
    }
    Ok(())
}

fn no_frames_all_even(maker: Maker) -> Asked {
    for room in [0, 1, 7, 100] {
        refused(maker, &[2; 55], 0, room, 24, "no frames, all even")?;
    }
    Ok(())
}

/// No frames fit in any cells, also in none, and none is altered.
fn no_frames(maker: Maker) -> Asked {
    for room in [0, 1, 6, 7, 8, 100] {
        accepted(maker, &figure_numbers(), 0, room, "no frames")?;
    }
    Ok(())
}

fn limits(maker: Maker) -> Asked {
    accepted(maker, &figure_numbers(), 4096, 7 * 4096, "limit")?;
    accepted(maker, &figure_numbers(), 4095, 7 * 4097, "limit")?;
    refused(maker, &figure_numbers(), 4097, 7 * 4097, 9, "limit")?;
    // Seven times some of these is small or nothing, modulo a power of two.
    let high = [65_535, 65_536, 65_537, 1 << 32, usize::MAX / 7, usize::MAX / 7 + 1, usize::MAX - 1, usize::MAX];
    for frames in [4097, 4098, 4681, 8191, 8192, 9363].into_iter().chain(high).chain([1 << 60, 1 << 61, 1 << 63]) {
        for room in [0, 7, 700, 30_000] {
            refused(maker, &figure_numbers(), frames, room, 9, "limit")?;
        }
    }
    Ok(())
}

/// Room for so many cells is asked for, and no multiple of seven.
fn rooms(maker: Maker) -> Asked {
    for frames in [1, 2, 3, 8, 16, 17, 100, 256, 4095, 4096] {
        for more in [0, 1, 6, 7, 8, 50] {
            accepted(maker, &figure_numbers(), frames, 7 * frames + more, "room")?;
        }
        for less in [1, 2, 6, 7] {
            refused(maker, &figure_numbers(), frames, 7 * frames - less, 11, "room")?;
        }
        refused(maker, &figure_numbers(), frames, 0, 11, "room")?;
    }
    Ok(())
}

/// Single bits: code c of the first frame is from numbers c + 1 and c + 32 of the given
/// and from no other, and from their top ten bits and what is carried into these.
fn bits(maker: Maker) -> Asked {
    // Number 21 of the given is not in the first frame. It is odd, so that 24 is none.
    let with = |numbers: &[(usize, u32)]| {
        let mut given = [0; 55];
        given[20] = 1;
        for &(i, number) in numbers {
            given[i] = number;
        }
        given
    };
    let first = |given: &Given, codes: [u16; 6], why: &str| {
        let [a, b, c, d, e, f] = codes;
        made(maker, given, &[a, b, c, d, e, f, 127], why)
    };
    for i in (0..55).filter(|&i| i != 20) {
        for bit in 0..32 {
            let channel = if i < 31 { i } else { i - 31 };
            let mut codes = [0; 6];
            if channel < 6 && bit >= 22 {
                codes[channel] = 1 << (bit - 22);
            }
            first(&with(&[(i, 1 << bit)]), codes, &format!("bit {bit} of given number {i}"))?;
        }
    }
    for c in 0..6 {
        let sums = [
            ((1 << 22) - 1, 1, 1),
            ((1 << 22) - 1, 0, 0),
            (u32::MAX, 1, 0),
            (u32::MAX, 0, 1023),
            (u32::MAX, u32::MAX, 1023),
            (1 << 31, 1 << 31, 0),
            (1 << 31, (1 << 31) - 1, 1023),
            ((1 << 31) - 1, (1 << 31) - 1, 1023),
            (1 << 30, 1 << 30, 512),
        ];
        for (one, other, code) in sums {
            let mut codes = [0; 6];
            codes[c] = code;
            first(&with(&[(c, one), (c + 31, other)]), codes, &format!("{one} and {other}, code {c}"))?;
        }
    }
    Ok(())
}

/// What is made is a capture's cells: writing takes it, and reading gives it again. The
/// enable byte is 7F in each frame.
fn captures(maker: Maker) -> Asked {
    for given in many_given() {
        for frames in [0, 1, 2, 100, 4096] {
            let mut cells = vec![OLD; 7 * frames];
            maker(given, frames, &mut cells);
            let mut bytes = vec![0; LONGEST];
            let written = write(&cells, &mut bytes);
            if written.number != 0 {
                return Err(format!("{frames} frames: not written: {written:?}"));
            }
            let mut again = vec![OLD; 7 * frames];
            let read = read(&bytes[..written.count], &mut again);
            if read != (Outcome { number: 0, count: frames }) || again != cells {
                return Err(format!("{frames} frames: not read: {read:?}"));
            }
            if cells.chunks(7).any(|frame| frame[6] != 0x7F) {
                return Err(format!("{frames} frames: an enable byte"));
            }
        }
    }
    Ok(())
}

type Check = (&'static str, fn(Maker) -> Asked);

const CHECKS: [Check; 14] = [
    ("figures", figures),
    ("sequence", sequence),
    ("long sequence", long_sequence),
    ("first of more", first_of_more),
    ("order", order_of_checks),
    ("one odd", one_odd),
    ("one even", one_even),
    ("all even", all_even),
    ("no frames, all even", no_frames_all_even),
    ("no frames", no_frames),
    ("limits", limits),
    ("rooms", rooms),
    ("bits", bits),
    ("captures", captures),
];

#[test]
fn each_check_of_ours() {
    for (name, check) in CHECKS {
        assert_eq!(check(&generate), Ok(()), "{name}");
    }
    assert_eq!((GIVEN, refusal::EVEN, CELLS), (55, 24, 7));
}

/// All there is to a generator. A wrong one has one of these otherwise.
#[derive(Clone, Copy)]
struct Rules {
    lags: [usize; 2],
    newest_first: bool,
    sum: fn(u32, u32) -> u32,
    code: fn(u32) -> u16,
    /// Where the first code is, if the first made number is at 55.
    first: usize,
    numbers_a_frame: usize,
    /// Every so many frames it starts again with the given numbers.
    anew: usize,
    codes_reversed: bool,
    frames_reversed: bool,
    enable: u16,
    checks: [u8; 3],
    is_even: fn(&Given) -> bool,
    most: usize,
    /// The cells that so many frames are thought to want.
    wanted: fn(usize) -> usize,
    /// No frames are accepted before any check.
    none_at_once: bool,
    count: fn(usize) -> usize,
    refused_count: fn(usize) -> usize,
    clears_refused: bool,
    clears_rest: bool,
}

const RIGHT: Rules = Rules {
    lags: [24, 55],
    newest_first: false,
    sum: |a, b| a.wrapping_add(b),
    code: |number| (number >> 22) as u16,
    first: 55,
    numbers_a_frame: 6,
    anew: usize::MAX,
    codes_reversed: false,
    frames_reversed: false,
    enable: 0x7F,
    checks: [24, 9, 11],
    is_even: |given| given.iter().all(|number| number & 1 == 0),
    most: 4096,
    wanted: |frames| frames.saturating_mul(7),
    none_at_once: false,
    count: |frames| frames,
    refused_count: |_| 0,
    clears_refused: false,
    clears_rest: false,
};

fn make(rules: &Rules, given: Given, frames: usize, cells: &mut [u16]) -> Outcome {
    let fails = |number: &&u8| match number {
        24 => (rules.is_even)(&given),
        9 => frames > rules.most,
        _ => (rules.wanted)(frames) > cells.len(),
    };
    let refused = rules.checks.iter().find(fails).filter(|_| frames > 0 || !rules.none_at_once);
    if let Some(&number) = refused {
        if rules.clears_refused {
            cells.fill(0);
        }
        return Outcome { number, count: (rules.refused_count)(frames) };
    }
    // A number before the first is 0.
    let mut numbers = vec![0; 2];
    numbers.extend(given);
    if rules.newest_first {
        numbers[2..].reverse();
    }
    for place in 57..57 + 7 * frames.min(rules.anew) + 1 {
        numbers.push((rules.sum)(numbers[place - rules.lags[0]], numbers[place - rules.lags[1]]));
    }
    for (n, cells) in cells.chunks_mut(7).take(frames).enumerate() {
        let n = if rules.frames_reversed { frames - 1 - n } else { n } % rules.anew;
        let start = 2 + rules.first + rules.numbers_a_frame * n;
        for (cell, &number) in cells.iter_mut().zip(&numbers[start..start + 6]) {
            *cell = (rules.code)(number);
        }
        if let Some(codes) = cells.get_mut(..6).filter(|_| rules.codes_reversed) {
            codes.reverse();
        }
        if let Some(enable) = cells.get_mut(6) {
            *enable = rules.enable;
        }
    }
    if rules.clears_rest {
        cells.iter_mut().skip(7 * frames).for_each(|cell| *cell = 0);
    }
    Outcome { number: 0, count: (rules.count)(frames) }
}

/// With which words a wrong generator is wrong, and the checks that tell it.
type Wrong = (&'static str, Rules, &'static [&'static str]);

/// What tells wrong codes of any frame, wrong codes but for the first frame, and cells
/// that are not 0 to 1023 and 7F.
const CODES: &[&str] = &["figures", "sequence", "long sequence", "bits"];
const LATER_CODES: &[&str] = &["figures", "sequence", "long sequence"];
const CELLS_OF_CAPTURE: &[&str] = &["figures", "sequence", "long sequence", "bits", "captures"];

const WRONG: [Wrong; 58] = [
    ("23 places back for 24", Rules { lags: [23, 55], ..RIGHT }, CODES),
    ("25 places back for 24", Rules { lags: [25, 55], ..RIGHT }, CODES),
    ("31 places back for 24", Rules { lags: [31, 55], ..RIGHT }, CODES),
    ("54 places back for 55", Rules { lags: [24, 54], ..RIGHT }, CODES),
    ("56 places back for 55", Rules { lags: [24, 56], ..RIGHT }, CODES),
    ("the newest given first", Rules { newest_first: true, ..RIGHT }, CODES),
    ("the sum modulo 2^31", Rules { sum: |a, b| a.wrapping_add(b) & 0x7FFF_FFFF, ..RIGHT }, CODES),
    ("the sum at most 2^32 - 1", Rules { sum: |a, b| a.saturating_add(b), ..RIGHT }, CODES),
    ("exclusive or for the sum", Rules { sum: |a, b| a ^ b, ..RIGHT }, CODES),
    ("the difference for the sum", Rules { sum: |a, b| a.wrapping_sub(b), ..RIGHT }, CODES),
    (
        "the sum of the top ten bits alone",
        Rules { sum: |a, b| (a & !0 << 22).wrapping_add(b & !0 << 22), ..RIGHT },
        &["sequence", "long sequence", "bits"],
    ),
    (
        "the carry into the top half lost",
        Rules {
            sum: |a, b| (a & !0xFFFF).wrapping_add(b & !0xFFFF) | (a as u16).wrapping_add(b as u16) as u32,
            ..RIGHT
        },
        &["sequence", "long sequence", "bits"],
    ),
    (
        "the carry at the end added",
        Rules { sum: |a, b| a.wrapping_add(b).wrapping_add(u32::from(a.checked_add(b).is_none())), ..RIGHT },
        &["sequence", "long sequence"],
    ),
    ("the low ten bits", Rules { code: |number| (number & 1023) as u16, ..RIGHT }, CODES),
    ("bits 21 to 30", Rules { code: |number| (number >> 21 & 1023) as u16, ..RIGHT }, CODES),
    ("the top eleven bits", Rules { code: |number| (number >> 21) as u16, ..RIGHT }, CELLS_OF_CAPTURE),
    ("the top nine bits", Rules { code: |number| (number >> 23) as u16, ..RIGHT }, CODES),
    (
        "the top ten bits rounded",
        Rules { code: |number| (number.saturating_add(1 << 21) >> 22) as u16, ..RIGHT },
        &["sequence", "long sequence", "bits"],
    ),
    ("bits 6 to 15", Rules { code: |number| (number as u16) >> 6, ..RIGHT }, CODES),
    ("the given numbers as the first codes", Rules { first: 0, ..RIGHT }, CODES),
    ("the last given number as the first code", Rules { first: 54, ..RIGHT }, CODES),
    ("the first made number left out", Rules { first: 56, ..RIGHT }, CODES),
    ("five numbers a frame", Rules { numbers_a_frame: 5, ..RIGHT }, LATER_CODES),
    ("seven numbers a frame", Rules { numbers_a_frame: 7, ..RIGHT }, LATER_CODES),
    ("started anew each frame", Rules { anew: 1, ..RIGHT }, LATER_CODES),
    ("started anew after 55 numbers", Rules { anew: 9, ..RIGHT }, &["sequence", "long sequence"]),
    ("started anew after 256 frames", Rules { anew: 256, ..RIGHT }, &["long sequence"]),
    ("the codes of a frame reversed", Rules { codes_reversed: true, ..RIGHT }, CODES),
    (
        "the frames reversed",
        Rules { frames_reversed: true, ..RIGHT },
        &["figures", "sequence", "long sequence", "first of more"],
    ),
    ("enable byte FF", Rules { enable: 0xFF, ..RIGHT }, CELLS_OF_CAPTURE),
    ("enable byte 3F", Rules { enable: 0x3F, ..RIGHT }, CELLS_OF_CAPTURE),
    ("enable byte 7E", Rules { enable: 0x7E, ..RIGHT }, CELLS_OF_CAPTURE),
    ("24 after 9", Rules { checks: [9, 24, 11], ..RIGHT }, &["order"]),
    ("24 after 9 and 11", Rules { checks: [9, 11, 24], ..RIGHT }, &["order"]),
    ("24 after 11 and 9", Rules { checks: [11, 9, 24], ..RIGHT }, &["order", "limits"]),
    ("24 between 11 and 9", Rules { checks: [11, 24, 9], ..RIGHT }, &["order", "limits"]),
    ("9 after 11", Rules { checks: [24, 11, 9], ..RIGHT }, &["order", "limits"]),
    ("24 never", Rules { is_even: |_| false, ..RIGHT }, &["order", "all even", "no frames, all even"]),
    (
        "24 by the first number alone",
        Rules { is_even: |given| given[0] & 1 == 0, ..RIGHT },
        &["sequence", "long sequence", "one odd", "one even", "bits", "captures"],
    ),
    (
        "24 by the last number alone",
        Rules { is_even: |given| given[54] & 1 == 0, ..RIGHT },
        &["one odd", "one even", "bits"],
    ),
    (
        "24 by all but the first",
        Rules { is_even: |given| given[1..].iter().all(|number| number & 1 == 0), ..RIGHT },
        &["one odd"],
    ),
    (
        "24 by all but the last",
        Rules { is_even: |given| given[..54].iter().all(|number| number & 1 == 0), ..RIGHT },
        &["one odd"],
    ),
    (
        "24 by one even number",
        Rules { is_even: |given| given.iter().any(|number| number & 1 == 0), ..RIGHT },
        &["sequence", "long sequence", "one odd", "one even", "bits", "captures"],
    ),
    (
        "24 by an even sum",
        Rules { is_even: |given| given.iter().fold(0, |sum: u32, number| sum.wrapping_add(*number)) & 1 == 0, ..RIGHT },
        &["sequence", "one even", "bits", "captures"],
    ),
    (
        "24 for zeros alone",
        Rules { is_even: |given| given.iter().all(|&number| number == 0), ..RIGHT },
        &["order", "all even", "no frames, all even"],
    ),
    (
        "at most 4,095 frames",
        Rules { most: 4095, ..RIGHT },
        &["long sequence", "first of more", "order", "limits", "rooms", "captures"],
    ),
    ("at most 4,097 frames", Rules { most: 4097, ..RIGHT }, &["order", "limits"]),
    ("no limit of frames", Rules { most: 30_000, ..RIGHT }, &["order", "limits"]),
    (
        "a cell more wanted",
        Rules { wanted: |frames| frames.saturating_mul(7).saturating_add(1), ..RIGHT },
        &[
            "figures",
            "sequence",
            "long sequence",
            "one odd",
            "one even",
            "no frames",
            "limits",
            "rooms",
            "bits",
            "captures",
        ],
    ),
    (
        "a cell more wanted, but for no frames",
        Rules { wanted: |frames| frames.saturating_mul(7).saturating_add(usize::from(frames > 0)), ..RIGHT },
        &["figures", "sequence", "long sequence", "one odd", "one even", "limits", "rooms", "bits", "captures"],
    ),
    (
        "a cell less wanted",
        Rules { wanted: |frames| frames.saturating_mul(7).saturating_sub(1), ..RIGHT },
        &["order", "rooms"],
    ),
    ("six cells a frame wanted", Rules { wanted: |frames| frames.saturating_mul(6), ..RIGHT }, &["order", "rooms"]),
    ("no frames accepted at once", Rules { none_at_once: true, ..RIGHT }, &["no frames, all even"]),
    (
        "cells counted",
        Rules { count: |frames| 7 * frames, ..RIGHT },
        &["figures", "sequence", "long sequence", "one odd", "one even", "limits", "rooms", "bits"],
    ),
    (
        "the count one less",
        Rules { count: |frames| frames.saturating_sub(1), ..RIGHT },
        &["figures", "sequence", "long sequence", "one odd", "one even", "limits", "rooms", "bits"],
    ),
    (
        "frames counted when refused",
        Rules { refused_count: |frames| frames, ..RIGHT },
        &["order", "all even", "limits", "rooms"],
    ),
    (
        "cells cleared when refused",
        Rules { clears_refused: true, ..RIGHT },
        &["order", "all even", "no frames, all even", "limits", "rooms"],
    ),
    ("the rest cleared", Rules { clears_rest: true, ..RIGHT }, &["no frames", "limits", "rooms"]),
];

/// Each wrong generator is told by the checks that stand beside it and by no others.
#[test]
fn wrong_generators_are_told() {
    let tell = |rules: &Rules| -> Vec<&str> {
        let maker = |given: Given, frames: usize, cells: &mut [u16]| make(rules, given, frames, cells);
        CHECKS.iter().filter(|(_, check)| check(&maker).is_err()).map(|&(name, _)| name).collect()
    };
    assert_eq!(tell(&RIGHT), [""; 0], "with nothing wrong it is told by none");
    for (name, rules, told_by) in WRONG {
        let told = tell(&rules);
        println!("{name}: {told:?}");
        assert_eq!(told, told_by, "{name}");
    }
}

fn run(input: Stdio) -> Output {
    Command::new(env!("CARGO_BIN_EXE_reference")).arg("generate").stdin(input).output().unwrap()
}

/// A connection that gives these bytes and then ends, or fails. If the other end goes
/// away with a byte unread, this end reads what it was sent and is then reset.
fn fed(bytes: &[u8], fails: bool) -> Stdio {
    let (mut this, mut other) = UnixStream::pair().unwrap();
    other.write_all(bytes).unwrap();
    if fails {
        this.write_all(&[0]).unwrap();
    }
    OwnedFd::from(this).into()
}

fn prints(output: &Output, text: &[u8]) {
    assert_eq!((output.status.code(), &output.stderr[..]), (Some(0), &[][..]));
    assert!(output.stdout == text, "{:?}", String::from_utf8_lossy(&output.stdout));
}

/// Not even a newline, and nothing on standard error.
fn prints_nothing(output: &Output) {
    assert_eq!((output.status.code(), &output.stdout[..], &output.stderr[..]), (Some(1), &[][..], &[][..]));
}

/// Oldest first, the lowest byte of each first.
fn bytes_of(given: &Given) -> Vec<u8> {
    given.iter().flat_map(|number| [0, 8, 16, 24].map(|shift| (number >> shift) as u8)).collect()
}

#[test]
fn the_command_writes_a_capture_of_4096_frames() {
    for given in many_given() {
        let output = run(fed(&bytes_of(&given), false));
        let mut cells = vec![OLD; 7 * 4096];
        assert_eq!(read(&output.stdout, &mut cells), Outcome { number: 0, count: 4096 });
        assert!(cells == expected(&given, 4096));
        // Only one capture has these frames.
        prints(&output, &generator::output(&bytes_of(&given)));
    }
    // The mark, 4,096, and the first frame of the figures: 528 is 16 more than 512.
    let output = run(fed(&bytes_of(&figure_numbers()), false));
    assert_eq!(output.stdout[..9], [0x50, 0x36, 0x4B, 0x80, 0x20, 0x7F, 32, 96, 0xA0]);
}

/// A byte of each number in turn: only the lowest makes it odd.
#[test]
fn the_command_refuses_even_numbers() {
    for place in 0..220 {
        let mut bytes = [0; 220];
        bytes[place] = 1;
        let output = run(fed(&bytes, false));
        if place % 4 == 0 {
            assert_eq!((output.status.code(), &output.stdout[..3]), (Some(0), &b"P6K"[..]), "byte {place}");
        } else {
            prints(&output, b"refused 24\n");
        }
    }
    prints(&run(fed(&[0; 220], false)), b"refused 24\n");
    prints(&run(fed(&[254; 220], false)), b"refused 24\n");
}

/// Whatever they hold, other than 220 bytes are told by one line.
#[test]
fn the_command_wants_220_bytes() {
    for size in [0, 1, 54, 55, 216, 219, 221, 224, 440, 1000, LONGEST + 2000] {
        for byte in [0, 1] {
            prints(&run(fed(&vec![byte; size], false)), b"220 bytes are wanted\n");
        }
    }
    prints(&run(Stdio::null()), b"220 bytes are wanted\n");
}

/// Nothing is printed if a read fails, also after 220 bytes. After one byte more none is
/// made.
#[test]
fn the_command_prints_nothing_if_a_read_fails() {
    prints_nothing(&run(File::open(env!("CARGO_MANIFEST_DIR")).unwrap().into()));
    prints_nothing(&run(OpenOptions::new().write(true).open("/dev/null").unwrap().into()));
    for size in [0, 1, 219, 220] {
        prints_nothing(&run(fed(&vec![1; size], true)));
    }
    for size in [221, 300] {
        prints(&run(fed(&vec![1; size], true)), b"220 bytes are wanted\n");
    }
}
