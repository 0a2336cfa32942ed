//! Paper 4: the strongest window "is to carry its sum along, adding the entering
//! square and taking off the leaving one. State as a law: from the sum of one window
//! this step gives the sum of the window one frame later. Its promise is untouched; a
//! test compares it with plain summing at 4,096 frames and reports both times." The
//! refusals are asked of both, and wrong rolling sums are told from plain summing.

use reference::capture::{CELLS, MOST_FRAMES, WINDOW};
use reference::prng::Prng;
use reference::*;
use std::hint::black_box;
use std::time::Instant;

type Finder = fn(&[u16], usize) -> Strongest;

const BOTH: [(&str, Finder); 2] = [("plain", strongest), ("rolling", strongest_rolling)];

/// Around multiples of eight, and the longest.
const LENGTHS: [usize; 7] = [8, 9, 10, 15, 16, 17, MOST_FRAMES];

/// The sum of squared samples by the words of document 01, with no function of the
/// crate.
fn sum_of(codes: impl IntoIterator<Item = u16>) -> u32 {
    codes.into_iter().map(|code| (i64::from(code) - 512).pow(2) as u32).sum()
}

/// The sum of the window that starts with `frame`.
fn sum_at(cells: &[u16], channel: usize, frame: usize) -> u32 {
    sum_of((frame..frame + 8).map(|n| cells[7 * n + channel]))
}

/// "The largest sum of eight squared samples of successive frames, and the first
/// frame where it occurs."
fn expected(cells: &[u16], channel: usize) -> Strongest {
    let sums: Vec<u32> = (0..=cells.len() / 7 - 8).map(|frame| sum_at(cells, channel, frame)).collect();
    let sum = *sums.iter().max().unwrap();
    let frame = sums.iter().position(|&other| other == sum).unwrap();
    Strongest { number: 0, sum, frame }
}

/// Cells with codes by frame and channel. The enable bytes go through their range.
fn cells_of(frames: usize, mut code: impl FnMut(usize, usize) -> u16) -> Vec<u16> {
    (0..CELLS * frames)
        .map(|at| match at % CELLS {
            6 => (at / CELLS % 128) as u16,
            channel => code(at / CELLS, channel),
        })
        .collect()
}

struct Capture {
    name: String,
    cells: Vec<u16>,
}

/// Far from 512, and another code in each channel, so that channels mixed up show.
const LOUD: [u16; 6] = [0, 1023, 1, 1022, 256, 700];

/// The frames at which a single spike is tried: the first and the last, and those at
/// the edges of the first and the last window. At 4,096 frames: 0, 7, 8, 4087, 4088
/// and 4095.
fn spikes(frames: usize) -> Vec<usize> {
    let mut places = vec![0, 7, 8, frames.saturating_sub(9), frames - 8, frames - 1];
    places.retain(|&place| place < frames);
    places.sort();
    places.dedup();
    places
}

/// Captures of so many frames. All but the noises can be judged by eye.
fn captures(frames: usize) -> Vec<Capture> {
    let mut prng = Prng(41);
    let mut all = Vec::new();
    let mut add = |name: &str, cells| all.push(Capture { name: name.to_string(), cells });
    let last = frames - 1;
    let ramp = |n: usize| (n * 1023 / last) as u16;
    add("quiet", cells_of(frames, |_, _| 512));
    add("loudest", cells_of(frames, |_, _| 0));
    add("loudest above 512", cells_of(frames, |_, _| 1023));
    add("ramps from 0 to 1023", cells_of(frames, |n, _| ramp(n)));
    add("ramps from 1023 to 0", cells_of(frames, |n, _| 1023 - ramp(n)));
    add("louder and louder", cells_of(frames, |n, c| if c % 2 == 0 { 511 - ramp(n) / 2 } else { 512 + ramp(n) / 2 }));
    add("softer and softer", cells_of(frames, |n, c| if c % 2 == 0 { ramp(n) / 2 } else { 1023 - ramp(n) / 2 }));
    add("0 and 1023 in turn", cells_of(frames, |n, c| [0, 1023][(n + c) % 2]));
    add("noise", cells_of(frames, |_, _| prng.code()));
    add("soft noise", cells_of(frames, |_, _| prng.within(509, 514) as u16));
    add("noise of 0 and 1023", cells_of(frames, |_, _| [0, 1023][prng.below(2) as usize]));
    for place in spikes(frames) {
        let spike = cells_of(frames, |n, c| if n == place { LOUD[c] } else { 512 });
        add(&format!("spike at {place}"), spike);
    }
    add("tie of first and last frame", cells_of(frames, |n, c| if n == 0 || n == last { LOUD[c] } else { 512 }));
    add("tie of first and last window", cells_of(frames, |n, c| if n < 8 || n + 8 > last { LOUD[c] } else { 512 }));
    if frames == MOST_FRAMES {
        add("ties far apart", cells_of(frames, |n, c| if n % 1000 == 100 + c { LOUD[c] } else { 512 }));
    }
    all
}

fn capture(frames: usize, name: &str) -> Vec<u16> {
    let all = captures(frames);
    all.into_iter().find(|capture| capture.name == name).unwrap_or_else(|| panic!("{name}")).cells
}

/// Every leaving and every entering code, with seven at random that stay: the sum of
/// the first eight gives that of the last eight, and the way back gives it again.
#[test]
fn the_law_for_all_pairs_of_codes() {
    let mut prng = Prng(42);
    for leaving in 0..1024 {
        for entering in 0..1024 {
            let stay: [u16; 7] = std::array::from_fn(|_| prng.code());
            let stays = sum_of(stay);
            let sum = stays + sum_of([leaving]);
            let next = stays + sum_of([entering]);
            assert_eq!(next_sum(sum, entering, leaving), next, "{leaving}, {stay:?}, {entering}");
            assert_eq!(next_sum(next, leaving, entering), sum, "{entering}, {stay:?}, {leaving}");
        }
    }
}

/// Nine frames of which each has one of the extreme codes, in all 262,144 ways. The
/// least sum is 0, the greatest 8 times 512².
#[test]
fn the_law_for_extreme_codes() {
    let extreme = [0, 512, 513, 1023];
    let (mut least, mut greatest) = (u32::MAX, 0);
    for way in 0..4usize.pow(9) {
        let codes: [u16; 9] = std::array::from_fn(|n| extreme[(way >> (2 * n)) & 3]);
        let next = next_sum(sum_of(codes[..8].iter().copied()), codes[8], codes[0]);
        assert_eq!(next, sum_of(codes[1..].iter().copied()), "{codes:?}");
        (least, greatest) = (least.min(next), greatest.max(next));
    }
    assert_eq!((least, greatest), (0, 8 * 512 * 512));
}

/// Each step of each capture, from the first window to the last.
#[test]
fn the_law_along_captures() {
    let mut steps = 0;
    for frames in LENGTHS {
        for Capture { name, cells } in captures(frames) {
            for channel in 0..6 {
                let mut carried = sum_at(&cells, channel, 0);
                for frame in 0..frames - 8 {
                    let (entering, leaving) = (cells[7 * (frame + 8) + channel], cells[7 * frame + channel]);
                    carried = next_sum(carried, entering, leaving);
                    let sum = sum_at(&cells, channel, frame + 1);
                    assert_eq!(carried, sum, "{frames} frames, {name}, channel {channel}, after frame {frame}");
                    steps += 1;
                }
            }
        }
    }
    println!("{steps} steps");
    assert!(steps > 400_000);
}

/// The first and the last step of captures of every number of frames, and the
/// strongest window of each by both ways, in one channel after the other.
#[test]
fn captures_of_9_to_4096_frames() {
    let long = [capture(MOST_FRAMES, "noise"), capture(MOST_FRAMES, "noise of 0 and 1023")];
    for frames in 9..=MOST_FRAMES {
        // Cut at either end, so that first and last windows differ each time.
        let cells = excerpt(&long[frames % 2], if frames % 4 < 2 { 0 } else { MOST_FRAMES - frames }, frames);
        for channel in 0..6 {
            for frame in [0, frames - 9] {
                let (entering, leaving) = (cells[7 * (frame + 8) + channel], cells[7 * frame + channel]);
                let next = next_sum(sum_at(cells, channel, frame), entering, leaving);
                assert_eq!(next, sum_at(cells, channel, frame + 1), "{frames} frames, frame {frame}");
            }
        }
        let channel = frames / 4 % 6;
        assert_eq!(strongest_rolling(cells, channel), strongest(cells, channel), "{frames} frames");
    }
}

#[test]
fn rolling_equals_plain() {
    for frames in LENGTHS {
        for Capture { name, cells } in captures(frames) {
            for channel in 0..6 {
                let answer = expected(&cells, channel);
                for (way, finder) in BOTH {
                    assert_eq!(finder(&cells, channel), answer, "{way}, {frames} frames, {name}, channel {channel}");
                }
            }
        }
    }
}

/// Answers that need no summing: a single spike is first met by the window that ends
/// with it, or by the first window; of equal windows the first is answered.
#[test]
fn answers_by_eye() {
    let asked = |frames: usize, name: &str, channel: usize, sum: u32, frame: usize| {
        for (way, finder) in BOTH {
            let answer = finder(&capture(frames, name), channel);
            assert_eq!(answer, Strongest { number: 0, sum, frame }, "{way}, {frames} frames, {name}, {channel}");
        }
    };
    assert_eq!(spikes(MOST_FRAMES), [0, 7, 8, 4087, 4088, 4095]);
    for frames in LENGTHS {
        for place in spikes(frames) {
            for (channel, loud) in LOUD.into_iter().enumerate() {
                asked(frames, &format!("spike at {place}"), channel, sum_of([loud]), place.saturating_sub(7));
            }
        }
        asked(frames, "quiet", 5, 0, 0);
        asked(frames, "loudest", 0, 2_097_152, 0);
        asked(frames, "loudest above 512", 3, 8 * 511 * 511, 0);
        // Four of either: the same sum everywhere.
        asked(frames, "0 and 1023 in turn", 1, 4 * (512 * 512 + 511 * 511), 0);
    }
    asked(4096, "spike at 4095", 0, 512 * 512, 4088);
    asked(4096, "tie of first and last frame", 1, 511 * 511, 0);
    asked(4096, "tie of first and last window", 4, 8 * 256 * 256, 0);
    asked(4096, "ties far apart", 5, 188 * 188, 98);
}

/// Both ways answer `number`; refused, with sum and frame 0.
fn asked(cells: &[u16], channel: usize, number: u8, why: &str) {
    for (way, finder) in BOTH {
        let answer = finder(cells, channel);
        assert_eq!(answer.number, number, "{way}: {why}");
        assert!(number == 0 || answer == Strongest { number, sum: 0, frame: 0 }, "{way}: {why}");
    }
}

/// What each of the checks may find, done to sound cells. `Nothing` is to see that
/// the rest is sound.
#[derive(Clone, Copy, Debug, PartialEq)]
enum Fault {
    Nothing,
    Shape,
    Channel,
    Count,
    Code,
    Enable,
    TooFew,
}

use Fault::*;

const FAULTS: [Fault; 6] = [Shape, Channel, Count, Code, Enable, TooFew];

fn number_of(fault: Fault) -> u8 {
    match fault {
        Nothing => 0,
        Shape | Channel => 12,
        Count | Code | Enable => 9,
        TooFew => 13,
    }
}

/// Loud cells and a channel with these faults. Too few and too many frames do not go
/// together.
fn with_faults(faults: [Fault; 2]) -> (Vec<u16>, usize) {
    let has = |fault| faults.contains(&fault);
    let frames = if has(TooFew) {
        7
    } else if has(Count) {
        MOST_FRAMES + 1
    } else {
        20
    };
    let mut cells = cells_of(frames, |_, c| LOUD[c]);
    if has(Code) {
        cells[7 * 5 + 2] = 1024;
    }
    if has(Enable) {
        cells[7 * 6 + 6] = 128;
    }
    if has(Shape) {
        cells.push(512);
    }
    (cells, if has(Channel) { 6 } else { 2 })
}

/// Of two faults the one that is checked first is answered: 12, then 9, then 13.
#[test]
fn each_order_of_two_checks() {
    let mut pairs = 0;
    for first in FAULTS {
        for second in FAULTS.into_iter().chain([Nothing]) {
            if (first, second) == (Count, TooFew) || (first, second) == (TooFew, Count) {
                continue;
            }
            let (cells, channel) = with_faults([first, second]);
            let numbers = [number_of(first), number_of(second)];
            let number = [12, 9, 13].into_iter().find(|number| numbers.contains(number)).unwrap();
            asked(&cells, channel, number, &format!("{first:?} and {second:?}"));
            pairs += 1;
        }
    }
    assert_eq!(pairs, 6 * 7 - 2);
    let (cells, channel) = with_faults([Nothing, Nothing]);
    asked(&cells, channel, 0, "no fault");
    // Seven frames and a cell, all out of range, of a channel that is none.
    asked(&[65_535; 50], 6, 12, "all faults at once");
}

#[test]
fn refusal_12() {
    let sound = cells_of(20, |_, c| LOUD[c]);
    for size in 0..=sound.len() {
        let number = if size % 7 != 0 {
            12
        } else if size < 56 {
            13
        } else {
            0
        };
        asked(&sound[..size], 3, number, &format!("{size} cells"));
    }
    let longest = capture(MOST_FRAMES, "noise");
    for less in 1..7 {
        asked(&longest[..longest.len() - less], 0, 12, &format!("{less} cells less than 4,096 frames"));
    }
    asked(&[&longest[..], &[0]].concat(), 0, 12, "a cell more than 4,096 frames");
    for channel in 0..=300 {
        asked(&sound, channel, if channel > 5 { 12 } else { 0 }, &format!("channel {channel}"));
    }
    for channel in [6, 7, 65_536, 1 << 32, usize::MAX - 5, usize::MAX] {
        asked(&sound, channel, 12, &format!("channel {channel}"));
        asked(&longest, channel, 12, &format!("channel {channel} of 4,096 frames"));
    }
}

/// Every cell is judged, whatever the channel: in each place of eight frames and a
/// few more, and at the ends of a long capture.
#[test]
fn refusal_9() {
    for frames in [8, 16, 19] {
        let sound = cells_of(frames, |_, c| LOUD[c]);
        for at in 0..sound.len() {
            let highest = if at % 7 == 6 { 127 } else { 1023 };
            for cell in [highest, highest + 1, 2 * highest + 2, 1 << 10, 1 << 11, 1 << 15, 65_535] {
                let mut cells = sound.clone();
                cells[at] = cell;
                let number = if cell > highest { 9 } else { 0 };
                asked(&cells, at % 6, number, &format!("{frames} frames, cell {at} is {cell}"));
            }
        }
    }
    let longest = capture(MOST_FRAMES, "noise");
    for frame in [0, 7, 8, 2000, 4087, 4088, 4095] {
        for place in 0..7 {
            let mut cells = longest.clone();
            cells[7 * frame + place] = if place == 6 { 128 } else { 1024 };
            asked(&cells, (place + 1) % 6, 9, &format!("frame {frame}, cell {place}"));
        }
    }
    asked(&longest, 5, 0, "4,096 frames");
    for frames in [4097, 4098, 4103, 4104, 8192] {
        asked(&cells_of(frames, |_, _| 512), 0, 9, &format!("{frames} frames"));
    }
}

#[test]
fn refusal_13() {
    for frames in 0..8 {
        asked(&cells_of(frames, |_, c| LOUD[c]), frames % 6, 13, &format!("{frames} frames"));
    }
    for channel in 0..6 {
        asked(&cells_of(8, |_, c| LOUD[c]), channel, 0, "8 frames");
    }
}

/// What a wrong rolling sum does otherwise.
#[derive(Clone, Copy, Debug, PartialEq)]
enum Slip {
    None,
    LeavingNotTakenOff,
    EnteringOfNextFrame,
    LeavingOfNextFrame,
    LeavingOfFrameBefore,
    TiesToLater,
    FirstWindowMissed,
    LastWindowMissed,
    StartedAtZero,
    EnteringTwice,
    // These were not asked for.
    EnteringNotAdded,
    LeavingOfNextChannel,
    FirstSumOfSeven,
    FrameOfWindowBefore,
    LastEntered,
    WholeEightsOnly,
    SixteenBits,
}

/// A rolling sum with a slip, on cells that are accepted. A frame that a slip wants
/// before the first is the first, one past the last is the last.
fn slipped(slip: Slip, cells: &[u16], channel: usize) -> Strongest {
    let frames = cells.len() / 7;
    let square = |frame: isize, channel: usize| {
        let frame = frame.clamp(0, frames as isize - 1) as usize;
        (i64::from(cells[7 * frame + channel]) - 512).pow(2)
    };
    let first_summed = match slip {
        Slip::StartedAtZero => 0,
        Slip::FirstSumOfSeven => 7,
        _ => 8,
    };
    let mut sum: i64 = (0..first_summed).map(|frame| square(frame, channel)).sum();
    let mut most = if slip == Slip::FirstWindowMissed { 0 } else { sum };
    let mut at = 0;
    let windows = match slip {
        Slip::LastWindowMissed => frames - 8,
        Slip::WholeEightsOnly => frames / 8 * 8 - 7,
        _ => frames - 7,
    };
    for frame in 1..windows {
        let (mut enters, mut leaves, mut leaves_in) = (frame as isize + 7, frame as isize - 1, channel);
        match slip {
            Slip::EnteringOfNextFrame => enters += 1,
            Slip::LeavingOfNextFrame => leaves += 1,
            Slip::LeavingOfFrameBefore => leaves -= 1,
            Slip::LeavingOfNextChannel => leaves_in = (channel + 1) % 6,
            _ => {}
        }
        sum += match slip {
            Slip::EnteringNotAdded => 0,
            Slip::EnteringTwice => 2 * square(enters, channel),
            _ => square(enters, channel),
        };
        if slip != Slip::LeavingNotTakenOff {
            sum -= square(leaves, leaves_in);
        }
        if slip == Slip::SixteenBits {
            sum &= 0xFFFF;
        }
        if sum > most || slip == Slip::TiesToLater && sum == most {
            most = sum;
            at = match slip {
                Slip::FrameOfWindowBefore => frame - 1,
                Slip::LastEntered => frame + 7,
                _ => frame,
            };
        }
    }
    Strongest { number: 0, sum: most as u32, frame: at }
}

/// For each slip a capture and a channel whose answer is another one than that of
/// plain summing. With no slip there is none. Prints how many captures tell each.
#[test]
fn wrong_rolling_sums_are_told() {
    let told_by = [
        (Slip::LeavingNotTakenOff, 4096, "loudest", 0),
        (Slip::EnteringOfNextFrame, 4096, "spike at 8", 0),
        (Slip::LeavingOfNextFrame, 4096, "0 and 1023 in turn", 0),
        (Slip::LeavingOfFrameBefore, 4096, "louder and louder", 0),
        (Slip::TiesToLater, 4096, "ties far apart", 3),
        (Slip::FirstWindowMissed, 4096, "spike at 0", 1),
        (Slip::LastWindowMissed, 4096, "spike at 4095", 2),
        (Slip::StartedAtZero, 4096, "loudest above 512", 5),
        (Slip::EnteringTwice, 4096, "spike at 4087", 4),
        (Slip::EnteringNotAdded, 4096, "spike at 4088", 0),
        (Slip::LeavingOfNextChannel, 4096, "noise", 0),
        (Slip::FirstSumOfSeven, 4096, "spike at 7", 3),
        (Slip::FrameOfWindowBefore, 4096, "spike at 8", 0),
        (Slip::LastEntered, 4096, "spike at 8", 5),
        (Slip::WholeEightsOnly, 17, "spike at 16", 0),
        (Slip::SixteenBits, 4096, "louder and louder", 1),
    ];
    let lengths = LENGTHS.map(|frames| (frames, captures(frames)));
    // How many captures of each length tell a slip, in any channel.
    let tell = |slip| {
        lengths.each_ref().map(|(_, captures)| {
            let tells = |cells: &[u16]| (0..6).any(|c| slipped(slip, cells, c) != strongest(cells, c));
            captures.iter().filter(|capture| tells(&capture.cells)).count()
        })
    };
    let all = lengths.each_ref().map(|(_, captures)| captures.len());
    assert_eq!(tell(Slip::None), [0; 7], "without a slip it is plain summing's answer");
    println!("{all:?} captures of {LENGTHS:?} frames");
    for (slip, frames, name, channel) in told_by {
        let cells = capture(frames, name);
        let (wrong, plain) = (slipped(slip, &cells, channel), strongest(&cells, channel));
        println!("{slip:?}: {wrong:?}, not {plain:?}, on {name:?}; told by {:?}", tell(slip));
        assert_ne!(wrong, plain, "{slip:?} on {name}, channel {channel}");
        assert_eq!(strongest_rolling(&cells, channel), plain);
    }
    // With one window alone there is no step: then only what is wrong with it shows.
    let without_step: Vec<Slip> = told_by.iter().map(|row| row.0).filter(|&slip| tell(slip)[0] > 0).collect();
    assert_eq!(without_step, [Slip::FirstWindowMissed, Slip::StartedAtZero, Slip::FirstSumOfSeven]);
    // A number of frames that is a multiple of eight never shows what comes after.
    assert_eq!(tell(Slip::WholeEightsOnly).map(|count| count > 0), [false, true, true, true, false, true, false]);
}

/// The answers of six channels, and microseconds a call, in the fastest of some
/// rounds: others run on the machine too.
fn timed(finder: Finder, cells: &[u16]) -> ([Strongest; 6], f64) {
    let mut answers = [Strongest { number: 255, sum: 0, frame: 0 }; 6];
    let mut least = f64::INFINITY;
    for _ in 0..100 {
        let start = Instant::now();
        answers = std::array::from_fn(|channel| finder(black_box(cells), black_box(channel)));
        least = least.min(start.elapsed().as_secs_f64() * 1e6 / 6.0);
    }
    (answers, least)
}

/// The answers are compared; the times are only printed. The checks' part in them is
/// the time of a call that is refused for its last cell.
#[test]
fn times_at_4096_frames() {
    for name in ["noise", "quiet", "louder and louder"] {
        let mut cells = capture(MOST_FRAMES, name);
        assert_eq!(cells.len(), CELLS * MOST_FRAMES);
        let (plain, plain_time) = timed(strongest, &cells);
        let (rolling, rolling_time) = timed(strongest_rolling, &cells);
        assert_eq!(plain, rolling, "{name}");
        assert!(plain.iter().all(|answer| answer.number == 0 && answer.frame <= MOST_FRAMES - WINDOW));
        *cells.last_mut().unwrap() = 128;
        let (refused, checks_time) = timed(strongest, &cells);
        assert!(refused.iter().all(|answer| answer.number == 9));
        println!(
            "{name}, {MOST_FRAMES} frames: plain {plain_time:.1}, rolling {rolling_time:.1} microseconds a call, \
             of which the checks take {checks_time:.1}"
        );
    }
}
