//! Paper 12: test waveforms of the archive against the second implementation, and against a plain sequence that is
//! written here from the words. Refusal, count and the whole lent buffer are compared, with cells before and behind it.
//! Last, wrong generators: each is told by some of the same calls. `cargo test --release --test generator -- --long`
//! runs twenty times as much.

mod support;

use host::{refusal, Answer};
use reference::capture::{CELLS, MOST_FRAMES};
use reference::prng::Prng;
use support::Flags;

const GIVEN: usize = 55;
type Given = [u32; GIVEN];

/// No code and no enable byte: what cells hold before a call, to see that the rest is untouched.
const OLD: u16 = 0xEEEE;
/// Cells on either side of the lent ones, more than 64 frames.
const AROUND: usize = 500;

/// The given numbers, oldest first, and behind them the made ones: each is the sum of two so many places back.
fn row(given: &Given, frames: usize, back: [usize; 2], sum: fn(u32, u32) -> u32) -> Vec<u32> {
    let mut numbers = given.to_vec();
    for place in GIVEN..GIVEN + 6 * frames {
        numbers.push(sum(numbers[place - back[0]], numbers[place - back[1]]));
    }
    numbers
}

/// The top ten bits of six successive numbers are the codes of a frame; its enable byte is 0x7F.
fn cells_of(numbers: &[u32]) -> Vec<u16> {
    numbers.chunks(6).flat_map(|six| six.iter().map(|number| (number >> 22) as u16).chain([0x7F])).collect()
}

/// The given numbers are no codes.
fn by(given: &Given, frames: usize, sum: fn(u32, u32) -> u32) -> Vec<u16> {
    cells_of(&row(given, frames, [24, 55], sum)[GIVEN..])
}

/// As the words have it: each next number is the sum modulo 2^32 of the numbers 24 and 55 places back.
fn plain(given: &Given, frames: usize) -> Vec<u16> {
    by(given, frames, u32::wrapping_add)
}

/// Wrong generators. Sums of numbers that are moved up by 22 bits have the low ten bits on top.
type Wrong = (&'static str, fn(&Given, usize) -> Vec<u16>);
const WRONG: [Wrong; 9] = [
    ("23 for 24", |given, n| cells_of(&row(given, n, [23, 55], u32::wrapping_add)[GIVEN..])),
    ("54 for 55", |given, n| cells_of(&row(given, n, [24, 54], u32::wrapping_add)[GIVEN..])),
    ("the low ten bits", |given, n| plain(&given.map(|number| number << 22), n)),
    ("the given numbers as codes", |given, n| cells_of(&row(given, n, [24, 55], u32::wrapping_add)[..6 * n])),
    ("the newest first", |given, n| plain(&std::array::from_fn(|k| given[GIVEN - 1 - k]), n)),
    ("a row that starts again after 64 frames", |given, n| {
        plain(given, 64).into_iter().cycle().take(CELLS * n).collect()
    }),
    ("no carry", |given, n| by(given, n, |a, b| a ^ b)),
    ("no carry out of the low half", |given, n| {
        by(given, n, |a, b| (a >> 16).wrapping_add(b >> 16) << 16 | a.wrapping_add(b) & 0xFFFF)
    }),
    ("the greatest number for a sum above it", |given, n| by(given, n, u32::saturating_add)),
];

#[derive(Default)]
struct Seen {
    /// Calls by their faults: 1 for all even, 2 for too many frames, 4 for too few cells, or a sum of these.
    faults: [u64; 8],
    /// Accepted calls with just enough room, those with more, and calls refused for one cell alone.
    rooms: [u64; 3],
    shorter: u64,
    told: [u64; WRONG.len()],
}

/// One call. The lent cells start at each place of eight in turn.
fn call(given: &Given, frames: usize, room: usize, seen: &mut Seen) {
    let faults = [given.iter().all(|number| number % 2 == 0), frames > MOST_FRAMES, frames > room / CELLS];
    let number = match faults {
        [true, _, _] => refusal::ALL_EVEN,
        [_, true, _] => refusal::OUT_OF_RANGE,
        [_, _, true] => refusal::DOES_NOT_FIT,
        _ => refusal::ACCEPTED,
    };
    let count = if number == refusal::ACCEPTED { frames } else { 0 };
    let made = plain(given, count);
    let start = AROUND + (seen.faults.iter().sum::<u64>() % 8) as usize;
    let mut ours = vec![OLD; start + room + AROUND];
    let (mut theirs, mut right) = (ours.clone(), ours.clone());
    right[start..start + made.len()].copy_from_slice(&made);
    let answer = host::generate(*given, frames, &mut ours[start..start + room]);
    let second = reference::generate(*given, frames, &mut theirs[start..start + room]);
    let (answers, seconds) = ((answer.refusal, answer.count), (second.number, second.count));
    for (whose, answer, cells) in [("the archive", answers, &ours), ("the second implementation", seconds, &theirs)] {
        assert_eq!(answer, (number, count), "{whose}: {frames} frames into {room} cells, of {given:?}");
        let differs = (0..right.len()).find(|&k| cells[k] != right[k]).map(|k| k as i64 - start as i64);
        assert_eq!(differs, None, "a cell of {whose}: {frames} frames into {room} cells, of {given:?}");
    }
    seen.faults[(0..3).map(|k| usize::from(faults[k]) << k).sum::<usize>()] += 1;
    seen.rooms[0] += u64::from(count > 0 && room == made.len());
    seen.rooms[1] += u64::from(count > 0 && room > made.len());
    seen.rooms[2] += u64::from(number == refusal::DOES_NOT_FIT && room + 1 == CELLS * frames);
    for (told, (_, wrong)) in seen.told.iter_mut().zip(WRONG) {
        *told += u64::from(wrong(given, count) != ours[start..start + made.len()]);
    }
}

/// Random numbers, extreme ones, single bits; at times all even, or one odd number among even ones.
fn any_given(prng: &mut Prng) -> Given {
    let kind = prng.below(3);
    let given: Given = std::array::from_fn(|_| match kind {
        0 => prng.next() as u32,
        1 => [0, 1, 1 << 31, u32::MAX][prng.below(4) as usize],
        _ => 1 << prng.below(32),
    });
    let odd = prng.below(GIVEN as u64) as usize;
    match prng.below(6) {
        0 | 1 => given.map(|number| number & !1),
        2 => std::array::from_fn(|k| given[k] & !1 | u32::from(k == odd)),
        _ => given,
    }
}

/// Few frames mostly, at times about as many as a row of kept numbers may hold, about the most that may be asked for,
/// or far more: some of these are few again in 16 or 32 bits, or after a product with 7.
fn any_frames(prng: &mut Prng) -> usize {
    let many = [usize::MAX, usize::MAX / 7 + 1, 1 << 63, 1 << 32, (1 << 32) + 9, 1 << 16, 8192, 4098];
    match prng.below(40) {
        0..=23 => prng.below(131) as usize,
        24..=31 => [64, 128, 192, 256][prng.below(4) as usize] + prng.below(4) as usize - 1,
        32 => MOST_FRAMES - prng.below(2) as usize,
        33..=36 => MOST_FRAMES + 1,
        _ => many[prng.below(8) as usize],
    }
}

fn any_room(frames: usize, prng: &mut Prng) -> usize {
    let exact = CELLS * frames.min(8192);
    match prng.below(8) {
        0 | 1 => exact,
        2 => exact.saturating_sub(1),
        3 => exact + 7,
        4 => 0,
        5 => (exact + prng.below(15) as usize).saturating_sub(7),
        _ => prng.below(2000) as usize,
    }
}

/// Each count of frames of a range; one odd number at each place; each bit at each place, alone and beside an odd
/// number, with frames enough for a lowest bit to grow to the top.
fn each(prng: &mut Prng, seen: &mut Seen) {
    for frames in (0..=260).chain(MOST_FRAMES - 1..=MOST_FRAMES + 2) {
        let given = any_given(prng);
        for room in [CELLS * frames, CELLS * frames + 7, (CELLS * frames).saturating_sub(1), 0] {
            call(&given, frames, room, seen);
        }
    }
    for place in 0..GIVEN {
        let even: Given = std::array::from_fn(|_| prng.next() as u32 & !1);
        call(&even, 70, 490, seen);
        call(&std::array::from_fn(|k| even[k] | u32::from(k == place)), 70, 490, seen);
        for bit in 0..32 {
            let mut given = [0; GIVEN];
            given[place] = 1 << bit;
            call(&given, 200, 1400, seen);
            given[prng.below(GIVEN as u64) as usize] |= 1;
            call(&given, 200, 1400, seen);
        }
    }
}

fn made(given: &Given, frames: usize) -> Vec<u16> {
    let mut cells = vec![OLD; CELLS * frames];
    assert_eq!(host::generate(*given, frames, &mut cells), Answer { refusal: refusal::ACCEPTED, count: frames });
    cells
}

/// In the archive alone: fewer frames are the first of more, and what is made is written as a capture and read back.
fn shorter(frames: impl Iterator<Item = usize>, more: usize, given: &Given, seen: &mut Seen) {
    let long = made(given, more);
    for n in frames {
        let cells = made(given, n);
        assert!(cells == long[..CELLS * n], "{n} frames are not the first of {more}, of {given:?}");
        let mut bytes = vec![0; 5 + 13 * n];
        let written = host::write(&cells, &mut bytes);
        assert_eq!(written.refusal, refusal::ACCEPTED, "{n} frames, of {given:?}");
        let mut back = vec![OLD; CELLS * n];
        let read = host::read(&bytes[..written.count], &mut back);
        assert!((read.refusal, read.count) == (0, n) && back == cells, "{n} frames, of {given:?}, come back otherwise");
        seen.shorter += 1;
    }
}

/// The figures for the numbers k * 2^26 + 1, k = 1 to 55.
fn figures(seen: &mut Seen) {
    let given = std::array::from_fn(|k| ((k as u32 + 1) << 26) + 1);
    let codes = [[528, 560, 592, 624, 656, 688], [720, 752, 784, 816, 848, 880], [912, 944, 976, 1008, 16, 48]];
    for (frame, six) in made(&given, 3).chunks(CELLS).zip(codes) {
        assert!(frame[..6] == six && frame[6] == 0x7F, "{frame:?} for {six:?}");
    }
    call(&given, 3, 21, seen);
}

fn main() {
    let flags = Flags::given();
    let mut seen = Seen::default();
    figures(&mut seen);
    let mut prngs = [1, 2, 3].map(|part| flags.prng(part));
    for _ in 0..flags.times {
        each(&mut prngs[0], &mut seen);
    }
    for _ in 0..12_000 * flags.times {
        let frames = any_frames(&mut prngs[1]);
        call(&any_given(&mut prngs[1]), frames, any_room(frames, &mut prngs[1]), &mut seen);
    }
    for _ in 0..12 * flags.times {
        let mut given = any_given(&mut prngs[2]);
        given[prngs[2].below(GIVEN as u64) as usize] |= 1;
        shorter(0..=260, 260, &given, &mut seen);
        shorter((0..20).map(|_| prngs[2].below(4097) as usize), MOST_FRAMES, &given, &mut seen);
    }
    let (of, calls) = (seen.faults, seen.faults.iter().sum::<u64>());
    println!("generator: {calls} calls, seed {}: archive, second implementation and plain sequence agree", flags.seed);
    println!("  accepted {}, refused with one fault, 24: {}, 9: {}, 11: {}", of[0], of[1], of[2], of[4]);
    println!("  with more, 24 and 9: {}, 24 and 11: {}, 9 and 11: {}, all three: {}", of[3], of[5], of[6], of[7]);
    println!("  just enough room {}, more {}, a cell short {}", seen.rooms[0], seen.rooms[1], seen.rooms[2]);
    println!("  the first frames of more, and written and read back: {}", seen.shorter);
    assert!([0, 1, 2, 4].iter().all(|&k| of[k] >= 100), "a refusal came fewer than 100 times");
    assert!([3, 5, 6, 7].iter().all(|&k| of[k] >= 30), "faults came together fewer than 30 times");
    assert!(seen.rooms.iter().all(|&count| count >= 100), "a kind of room came fewer than 100 times");
    for (told, (name, _)) in seen.told.iter().zip(WRONG) {
        println!("  {name}: told by {told} of {}", of[0]);
        assert!(*told >= 100, "{name} is told by {told} calls");
    }
}
