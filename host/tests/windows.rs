//! Paper 4: the strongest window of the archive, which carries its sum along, against plain summing at 4,096 frames, on
//! all six channels of several captures. Both times are printed, and nothing is asked of them. Last, four wrong rolling
//! sums: each is told by some of the captures. `cargo test --release --test windows -- --long` measures twenty times as
//! often.

mod support;

use host::{refusal, StrongestWindow};
use reference::capture::{CELLS, LONGEST, MOST_FRAMES};
use std::time::Instant;
use support::Flags;

const WINDOW: usize = 8;
const LAST: usize = MOST_FRAMES - WINDOW;

/// A sum and the first frame of its window.
type Found = (u32, usize);

fn square(cells: &[u16], channel: usize, frame: usize) -> u32 {
    (i32::from(cells[CELLS * frame + channel]) - 512).pow(2) as u32
}

/// Each window summed by itself; of equal ones the first stays.
fn plain(cells: &[u16], channel: usize) -> Found {
    let sum_at = |f: usize| (f..f + WINDOW).map(|frame| square(cells, channel, frame)).sum::<u32>();
    let mut best = (sum_at(0), 0);
    for f in 1..=LAST {
        let sum = sum_at(f);
        if sum > best.0 {
            best = (sum, f);
        }
    }
    best
}

/// A rolling sum gone wrong: the square of the frame `entering` behind the window's first is added, that of the frame
/// `leaving` behind it is taken off, or none, and where `later` is set an equal window takes the place of the one before.
struct Wrong {
    name: &'static str,
    entering: usize,
    leaving: Option<usize>,
    later: bool,
}

const WRONG: [Wrong; 4] = [
    Wrong { name: "the leaving square not taken off", entering: 8, leaving: None, later: false },
    Wrong { name: "the entering one of the next frame", entering: 9, leaving: Some(0), later: false },
    Wrong { name: "the leaving one of the next frame", entering: 8, leaving: Some(1), later: false },
    Wrong { name: "ties to the later window", entering: 8, leaving: Some(0), later: true },
];

impl Wrong {
    /// Past the last frame there is nothing to add.
    fn found(&self, cells: &[u16], channel: usize) -> Found {
        let at = |frame: usize| if frame < MOST_FRAMES { square(cells, channel, frame) } else { 0 };
        let mut sum = (0..WINDOW).map(at).fold(0u32, u32::wrapping_add);
        let mut best = (sum, 0);
        for f in 0..LAST {
            sum = sum.wrapping_add(at(f + self.entering)).wrapping_sub(self.leaving.map_or(0, |k| at(f + k)));
            if sum > best.0 || (self.later && sum == best.0) {
                best = (sum, f + 1);
            }
        }
        best
    }
}

/// 4,096 frames: each code by its frame and channel, and enable bytes of every kind.
fn cells_of(mut code: impl FnMut(usize, usize) -> u16) -> Vec<u16> {
    let mut cells = Vec::with_capacity(CELLS * MOST_FRAMES);
    for frame in 0..MOST_FRAMES {
        cells.extend((0..6).map(|channel| code(frame, channel)));
        cells.push((frame % 128) as u16);
    }
    cells
}

fn samples(flags: &Flags) -> Vec<(&'static str, Vec<u16>)> {
    let stored = std::fs::read("../reference/cases/frames-4096.p6k").expect("the stored case of 4,096 frames");
    let mut cells = vec![0; CELLS * MOST_FRAMES];
    assert_eq!(host::read(&stored, &mut cells).count, MOST_FRAMES);
    let mut prng = flags.prng(1);
    let mut walk = [512i64; 6];
    let spikes = [0, 7, 8, LAST - 1, LAST, MOST_FRAMES - 1];
    vec![
        ("the stored case", cells),
        ("quiet", cells_of(|_, _| 512)),
        ("lowest codes", cells_of(|_, _| 0)),
        ("highest codes", cells_of(|_, _| 1023)),
        ("one end and the other", cells_of(|frame, channel| [0, 1023][(frame + channel) % 2])),
        ("ramps", cells_of(|frame, channel| ((frame * (channel + 1)) % 1024) as u16)),
        ("swelling", cells_of(|frame, channel| 512 + (frame / 8).saturating_sub(channel).min(511) as u16)),
        ("dying away", cells_of(|frame, channel| 512 - ((MOST_FRAMES - 1 - frame) / 8).saturating_sub(channel) as u16)),
        ("a spike in each channel", cells_of(|frame, channel| if frame == spikes[channel] { 1023 } else { 513 })),
        ("two equal bursts", cells_of(|frame, channel| [512, 700][usize::from(frame % (2000 + channel) >= 1990)])),
        ("noise", cells_of(|_, _| prng.below(1024) as u16)),
        (
            "wandering",
            cells_of(|_, channel| {
                walk[channel] = (walk[channel] + prng.within(-20, 20)).clamp(0, 1023);
                walk[channel] as u16
            }),
        ),
    ]
}

/// Through a capture and back: the cells are those of a capture.
fn through_capture(cells: &[u16]) -> Vec<u16> {
    let mut bytes = vec![0; LONGEST];
    let size = host::write(cells, &mut bytes).count;
    let mut back = vec![0; CELLS * MOST_FRAMES];
    assert_eq!(host::read(&bytes[..size], &mut back).count, MOST_FRAMES);
    assert!(back == cells);
    back
}

/// The time of a call on each channel of each capture, in microseconds a call, and what the calls answered.
fn timed<A>(captures: &[Vec<u16>], call: impl Fn(&[u16], usize) -> A) -> (f64, Vec<A>) {
    let start = Instant::now();
    let mut answers = Vec::with_capacity(6 * captures.len());
    for cells in captures {
        answers.extend((0..6).map(|channel| call(cells, channel)));
    }
    (start.elapsed().as_secs_f64() * 1e6 / answers.len() as f64, answers)
}

fn main() {
    let flags = Flags::given();
    let named = samples(&flags);
    let captures: Vec<Vec<u16>> = named.iter().map(|(_, cells)| through_capture(cells)).collect();
    let mut least = [f64::INFINITY; 3];
    let mut winners = Vec::new();
    for _ in 0..20 * flags.times {
        let (ours, answers) = timed(&captures, host::strongest);
        let (summed, expected) = timed(&captures, plain);
        let (second, others) = timed(&captures, reference::strongest);
        for (k, &(sum, frame)) in expected.iter().enumerate() {
            let (name, channel) = (named[k / 6].0, k % 6);
            let other = others[k];
            assert_eq!(answers[k], StrongestWindow { refusal: refusal::ACCEPTED, sum, frame }, "{name}, {channel}");
            assert_eq!((other.number, other.sum, other.frame), (0, sum, frame), "{name}, {channel}");
        }
        for (kept, spent) in least.iter_mut().zip([ours, summed, second]) {
            *kept = kept.min(spent);
        }
        winners = expected;
    }
    println!(
        "windows: all six channels of {} captures of {MOST_FRAMES} frames, seed {}: {} answers equal plain summing",
        captures.len(),
        flags.seed,
        winners.len()
    );
    println!("  microseconds a call, the least of {} rounds:", 20 * flags.times);
    println!("  the archive {:.1} (the checks of all cells included), plain summing {:.1} (no checks)", least[0], least[1]);
    println!("  the second implementation, by plain summing, {:.1} (the checks included)", least[2]);
    let met = |frame: usize| winners.iter().any(|found| found.1 == frame);
    assert!(met(0) && met(LAST), "no answer is the first window, or none the last");
    for wrong in &WRONG {
        let told = (0..winners.len()).filter(|&k| wrong.found(&captures[k / 6], k % 6) != winners[k]).count();
        println!("  {}: told by {told} of {}", wrong.name, winners.len());
        assert!(told > 0, "{} is told by no capture", wrong.name);
    }
}
