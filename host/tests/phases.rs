//! Paper 14 over the archive: one phase's history is its own. Random pairs of lists, made by the second implementation,
//! that are alike in one channel and in nothing else; each is played on a relay of the archive. After each frame the
//! channel's amplitude, runs, latches and output bit are alike in both, and equal to the second implementation's. Last,
//! four wrong relays, whose channel 4 is given what stands in the place of channel 3: each is told by many pairs.
//! `cargo test --release --test phases -- --long` plays twenty times as many.

mod support;

use reference::phases::{played, random_pair, Pair, Shown};
use reference::{Call, Levels, Settings};
use support::relays::{levels_of, relay_of, settings_of};
use support::Flags;

/// The six channels after one frame.
type Six = [Shown; 6];

/// What the pairs met, so that a run that saw little fails. Of each pair of numbers the first is of loss, the second of
/// over, unless it says otherwise.
#[derive(Default)]
struct Seen {
    calls: u64,
    frames: u64,
    /// Latches of the channel that went on.
    trips: [u64; 2],
    /// Latches of the others that went on, in each list.
    others: [u64; 2],
    /// Frames after which another channel's latches differ between the lists.
    apart: u64,
    /// Frames in which the channel trips, and another does in one of the lists alone.
    beside: u64,
    /// Resets that were struck.
    struck: u64,
    /// Pairs in which each of the other five shows something else in the one list than in the other.
    all_differ: u64,
}

/// What a relay is given of each call: all of it as it is, or something of channel 3 in the place of channel 4.
#[derive(Clone, Copy)]
struct Given {
    levels: fn(Levels) -> Levels,
    codes: fn([u16; 6]) -> [u16; 6],
    enable: fn(u8) -> u8,
    mask: fn(u8) -> u8,
}

const AS_IT_IS: Given =
    Given { levels: |levels| levels, codes: |codes| codes, enable: |enable| enable, mask: |mask| mask };

fn other_levels(mut levels: Levels) -> Levels {
    levels.drop[4] = levels.drop[3];
    levels.pickup[1] = levels.pickup[0];
    levels.restraint[1] = levels.restraint[0];
    levels
}

fn other_code(mut codes: [u16; 6]) -> [u16; 6] {
    codes[4] = codes[3];
    codes
}

fn other_bit(byte: u8) -> u8 {
    byte & !0x10 | (byte & 0x08) << 1
}

const WRONG: [(&str, Given); 4] = [
    ("level", Given { levels: other_levels, ..AS_IT_IS }),
    ("enable bit", Given { enable: other_bit, ..AS_IT_IS }),
    ("code", Given { codes: other_code, ..AS_IT_IS }),
    ("reset", Given { mask: other_bit, ..AS_IT_IS }),
];

/// One side of a pair on the archive: what each frame shows of each channel.
fn play(pair: &Pair, side: usize, given: &Given) -> Vec<Six> {
    let Settings { levels, lengths } = pair.settings[side];
    let settings = Settings { levels: (given.levels)(levels), lengths };
    let made = host::Relay::fresh(settings_of(&settings));
    assert_eq!((made.refusal, made.relay), (0, relay_of(&reference::fresh(settings).relay)));
    let mut relay = made.relay;
    let mut shown = Vec::new();
    for call in &pair.calls[side] {
        let (after, refusal) = match *call {
            Call::Frame { codes, enable } => {
                let answer = relay.frame((given.codes)(codes), (given.enable)(enable));
                shown.push(std::array::from_fn(|c| of_answer(&answer, c)));
                (answer.relay, answer.refusal)
            }
            Call::Reset { mask } => {
                let answer = relay.reset((given.mask)(mask));
                (answer.relay, answer.refusal)
            }
            Call::Change(levels) => {
                let answer = relay.change(levels_of(&(given.levels)(levels)));
                (answer.relay, answer.refusal)
            }
        };
        assert_eq!(refusal, 0, "{call:?}");
        relay = after;
    }
    shown
}

/// What it shows of one channel.
fn of_channel(shown: &[Six], channel: usize) -> Vec<Shown> {
    shown.iter().map(|six| six[channel]).collect()
}

/// The amplitude and the output bit are the answer's, runs and latches are the relay's that it hands back.
fn of_answer(answer: &host::FrameAnswer, channel: usize) -> Shown {
    let held = answer.relay.channels[channel];
    Shown {
        amplitude: answer.amplitudes[channel],
        loss_run: held.loss_run,
        over_run: held.over_run,
        loss_latch: held.loss_latch,
        over_latch: held.over_latch,
        output: answer.output >> channel & 1 == 1,
    }
}

fn latches(shown: &Shown) -> [bool; 2] {
    [shown.loss_latch, shown.over_latch]
}

/// Which latches of a channel went on in frame n.
fn trips(shown: &[Six], n: usize, channel: usize) -> [bool; 2] {
    let before = if n == 0 { [false; 2] } else { latches(&shown[n - 1][channel]) };
    let after = latches(&shown[n][channel]);
    [after[0] && !before[0], after[1] && !before[1]]
}

impl Seen {
    fn look_at(&mut self, pair: &Pair, sides: &[Vec<Six>; 2]) {
        let channel = pair.channel;
        let others: Vec<usize> = (0..6).filter(|&c| c != channel).collect();
        for call in pair.calls.iter().flatten() {
            self.calls += 1;
            self.struck += u64::from(matches!(call, Call::Reset { mask } if mask >> channel & 1 == 0));
        }
        for n in 0..sides[0].len() {
            self.frames += 1;
            let own = trips(&sides[0], n, channel);
            let [one, other] = [0, 1].map(|side: usize| -> u64 {
                others.iter().flat_map(|&c| trips(&sides[side], n, c)).map(u64::from).sum()
            });
            for k in 0..2 {
                self.trips[k] += u64::from(own[k]);
            }
            self.others[0] += one;
            self.others[1] += other;
            self.apart += u64::from(others.iter().any(|&c| latches(&sides[0][n][c]) != latches(&sides[1][n][c])));
            self.beside += u64::from(own != [false; 2] && (one == 0) != (other == 0));
        }
        let differs = |&c: &usize| of_channel(&sides[0], c) != of_channel(&sides[1], c);
        self.all_differ += u64::from(others.iter().all(differs));
    }
}

fn main() {
    let flags = Flags::given();
    let pairs = 250 * flags.times;
    for channel in 0..6 {
        let mut seen = Seen::default();
        let mut prng = flags.prng(20 + channel as u64);
        for k in 0..pairs {
            let pair = random_pair(&mut prng, channel);
            assert!(pair.is_alike(), "pair {k} of channel {channel}");
            let sides = [0, 1].map(|side| play(&pair, side, &AS_IT_IS));
            let [one, other] = [0, 1].map(|side: usize| of_channel(&sides[side], channel));
            assert_eq!(one, other, "pair {k} of channel {channel}");
            assert_eq!(one, played(&pair, 0), "pair {k} of channel {channel}");
            seen.look_at(&pair, &sides);
        }
        let Seen { calls, frames, trips, others, apart, beside, struck, all_differ } = seen;
        let seed = flags.seed;
        println!("phases: channel {channel}, {calls} calls in {pairs} pairs of lists, seed {seed}: alike in both");
        println!(
            "  frames {frames}, trips by loss {}, by over {}; trips of the others {} and {}; struck resets {struck}",
            trips[0], trips[1], others[0], others[1]
        );
        println!("  frames with others' latches unlike {apart}, trips with one beside it in one list {beside}");
        println!("  pairs in which each other channel shows something else {all_differ}");
        assert!(trips[0] >= 100 && (channel < 3 || trips[1] >= 100) && others.iter().all(|&count| count >= 1_000));
        assert!(apart >= 5_000 && beside >= 50 && struck >= 5_000 && all_differ * 2 >= pairs);
    }
    for (name, given) in WRONG {
        let mut prng = flags.prng(20 + 4);
        let told = (0..pairs).filter(|_| {
            let pair = random_pair(&mut prng, 4);
            let [one, other] = [0, 1].map(|side| of_channel(&play(&pair, side, &given), 4));
            one != other
        });
        let told = told.count() as u64;
        println!("phases: a channel 4 that looks at channel 3's {name} is told by {told} of {pairs} pairs");
        assert!(told * 4 >= pairs);
    }
}
