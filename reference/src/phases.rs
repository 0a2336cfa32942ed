//! Paper 14: one phase's history is its own. What is left of a list of calls for
//! one channel, what a frame shows of the channel, and random pairs of lists that
//! the law takes. The law itself is asked in `tests/one_phase.rs`. Other test
//! programs may play the same pairs on another relay.
//!
//! Everywhere here a channel is 0 to 5 and every call of a list is an accepted one.

use crate::amplitude::{amplitude, amplitude_of_order, COSINE};
use crate::history::Call;
use crate::prng::Prng;
use crate::relay::{
    frame, fresh, is_device_on, Framed, Lengths, Levels, Relay, Settings, FIRST_CURRENT, FULL_AGE, HIGHEST_LEVEL,
    HIGHEST_RESTRAINT,
};
use crate::trace::{lengths, levels_of_list, move_level, play};

/// "Its own levels": the drop, and for a current the pickup and r. A voltage has
/// none of the latter two.
#[derive(Clone, Copy, Debug, PartialEq, Eq)]
pub struct Own {
    pub drop: u16,
    pub over: Option<(u16, u8)>,
}

/// What a channel has of the levels.
pub fn own(levels: &Levels, channel: usize) -> Own {
    let over = channel.checked_sub(FIRST_CURRENT).map(|j| (levels.pickup[j], levels.restraint[j]));
    Own { drop: levels.drop[channel], over }
}

/// What is left of a call for one channel. `enabled` is the channel's own bit,
/// whatever bit 6 is.
#[derive(Clone, Copy, Debug, PartialEq, Eq)]
pub enum Left {
    Frame { code: u16, enabled: bool, device_on: bool },
    Reset,
    Change(Own),
}

/// "Strike the resets not naming it", mask 0 among them. A change is never struck,
/// even one that leaves the channel's own levels equal.
pub fn left(channel: usize, calls: &[Call]) -> Vec<Left> {
    let left_of = |call: &Call| match *call {
        Call::Frame { codes, enable } => Some(Left::Frame {
            code: codes[channel],
            enabled: enable >> channel & 1 == 1,
            device_on: is_device_on(enable),
        }),
        Call::Reset { mask } => (mask >> channel & 1 == 1).then_some(Left::Reset),
        Call::Change(levels) => Some(Left::Change(own(&levels, channel))),
    };
    calls.iter().filter_map(left_of).collect()
}

/// "This channel's amplitudes, runs, latches and output bits" after one frame.
#[derive(Clone, Copy, Debug, PartialEq, Eq)]
pub struct Shown {
    pub amplitude: u16,
    pub loss_run: u8,
    pub over_run: u8,
    pub loss_latch: bool,
    pub over_latch: bool,
    pub output: bool,
}

impl Shown {
    pub fn of(channel: usize, answer: &Framed) -> Shown {
        let held = answer.relay.channels[channel];
        Shown {
            amplitude: answer.amplitudes[channel],
            loss_run: held.loss_run,
            over_run: held.over_run,
            loss_latch: held.loss_latch,
            over_latch: held.over_latch,
            output: answer.output >> channel & 1 == 1,
        }
    }
}

/// Two fresh relays, by their settings, with a list of calls for each.
#[derive(Clone, Debug, PartialEq, Eq)]
pub struct Pair {
    pub channel: usize,
    pub settings: [Settings; 2],
    pub calls: [Vec<Call>; 2],
}

impl Pair {
    /// What the law asks of a pair before it says anything.
    pub fn is_alike(&self) -> bool {
        let [one, other] = self.settings.map(|settings| (own(&settings.levels, self.channel), settings.lengths));
        one == other && left(self.channel, &self.calls[0]) == left(self.channel, &self.calls[1])
    }
}

/// One side of a pair, 0 or 1, on this crate's relay: what each frame shows.
pub fn played(pair: &Pair, side: usize) -> Vec<Shown> {
    let made = fresh(pair.settings[side]);
    assert_eq!(made.number, 0);
    let mut relay = made.relay;
    let mut shown = Vec::new();
    for (place, call) in pair.calls[side].iter().enumerate() {
        if let Call::Frame { codes, enable } = *call {
            let answer = frame(relay, codes, enable);
            assert_eq!(answer.number, 0, "call {place} of side {side}");
            shown.push(Shown::of(pair.channel, &answer));
            relay = answer.relay;
        } else {
            let (after, number) = play(relay, call);
            assert_eq!(number, 0, "call {place} of side {side}");
            relay = after;
        }
    }
    shown
}

/// A pair that the law takes, alike in the channel and otherwise as different as
/// can be. The channel's own part is made first and is lively. Each side then gets
/// five other channels and struck resets of its own.
pub fn random_pair(prng: &mut Prng, channel: usize) -> Pair {
    let script = Script::random(prng, channel);
    // A channel that is a shadow in one list is none in the other.
    let shadows = prng.below(64) as u8;
    let (one, calls_of_one) = side(prng, channel, &script, shadows);
    let (other, calls_of_other) = side(prng, channel, &script, !shadows);
    Pair { channel, settings: [one, other], calls: [calls_of_one, calls_of_other] }
}

/// The levels with one channel's replaced. A voltage takes the drop only, and so
/// does a current where a voltage's are given.
fn with_own(mut levels: Levels, channel: usize, own: Own) -> Levels {
    levels.drop[channel] = own.drop;
    if let (Some(j), Some((pickup, r))) = (channel.checked_sub(FIRST_CURRENT), own.over) {
        levels.pickup[j] = pickup;
        levels.restraint[j] = r;
    }
    levels
}

/// A wave with a second harmonic, for some frames, and then another. Half of them
/// have no noise, so that long runs stay on one side of a level next to them.
struct Wave {
    peak: i64,
    /// The second harmonic, as a part of the peak in hundredths.
    second: i64,
    phase: usize,
    noise: i64,
    left: i64,
}

impl Wave {
    fn random(prng: &mut Prng) -> Wave {
        Wave {
            peak: if prng.once_in(8) { 0 } else { prng.within(0, 450) },
            second: if prng.once_in(2) { 0 } else { prng.within(0, 60) },
            phase: prng.below(8) as usize,
            noise: if prng.once_in(2) { 0 } else { prng.within(1, 4) },
            left: prng.within(1, 80),
        }
    }

    fn code(&mut self, prng: &mut Prng, n: usize) -> u16 {
        if self.left == 0 {
            *self = Wave::random(prng);
        }
        self.left -= 1;
        let slot = n + self.phase;
        let sum = self.peak * COSINE[slot % 8] + self.peak * self.second * COSINE[2 * slot % 8] / 100;
        (512 + (sum >> 14) + prng.within(-self.noise, self.noise)).clamp(0, 1023) as u16
    }
}

/// A bit of the enable byte, and for how many more frames it is off.
#[derive(Clone, Copy, Default)]
struct EnableBit {
    off: i64,
}

impl EnableBit {
    /// Off once in so many frames, for a few of them.
    fn next(&mut self, prng: &mut Prng, share: u64) -> bool {
        if self.off == 0 && prng.once_in(share) {
            self.off = prng.within(1, 5);
        }
        let on = self.off == 0;
        self.off -= i64::from(!on);
        on
    }
}

/// What both sides of a pair have in common: what is left for the channel.
struct Script {
    lengths: Lengths,
    own: Own,
    calls: Vec<Left>,
}

impl Script {
    /// A relay plays it while it is made, to see where runs go and latches are on.
    /// Only this channel of it is looked at.
    fn random(prng: &mut Prng, channel: usize) -> Script {
        let settings = Settings { levels: levels_of_list(prng), lengths: lengths(prng) };
        let length = prng.within(100, 320) as usize;
        // In most lists a latch that is on is reset soon, so that it can go on again. In
        // one in four resets are rare: a relay on which they do harm still comes to trip.
        let reset_shares = if prng.once_in(4) { [300; 3] } else { [100, 30, prng.within(5, 40) as u64] };
        let change_share = prng.within(6, 40) as u64;
        let enable_share = prng.within(8, 100) as u64;
        // In one list in three the device stays on; now and then it is off in frame 0.
        let stays_on = prng.once_in(3);
        let mut device = EnableBit { off: if prng.once_in(16) { prng.within(1, 5) } else { 0 } };
        let mut enable = EnableBit::default();
        let mut wave = Wave::random(prng);
        let mut relay = fresh(settings).relay;
        let mut calls = Vec::new();
        let mut frames = 0;
        while calls.len() < length {
            let held = relay.channels[channel];
            let runs = held.loss_run > 0 || held.over_run > 0;
            let latched = held.loss_latch || held.over_latch;
            let done = calls.len();
            if prng.once_in(reset_shares[if latched { 2 } else { usize::from(runs) }]) {
                calls.push(Left::Reset);
            }
            // Few before frames are counted, so that what the relay was made with matters too.
            let share = match (runs, relay.age < FULL_AGE) {
                (true, _) => change_share,
                (_, true) => 200,
                _ => 40,
            };
            if prng.once_in(share) {
                calls.extend(changes(prng, channel, &relay).into_iter().map(Left::Change));
            }
            let code = wave.code(prng, frames);
            let enabled = enable.next(prng, enable_share);
            // Each rise costs 72 frames that count nothing, so there are not many.
            let share = match (stays_on, latched) {
                (true, _) => u64::MAX,
                (_, true) => 40,
                _ => 150,
            };
            let device_on = device.next(prng, share);
            calls.push(Left::Frame { code, enabled, device_on });
            frames += 1;
            for call in &calls[done..] {
                relay = play(relay, &alone(call, channel, &relay)).0;
            }
        }
        Script { lengths: settings.lengths, own: own(&settings.levels, channel), calls }
    }

    /// The channel's codes by frame.
    fn codes(&self) -> Vec<u16> {
        let code = |call: &Left| match *call {
            Left::Frame { code, .. } => Some(code),
            _ => None,
        };
        self.calls.iter().filter_map(code).collect()
    }
}

/// A call with nothing of the other channels in it.
fn alone(call: &Left, channel: usize, relay: &Relay) -> Call {
    match *call {
        Left::Frame { code, enabled, device_on } => {
            Call::Frame { codes: [code; 6], enable: enable_byte(channel, 0, enabled, device_on) }
        }
        Left::Reset => Call::Reset { mask: 1 << channel },
        Left::Change(own) => Call::Change(with_own(relay.settings.levels, channel, own)),
    }
}

fn enable_byte(channel: usize, others: u8, enabled: bool, device_on: bool) -> u8 {
    others & !(1 << channel) | u8::from(enabled) << channel | u8::from(device_on) << 6
}

/// The places of a channel's own levels among the twelve: its drop, and a current's
/// pickup and r.
fn places(channel: usize) -> Vec<usize> {
    if channel < FIRST_CURRENT {
        vec![channel]
    } else {
        vec![channel, channel + 3, channel + 6]
    }
}

/// The channel's own levels in one change: equal in four of nine, one of them alone
/// moved, or each of them. Or in two changes, of which the second takes the first
/// back: the levels are then equal again, and the run is broken all the same.
fn changes(prng: &mut Prng, channel: usize, relay: &Relay) -> Vec<Own> {
    let old = relay.settings.levels;
    let mut new = old;
    let places = places(channel);
    match prng.below(9) {
        0..=3 => {}
        4..=7 => {
            let place = places[prng.below(places.len() as u64) as usize];
            move_own(prng, &mut new, place, relay);
        }
        _ => places.iter().for_each(|&place| move_own(prng, &mut new, place, relay)),
    }
    let there = own(&new, channel);
    if prng.once_in(8) {
        vec![there, own(&old, channel)]
    } else {
        vec![there]
    }
}

/// Moves one of the twelve levels: in half of the moves right next to what the
/// channel's window has now, so that the next frames are decided by a little.
fn move_own(prng: &mut Prng, levels: &mut Levels, place: usize, relay: &Relay) {
    let channel = if place < 6 { place } else { FIRST_CURRENT + place % 3 };
    let window = &relay.channels[channel].samples;
    let m = amplitude(window);
    let level = (m + prng.within(-1, 2)).clamp(1, HIGHEST_LEVEL.into()) as u16;
    match place {
        _ if prng.once_in(2) => move_level(prng, levels, place, relay),
        0..=5 => levels.drop[place] = level,
        6..=8 => levels.pickup[place - 6] = level,
        _ => {
            let r = 100 * amplitude_of_order(window, 2) / m.max(1) + prng.within(0, 1);
            levels.restraint[place - 9] = r.min(HIGHEST_RESTRAINT.into()) as u8;
        }
    }
}

/// What another channel has in one list. A shadow has the channel's own codes, some
/// frames earlier or later, and often its levels, so that it trips before the
/// channel, with it or after it.
enum Load {
    Shadow(i64),
    Waves(Wave),
}

impl Load {
    fn random(prng: &mut Prng, may_be_shadow: bool) -> Load {
        match prng.below(6) {
            0..=2 if may_be_shadow => Load::Shadow(0),
            3 | 4 if may_be_shadow => Load::Shadow(prng.within(-4, 4)),
            _ => Load::Waves(Wave::random(prng)),
        }
    }

    /// The code of frame n, where the channel's are `codes`.
    fn code(&mut self, prng: &mut Prng, codes: &[u16], n: usize) -> u16 {
        match self {
            Load::Shadow(shift) => codes[(n as i64 + *shift).clamp(0, codes.len() as i64 - 1) as usize],
            Load::Waves(wave) => wave.code(prng, n),
        }
    }
}

/// One side of a pair: the script with five other channels, and with resets that do
/// not name the channel put in between.
fn side(prng: &mut Prng, channel: usize, script: &Script, shadows: u8) -> (Settings, Vec<Call>) {
    let mut loads: [Load; 6] = std::array::from_fn(|c| Load::random(prng, shadows >> c & 1 == 1));
    let mut bits = [EnableBit::default(); 6];
    let shares: [u64; 6] = std::array::from_fn(|_| enable_share(prng));
    // For some frames all five are off together.
    let mut all = EnableBit::default();
    let mut levels = levels_of_list(prng);
    for c in 0..6 {
        if c == channel || matches!(loads[c], Load::Shadow(_)) {
            levels = with_own(levels, c, script.own);
        }
    }
    let settings = Settings { levels, lengths: script.lengths };
    // One list in five has no struck reset.
    let share = [0, 6, 12, 20, 40][prng.below(5) as usize];
    let codes_of_channel = script.codes();
    let mut relay = fresh(settings).relay;
    let mut calls = Vec::new();
    let mut frames = 0;
    // More of them at both ends, and before and after resets and changes.
    let mut at_edge = true;
    for left in &script.calls {
        let done = calls.len();
        let is_frame = matches!(left, Left::Frame { .. });
        calls.extend(struck(prng, channel, share, at_edge || !is_frame));
        at_edge = !is_frame;
        calls.push(match *left {
            Left::Frame { enabled, device_on, .. } => {
                let mut codes = std::array::from_fn(|c| loads[c].code(prng, &codes_of_channel, frames));
                codes[channel] = codes_of_channel[frames];
                frames += 1;
                let each: u8 = (0..6).map(|c| u8::from(bits[c].next(prng, shares[c])) << c).sum();
                let others = if all.next(prng, 25) { each } else { 0 };
                Call::Frame { codes, enable: enable_byte(channel, others, enabled, device_on) }
            }
            Left::Reset => Call::Reset { mask: mask(prng, channel) | 1 << channel },
            Left::Change(own) => Call::Change(changed(prng, channel, own, &loads, &relay)),
        });
        for call in &calls[done..] {
            relay = play(relay, call).0;
        }
    }
    calls.extend(struck(prng, channel, share, true));
    (settings, calls)
}

/// How often another channel's enable bit is off: never in some lists, always in
/// others.
fn enable_share(prng: &mut Prng) -> u64 {
    match prng.below(10) {
        0 => 1,
        1 | 2 => u64::MAX,
        _ => prng.within(4, 60) as u64,
    }
}

/// A mask of other channels: none, all five, one, or any of them.
fn mask(prng: &mut Prng, channel: usize) -> u8 {
    let mask = match prng.below(6) {
        0 => 0,
        1 => 0x3F,
        2 | 3 => 1 << prng.below(6),
        _ => prng.below(64) as u8,
    };
    mask & !(1 << channel)
}

/// Resets that do not name the channel: mostly none, else up to four in a row.
fn struck(prng: &mut Prng, channel: usize, share: u64, often: bool) -> Vec<Call> {
    if share == 0 || !prng.once_in(if often { 3 } else { share }) {
        return Vec::new();
    }
    let count = prng.within(1, 4).min(prng.within(1, 4));
    (0..count).map(|_| Call::Reset { mask: mask(prng, channel) }).collect()
}

/// The levels of a change that gives the channel these own ones: of the other
/// channels none moves, or one, or some.
fn changed(prng: &mut Prng, channel: usize, own: Own, loads: &[Load; 6], relay: &Relay) -> Levels {
    let mut levels = relay.settings.levels;
    let movers = match prng.below(4) {
        0 => 0,
        1 => 1 << prng.below(6),
        _ => prng.below(64),
    };
    for c in (0..6).filter(|&c| movers >> c & 1 == 1) {
        if matches!(loads[c], Load::Shadow(_)) && prng.once_in(2) {
            levels = with_own(levels, c, own);
        } else {
            for place in places(c) {
                if prng.once_in(2) {
                    move_level(prng, &mut levels, place, relay);
                }
            }
        }
    }
    with_own(levels, channel, own)
}
