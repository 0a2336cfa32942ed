//! Fresh, frame, reset, change and estimate of the archive against the second implementation: random lists of calls on
//! relays that the archive itself hands back, with refused calls and resets among them, levels next to the amplitudes,
//! restraint next to the second harmonic, and the device switched off and on; lists of the second implementation's own,
//! in which levels are changed as well; single calls on relays that a caller made up; and estimates. Then lists of both
//! makes, and single calls, on relays with run lengths of their own. Last, resets in two strokes. Every answer is
//! compared whole. `cargo test --release --test calls -- --long` runs twenty times as much.

mod support;

use reference::prng::Prng;
use reference::relay::{frame_refusal, is_enabled, is_sound, levels_refusal, reset_refusal, settings_refusal};
use reference::relay::{Lengths, FIRST_CURRENT, FULL_AGE, HIGHEST_LENGTH, HIGHEST_LEVEL, HIGHEST_RESTRAINT};
use reference::trace::{self, RunsAtChanges};
use reference::{amplitude, amplitude_of_order, Call, Exact, History, Latch, Levels, Settings};
use support::relays::{levels_of, relay_of, settings_of};
use support::{Flags, Refusals};

/// The bench program's lengths: the older lists keep them.
const BENCH: Lengths = Lengths { loss: 16, over: 4 };

/// What the calls met, so that a run that saw little fails.
#[derive(Default)]
struct Seen {
    refusals: Refusals,
    calls: u64,
    counted: u64,
    amplitudes: u64,
    trips: [u64; 2],
    cleared: u64,
    returned: u64,
    by_history: u64,
    restraint: Restraint,
    settling: Settling,
    changes: Changes,
    /// Accepted frames with bit 6 on for a relay handed in that remembers it as off, at age 72 and with a run above 0.
    runs_kept: u64,
    /// Relays handed in that r above 100 alone makes unsound: below 255, and 255.
    by_restraint: [u64; 2],
    /// Accepted estimates by order.
    estimates: [u64; 3],
    lengths: ByLengths,
}

/// Run lengths. Of each pair the first is of loss, the second of over, unless it says otherwise.
#[derive(Clone, Copy, Default)]
struct ByLengths {
    /// Fresh relays refused by 1, and by 20, where a length is out of range too.
    first: [u64; 2],
    /// Latches that went on with a loss length above 16, an over length above 4.
    long: [u64; 2],
    /// Latches that went on with a length below 16, below 4.
    short: [u64; 2],
    /// Frames of the lists whose output byte is another with lengths 16 and 4, and with the two lengths exchanged.
    told: [u64; 2],
    /// Relays handed in that nothing but runs above their own length, yet at most 24, make unsound; and how many of
    /// these have no run that is above 16, above 4.
    above: [u64; 2],
    above_low: [u64; 2],
    /// Sound relays handed in with a loss run above 16, an over run above 4.
    beyond: [u64; 2],
    /// Relays handed in that nothing but a length makes unsound: by 0, and by one above 24.
    out_of_range: [u64; 2],
}

/// Currents that are enabled in a counted frame, reach their pickup and have restraint on: how many feed the run, how many do not, and of these
/// how many by equality alone.
#[derive(Clone, Copy, Default)]
struct Restraint {
    fed: u64,
    kept: u64,
    by_equality: u64,
}

/// The device switch in the lists. A rise, frame T, has bit 6 on after a frame with it off; a fall is the other way.
#[derive(Clone, Copy, Default)]
struct Settling {
    falls: u64,
    /// Rises that found age 72, and rises that found less.
    rises: [u64; 2],
    /// Rises fewer than 72 frames after one before.
    again: u64,
    /// Refused frames that would tell if they were remembered: with bit 6 on between two frames with it off, with it
    /// off between two with it on, and with it on between one with it off and a rise.
    refused: [u64; 3],
    /// Rises with an accepted reset between them and the frame with bit 6 off.
    resets: u64,
    /// Loss and over latches that went on after a rise, and how many of them as soon as can be, in T + 71 + length.
    latched: [u64; 2],
    at_once: [u64; 2],
    /// Frames whose output byte is another on a relay that does not settle again.
    changed: u64,
}

/// Changed levels.
#[derive(Default)]
struct Changes {
    refusals: Refusals,
    /// Refused by 2 where the levels are wrong too, and by 1 where a restraint level is above 100 too.
    first: [u64; 2],
    /// Accepted, to the levels in force.
    equal: u64,
    runs: RunsAtChanges,
    /// Loss and over latches that an accepted change found on and that stayed, though their run's own level moved.
    outlived: [u64; 2],
    /// Accepted right after an accepted one that it takes back.
    back: u64,
    /// Frames of the lists whose output byte is another on a relay whose changes keep every run, and on one whose
    /// changes make every run 0.
    told: [u64; 2],
}

/// Resets in two strokes.
#[derive(Default)]
struct Strokes {
    /// Pairs of masks with no channel in common, with some, and of the same channels.
    pairs: [u64; 3],
    /// Pairs in which each stroke clears a run or a latch that the other leaves.
    each: u64,
    /// Lists of masks, by how many are in them.
    lists: [u64; 9],
}

/// A steady wave of period eight, its second harmonic, and some noise.
#[derive(Clone, Copy)]
struct Wave {
    cosine: i64,
    sine: i64,
    second: [i64; 2],
    noise: i64,
}

impl Wave {
    fn random(prng: &mut Prng) -> Wave {
        let peak = [20, 120, 360][prng.below(3) as usize];
        let noise = [0, 0, 1, 4][prng.below(4) as usize];
        let second = if prng.once_in(4) { 0 } else { peak / 3 };
        let second = [prng.within(-second, second), prng.within(-second, second)];
        Wave { cosine: prng.within(-peak, peak), sine: prng.within(-peak, peak), second, noise }
    }

    fn code(&self, n: usize, prng: &mut Prng) -> u16 {
        let first = self.cosine * amplitude::COSINE[n % 8] + self.sine * amplitude::SINE[n % 8];
        let second = self.second[0] * amplitude::COSINE[2 * n % 8] + self.second[1] * amplitude::SINE[2 * n % 8];
        (512 + ((first + second + 8192) >> 14) + prng.within(-self.noise, self.noise)).clamp(0, 1023) as u16
    }

    /// Its amplitude of an order without the noise.
    fn amplitude_of_order(&self, order: u8) -> i64 {
        let still = Wave { noise: 0, ..*self };
        let mut prng = Prng(0);
        amplitude_of_order(&std::array::from_fn(|n| still.code(n, &mut prng) as i16 - 512), order)
    }

    fn amplitude(&self) -> i64 {
        self.amplitude_of_order(1)
    }
}

/// A level near the wave's amplitude; at times any level, or one at an end.
fn level(wave: &Wave, prng: &mut Prng) -> u16 {
    let level = match prng.below(10) {
        0 => prng.within(1, i64::from(HIGHEST_LEVEL)),
        1 => [1, 2, 10_699, 10_700][prng.below(4) as usize],
        2 => wave.amplitude() + prng.within(-60, 60),
        _ => wave.amplitude() + prng.within(-2, 3),
    };
    level.clamp(1, i64::from(HIGHEST_LEVEL)) as u16
}

/// A restraint level near the wave's second harmonic in hundredths of its fundamental; at times off, any level, or one at an end.
fn restraint(wave: &Wave, prng: &mut Prng) -> u8 {
    let level = match prng.below(10) {
        0 | 1 => 0,
        2 => prng.within(1, i64::from(HIGHEST_RESTRAINT)),
        3 => [1, 2, 99, 100][prng.below(4) as usize],
        _ => 100 * wave.amplitude_of_order(2) / wave.amplitude().max(1) + prng.within(-1, 2),
    };
    level.clamp(0, i64::from(HIGHEST_RESTRAINT)) as u8
}

/// One level out of range, or a restraint level, or both.
fn spoiled(mut levels: Levels, prng: &mut Prng) -> Levels {
    let wrong = [0, 10_701, 65_535][prng.below(3) as usize];
    let both = prng.once_in(4);
    let place = prng.below(12) as usize;
    match place {
        c @ 0..=5 => levels.drop[c] = wrong,
        c @ 6..=8 => levels.pickup[c - 6] = wrong,
        _ => {}
    }
    if place > 8 || both {
        levels.restraint[place % 3] = [101, 102, 128, 255][prng.below(4) as usize];
    }
    levels
}

/// A length: often an end of the range or one of the bench program's.
fn length(prng: &mut Prng) -> u8 {
    if prng.once_in(2) {
        [1, 4, 16, 24][prng.below(4) as usize]
    } else {
        prng.within(1, i64::from(HIGHEST_LENGTH)) as u8
    }
}

fn lengths(prng: &mut Prng) -> Lengths {
    Lengths { loss: length(prng), over: length(prng) }
}

/// One of them out of range, or both.
fn spoiled_lengths(mut lengths: Lengths, prng: &mut Prng) -> Lengths {
    let mut wrong = || [0, 0, 25, 26, 128, 255][prng.below(6) as usize];
    let (loss, over) = (wrong(), wrong());
    let which = prng.below(3);
    if which != 0 {
        lengths.loss = loss;
    }
    if which != 1 {
        lengths.over = over;
    }
    lengths
}

fn in_range(lengths: &Lengths) -> bool {
    [lengths.loss, lengths.over].iter().all(|length| (1..=HIGHEST_LENGTH).contains(length))
}

/// A fresh relay of both.
fn fresh(settings: Settings, seen: &mut Seen) -> (host::FreshAnswer, reference::Fresh) {
    let expected = reference::fresh(settings);
    let made = host::Relay::fresh(settings_of(&settings));
    assert_eq!((made.refusal, made.relay), (expected.number, relay_of(&expected.relay)), "fresh {settings:?}");
    seen.refusals.count(made.refusal);
    seen.calls += 1;
    let wrong = !in_range(&settings.lengths);
    seen.lengths.first[0] += u64::from(wrong && made.refusal == 1);
    seen.lengths.first[1] += u64::from(wrong && made.refusal == 20);
    assert!(!wrong || made.refusal != 0, "fresh {settings:?}");
    (made, expected)
}

/// A fresh relay of settings that are in range, at an end of it, or not.
fn fresh_of_any(prng: &mut Prng, seen: &mut Seen) {
    let wave = Wave::random(prng);
    let drop = std::array::from_fn(|_| level(&wave, prng));
    let pickup = std::array::from_fn(|_| level(&wave, prng));
    let restraint = std::array::from_fn(|_| restraint(&wave, prng));
    let levels = Levels { drop, pickup, restraint };
    let levels = if prng.once_in(2) { spoiled(levels, prng) } else { levels };
    let lengths = lengths(prng);
    let lengths = if prng.once_in(3) { spoiled_lengths(lengths, prng) } else { lengths };
    fresh(Settings { levels, lengths }, seen);
}

/// Bit 6 in the accepted frames of a list, and for how many more it stays so. In a third of the lists it is always on.
struct Switch {
    on: bool,
    left: Option<i64>,
}

impl Switch {
    fn random(prng: &mut Prng) -> Switch {
        let left = match prng.below(12) {
            0..=3 => None,
            // Off in frame 0, after which on in frame 1 is a rise.
            4 => Some(0),
            _ => Some(prng.within(1, 140)),
        };
        Switch { on: true, left }
    }

    fn turns(&self) -> bool {
        self.left == Some(0)
    }

    /// On for less than the relay needs to settle, for about as long, or for so long that latches go on; off mostly for
    /// a few frames.
    fn turn(&mut self, prng: &mut Prng) {
        self.on = !self.on;
        self.left = Some(match (self.on, prng.below(6)) {
            (true, 0) => prng.within(1, 70),
            (true, 1) => prng.within(71, 78),
            (true, _) => prng.within(76, 180),
            (false, 0) => prng.within(60, 80),
            (false, 1 | 2) => 1,
            (false, _) => prng.within(2, 8),
        });
    }

    fn next(&mut self, prng: &mut Prng) {
        if self.turns() {
            self.turn(prng);
        }
        self.left = self.left.map(|left| left - 1);
    }
}

/// What the calls of one list are made from.
struct Source {
    waves: [Wave; 6],
    /// Bits 0 to 5 of the enable byte.
    channels: u8,
    switch: Switch,
    frames: usize,
}

impl Source {
    /// Resets and refused frames come more often where the device is about to be switched.
    fn call(&mut self, prng: &mut Prng) -> Call {
        let turns = self.switch.turns();
        if prng.once_in(if turns { 4 } else { 30 }) {
            let mask = match prng.below(5) {
                0 => prng.below(256),
                1 => prng.below(64),
                _ => 1 << prng.below(6),
            };
            return Call::Reset { mask: mask as u8 };
        }
        if prng.once_in(60) {
            let wave = &mut self.waves[prng.below(6) as usize];
            wave.cosine = (wave.cosine + prng.within(-3, 3)).clamp(-360, 360);
            wave.second[0] = (wave.second[0] + prng.within(-2, 2)).clamp(-120, 120);
        }
        if prng.once_in(400) {
            self.waves[prng.below(6) as usize] = Wave::random(prng);
        }
        if prng.once_in(25) {
            self.channels = if prng.once_in(2) { 0x3F } else { 0x3F ^ 1 << prng.below(6) };
        }
        let mut codes = self.waves.map(|wave| wave.code(self.frames, prng));
        let share = if turns { 6 } else { 50 };
        let (bad_code, bad_enable) = (prng.once_in(share), prng.once_in(share));
        if bad_code || bad_enable {
            if bad_code {
                codes[prng.below(6) as usize] = [1024, 1025, 2048, 65_535][prng.below(4) as usize];
            }
            // With either bit 6: it is not remembered.
            let device = u8::from(prng.once_in(2)) << 6;
            return Call::Frame { codes, enable: u8::from(bad_enable) << 7 | device | self.channels };
        }
        self.switch.next(prng);
        self.frames += 1;
        Call::Frame { codes, enable: u8::from(self.switch.on) << 6 | self.channels }
    }
}

/// A list of calls on one relay.
fn list(prng: &mut Prng, seen: &mut Seen, by_history: bool, lengths: Lengths) {
    let waves = std::array::from_fn(|_| Wave::random(prng));
    let mut source = Source { waves, channels: 0x3F, switch: Switch::random(prng), frames: 0 };
    let drop = source.waves.map(|wave| level(&wave, prng));
    let pickup = std::array::from_fn(|k| level(&source.waves[FIRST_CURRENT + k], prng));
    let restraint = std::array::from_fn(|k| restraint(&source.waves[FIRST_CURRENT + k], prng));
    let mut levels = Levels { drop, pickup, restraint };
    if prng.once_in(25) {
        levels = spoiled(levels, prng);
    }
    let settings = Settings { levels, lengths };
    // After refusals 1, 20 and 21 the all-zero relay is handed on: each call is refused by 2.
    let length = if settings_refusal(&settings) == 0 { prng.below(500) } else { 10 };
    let calls: Vec<Call> = (0..length).map(|_| source.call(prng)).collect();
    play(settings, &calls, seen, by_history);
}

/// Makes the calls of a list on both. Where asked, the archive's answers are held to the history of the list too.
fn play(settings: Settings, calls: &[Call], seen: &mut Seen, by_history: bool) {
    let (made, expected) = fresh(settings, seen);
    let mut step = Step { ours: made.relay, theirs: expected.relay, shown: 0, hidden: 0 };
    let mut watch = Watch::of(expected.relay);
    let mut wrong = [true, false].map(|keeps| WrongChange { keeps, relay: expected.relay });
    let exchanged = Lengths { loss: settings.lengths.over, over: settings.lengths.loss };
    let mut other = [BENCH, exchanged].map(|lengths| reference::fresh(Settings { lengths, ..settings }).relay);
    let mut answers = Vec::new();
    for &call in calls {
        let before = step.theirs;
        let output = step.make(call, seen);
        if made.refusal != 0 {
            continue;
        }
        watch.look_at(call, &before, &step.ours, output, &mut seen.settling);
        for (told, wrong) in seen.changes.told.iter_mut().zip(&mut wrong) {
            *told += u64::from(wrong.output(call) != output);
        }
        for (told, relay) in seen.lengths.told.iter_mut().zip(&mut other).filter(|_| settings.lengths != BENCH) {
            *told += u64::from(output_of(relay, call) != output);
        }
        answers.push((output, step.ours));
    }
    if by_history && made.refusal == 0 {
        hold_to_history(settings, calls, &answers);
        seen.by_history += 1;
    }
    seen.changes.back += changes_back(settings, calls);
}

/// Accepted changes to the levels that the accepted change right before them replaced with others.
fn changes_back(settings: Settings, calls: &[Call]) -> u64 {
    let mut in_force = settings.levels;
    let mut replaced = None;
    let mut back = 0;
    for call in calls {
        let Call::Change(new) = *call else {
            replaced = None;
            continue;
        };
        if levels_refusal(&new) == 0 {
            back += u64::from(replaced == Some(new) && new != in_force);
            (replaced, in_force) = (Some(in_force), new);
        }
    }
    back
}

/// Makes a call on a relay of the second implementation: the output byte, 0 for a reset or a change.
fn output_of(relay: &mut reference::Relay, call: Call) -> u8 {
    if let Call::Frame { codes, enable } = call {
        let answer = reference::frame(*relay, codes, enable);
        *relay = answer.relay;
        return answer.output;
    }
    *relay = trace::play(*relay, &call).0;
    0
}

/// A relay whose accepted changes keep every run, or make every run 0.
struct WrongChange {
    keeps: bool,
    relay: reference::Relay,
}

impl WrongChange {
    /// The output byte of a call, 0 for a reset or a change.
    fn output(&mut self, call: Call) -> u8 {
        match call {
            Call::Change(levels) if levels_refusal(&levels) == 0 => {
                self.relay.settings.levels = levels;
                for channel in self.relay.channels.iter_mut().filter(|_| !self.keeps) {
                    (channel.loss_run, channel.over_run) = (0, 0);
                }
                0
            }
            _ => output_of(&mut self.relay, call),
        }
    }
}

/// The archive's relay and the second implementation's, in step.
struct Step {
    ours: host::Relay,
    theirs: reference::Relay,
    /// The last accepted frame's output byte, and the bits that a disabled channel hid since they were last shown.
    shown: u8,
    hidden: u8,
}

impl Step {
    /// Makes the call on both relays and compares all that comes back; answers the output byte, 0 for a reset or a
    /// change.
    fn make(&mut self, call: Call, seen: &mut Seen) -> u8 {
        let before = self.theirs;
        let (refusal, output) = match call {
            Call::Frame { codes, enable } => {
                let expected = reference::frame(self.theirs, codes, enable);
                let answer = self.ours.frame(codes, enable);
                compare_frame(&answer, &expected, &before, call);
                self.theirs = expected.relay;
                self.ours = answer.relay;
                if answer.refusal == 0 {
                    let counted = before.age == FULL_AGE && !is_rise(&before, enable);
                    self.look_at(&answer, counted, enable, seen);
                    seen.restraint.look_at(&answer, counted, enable);
                }
                (answer.refusal, answer.output)
            }
            Call::Reset { mask } => {
                let expected = reference::reset(self.theirs, mask);
                let answer = self.ours.reset(mask);
                assert_eq!(
                    (answer.refusal, answer.relay),
                    (expected.number, relay_of(&expected.relay)),
                    "{call:?} on {before:?}"
                );
                self.theirs = expected.relay;
                self.ours = answer.relay;
                (answer.refusal, 0)
            }
            Call::Change(levels) => {
                let expected = reference::change(self.theirs, levels);
                let answer = self.ours.change(levels_of(&levels));
                assert_eq!(
                    (answer.refusal, answer.relay),
                    (expected.number, relay_of(&expected.relay)),
                    "{call:?} on {before:?}"
                );
                self.theirs = expected.relay;
                self.ours = answer.relay;
                hold_to_words(&before, &levels, &answer);
                seen.changes.look_at(&levels, answer.refusal, &before, &self.theirs);
                (answer.refusal, 0)
            }
        };
        seen.calls += 1;
        seen.refusals.count(refusal);
        for (old, new) in before.channels.iter().zip(&self.theirs.channels) {
            seen.trips[0] += u64::from(!old.loss_latch && new.loss_latch);
            seen.trips[1] += u64::from(!old.over_latch && new.over_latch);
            seen.cleared += u64::from((old.loss_latch || old.over_latch) && !(new.loss_latch || new.over_latch));
            let Lengths { loss, over } = before.settings.lengths;
            let went_on = [!old.loss_latch && new.loss_latch, !old.over_latch && new.over_latch];
            for (k, (length, bench)) in [(loss, BENCH.loss), (over, BENCH.over)].into_iter().enumerate() {
                seen.lengths.long[k] += u64::from(went_on[k] && length > bench);
                seen.lengths.short[k] += u64::from(went_on[k] && length < bench);
            }
        }
        output
    }

    /// An accepted frame: the exact rule, and what is met.
    fn look_at(&mut self, answer: &host::FrameAnswer, counted: bool, enable: u8, seen: &mut Seen) {
        within_2(answer);
        seen.amplitudes += 6;
        seen.counted += u64::from(counted);
        for c in 0..6 {
            let bit = 1 << c;
            if !is_enabled(enable, c) && self.shown & bit != 0 {
                self.hidden |= bit;
            } else if answer.output & bit != 0 && self.hidden & bit != 0 {
                seen.returned += 1;
                self.hidden &= !bit;
            }
        }
        self.shown = answer.output;
    }
}

fn is_rise(before: &reference::Relay, enable: u8) -> bool {
    enable & 0x40 != 0 && !before.device_on
}

/// What a list has met of the device switch.
struct Watch {
    /// Accepted frames since the latest rise, itself not among them.
    since_rise: Option<u64>,
    /// Since the latest accepted frame: a frame with bit 6 off was refused, one with it on was, a reset was accepted.
    refused: [bool; 2],
    reset: bool,
    /// The same calls on a relay that remembers on whatever it met, and so never settles again.
    unsettled: reference::Relay,
}

impl Watch {
    fn of(fresh: reference::Relay) -> Watch {
        Watch { since_rise: None, refused: [false; 2], reset: false, unsettled: fresh }
    }

    /// A call on a relay that came of a fresh one, and the relay and the output byte that it answered.
    fn look_at(&mut self, call: Call, before: &reference::Relay, after: &host::Relay, output: u8, seen: &mut Settling) {
        let (codes, enable) = match call {
            Call::Frame { codes, enable } => (codes, enable),
            Call::Reset { mask } => {
                self.unsettled = reference::reset(self.unsettled, mask).relay;
                self.reset |= reset_refusal(mask) == 0;
                return;
            }
            Call::Change(levels) => {
                self.unsettled = reference::change(self.unsettled, levels).relay;
                return;
            }
        };
        let on = enable & 0x40 != 0;
        if frame_refusal(&codes, enable) != 0 {
            self.refused[usize::from(on)] = true;
            return;
        }
        let unsettled = reference::frame(self.unsettled, codes, enable);
        self.unsettled = reference::Relay { device_on: true, ..unsettled.relay };
        seen.changed += u64::from(output != unsettled.output);

        let rise = is_rise(before, enable);
        seen.falls += u64::from(before.device_on && !on);
        seen.refused[0] += u64::from(!before.device_on && !on && self.refused[1]);
        seen.refused[1] += u64::from(before.device_on && on && self.refused[0]);
        seen.refused[2] += u64::from(rise && self.refused[1]);
        if rise {
            seen.rises[usize::from(before.age < FULL_AGE)] += 1;
            seen.again += u64::from(self.since_rise.is_some_and(|frames| frames + 1 < u64::from(FULL_AGE)));
            seen.resets += u64::from(self.reset);
            assert_eq!(after.age, 1);
        }
        assert_eq!(after.device_on, on);
        self.since_rise = if rise { Some(0) } else { self.since_rise.map(|frames| frames + 1) };
        (self.refused, self.reset) = ([false; 2], false);

        let Some(since) = self.since_rise else { return };
        for (old, new) in before.channels.iter().zip(&after.channels) {
            let latched = [!old.loss_latch && new.loss_latch, !old.over_latch && new.over_latch];
            let Lengths { loss, over } = before.settings.lengths;
            for (k, first) in [loss, over].map(|length| 71 + u64::from(length)).into_iter().enumerate() {
                assert!(!latched[k] || since >= first, "a latch went on in frame T + {since}");
                seen.latched[k] += u64::from(latched[k]);
                seen.at_once[k] += u64::from(latched[k] && since == first);
            }
        }
    }
}

impl Changes {
    /// A change, and the relay before and after it.
    fn look_at(&mut self, levels: &Levels, refusal: u8, before: &reference::Relay, after: &reference::Relay) {
        self.refusals.count(refusal);
        match refusal {
            2 => self.first[0] += u64::from(levels_refusal(levels) != 0),
            1 => self.first[1] += u64::from(levels.restraint.iter().any(|&r| r > HIGHEST_RESTRAINT)),
            0 => self.look_at_accepted(levels, before, after),
            _ => {}
        }
    }

    fn look_at_accepted(&mut self, levels: &Levels, before: &reference::Relay, after: &reference::Relay) {
        let old = &before.settings.levels;
        self.equal += u64::from(levels == old);
        self.runs.add_change(before, after);
        for (c, channel) in before.channels.iter().enumerate() {
            let moved = |latch: Latch| latch.own_level(old, c) != latch.own_level(levels, c);
            self.outlived[0] += u64::from(channel.loss_latch && moved(Latch::Loss));
            self.outlived[1] += u64::from(channel.over_latch && moved(Latch::Over));
        }
    }

    /// Prints what was met, and fails where a refusal came fewer than 100 times, or runs were kept or broken fewer than
    /// 10,000 times.
    fn show(&self, refusals: impl IntoIterator<Item = usize>) {
        let RunsAtChanges { loss_kept, loss_broken, over_kept, over_broken } = self.runs;
        self.refusals.show(refusals);
        let [unsound, level] = self.first;
        println!("  refused by 2 with wrong levels too {unsound}, by 1 with a restraint above 100 too {level}");
        println!("  runs kept and broken: loss {loss_kept} and {loss_broken}, over {over_kept} and {over_broken}");
        let [loss, over] = self.outlived;
        println!("  to the levels in force {}; latches on, level moved: loss {loss}, over {over}", self.equal);
        assert!([loss_kept, loss_broken, over_kept, over_broken].iter().all(|&count| count >= 10_000));
        assert!(self.first[1] >= 100 && self.equal >= 1_000 && self.outlived.iter().all(|&count| count >= 1_000));
    }
}

impl Restraint {
    fn look_at(&mut self, answer: &host::FrameAnswer, counted: bool, enable: u8) {
        let host::Levels { pickup, restraint, .. } = answer.relay.settings.levels;
        for k in 0..3 {
            let (m1, c) = (answer.amplitudes[FIRST_CURRENT + k], FIRST_CURRENT + k);
            if !counted || !is_enabled(enable, c) || m1 < pickup[k] || restraint[k] == 0 {
                continue;
            }
            let second = 100 * amplitude_of_order(&answer.relay.channels[c].samples, 2);
            let bound = i64::from(restraint[k]) * i64::from(m1);
            let feeds = second < bound;
            assert_eq!(answer.relay.channels[c].over_run > 0, feeds, "channel {c} of {answer:?}");
            self.fed += u64::from(feeds);
            self.kept += u64::from(!feeds);
            self.by_equality += u64::from(second == bound);
        }
    }
}

/// "Windows, slot, age, latches and the remembered bit 6 carry over", and the levels are the new ones; the lengths are
/// "fixed when it is made"; "refused [...] relay as given".
fn hold_to_words(before: &reference::Relay, levels: &Levels, answer: &host::ChangeAnswer) {
    let mut expected = relay_of(before);
    if answer.refusal == 0 {
        expected.settings.levels = levels_of(levels);
        for (channel, after) in expected.channels.iter_mut().zip(&answer.relay.channels) {
            (channel.loss_run, channel.over_run) = (after.loss_run, after.over_run);
        }
    }
    assert_eq!(answer.relay, expected, "{levels:?} on {before:?}");
}

fn compare_frame(answer: &host::FrameAnswer, expected: &reference::Framed, before: &reference::Relay, call: Call) {
    assert_eq!(
        (answer.refusal, answer.amplitudes, answer.output, answer.relay),
        (expected.number, expected.amplitudes, expected.output, relay_of(&expected.relay)),
        "{call:?} on {before:?}"
    );
}

/// Each amplitude is within 2 of the exact one of the window handed back, by the second implementation's own exact rule, and is never above
/// 10,700.
fn within_2(answer: &host::FrameAnswer) {
    for (channel, &m) in answer.relay.channels.iter().zip(&answer.amplitudes) {
        assert!(m <= HIGHEST_LEVEL, "{m} for {:?}", channel.samples);
        assert!(Exact::of(&channel.samples).within_2(i64::from(m)), "{m} for {:?}", channel.samples);
    }
}

/// Latches, output bytes, age, remembered bit 6 and levels after each call, by the history that is read from the list
/// alone; and the lengths, which stay.
fn hold_to_history(settings: Settings, calls: &[Call], answers: &[(u8, host::Relay)]) {
    let history = History::of(settings, calls);
    let mut n = 0;
    for (place, (output, relay)) in answers.iter().enumerate() {
        for (c, channel) in relay.channels.iter().enumerate() {
            let by_history = [Latch::Loss, Latch::Over].map(|latch| history.is_on(latch, c, place + 1));
            assert_eq!([channel.loss_latch, channel.over_latch], by_history, "channel {c} after call {place}");
        }
        let by_history = (history.age(place + 1), history.device_on(place + 1));
        assert_eq!((usize::from(relay.age), relay.device_on), by_history, "after call {place}");
        let by_history = Settings { levels: history.levels(place + 1), ..settings };
        assert_eq!(relay.settings, settings_of(&by_history), "after call {place}");
        if history.frames.get(n).is_some_and(|frame| frame.place == place) {
            assert_eq!(*output, history.output(n), "frame {n}");
            n += 1;
        }
    }
    assert_eq!(n, history.frames.len());
}

/// One call on a relay that a caller made up, sound or not.
fn handed_in(prng: &mut Prng, seen: &mut Seen) {
    // Restraint is next to the second harmonic in half of these.
    let (theirs, mut codes, _) = trace::frame_arguments(prng);
    let mut step = Step { ours: relay_of(&theirs), theirs, shown: 0, hidden: 0 };
    let call = if prng.once_in(4) {
        Call::Reset { mask: if prng.once_in(3) { prng.below(256) } else { prng.below(64) } as u8 }
    } else {
        if prng.once_in(10) {
            codes[prng.below(6) as usize] = [1024, 65_535][prng.below(2) as usize];
        }
        let enable = if prng.once_in(8) { prng.below(256) } else { 0x40 | prng.below(64) };
        Call::Frame { codes, enable: enable as u8 }
    };
    step.make(call, seen);
    if let Call::Frame { codes, enable } = call {
        let accepted = is_sound(&theirs) && frame_refusal(&codes, enable) == 0;
        let runs = theirs.channels.iter().any(|channel| channel.loss_run > 0 || channel.over_run > 0);
        seen.runs_kept += u64::from(accepted && is_rise(&theirs, enable) && theirs.age == FULL_AGE && runs);
    }
    let highest = theirs.settings.levels.restraint.into_iter().max().unwrap();
    let mut without = theirs;
    without.settings.levels.restraint = [0; 3];
    if is_sound(&without) && !is_sound(&theirs) {
        seen.by_restraint[usize::from(highest == 255)] += 1;
    }
}

/// One change on a relay that a caller made up, sound or not.
fn change_handed_in(prng: &mut Prng, seen: &mut Seen) {
    let (theirs, levels) = trace::change_arguments(prng);
    Step { ours: relay_of(&theirs), theirs, shown: 0, hidden: 0 }.make(Call::Change(levels), seen);
}

/// A run at its length, just below it, or anywhere up to it.
fn run(length: u8, prng: &mut Prng) -> u8 {
    match prng.below(4) {
        0 => prng.below(u64::from(length) + 1) as u8,
        1 => 0,
        _ => length.saturating_sub(prng.below(3) as u8),
    }
}

/// A run above its own length: by one, or by more, mostly at most 24.
fn run_above(length: u8, prng: &mut Prng) -> u8 {
    let above = length.saturating_add(1);
    match prng.below(8) {
        0 => 255,
        1..=3 => prng.within(above.into(), above.max(HIGHEST_LENGTH).into()) as u8,
        _ => above,
    }
}

/// Gives a relay lengths, in range or not, and runs about at them, at times above.
fn with_lengths(relay: &mut reference::Relay, prng: &mut Prng) {
    let own = lengths(prng);
    let own = if prng.once_in(5) { spoiled_lengths(own, prng) } else { own };
    relay.settings.lengths = own;
    for (c, channel) in relay.channels.iter_mut().enumerate() {
        channel.loss_run = run(own.loss, prng);
        channel.over_run = if c < FIRST_CURRENT { 0 } else { run(own.over, prng) };
    }
    if prng.once_in(3) {
        let current = &mut relay.channels[FIRST_CURRENT + prng.below(3) as usize];
        if prng.once_in(2) {
            current.over_run = run_above(own.over, prng);
        } else {
            relay.channels[prng.below(6) as usize].loss_run = run_above(own.loss, prng);
        }
    }
}

/// One call on a relay that a caller made up, with lengths of its own.
fn lengths_handed_in(prng: &mut Prng, seen: &mut Seen) {
    let (mut theirs, call) = if prng.once_in(4) {
        let (relay, levels) = trace::change_arguments(prng);
        (relay, Call::Change(levels))
    } else {
        let (relay, codes, enable) = trace::frame_arguments(prng);
        let mask = prng.below(64) as u8;
        (relay, if prng.once_in(4) { Call::Reset { mask } } else { Call::Frame { codes, enable } })
    };
    with_lengths(&mut theirs, prng);
    seen.lengths.look_at(&theirs);
    Step { ours: relay_of(&theirs), theirs, shown: 0, hidden: 0 }.make(call, seen);
}

/// The relay after accepted masks, one after another.
fn pressed(relay: host::Relay, masks: &[u8]) -> host::Relay {
    masks.iter().fold(relay, |relay, &mask| {
        let answer = relay.reset(mask);
        assert_eq!(answer.refusal, 0, "{mask} on {relay:?}");
        answer.relay
    })
}

/// Two masks, and a list of masks, on a sound relay that a caller made up: one after another, in another order and at
/// once.
fn strokes_handed_in(prng: &mut Prng, strokes: &mut Strokes) {
    let theirs = loop {
        let (mut relay, _, _) = trace::frame_arguments(prng);
        if prng.once_in(2) {
            with_lengths(&mut relay, prng);
        }
        if is_sound(&relay) {
            break relay;
        }
    };
    let relay = relay_of(&theirs);
    let a = prng.below(64) as u8;
    let b = if prng.once_in(8) { a } else { prng.below(64) as u8 };
    let at_once = pressed(relay, &[a | b]);
    assert_eq!(at_once, relay_of(&reference::reset(theirs, a | b).relay), "{a} | {b} on {theirs:?}");
    assert_eq!(pressed(relay, &[a, b]), at_once, "{a}, {b} on {theirs:?}");
    assert_eq!(pressed(relay, &[b, a]), at_once, "{b}, {a} on {theirs:?}");
    assert_eq!(pressed(relay, &[a, a]), pressed(relay, &[a]), "{a} twice on {theirs:?}");
    assert_eq!(pressed(relay, &[0]), relay, "0 on {theirs:?}");
    strokes.pairs[if a == b { 2 } else { usize::from(a & b != 0) }] += 1;
    strokes.each += u64::from(at_once != pressed(relay, &[a]) && at_once != pressed(relay, &[b]));

    let mut masks: Vec<u8> = (0..prng.below(9)).map(|_| prng.below(64) as u8 & prng.below(64) as u8).collect();
    let union = pressed(relay, &[masks.iter().fold(0, |union, mask| union | mask)]);
    assert_eq!(pressed(relay, &masks), union, "{masks:?} on {theirs:?}");
    for k in (1..masks.len()).rev() {
        masks.swap(k, prng.below(k as u64 + 1) as usize);
    }
    assert_eq!(pressed(relay, &masks), union, "{masks:?} on {theirs:?}");
    strokes.lists[masks.len()] += 1;
}

impl ByLengths {
    /// A relay that is handed in.
    fn look_at(&mut self, relay: &reference::Relay) {
        let own = relay.settings.lengths;
        let highest = |runs: fn(&reference::Channel) -> u8| relay.channels.iter().map(runs).max().unwrap();
        let runs = [highest(|channel| channel.loss_run), highest(|channel| channel.over_run)];
        let above = [runs[0] > own.loss, runs[1] > own.over];
        let mut without = *relay;
        for channel in &mut without.channels {
            channel.loss_run = channel.loss_run.min(own.loss);
            channel.over_run = channel.over_run.min(own.over);
        }
        let sound = is_sound(relay);
        let by_run = !sound && is_sound(&without) && runs.iter().all(|&run| run <= HIGHEST_LENGTH);
        let low = runs[0] <= BENCH.loss && runs[1] <= BENCH.over;
        let far = [runs[0] > BENCH.loss, runs[1] > BENCH.over];
        for k in 0..2 {
            self.above[k] += u64::from(by_run && above[k]);
            self.above_low[k] += u64::from(by_run && above[k] && low);
            self.beyond[k] += u64::from(sound && far[k]);
        }
        // Runs up to their lengths, of which one is out of range.
        without.settings.lengths = Lengths { loss: HIGHEST_LENGTH, over: HIGHEST_LENGTH };
        for channel in &mut without.channels {
            (channel.loss_run, channel.over_run) = (0, 0);
        }
        if above == [false; 2] && !in_range(&own) && is_sound(&without) {
            assert!(!sound);
            self.out_of_range[0] += u64::from(own.loss == 0 || own.over == 0);
            self.out_of_range[1] += u64::from(own.loss > HIGHEST_LENGTH || own.over > HIGHEST_LENGTH);
        }
    }
}

/// One window for an order, in range or not.
fn estimate(prng: &mut Prng, seen: &mut Seen) {
    let spread = [3, 60, 512][prng.below(3) as usize];
    let wave = Wave::random(prng);
    let mut samples: [i16; 8] = match prng.below(4) {
        0 => std::array::from_fn(|_| [-512, 511][prng.below(2) as usize]),
        1 => std::array::from_fn(|n| wave.code(n, prng) as i16 - 512),
        _ => std::array::from_fn(|_| prng.within(-spread, spread - 1) as i16),
    };
    if prng.once_in(10) {
        samples[prng.below(8) as usize] = [-513, 512, i16::MIN, i16::MAX, 1023, -1024][prng.below(6) as usize];
    }
    let order = match prng.below(12) {
        0 => prng.below(256) as u8,
        1 => [0, 4][prng.below(2) as usize],
        _ => 1 + prng.below(3) as u8,
    };
    let expected = reference::estimate(samples, order);
    let answer = host::estimate(samples, order);
    assert_eq!((answer.refusal, answer.amplitude), (expected.refusal, expected.amplitude), "order {order} of {samples:?}");
    seen.refusals.count(answer.refusal);
    if answer.refusal == 0 {
        let m = answer.amplitude;
        assert!(m <= if order == 2 { 11_599 } else { HIGHEST_LEVEL }, "{m} for order {order} of {samples:?}");
        assert!(Exact::of_order(&samples, order).within_2(i64::from(m)), "{m} for order {order} of {samples:?}");
        seen.estimates[usize::from(order) - 1] += 1;
    }
}

fn main() {
    let flags = Flags::given();
    let mut seen = Seen::default();
    let lists = 4_000 * flags.times;
    let mut prng = flags.prng(1);
    for k in 0..lists {
        list(&mut prng, &mut seen, k % 20 == 0, BENCH);
    }
    let (in_lists, trips, cleared, restraint) = (seen.calls, seen.trips, seen.cleared, seen.restraint);
    let mut prng = flags.prng(2);
    let made_up = 400_000 * flags.times;
    for _ in 0..made_up {
        handed_in(&mut prng, &mut seen);
    }
    let mut prng = flags.prng(3);
    for _ in 0..20_000 * flags.times {
        fresh_of_any(&mut prng, &mut seen);
    }
    let mut prng = flags.prng(4);
    let estimates = 400_000 * flags.times;
    for _ in 0..estimates {
        estimate(&mut prng, &mut seen);
    }
    // Apart, so that what the other calls have to meet is met without these.
    let mut changing = Seen::default();
    let mut prng = flags.prng(5);
    let changing_lists = 800 * flags.times;
    for k in 0..changing_lists {
        let (settings, calls) = trace::list(&mut prng);
        play(settings, &calls, &mut changing, k % 4 == 0);
    }
    let mut made_up_changes = Seen::default();
    let mut prng = flags.prng(6);
    for _ in 0..100_000 * flags.times {
        change_handed_in(&mut prng, &mut made_up_changes);
    }
    // Apart as well: lengths of their own.
    let mut with_lengths = Seen::default();
    let mut prng = flags.prng(7);
    let lists_with_lengths = 2_000 * flags.times;
    for k in 0..lists_with_lengths {
        let own = lengths(&mut prng);
        let own = if prng.once_in(10) { spoiled_lengths(own, &mut prng) } else { own };
        list(&mut prng, &mut with_lengths, k % 20 == 0, own);
    }
    let mut prng = flags.prng(8);
    let changing_with_lengths = 400 * flags.times;
    for k in 0..changing_with_lengths {
        let (settings, calls) = trace::list(&mut prng);
        let settings = Settings { lengths: lengths(&mut prng), ..settings };
        play(settings, &calls, &mut with_lengths, k % 4 == 0);
    }
    let mut made_up_lengths = Seen::default();
    let mut prng = flags.prng(9);
    for _ in 0..200_000 * flags.times {
        lengths_handed_in(&mut prng, &mut made_up_lengths);
    }
    let mut strokes = Strokes::default();
    let mut prng = flags.prng(10);
    let made_up_strokes = 50_000 * flags.times;
    for _ in 0..made_up_strokes {
        strokes_handed_in(&mut prng, &mut strokes);
    }
    println!(
        "calls: {in_lists} in {lists} lists, {made_up} on relays that a caller made up, {estimates} estimates, seed {}: all agree",
        flags.seed
    );
    seen.refusals.show([1, 2, 3, 4, 5, 19, 20, 21]);
    let [level, restrained] = seen.lengths.first;
    println!("  fresh relays refused with a length out of range too: by 1 {level}, by 20 {restrained}");
    assert!(level >= 100 && restrained >= 100);
    println!("  counted frames {}, amplitudes within 2 of the exact one {}", seen.counted, seen.amplitudes);
    println!(
        "  trips in the lists: loss {}, over {}; latches cleared by a reset {}; output bits that came back with the enable {}",
        trips[0], trips[1], cleared, seen.returned
    );
    println!("  lists held to the latch history too: {}", seen.by_history);
    for (of, Restraint { fed, kept, by_equality }) in [("the lists", restraint), ("all calls", seen.restraint)] {
        println!("  currents at their pickup under restraint in {of}: {fed} feed the run, {kept} do not, {by_equality} of these by equality");
    }
    let Settling { falls, rises, again, refused, resets, latched, at_once, changed } = seen.settling;
    println!(
        "  device in the lists: off {falls}, on again at age 72 {} and below {}, {again} within 72 frames of a rise",
        rises[0], rises[1]
    );
    println!(
        "  frames refused with bit 6 the other way: while off {}, while on {}, before a rise {}; resets there {resets}",
        refused[0], refused[1], refused[2]
    );
    println!(
        "  latches after a rise T: loss {}, in T + 87 {}; over {}, in T + 75 {}; output bytes changed by it {changed}",
        latched[0], at_once[0], latched[1], at_once[1]
    );
    println!("  relays handed in, at age 72 and with a run, that a frame settles again: {}", seen.runs_kept);
    println!("  relays handed in that a restraint level alone makes unsound: {} and, by 255, {}", seen.by_restraint[0], seen.by_restraint[1]);
    println!("  accepted estimates of orders 1, 2, 3, each within 2 of the exact one: {:?}", seen.estimates);
    assert!(restraint.fed >= 10_000 && restraint.kept >= 10_000 && seen.restraint.by_equality >= 100);
    assert!(seen.by_restraint.iter().all(|&count| count >= 1_000) && seen.estimates.iter().all(|&count| count >= 50_000));
    assert!(in_lists >= 200_000 && seen.counted >= 100_000 && seen.by_history >= 100);
    assert!(trips.iter().all(|&count| count >= 1_000) && cleared >= 1_000 && seen.returned >= 1_000);
    assert!(falls >= 3_000 && rises.iter().all(|&count| count >= 1_000) && again >= 300 && resets >= 300);
    assert!(refused.iter().all(|&count| count >= 100) && changed >= 10_000 && seen.runs_kept >= 10_000);
    assert!(latched.iter().all(|&count| count >= 500) && at_once.iter().all(|&count| count >= 100));

    let Changes { told, back, .. } = changing.changes;
    println!("calls: {} in {changing_lists} lists of the second implementation: all agree; changes:", changing.calls);
    changing.changes.show([1, 20]);
    println!("  changed back at once {back}; outputs that tell if all runs are kept {}, if none is {}", told[0], told[1]);
    println!("  lists held to the latch history too: {}", changing.by_history);
    assert!(changing.by_history >= 200 && back >= 1_000 && told.iter().all(|&count| count >= 1_000));
    println!("calls: {} changes on relays that a caller made up: all agree", made_up_changes.calls);
    made_up_changes.changes.show([1, 2, 20]);
    assert!(made_up_changes.changes.first[0] >= 100);

    let ByLengths { long, short, told, .. } = with_lengths.lengths;
    let Settling { latched, at_once, .. } = with_lengths.settling;
    println!("calls: {} with lengths of their own, in {lists_with_lengths} lists", with_lengths.calls);
    println!("  and in {changing_with_lengths} lists of the second implementation: all agree");
    with_lengths.refusals.show([1, 2, 3, 4, 5, 20, 21]);
    println!("  latches of loss lengths above 16 {}, below {}", long[0], short[0]);
    println!("  latches of over lengths above 4 {}, below {}", long[1], short[1]);
    println!("  output bytes that tell lengths from 16 and 4: {}, from the two exchanged: {}", told[0], told[1]);
    println!(
        "  latches after a rise T: loss {}, in T + 71 + length {}; over {}, in T + 71 + length {}",
        latched[0], at_once[0], latched[1], at_once[1]
    );
    println!("  lists held to the latch history too: {}", with_lengths.by_history);
    assert!(long.iter().chain(&short).all(|&count| count >= 1_000) && told.iter().all(|&count| count >= 10_000));
    assert!(latched.iter().chain(&at_once).all(|&count| count >= 100) && with_lengths.by_history >= 150);
    let ByLengths { above, above_low, beyond, out_of_range, .. } = made_up_lengths.lengths;
    println!("calls: {} on relays that a caller made up, with lengths of their own: all agree", made_up_lengths.calls);
    made_up_lengths.refusals.show([1, 2, 3, 4, 20]);
    println!(
        "  refused by 2 for a run above its own length, at most 24: loss {}, over {}; with none above 16 and 4: {}, {}",
        above[0], above[1], above_low[0], above_low[1]
    );
    println!("  sound with a loss run above 16 {}, an over run above 4 {}", beyond[0], beyond[1]);
    println!("  refused by 2 for a length alone: 0 {}, above 24 {}", out_of_range[0], out_of_range[1]);
    assert!(above.iter().chain(&above_low).chain(&beyond).chain(&out_of_range).all(|&count| count >= 1_000));

    let Strokes { pairs, each, lists } = strokes;
    println!("calls: two strokes and a list of strokes on {made_up_strokes} sound relays that a caller made up: all agree");
    println!("  masks with no channel in common {}, with some {}, the same {}", pairs[0], pairs[1], pairs[2]);
    println!("  both strokes clear what the other leaves {each}; lists of 0 to 8 masks {lists:?}");
    assert!(pairs.iter().chain(&lists).all(|&count| count >= 1_000) && each >= 10_000);
}
