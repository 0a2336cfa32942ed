//! Paper 14: one phase's history is its own. "Take two fresh relays with equal
//! settings for one channel and equal run lengths, and for each a list of accepted
//! frames, resets and changed levels. Strike the resets not naming it; let what is
//! left be the same kinds of call in the same order, alike in that channel's codes,
//! its own levels, its enable bit and bit 6. Then after each frame this channel's
//! amplitudes, runs, latches and output bits are alike in both."
//!
//! The law is asked on random pairs of lists, on two by hand, and of wrong relays.

use reference::amplitude::amplitude_of_order;
use reference::bench::LENGTHS;
use reference::levels::WAVE;
use reference::phases::{left, own, played, random_pair, Left, Own, Pair, Shown};
use reference::prng::Prng;
use reference::relay::{is_device_on, is_enabled, is_unrestrained, FULL_AGE};
use reference::*;

const CHANNELS: std::ops::Range<usize> = 0..6;

fn pairs(channel: usize, count: usize) -> impl Iterator<Item = Pair> {
    let mut prng = Prng(1400 + channel as u64);
    std::iter::repeat_with(move || random_pair(&mut prng, channel)).take(count)
}

/// A call on this crate's relay, answered as a frame is. A reset and a change have
/// no amplitudes and no output.
fn right(relay: Relay, call: &Call) -> Framed {
    if let Call::Frame { codes, enable } = *call {
        return frame(relay, codes, enable);
    }
    let (relay, number) = trace::play(relay, call);
    Framed { number, relay, amplitudes: [0; 6], output: 0 }
}

// What the pairs met.

/// The relay before a call, the call and its answer.
struct Step<'a> {
    before: Relay,
    call: &'a Call,
    answer: Framed,
}

fn steps(settings: Settings, calls: &[Call]) -> Vec<Step<'_>> {
    let mut before = fresh(settings).relay;
    let step = |call| {
        let answer = right(before, call);
        let step = Step { before, call, answer };
        before = answer.relay;
        step
    };
    calls.iter().map(step).collect()
}

fn names(call: &Call, channel: usize) -> bool {
    matches!(call, Call::Reset { mask } if mask >> channel & 1 == 1)
}

fn is_struck(call: &Call, channel: usize) -> bool {
    matches!(call, Call::Reset { .. }) && !names(call, channel)
}

/// Which latches of a channel a step turned on: loss, over.
fn tripped(step: &Step, channel: usize) -> [bool; 2] {
    let (old, new) = (step.before.channels[channel], step.answer.relay.channels[channel]);
    [new.loss_latch && !old.loss_latch, new.over_latch && !old.over_latch]
}

fn is_latched(relay: &Relay, channel: usize) -> bool {
    relay.channels[channel].loss_latch || relay.channels[channel].over_latch
}

fn runs(relay: &Relay, channel: usize) -> [u8; 2] {
    [relay.channels[channel].loss_run, relay.channels[channel].over_run]
}

/// A run that has begun and is not full.
fn goes(relay: &Relay, channel: usize) -> bool {
    let Lengths { loss, over } = relay.settings.lengths;
    let [loss_run, over_run] = runs(relay, channel);
    (1..loss).contains(&loss_run) || (1..over).contains(&over_run)
}

fn others(channel: usize) -> impl Iterator<Item = usize> {
    CHANNELS.filter(move |&c| c != channel)
}

/// What the pairs of one channel met, so that a test that saw little fails.
/// "One list only" is: there in one of the two lists and not in the other.
#[derive(Debug, Default)]
struct Seen {
    frames: usize,
    /// By loss and by over. A voltage has none by over.
    trips: [usize; 2],
    /// By kind and run length.
    trips_by_length: [[usize; 25]; 2],
    trips_after_a_rise: usize,
    /// By a run that a change with equal own levels had met on its way.
    trips_across_a_change: usize,
    /// In list 0 and in list 1.
    trips_of_others: [usize; 2],
    /// Trips of the channel where another one was latched before, or trips in the
    /// same frame, or trips within eight frames after it, in one list only.
    trips_after_another: usize,
    trips_with_another: usize,
    trips_before_another: usize,
    /// Frames after which another channel's latches differ between the lists.
    other_latches_differ: usize,
    other_codes_differ: usize,
    other_enables_differ: usize,
    off: usize,
    /// Latched and hidden by the channel's own bit, with bit 6 on.
    hidden: usize,
    falls: usize,
    rises: usize,
    rises_while_latched: usize,
    /// Counted frames with the amplitude within 2 of the drop or the pickup.
    next_to_a_level: usize,
    /// Counted frames that meet the pickup and are restrained.
    restrained: usize,
    struck: usize,
    struck_of_mask_0: usize,
    struck_while_a_run_goes: usize,
    struck_while_latched: usize,
    struck_in_a_row: usize,
    struck_at_the_start: usize,
    struck_at_the_end: usize,
    /// Right before and right after a frame, a named reset, a change.
    struck_before: [usize; 3],
    struck_after: [usize; 3],
    /// Pairs in which one list has struck resets and the other none.
    struck_in_one_list: usize,
    named: usize,
    named_with_other_bits_different: usize,
    named_while_a_run_goes: usize,
    named_while_latched: usize,
    changes: usize,
    changes_with_other_levels_different: usize,
    /// Changes that move other channels' levels in one list only.
    changes_of_others_in_one_list: usize,
    /// Changes with equal own levels while a run of the channel goes, by its kind;
    /// and those of them that move other levels in one list only.
    kept: [usize; 2],
    kept_beside_a_change_of_others: usize,
    broken: [usize; 2],
    /// Only drop, only pickup, only r moved.
    only: [usize; 3],
    back_again: usize,
}

fn look(pair: &Pair, seen: &mut Seen) {
    let k = pair.channel;
    let lists: [Vec<Step>; 2] = [0, 1].map(|side| steps(pair.settings[side], &pair.calls[side]));
    for (side, list) in lists.iter().enumerate() {
        let trips_of_others = |step: &Step| others(k).flat_map(|c| tripped(step, c)).filter(|&on| on).count();
        seen.trips_of_others[side] += list.iter().map(trips_of_others).sum::<usize>();
        look_at_struck(k, list, seen);
    }
    let struck = lists.each_ref().map(|list| list.iter().any(|step| is_struck(step.call, k)));
    seen.struck_in_one_list += usize::from(struck[0] != struck[1]);

    // What is left, side by side.
    let left = lists.each_ref().map(|list| list.iter().filter(|step| !is_struck(step.call, k)).collect::<Vec<_>>());
    assert_eq!(left[0].len(), left[1].len());
    let mut has_risen = false;
    let mut across = [false; 2];
    for at in 0..left[0].len() {
        let both = [left[0][at], left[1][at]];
        let step = both[0];
        let going = goes(&step.before, k);
        match (step.call, both[1].call) {
            (Call::Frame { codes, enable }, Call::Frame { codes: other_codes, enable: other_enable }) => {
                let rise = is_device_on(*enable) && !step.before.device_on;
                has_risen |= rise;
                let latched = is_latched(&step.answer.relay, k);
                seen.frames += 1;
                seen.other_codes_differ += usize::from(codes != other_codes);
                seen.other_enables_differ += usize::from(enable != other_enable);
                seen.other_latches_differ += usize::from(others(k).any(|c| {
                    let latches = |step: &Step| {
                        let held = step.answer.relay.channels[c];
                        (held.loss_latch, held.over_latch)
                    };
                    latches(both[0]) != latches(both[1])
                }));
                seen.off += usize::from(enable >> k & 1 == 0);
                seen.hidden += usize::from(latched && enable >> k & 1 == 0 && is_device_on(*enable));
                seen.falls += usize::from(!is_device_on(*enable) && step.before.device_on);
                seen.rises += usize::from(rise);
                seen.rises_while_latched += usize::from(rise && latched);
                if step.before.age == FULL_AGE && !rise && is_enabled(*enable, k) {
                    look_at_levels(k, step, seen);
                }
                for (kind, on) in tripped(step, k).into_iter().enumerate().filter(|&(_, on)| on) {
                    let lengths = pair.settings[0].lengths;
                    seen.trips[kind] += 1;
                    seen.trips_by_length[kind][usize::from([lengths.loss, lengths.over][kind])] += 1;
                    seen.trips_after_a_rise += usize::from(on && has_risen);
                    seen.trips_across_a_change += usize::from(across[kind]);
                    let one_only = |is: &dyn Fn(usize) -> bool| usize::from(is(0) != is(1));
                    let trips = |step: &Step| others(k).any(|c| tripped(step, c) != [false; 2]);
                    seen.trips_after_another += one_only(&|side| others(k).any(|c| is_latched(&both[side].before, c)));
                    seen.trips_with_another += one_only(&|side| trips(both[side]));
                    seen.trips_before_another +=
                        one_only(&|side| left[side][at + 1..].iter().take(8).any(|s| trips(s)));
                }
                for kind in 0..2 {
                    across[kind] &= runs(&step.answer.relay, k)[kind] > 0;
                }
            }
            (Call::Reset { mask }, Call::Reset { mask: other_mask }) => {
                seen.named += 1;
                seen.named_with_other_bits_different += usize::from(mask != other_mask);
                seen.named_while_a_run_goes += usize::from(going);
                seen.named_while_latched += usize::from(is_latched(&step.before, k));
                across = [false; 2];
            }
            (Call::Change(new), Call::Change(other_new)) => {
                seen.changes += 1;
                seen.changes_with_other_levels_different += usize::from(new != other_new);
                let moved = [0, 1].map(|side| {
                    let (old, new) = (both[side].before.settings.levels, both[side].answer.relay.settings.levels);
                    others(k).any(|c| own(&old, c) != own(&new, c))
                });
                seen.changes_of_others_in_one_list += usize::from(moved[0] != moved[1]);
                let (old, new) = (own(&step.before.settings.levels, k), own(new, k));
                let (before, after) = (runs(&step.before, k), runs(&step.answer.relay, k));
                for kind in 0..2 {
                    if old == new && going && before[kind] > 0 {
                        seen.kept[kind] += 1;
                        across[kind] = true;
                    }
                    seen.broken[kind] += usize::from(before[kind] > 0 && after[kind] == 0);
                    across[kind] &= after[kind] > 0;
                }
                seen.kept_beside_a_change_of_others += usize::from(old == new && going && moved[0] != moved[1]);
                let (old_over, new_over) = (old.over.unwrap_or_default(), new.over.unwrap_or_default());
                let differs = [old.drop != new.drop, old_over.0 != new_over.0, old_over.1 != new_over.1];
                for level in 0..3 {
                    seen.only[level] += usize::from((0..3).all(|other| differs[other] == (other == level)));
                }
                let levels_before = |step: &Step| own(&step.before.settings.levels, k);
                let previous = at.checked_sub(1).map(|at| left[0][at]);
                seen.back_again += usize::from(previous.is_some_and(|previous| {
                    matches!(previous.call, Call::Change(_)) && old != new && levels_before(previous) == new
                }));
            }
            calls => panic!("not the same kind: {calls:?}"),
        }
    }
}

/// A counted frame with the channel enabled.
fn look_at_levels(k: usize, step: &Step, seen: &mut Seen) {
    let m = i64::from(step.answer.amplitudes[k]);
    let Own { drop, over } = own(&step.before.settings.levels, k);
    let near = |level: u16| (m - i64::from(level)).abs() <= 2;
    seen.next_to_a_level += usize::from(near(drop) || over.is_some_and(|(pickup, _)| near(pickup)));
    if let Some((pickup, r)) = over {
        let second = amplitude_of_order(&step.answer.relay.channels[k].samples, 2);
        seen.restrained += usize::from(m >= i64::from(pickup) && !is_unrestrained(r, m, second));
    }
}

fn look_at_struck(k: usize, list: &[Step], seen: &mut Seen) {
    let kind = |step: &Step| match step.call {
        Call::Frame { .. } => 0,
        Call::Reset { .. } => 1,
        Call::Change(_) => 2,
    };
    for (at, step) in list.iter().enumerate().filter(|(_, step)| is_struck(step.call, k)) {
        seen.struck += 1;
        seen.struck_of_mask_0 += usize::from(*step.call == Call::Reset { mask: 0 });
        seen.struck_while_a_run_goes += usize::from(goes(&step.before, k));
        seen.struck_while_latched += usize::from(is_latched(&step.before, k));
        seen.struck_at_the_start += usize::from(at == 0);
        seen.struck_at_the_end += usize::from(at + 1 == list.len());
        match list.get(at + 1) {
            Some(next) if is_struck(next.call, k) => seen.struck_in_a_row += 1,
            Some(next) => seen.struck_before[kind(next)] += 1,
            None => {}
        }
        if at > 0 && !is_struck(list[at - 1].call, k) {
            seen.struck_after[kind(&list[at - 1])] += 1;
        }
    }
}

impl Seen {
    /// Every count with its floor. What does not reach it is answered.
    fn short_of(&self, k: usize) -> Vec<String> {
        let is_current = k >= 3;
        let mut floors = vec![
            ("frames", self.frames, 100_000),
            ("trips by loss", self.trips[0], 700),
            ("trips after a rise", self.trips_after_a_rise, 200),
            ("trips across a change", self.trips_across_a_change, 90),
            ("trips of others in list 0", self.trips_of_others[0], 4000),
            ("trips of others in list 1", self.trips_of_others[1], 4000),
            ("trips after another", self.trips_after_another, 200),
            ("trips with another", self.trips_with_another, 300),
            ("trips before another", self.trips_before_another, 300),
            ("other latches differ", self.other_latches_differ, 40_000),
            ("other codes differ", self.other_codes_differ, 100_000),
            ("other enables differ", self.other_enables_differ, 100_000),
            ("off", self.off, 9000),
            ("hidden", self.hidden, 1000),
            ("falls", self.falls, 700),
            ("rises", self.rises, 700),
            ("rises while latched", self.rises_while_latched, 200),
            ("next to a level", self.next_to_a_level, 3000),
            ("struck", self.struck, 30_000),
            ("struck of mask 0", self.struck_of_mask_0, 9000),
            ("struck while a run goes", self.struck_while_a_run_goes, 4000),
            ("struck while latched", self.struck_while_latched, 7000),
            ("struck in a row", self.struck_in_a_row, 10_000),
            ("struck at the start", self.struck_at_the_start, 300),
            ("struck at the end", self.struck_at_the_end, 300),
            ("struck before a frame", self.struck_before[0], 10_000),
            ("struck before a named reset", self.struck_before[1], 900),
            ("struck before a change", self.struck_before[2], 1000),
            ("struck after a frame", self.struck_after[0], 10_000),
            ("struck after a named reset", self.struck_after[1], 900),
            ("struck after a change", self.struck_after[2], 1000),
            ("struck in one list", self.struck_in_one_list, 100),
            ("named", self.named, 1000),
            ("named with other bits different", self.named_with_other_bits_different, 1000),
            ("named while a run goes", self.named_while_a_run_goes, 300),
            ("named while latched", self.named_while_latched, 600),
            ("changes", self.changes, 2000),
            ("changes with other levels different", self.changes_with_other_levels_different, 2000),
            ("changes of others in one list", self.changes_of_others_in_one_list, 1000),
            ("loss runs kept", self.kept[0], 300),
            ("runs kept beside a change of others", self.kept_beside_a_change_of_others, 100),
            ("loss runs broken", self.broken[0], 300),
            ("only drop moved", self.only[0], 400),
            ("changed and changed back", self.back_again, 100),
        ];
        if is_current {
            floors.extend([
                ("trips by over", self.trips[1], 600),
                ("restrained", self.restrained, 5000),
                ("over runs kept", self.kept[1], 300),
                ("over runs broken", self.broken[1], 300),
                ("only pickup moved", self.only[1], 400),
                ("only r moved", self.only[2], 300),
            ]);
        } else {
            assert_eq!((self.trips[1], self.restrained, self.kept[1], self.broken[1]), (0, 0, 0, 0));
        }
        let mut short = Vec::new();
        for (what, count, floor) in floors {
            let text = format!("channel {k}: {what} {count}, at least {floor}");
            println!("{text}");
            if count < floor {
                short.push(text);
            }
        }
        short
    }
}

#[test]
fn the_law_on_random_pairs() {
    let mut trips_by_length = [[0; 25]; 2];
    let mut short = Vec::new();
    for k in CHANNELS {
        let mut seen = Seen::default();
        for pair in pairs(k, 1000) {
            assert!(pair.is_alike());
            assert_eq!(pair.channel, k);
            assert_ne!(pair.settings[0], pair.settings[1]);
            let shown = [played(&pair, 0), played(&pair, 1)];
            assert_eq!(shown[0], shown[1]);
            look(&pair, &mut seen);
        }
        short.extend(seen.short_of(k));
        for kind in 0..2 {
            for length in 0..25 {
                trips_by_length[kind][length] += seen.trips_by_length[kind][length];
            }
        }
    }
    println!("trips by length {trips_by_length:?}");
    assert!(short.is_empty(), "{short:#?}");
    assert!(trips_by_length.iter().all(|kind| kind[1..].iter().all(|&trips| trips >= 15)));
}

// By hand.

fn still(n: usize) -> u16 {
    [512, 612][usize::from(n == 72 || n == 76 || n == 84)]
}

/// Both lists of a pair from what is left for the channel. Each of the two functions
/// is given the call and the number of frames before it, and answers the calls that
/// stand in its list for it.
fn by_hand(
    channel: usize,
    settings: [Settings; 2],
    script: &[Left],
    filled: [&dyn Fn(&Left, usize) -> Vec<Call>; 2],
) -> Pair {
    let calls = filled.map(|filled| {
        let mut frames = 0;
        let mut calls = Vec::new();
        for left in script {
            calls.extend(filled(left, frames));
            frames += usize::from(matches!(left, Left::Frame { .. }));
        }
        calls
    });
    for list in &calls {
        assert_eq!(left(channel, list), script);
    }
    Pair { channel, settings, calls }
}

/// What is left, on a list where each kind of call is met.
#[test]
fn what_is_left() {
    let levels = Levels { drop: [1, 2, 3, 4, 5, 6], pickup: [7, 8, 9], restraint: [10, 11, 12] };
    let calls = [
        Call::Reset { mask: 0 },
        Call::Frame { codes: [20, 21, 22, 23, 24, 25], enable: 0b101_0010 },
        Call::Reset { mask: 0b01_0010 },
        Call::Frame { codes: [30, 31, 32, 33, 34, 35], enable: 0b010_1101 },
        Call::Change(levels),
        Call::Reset { mask: 0b11_1111 },
        Call::Reset { mask: 0b10_1101 },
    ];
    let frame = |code, enabled, device_on| Left::Frame { code, enabled, device_on };
    let change = |drop, over| Left::Change(Own { drop, over });
    let of_4 = [frame(24, true, true), Left::Reset, frame(34, false, false), change(5, Some((8, 11))), Left::Reset];
    assert_eq!(left(4, &calls), of_4);
    let of_1 = [frame(21, true, true), Left::Reset, frame(31, false, false), change(2, None), Left::Reset];
    assert_eq!(left(1, &calls), of_1);
    let of_2 = [frame(22, false, true), frame(32, true, false), change(3, None), Left::Reset, Left::Reset];
    assert_eq!(left(2, &calls), of_2);
}

/// By hand, from document 01's figures: no sample but 0 gives m = 0; 100 in slot 0
/// alone gives 400. 100 in slot 4 alone has the same |Re| and gives 400. 100 in both
/// has Re = 0 and gives 0. Of order 2 the weight of slots 0 and 4 is 16384, so the
/// second harmonic of 100 in slot 4 is 400 too, and r = 100 restrains: 40000 is not
/// less than 40000. Loss length 3, over length 2.
#[test]
fn a_current_by_hand() {
    let k = 4;
    let own_levels = |drop, pickup, r| Left::Change(Own { drop, over: Some((pickup, r)) });
    let mut script = Vec::new();
    for n in 0..87 {
        script.push(Left::Frame { code: still(n), enabled: n != 74, device_on: n != 84 });
        match n {
            72 => script.push(own_levels(400, 400, 0)),
            75 | 85 => script.push(Left::Reset),
            77 => script.push(own_levels(400, 400, 0)),
            78 => script.push(own_levels(400, 400, 100)),
            80 => script.push(own_levels(400, 400, 0)),
            81 => script.push(own_levels(400, 399, 0)),
            _ => {}
        }
    }
    let lengths = Lengths { loss: 3, over: 2 };
    // The others are still and meet their drops; nothing else is in this list.
    let plain = Levels { drop: [1; 6], pickup: [400; 3], restraint: [0; 3] };
    // The others have the wave, of amplitude 1603 and with no second harmonic.
    let other = Levels { drop: [10_700, 1, 1, 1, 1, 10_700], pickup: [1603, 400, 1603], restraint: [37, 0, 100] };
    let with = |mut levels: Levels, own: &Own| {
        levels.drop[k] = own.drop;
        (levels.pickup[1], levels.restraint[1]) = own.over.unwrap();
        levels
    };
    let one = |left: &Left, _: usize| match left {
        Left::Frame { code, enabled, device_on } => {
            let mut codes = [512; 6];
            codes[k] = *code;
            let enable = 0x2F | u8::from(*enabled) << k | u8::from(*device_on) << 6;
            vec![Call::Frame { codes, enable }]
        }
        Left::Reset => vec![Call::Reset { mask: 0x10 }],
        Left::Change(own) => vec![Call::Change(with(plain, own))],
    };
    // Resets of others before each call, and levels of others moved in each change.
    let two = |left: &Left, n: usize| {
        let struck = [0x00, 0x2F, 0x08, 0x20].map(|mask| Call::Reset { mask });
        let call = match left {
            Left::Frame { code, enabled, device_on } => {
                let mut codes = [WAVE[n % 8]; 6];
                codes[k] = *code;
                let enable = [0x2F, 0x2A][n % 2] | u8::from(*enabled) << k | u8::from(*device_on) << 6;
                Call::Frame { codes, enable }
            }
            Left::Reset => Call::Reset { mask: 0x3B },
            Left::Change(own) => {
                let moved = n as u16;
                let mut levels = with(other, own);
                (levels.drop[0], levels.drop[3], levels.pickup[0], levels.restraint[2]) = (moved, moved, moved, 99);
                Call::Change(levels)
            }
        };
        struck[..n % 5].iter().copied().chain([call]).collect()
    };
    let settings = [plain, other].map(|levels| Settings { levels, lengths });
    let pair = by_hand(k, settings, &script, [&one, &two]);
    assert!(pair.is_alike());

    let shown = |amplitude, [loss_run, over_run]: [u8; 2], [loss, over, output]: [u8; 3]| Shown {
        amplitude,
        loss_run,
        over_run,
        loss_latch: loss == 1,
        over_latch: over == 1,
        output: output == 1,
    };
    let mut expected = vec![shown(0, [0, 0], [0, 0, 0]); 72];
    expected.extend([
        // 72 is the first counted frame. The change after it moves only the drop.
        shown(400, [0, 1], [0, 0, 0]),
        // 73: the over run is full. 400 is not below the new drop.
        shown(400, [0, 2], [0, 1, 1]),
        // 74: the channel's bit is off. 75: and on again. Then the reset.
        shown(400, [0, 0], [0, 1, 0]),
        shown(400, [0, 1], [0, 1, 1]),
        // 76: 100 in slots 0 and 4. After 77 a change with equal own levels.
        shown(0, [1, 0], [0, 0, 0]),
        shown(0, [2, 0], [0, 0, 0]),
        // 78: the loss run is full. Then r alone moves, which the loss run does not mind.
        shown(0, [3, 0], [1, 0, 1]),
        shown(0, [3, 0], [1, 0, 1]),
        // 80: slot 0 is 0 again; restrained. Then r alone moves back.
        shown(400, [0, 0], [1, 0, 1]),
        // 81: after it the pickup alone moves, and the over run starts anew in 82.
        shown(400, [0, 1], [1, 0, 1]),
        shown(400, [0, 1], [1, 0, 1]),
        shown(400, [0, 2], [1, 1, 1]),
        // 84: bit 6 off. 85: a rise, nothing is counted, latches show. Then the reset.
        shown(400, [0, 0], [1, 1, 0]),
        shown(400, [0, 0], [1, 1, 1]),
        shown(400, [0, 0], [0, 0, 0]),
    ]);
    assert_eq!(expected.len(), 87);
    for side in 0..2 {
        assert_eq!(played(&pair, side), expected, "side {side}");
    }
    // The others: all trip by loss in frame 74 of the one list. In the other four resets
    // stand before frame 74 and none before 75, so 3 and 5 trip by over in frame 75.
    let latches_after = |side: usize, n: usize| {
        let list = steps(pair.settings[side], &pair.calls[side]);
        let frames = list.iter().filter(|step| matches!(step.call, Call::Frame { .. }));
        let relay = frames.map(|step| step.answer.relay).nth(n).unwrap();
        CHANNELS.filter(|&c| is_latched(&relay, c)).collect::<Vec<_>>()
    };
    assert_eq!((latches_after(0, 73), latches_after(0, 74)), (vec![4], vec![0, 1, 2, 3, 4, 5]));
    assert_eq!((latches_after(1, 74), latches_after(1, 75)), (vec![4], vec![3, 4, 5]));
}

/// By hand, from the figure "code 512 throughout, drop 1: loss latches in frame 87; in
/// frame 86 none". A reset after frame 90 starts the run anew: 16 frames more end at
/// frame 106. The change after frame 80 leaves the channel's drop equal.
#[test]
fn a_voltage_by_hand() {
    let k = 1;
    let mut script = Vec::new();
    for n in 0..108 {
        script.push(Left::Frame { code: 512, enabled: true, device_on: true });
        match n {
            80 => script.push(Left::Change(Own { drop: 1, over: None })),
            90 => script.push(Left::Reset),
            _ => {}
        }
    }
    let plain = Levels { drop: [1; 6], pickup: [1603; 3], restraint: [0; 3] };
    let one = |left: &Left, _: usize| match left {
        Left::Frame { .. } => vec![Call::Frame { codes: [512; 6], enable: 0x7F }],
        Left::Reset => vec![Call::Reset { mask: 0x02 }],
        Left::Change(_) => vec![Call::Change(plain)],
    };
    let two = |left: &Left, n: usize| match left {
        Left::Frame { .. } => {
            let mut codes = [WAVE[n % 8]; 6];
            codes[k] = 512;
            let frame = Call::Frame { codes, enable: if n < 80 { 0x7F } else { 0x42 } };
            vec![frame, Call::Reset { mask: [0x00, 0x3D][usize::from(n > 75)] }]
        }
        Left::Reset => vec![Call::Reset { mask: 0x3F }],
        Left::Change(_) => {
            vec![Call::Change(Levels { drop: [9, 1, 9, 9, 9, 9], pickup: [9; 3], restraint: [9; 3] })]
        }
    };
    let pair = by_hand(k, [Settings { levels: plain, lengths: LENGTHS }; 2], &script, [&one, &two]);
    assert!(pair.is_alike());
    let expected: Vec<Shown> = (0..108)
        .map(|n| {
            let loss_run = match n {
                0..=71 => 0,
                72..=86 => n - 71,
                87..=90 => 16,
                91..=105 => n - 90,
                _ => 16,
            };
            let on = (87..=90).contains(&n) || n >= 106;
            Shown { amplitude: 0, loss_run, over_run: 0, loss_latch: on, over_latch: false, output: on }
        })
        .collect();
    for side in 0..2 {
        assert_eq!(played(&pair, side), expected, "side {side}");
    }
    // In the other list the currents trip in frame 75, by the figure of the wave.
    let outputs: Vec<u8> = steps(pair.settings[1], &pair.calls[1])
        .iter()
        .filter(|step| matches!(step.call, Call::Frame { .. }))
        .map(|step| step.answer.output)
        .collect();
    assert_eq!((outputs[74], outputs[75], outputs[76]), (0x00, 0x38, 0x38));
}

// The words of the law.

/// The place of frame n in a list.
fn place_of_frame(calls: &[Call], n: usize) -> usize {
    let mut frames = (0..calls.len()).filter(|&place| matches!(calls[place], Call::Frame { .. }));
    frames.nth(n).expect("lists have more frames")
}

/// The levels in force at a place of a list.
fn levels_at(settings: Settings, calls: &[Call], place: usize) -> Levels {
    History::of(settings, &calls[..place]).levels(place)
}

/// Each premise is needed: with one thing of the channel other in the second list, it
/// shows something else in some pairs.
#[test]
fn each_premise_is_needed() {
    type Alteration = fn(&mut Settings, &mut Vec<Call>, usize);
    let both: [(&str, Alteration); 7] = [
        ("drop", |settings, _, k| settings.levels.drop[k] = 10_701 - settings.levels.drop[k]),
        ("loss length", |settings, _, _| settings.lengths.loss = 25 - settings.lengths.loss),
        ("code", |_, calls, k| {
            let place = place_of_frame(calls, 79);
            if let Call::Frame { codes, .. } = &mut calls[place] {
                codes[k] ^= 0x100;
            }
        }),
        ("enable bit", |_, calls, k| {
            let place = place_of_frame(calls, 79);
            if let Call::Frame { enable, .. } = &mut calls[place] {
                *enable ^= 1 << k;
            }
        }),
        ("bit 6", |_, calls, _| {
            let place = place_of_frame(calls, 79);
            if let Call::Frame { enable, .. } = &mut calls[place] {
                *enable ^= 0x40;
            }
        }),
        ("one named reset more", |_, calls, k| calls.insert(place_of_frame(calls, 79), Call::Reset { mask: 1 << k })),
        ("two changes more, there and back", |settings, calls, k| {
            let place = place_of_frame(calls, 79);
            let old = levels_at(*settings, calls, place);
            let mut new = old;
            new.drop[k] = 10_701 - new.drop[k];
            calls.splice(place..place, [Call::Change(new), Call::Change(old)]);
        }),
    ];
    let of_currents: [(&str, Alteration); 3] = [
        ("pickup", |settings, _, k| settings.levels.pickup[k - 3] = 10_701 - settings.levels.pickup[k - 3]),
        ("r", |settings, _, k| settings.levels.restraint[k - 3] = (settings.levels.restraint[k - 3] + 50) % 101),
        ("over length", |settings, _, _| settings.lengths.over = 25 - settings.lengths.over),
    ];
    for k in CHANNELS {
        for (what, alter) in both.iter().chain(if k < 3 { &[][..] } else { &of_currents }) {
            let count = 60;
            let differ = pairs(k, count).filter(|pair| {
                let mut pair = pair.clone();
                alter(&mut pair.settings[1], &mut pair.calls[1], k);
                assert!(!pair.is_alike(), "{what}");
                played(&pair, 0) != played(&pair, 1)
            });
            let differ = differ.count();
            println!("channel {k}: other {what} shows in {differ} of {count} pairs");
            assert!(differ > 0, "channel {k}: {what}");
        }
    }
}

/// What holds too, though the words do not say it: changes that leave the own levels
/// equal may stand in one list only; the channel's bit does not matter where bit 6 is
/// off; age, slot, the remembered bit and the channel's window are alike.
#[test]
fn what_holds_beyond_the_words() {
    let mut prng = Prng(1406);
    let (mut put_in, mut turned_over) = (0, 0);
    for k in CHANNELS {
        for mut pair in pairs(k, 60) {
            let settings = pair.settings[1];
            for _ in 0..10 {
                let place = prng.below(pair.calls[1].len() as u64 + 1) as usize;
                let mut levels = levels_at(settings, &pair.calls[1], place);
                for c in others(k) {
                    levels.drop[c] = prng.within(1, 10_700) as u16;
                }
                for c in others(k).filter(|&c| c >= 3) {
                    levels.pickup[c - 3] = prng.within(1, 10_700) as u16;
                    levels.restraint[c - 3] = prng.within(0, 100) as u8;
                }
                pair.calls[1].insert(place, Call::Change(levels));
                put_in += 1;
            }
            for call in &mut pair.calls[1] {
                if let Call::Frame { enable, .. } = call {
                    if !is_device_on(*enable) {
                        *enable ^= 1 << k;
                        turned_over += 1;
                    }
                }
            }
            assert!(!pair.is_alike());
            assert_eq!(played(&pair, 0), played(&pair, 1));
            let device = |side: usize| {
                let list = steps(pair.settings[side], &pair.calls[side]);
                let frames = list.iter().filter(|step| matches!(step.call, Call::Frame { .. }));
                let device = |relay: &Relay| (relay.age, relay.slot, relay.device_on, relay.channels[k].samples);
                frames.map(|step| device(&step.answer.relay)).collect::<Vec<_>>()
            };
            assert_eq!(device(0), device(1));
        }
    }
    println!("changes in one list only {put_in}, bits turned over {turned_over}");
    assert!(put_in == 3600 && turned_over > 500);
}

// Wrong relays, made by altering what this crate's relay is given or hands back.

struct Wrong {
    what: &'static str,
    call: Box<dyn Fn(Relay, &Call) -> Framed>,
}

fn wrong(what: &'static str, call: impl Fn(Relay, &Call) -> Framed + 'static) -> Wrong {
    Wrong { what, call: Box::new(call) }
}

/// What each frame of one side shows, on this relay.
fn shown<'a>(relay: &'a Wrong, pair: &'a Pair, side: usize) -> impl Iterator<Item = Shown> + 'a {
    let mut held = fresh(pair.settings[side]).relay;
    pair.calls[side].iter().filter_map(move |call| {
        let answer = (relay.call)(held, call);
        assert_eq!(answer.number, 0, "a wrong relay has to stay sound");
        held = answer.relay;
        matches!(call, Call::Frame { .. }).then(|| Shown::of(pair.channel, &answer))
    })
}

/// How many of these pairs tell the relay from a right one.
fn told(relay: &Wrong, pairs: &[Pair]) -> usize {
    pairs.iter().filter(|pair| shown(relay, pair, 0).ne(shown(relay, pair, 1))).count()
}

/// The right answer, altered. The alteration is given the relay before the call.
fn altered(what: &'static str, alter: impl Fn(&Relay, &Call, &mut Framed) + 'static) -> Wrong {
    wrong(what, move |relay, call| {
        let mut answer = right(relay, call);
        alter(&relay, call, &mut answer);
        answer
    })
}

/// As `altered`, for frames only. Latches may be altered: the output byte is found
/// anew from them.
fn altered_frame(what: &'static str, alter: impl Fn(&Relay, &mut Relay) + 'static) -> Wrong {
    altered(what, move |before, call, answer| {
        if let Call::Frame { enable, .. } = *call {
            alter(before, &mut answer.relay);
            answer.output = output(&answer.relay, enable);
        }
    })
}

/// As `altered`, for resets only.
fn altered_reset(what: &'static str, alter: impl Fn(u8, &mut Relay) + 'static) -> Wrong {
    altered(what, move |_, call, answer| {
        if let Call::Reset { mask } = *call {
            alter(mask, &mut answer.relay);
        }
    })
}

/// As `altered`, for changes only.
fn altered_change(what: &'static str, alter: impl Fn(&Relay, &mut Relay) + 'static) -> Wrong {
    altered(what, move |before, call, answer| {
        if let Call::Change(_) = call {
            alter(before, &mut answer.relay);
        }
    })
}

/// A right relay that is given other frames.
fn given(what: &'static str, frame: impl Fn(&Relay, [u16; 6], u8) -> ([u16; 6], u8) + 'static) -> Wrong {
    wrong(what, move |relay, call| match *call {
        Call::Frame { codes, enable } => {
            let (codes, enable) = frame(&relay, codes, enable);
            right(relay, &Call::Frame { codes, enable })
        }
        _ => right(relay, call),
    })
}

fn output(relay: &Relay, enable: u8) -> u8 {
    CHANNELS.filter(|&c| is_latched(relay, c) && is_enabled(enable, c)).map(|c| 1 << c).sum()
}

fn clear_runs(channel: &mut Channel) {
    (channel.loss_run, channel.over_run) = (0, 0);
}

fn clear(channel: &mut Channel) {
    *channel = Channel { samples: channel.samples, ..Channel::default() };
}

/// The channels that have tripped from one relay to the next.
fn trips(before: &Relay, after: &Relay) -> Vec<usize> {
    let latches = |relay: &Relay, c: usize| (relay.channels[c].loss_latch, relay.channels[c].over_latch);
    let on = |(old, new): (bool, bool)| new && !old;
    CHANNELS
        .filter(|&c| {
            let (old, new) = (latches(before, c), latches(after, c));
            on((old.0, new.0)) || on((old.1, new.1))
        })
        .collect()
}

#[derive(Clone, Copy)]
enum Level {
    Drop,
    Pickup,
    Restraint,
}

/// Where a wrong relay takes the other channel's: in frames, in changes (what breaks
/// a run) or in both.
#[derive(Clone, Copy, PartialEq)]
enum Place {
    Frames,
    Changes,
    Both,
}

/// Channel k's level is that of channel l. The levels that it keeps are right.
fn level_of(what: &'static str, level: Level, place: Place, k: usize, l: usize) -> Wrong {
    let looked_at = move |mut levels: Levels| {
        match level {
            Level::Drop => levels.drop[k] = levels.drop[l],
            Level::Pickup => levels.pickup[k - 3] = levels.pickup[l - 3],
            Level::Restraint => levels.restraint[k - 3] = levels.restraint[l - 3],
        }
        levels
    };
    wrong(what, move |mut relay, call| {
        let (kept, call, here) = match *call {
            Call::Change(new) if place != Place::Frames => (new, Call::Change(looked_at(new)), true),
            Call::Change(new) => (new, *call, false),
            call => (relay.settings.levels, call, place != Place::Changes),
        };
        if here {
            relay.settings.levels = looked_at(relay.settings.levels);
        }
        let mut answer = right(relay, &call);
        answer.relay.settings.levels = kept;
        answer
    })
}

/// How bit k is made from bits k and l.
#[derive(Clone, Copy)]
enum Bits {
    Other,
    Either,
    Both,
}

fn with_bit(byte: u8, bits: Bits, k: usize, l: usize) -> u8 {
    let (own, other) = (byte >> k & 1, byte >> l & 1);
    let bit = match bits {
        Bits::Other => other,
        Bits::Either => own | other,
        Bits::Both => own & other,
    };
    byte & !(1 << k) | bit << k
}

/// The enable bit of channel k, for its runs only, for its output only, or for both.
fn enable_of(what: &'static str, bits: Bits, runs: bool, shown: bool, k: usize, l: usize) -> Wrong {
    wrong(what, move |relay, call| {
        let Call::Frame { codes, enable } = *call else { return right(relay, call) };
        let wrong = with_bit(enable, bits, k, l);
        let mut answer = frame(relay, codes, if runs { wrong } else { enable });
        answer.output = output(&answer.relay, if shown { wrong } else { enable });
        answer
    })
}

fn mask_of(what: &'static str, bits: Bits, k: usize, l: usize) -> Wrong {
    wrong(what, move |relay, call| match *call {
        Call::Reset { mask } => right(relay, &Call::Reset { mask: with_bit(mask, bits, k, l) }),
        _ => right(relay, call),
    })
}

/// Channel k's over run is restrained by the second harmonic of channel l.
fn second_harmonic_of(what: &'static str, k: usize, l: usize) -> Wrong {
    restrained_by(what, move |next, own| {
        let m = amplitude(&next.channels[own].samples);
        let seen = if own == k { l } else { own };
        let second = amplitude_of_order(&next.channels[seen].samples, 2);
        !is_unrestrained(next.settings.levels.restraint[own - 3], m, second)
    })
}

/// Another test of restraint, asked of the relay with the frame's samples stored. It
/// is brought about by r 0 and, where it restrains, a pickup that nothing reaches.
fn restrained_by(what: &'static str, restrained: impl Fn(&Relay, usize) -> bool + 'static) -> Wrong {
    wrong(what, move |relay, call| {
        let Call::Frame { codes, enable } = *call else { return right(relay, call) };
        let stored = frame(relay, codes, enable).relay;
        let mut given = relay;
        given.settings.levels.restraint = [0; 3];
        for c in 3..6 {
            if restrained(&stored, c) {
                given.settings.levels.pickup[c - 3] = 10_700;
            }
        }
        let mut answer = frame(given, codes, enable);
        answer.relay.settings = relay.settings;
        answer
    })
}

/// The wrong relays in which channel k looks at channel l. The first ones are those
/// that the brief names first.
fn looking(k: usize, l: usize) -> Vec<Wrong> {
    let mut list = vec![level_of("drop", Level::Drop, Place::Both, k, l)];
    let currents = k >= 3 && l >= 3;
    if currents {
        list.push(level_of("pickup", Level::Pickup, Place::Both, k, l));
        list.push(level_of("r", Level::Restraint, Place::Both, k, l));
    }
    list.extend([
        enable_of("enable bit", Bits::Other, true, true, k, l),
        given("code", move |_, mut codes, enable| {
            codes[k] = codes[l];
            (codes, enable)
        }),
        mask_of("bit in the mask", Bits::Other, k, l),
        level_of("drop, in frames only", Level::Drop, Place::Frames, k, l),
        level_of("drop, in changes only", Level::Drop, Place::Changes, k, l),
    ]);
    if currents {
        list.extend([
            level_of("pickup, in frames only", Level::Pickup, Place::Frames, k, l),
            level_of("pickup, in changes only", Level::Pickup, Place::Changes, k, l),
            level_of("r, in frames only", Level::Restraint, Place::Frames, k, l),
            level_of("r, in changes only", Level::Restraint, Place::Changes, k, l),
            second_harmonic_of("second harmonic", k, l),
            altered_frame("over run", move |_, relay| {
                relay.channels[k].over_run = relay.channels[k].over_run.max(relay.channels[l].over_run);
            }),
        ]);
    }
    let latched = move |relay: &Relay| is_latched(relay, l);
    list.extend([
        enable_of("enable bit, for runs only", Bits::Other, true, false, k, l),
        enable_of("enable bit, for output only", Bits::Other, false, true, k, l),
        enable_of("either enable bit", Bits::Either, true, true, k, l),
        enable_of("either enable bit, for runs only", Bits::Either, true, false, k, l),
        enable_of("either enable bit, for output only", Bits::Either, false, true, k, l),
        enable_of("both enable bits", Bits::Both, true, true, k, l),
        enable_of("both enable bits, for runs only", Bits::Both, true, false, k, l),
        enable_of("both enable bits, for output only", Bits::Both, false, true, k, l),
        mask_of("either bit in the mask", Bits::Either, k, l),
        mask_of("both bits in the mask", Bits::Both, k, l),
        altered("amplitude, in the answer only", move |_, _, answer| answer.amplitudes[k] = answer.amplitudes[l]),
        altered_frame("loss run", move |_, relay| {
            relay.channels[k].loss_run = relay.channels[k].loss_run.max(relay.channels[l].loss_run);
        }),
        altered_frame("latch", move |_, relay| relay.channels[k].loss_latch |= latched(relay)),
        altered_frame("trip turns its latch on", move |before, relay| {
            relay.channels[k].loss_latch |= trips(before, relay).contains(&l);
        }),
        altered_frame("trip clears its runs", move |before, relay| {
            if trips(before, relay).contains(&l) {
                clear_runs(&mut relay.channels[k]);
            }
        }),
        altered_frame("latch keeps its own off", move |before, relay| {
            if is_latched(before, l) {
                relay.channels[k].loss_latch &= before.channels[k].loss_latch;
                relay.channels[k].over_latch &= before.channels[k].over_latch;
            }
        }),
        altered("latch hides its output", move |_, _, answer| {
            answer.output &= !(u8::from(latched(&answer.relay)) << k);
        }),
        altered("output shows as its own", move |_, _, answer| answer.output |= (answer.output >> l & 1) << k),
        altered_reset("reset clears its runs", move |mask, relay| {
            if mask >> l & 1 == 1 {
                clear_runs(&mut relay.channels[k]);
            }
        }),
        altered_reset("reset clears its latches", move |mask, relay| {
            if mask >> l & 1 == 1 {
                (relay.channels[k].loss_latch, relay.channels[k].over_latch) = (false, false);
            }
        }),
        altered_change("new levels break its runs", move |before, relay| {
            if own(&before.settings.levels, l) != own(&relay.settings.levels, l) {
                clear_runs(&mut relay.channels[k]);
            }
        }),
    ]);
    list
}

const PAIRS_FOR_WRONG: usize = 40;

fn pairs_for_wrong() -> Vec<Vec<Pair>> {
    let all: Vec<Vec<Pair>> = CHANNELS.map(|k| pairs(k, PAIRS_FOR_WRONG).collect()).collect();
    let right = wrong("nothing", right);
    assert!(all.iter().all(|pairs| told(&right, pairs) == 0));
    all
}

/// Channel k looks at channel l, for every k and l. Each wrong relay is told by some
/// pair of channel k. The brief names k = 4 and l = 3.
#[test]
fn a_channel_that_looks_at_another_is_told() {
    let pairs = pairs_for_wrong();
    let mut tried = 0;
    let mut counts: Vec<(&str, Vec<usize>)> = Vec::new();
    for k in CHANNELS {
        for l in others(k) {
            for wrong in looking(k, l) {
                let (what, told) = (wrong.what, told(&wrong, &pairs[k]));
                if (k, l) == (4, 3) {
                    println!("channel 4 looks at channel 3's {what}: {told} of {PAIRS_FOR_WRONG} pairs tell it");
                }
                assert!(told > 0, "channel {k} looks at channel {l}'s {what}");
                tried += 1;
                match counts.iter_mut().find(|(name, _)| *name == what) {
                    Some((_, counts)) => counts.push(told),
                    None => counts.push((what, vec![told])),
                }
            }
        }
    }
    for (what, counts) in counts {
        let (least, most) = (counts.iter().min().unwrap(), counts.iter().max().unwrap());
        println!("{what}: {} wrong relays, told by {least} to {most} of {PAIRS_FOR_WRONG} pairs", counts.len());
    }
    println!("{tried} wrong relays");
    assert_eq!(tried, 30 * 27 + 6 * 8);
}

/// Wrong relays in which something of one channel, or of all, gets into another.
fn leaking() -> Vec<Wrong> {
    let any_latched = |relay: &Relay| (0..6).any(|c| is_latched(relay, c));
    let all_runs = |relay: &mut Relay| relay.channels.iter_mut().for_each(clear_runs);
    let all = |relay: &mut Relay| relay.channels.iter_mut().for_each(clear);
    // The over and loss runs of the channels go on as they were.
    let keep_runs = |before: &Relay, relay: &mut Relay, c: usize| {
        (relay.channels[c].loss_run, relay.channels[c].over_run) =
            (before.channels[c].loss_run, before.channels[c].over_run);
    };
    let keep_latches = |before: &Relay, relay: &mut Relay, c: usize| {
        (relay.channels[c].loss_latch, relay.channels[c].over_latch) =
            (before.channels[c].loss_latch, before.channels[c].over_latch);
    };
    vec![
        altered_frame("one over run for the currents", |_, relay| {
            let longest = relay.channels.iter().map(|channel| channel.over_run).max().unwrap();
            relay.channels[3..].iter_mut().for_each(|channel| channel.over_run = longest);
        }),
        altered_frame("one latch for all", move |_, relay| {
            let on = any_latched(relay);
            relay.channels.iter_mut().for_each(|channel| channel.loss_latch |= on);
        }),
        altered_reset("a reset clears all channels", move |mask, relay| {
            if mask != 0 {
                all(relay)
            }
        }),
        altered_reset("a reset clears all runs", move |mask, relay| {
            if mask != 0 {
                all_runs(relay)
            }
        }),
        altered_reset("mask 0 clears all", move |mask, relay| {
            if mask == 0 {
                all(relay)
            }
        }),
        altered_reset("five bits of a mask clear the sixth channel", move |mask, relay| {
            if mask.count_ones() == 5 {
                all(relay);
            }
        }),
        wrong("a reset names one channel only, the lowest", |relay, call| match *call {
            Call::Reset { mask } => right(relay, &Call::Reset { mask: mask & mask.wrapping_neg() }),
            _ => right(relay, call),
        }),
        altered_reset("any reset makes age 0", |_, relay| relay.age = 0),
        altered_reset("mask 0 makes age 0", |mask, relay| {
            if mask == 0 {
                relay.age = 0
            }
        }),
        altered_reset("a reset of channel 0 makes age 0", |mask, relay| {
            if mask & 1 == 1 {
                relay.age = 0
            }
        }),
        altered_reset("a reset adds 1 to age", |_, relay| relay.age = (relay.age + 1).min(FULL_AGE)),
        altered_reset("any reset advances the slot", |_, relay| relay.slot = (relay.slot + 1) % 8),
        altered_reset("any reset makes the slot 0", |_, relay| relay.slot = 0),
        altered_reset("any reset clears all windows", |_, relay| {
            relay.channels.iter_mut().for_each(|channel| channel.samples = [0; 8]);
        }),
        altered_reset("any reset forgets that bit 6 was on", |_, relay| relay.device_on = false),
        altered_reset("any reset forgets that bit 6 was off", |_, relay| relay.device_on = true),
        altered_change("a new level breaks all runs", move |before, relay| {
            if before.settings.levels != relay.settings.levels {
                all_runs(relay);
            }
        }),
        altered_change("a new pickup breaks all over runs", |before, relay| {
            if before.settings.levels.pickup != relay.settings.levels.pickup {
                relay.channels.iter_mut().for_each(|channel| channel.over_run = 0);
            }
        }),
        altered_change("a new level clears all latches", move |before, relay| {
            if before.settings.levels != relay.settings.levels {
                all(relay);
            }
        }),
        altered_change("a new level makes age 0", |before, relay| {
            if before.settings.levels != relay.settings.levels {
                relay.age = 0;
            }
        }),
        altered_change("a change that lowers a drop is not taken", |before, relay| {
            let (old, new) = (before.settings.levels.drop, relay.settings.levels.drop);
            if (0..6).any(|c| new[c] < old[c]) {
                *relay = *before;
            }
        }),
        wrong("the lowest pickup for all currents", |mut relay, call| {
            let levels = relay.settings.levels;
            if let Call::Frame { .. } = call {
                relay.settings.levels.pickup = [*levels.pickup.iter().min().unwrap(); 3];
            }
            let mut answer = right(relay, call);
            if let Call::Frame { .. } = call {
                answer.relay.settings.levels = levels;
            }
            answer
        }),
        restrained_by("one restrained current restrains all", |next, _| {
            (3..6).any(|c| {
                let samples = &next.channels[c].samples;
                let (m, second) = (amplitude(samples), amplitude_of_order(samples, 2));
                m >= i64::from(next.settings.levels.pickup[c - 3])
                    && !is_unrestrained(next.settings.levels.restraint[c - 3], m, second)
            })
        }),
        altered("the lowest latched channel alone is shown", |_, _, answer| {
            answer.output &= answer.output.wrapping_neg();
        }),
        altered("two shown channels show all", |_, _, answer| {
            if answer.output.count_ones() >= 2 {
                answer.output = 0x3F;
            }
        }),
        altered("five latched channels hide the sixth's output", |_, _, answer| {
            for c in CHANNELS {
                if others(c).all(|other| is_latched(&answer.relay, other)) {
                    answer.output &= !(1 << c);
                }
            }
        }),
        altered_frame("a trip makes age 0", |before, relay| {
            if !trips(before, relay).is_empty() {
                relay.age = 0
            }
        }),
        altered_frame("the first latch keeps the others off", move |before, relay| {
            if any_latched(before) {
                CHANNELS.filter(|&c| !is_latched(before, c)).for_each(|c| keep_latches(before, relay, c));
            }
        }),
        altered_frame("one trip in a frame, the lowest channel's", move |before, relay| {
            for &c in trips(before, relay).iter().skip(1) {
                keep_latches(before, relay, c);
            }
        }),
        altered_frame("a trip stops the others' runs for a frame", move |before, relay| {
            let tripped = trips(before, relay);
            if !tripped.is_empty() {
                CHANNELS.filter(|c| !tripped.contains(c)).for_each(|c| keep_runs(before, relay, c));
            }
        }),
        given("enabled if all six bits are on", |_, codes, enable| {
            (codes, if enable & 0x3F == 0x3F { enable } else { enable & 0x40 })
        }),
        given("enabled if any of the six bits is on", |_, codes, enable| {
            (codes, if enable & 0x3F == 0 { enable } else { enable | 0x3F })
        }),
        given("all six bits off are bit 6 off", |_, codes, enable| {
            (codes, if enable & 0x3F == 0 { 0 } else { enable })
        }),
        given("four bits off are bit 6 off", |_, codes, enable| {
            (codes, if (enable & 0x3F).count_ones() <= 2 { enable & 0x3F } else { enable })
        }),
        given("the mean of the six samples is taken off", |_, codes, enable| {
            let mean = codes.iter().map(|&code| i32::from(code) - 512).sum::<i32>() / 6;
            (codes.map(|code| (i32::from(code) - mean).clamp(0, 1023) as u16), enable)
        }),
        wrong("bit 6 off clears all latches where two are on", move |relay, call| {
            let mut answer = right(relay, call);
            if let Call::Frame { enable, .. } = *call {
                if !is_device_on(enable) && CHANNELS.filter(|&c| is_latched(&relay, c)).count() >= 2 {
                    all(&mut answer.relay);
                }
            }
            answer
        }),
        wrong("a rise with a latch on does not make age 0", move |mut relay, call| {
            relay.device_on |= matches!(call, Call::Frame { .. }) && any_latched(&relay);
            right(relay, call)
        }),
    ]
}

/// Each of them is refused by pairs of some channel, mostly of every channel. Channel 0
/// is the lowest, so the rule of the lowest does it no harm, and a reset that names it is
/// in both lists. Voltages have no over run, so what only over runs show is not seen in
/// their pairs.
#[test]
fn a_leak_is_told() {
    let pairs = pairs_for_wrong();
    let list = leaking();
    for wrong in &list {
        let what = wrong.what;
        let counts: Vec<usize> = pairs.iter().map(|pairs| told(wrong, pairs)).collect();
        println!("{what}: told by {counts:?} of {PAIRS_FOR_WRONG} pairs of each channel");
        let blind: &[usize] = match what {
            "a reset names one channel only, the lowest"
            | "a reset of channel 0 makes age 0"
            | "the lowest latched channel alone is shown"
            | "one trip in a frame, the lowest channel's" => &[0],
            "one over run for the currents"
            | "a new pickup breaks all over runs"
            | "the lowest pickup for all currents"
            | "one restrained current restrains all" => &[0, 1, 2],
            _ => &[],
        };
        for k in CHANNELS {
            assert_eq!(counts[k] == 0, blind.contains(&k), "{what}, channel {k}");
        }
    }
    println!("{} leaks", list.len());
}

/// Wrong relays that obey the law: each channel is wrong by its own history alone, or
/// by what both lists have. Other tests have to refuse them.
fn obeying() -> Vec<Wrong> {
    let latches_off = |relay: &mut Relay| {
        relay.channels.iter_mut().for_each(|channel| (channel.loss_latch, channel.over_latch) = (false, false));
    };
    vec![
        altered_frame("nothing ever trips", move |_, relay| latches_off(relay)),
        altered("every call hands the relay back as it was", |before, _, answer| answer.relay = *before),
        altered("one fixed amplitude", |_, _, answer| answer.amplitudes = [400; 6]),
        altered("the amplitude of the second harmonic", |_, _, answer| {
            answer.amplitudes = answer.relay.channels.map(|channel| amplitude_of_order(&channel.samples, 2) as u16);
        }),
        altered("the output forgets the enable bits", |_, _, answer| answer.output = output(&answer.relay, 0x7F)),
        wrong("a reset does nothing", |relay, call| match call {
            Call::Reset { .. } => right(relay, &Call::Reset { mask: 0 }),
            _ => right(relay, call),
        }),
        altered_reset("a reset clears the window too", |mask, relay| {
            CHANNELS.filter(|c| mask >> c & 1 == 1).for_each(|c| relay.channels[c] = Channel::default());
        }),
        wrong("a reset leaves the loss latch on", |relay, call| {
            let mut answer = right(relay, call);
            if let Call::Reset { .. } = call {
                CHANNELS.for_each(|c| answer.relay.channels[c].loss_latch = relay.channels[c].loss_latch);
            }
            answer
        }),
        altered_change("a change stores nothing", |before, relay| *relay = *before),
        altered_change("every change breaks all runs", |_, relay| relay.channels.iter_mut().for_each(clear_runs)),
        altered_change("every change clears all latches", move |_, relay| latches_off(relay)),
        altered_change("every change makes age 0", |_, relay| relay.age = 0),
        altered_change("every change advances the slot", |_, relay| relay.slot = (relay.slot + 1) % 8),
        altered_change("no change breaks a run", |before, relay| {
            for c in CHANNELS {
                (relay.channels[c].loss_run, relay.channels[c].over_run) =
                    (before.channels[c].loss_run, before.channels[c].over_run);
            }
        }),
        altered_change("a new r breaks the loss run too", |before, relay| {
            for c in 3..6 {
                if before.settings.levels.restraint[c - 3] != relay.settings.levels.restraint[c - 3] {
                    relay.channels[c].loss_run = 0;
                }
            }
        }),
        restrained_by("r is forgotten", |_, _| false),
        wrong("a rise does not make age 0", |mut relay, call| {
            relay.device_on |= matches!(call, Call::Frame { .. });
            right(relay, call)
        }),
        wrong("age 60 counts", |mut relay, call| {
            relay.age = if relay.age >= 60 { FULL_AGE } else { relay.age };
            right(relay, call)
        }),
        altered("bit 6 off clears all latches", move |_, call, answer| {
            if matches!(call, Call::Frame { enable, .. } if !is_device_on(*enable)) {
                latches_off(&mut answer.relay);
            }
        }),
        altered_frame("a channel's over latch turns its loss latch off", |_, relay| {
            relay.channels.iter_mut().for_each(|channel| channel.loss_latch &= !channel.over_latch);
        }),
        altered_frame("channel 5 never trips by loss", |_, relay| relay.channels[5].loss_latch = false),
    ]
}

/// They are not right: some list of the pairs shows it. But no pair tells it.
#[test]
fn some_wrong_relays_obey_the_law() {
    let pairs = pairs_for_wrong();
    let list = obeying();
    let right = wrong("nothing", right);
    for wrong in &list {
        let what = wrong.what;
        let counts: Vec<usize> = pairs.iter().map(|pairs| told(wrong, pairs)).collect();
        let differs = |pair: &Pair| shown(wrong, pair, 0).ne(shown(&right, pair, 0));
        let wrong_lists = pairs.iter().flatten().filter(|pair| differs(pair)).count();
        println!("{what}: wrong on {wrong_lists} of {} lists, told by none", 6 * PAIRS_FOR_WRONG);
        assert_eq!(counts, [0; 6], "{what}");
        assert!(wrong_lists > 0, "{what}");
    }
    println!("{} wrong relays that obey the law", list.len());
}
