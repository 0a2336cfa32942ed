//! Paper 5: the remembered bit 6, and the start delay after the device is back.

use reference::bench::LENGTHS;
use reference::prng::Prng;
use reference::relay::FULL_AGE;
use reference::*;

const ON: u8 = 0x7F;
const OFF: u8 = 0x3F;

/// Every frame is below drop and none is over pickup: the loss runs count frames.
const COUNTING: Settings =
    Settings { levels: Levels { drop: [10_700; 6], pickup: [10_700; 3], restraint: [0; 3] }, lengths: LENGTHS };

fn next(relay: Relay, enable: u8) -> Relay {
    let answer = frame(relay, [512; 6], enable);
    assert_eq!(answer.number, 0);
    answer.relay
}

/// For each of `count` frames whether it is counted, by stepping a relay: only a
/// counted frame makes the loss run of channel 0 other than it was, since the run
/// is set to 5 before each, and the frame makes it 6, or 0 if it is disabled. The
/// history has to say the same.
fn counted(count: usize, enable: impl Fn(usize) -> u8) -> Vec<bool> {
    let mut relay = fresh(COUNTING).relay;
    let stepped: Vec<bool> = (0..count)
        .map(|n| {
            relay.channels[0].loss_run = 5;
            relay = next(relay, enable(n));
            assert_eq!(relay.device_on, enable(n) & 0x40 != 0);
            relay.channels[0].loss_run != 5
        })
        .collect();
    let calls: Vec<Call> = (0..count).map(|n| Call::Frame { codes: [512; 6], enable: enable(n) }).collect();
    let history = History::of(COUNTING, &calls);
    assert_eq!(stepped, history.frames.iter().map(|frame| frame.is_counted).collect::<Vec<bool>>());
    stepped
}

fn first_counted_from(counted: &[bool], from: usize) -> Option<usize> {
    (from..counted.len()).find(|&n| counted[n])
}

#[test]
fn without_a_rise_frame_72_is_the_first_counted() {
    for enable in [|_| ON, |_| OFF, |_| 0u8, |n: usize| if n < 50 { ON } else { OFF }] {
        let counted = counted(200, enable);
        assert!((0..200).all(|n| counted[n] == (n >= 72)), "on, off and a fall alike");
    }
    // Bit 6 alone matters, not the channels.
    let counted = counted(200, |n| if n % 2 == 0 { 0x40 } else { ON });
    assert!((0..200).all(|n| counted[n] == (n >= 72)));
}

/// "None of the frames n − 71 to n": T to T + 71 are not counted, T + 72 is.
#[test]
fn frames_after_a_rise() {
    for rise in 1..=150usize {
        for off in [1, 2, 10, 80] {
            let from = rise.saturating_sub(off);
            let counted = counted(rise + 90, |n| if (from..rise).contains(&n) { OFF } else { ON });
            for n in 0..rise + 90 {
                let expected = n >= 72 && (n < rise || n >= rise + 72);
                assert_eq!(counted[n], expected, "rise at {rise}, frame {n}");
            }
        }
    }
}

/// The device is off in frame 0: on in frame 1 is a rise, on in frame 0 is none.
#[test]
fn bit_6_in_frame_0() {
    assert_eq!(first_counted_from(&counted(100, |n| if n == 0 { OFF } else { ON }), 0), Some(73));
    assert_eq!(first_counted_from(&counted(100, |_| ON), 0), Some(72));
}

#[test]
fn two_rises() {
    for first in [1, 30, 71, 72, 100] {
        for gap in 2..=80 {
            let second = first + gap;
            let enable = |n| if n + 1 == first || n + 1 == second { OFF } else { ON };
            let counted = counted(second + 80, enable);
            let between = first_counted_from(&counted[..second], first);
            assert_eq!(between, if gap > 72 { Some(first + 72) } else { None });
            assert_eq!(first_counted_from(&counted, second), Some(second + 72));
        }
    }
}

/// A rise at any age: 0, and step 2 of the same frame makes it 1. A fall, and a
/// frame with bit 6 as it was, age as document 01 has it.
#[test]
fn age_at_each_change_of_bit_6() {
    for age in 0..=FULL_AGE {
        for device_on in [true, false] {
            for enable in 0..128 {
                let relay = Relay { age, device_on, ..fresh(COUNTING).relay };
                let after = next(relay, enable);
                let rise = !device_on && enable >= 64;
                assert_eq!(after.age, if rise { 1 } else { (age + 1).min(FULL_AGE) });
                assert_eq!(after.device_on, enable >= 64);
            }
        }
    }
}

/// A handed-in relay with runs: the rise itself clears none, and step 4 still
/// turns on the latch of a run at its end. A counted off frame clears them.
#[test]
fn a_rise_leaves_the_runs() {
    let mut relay = Relay { age: FULL_AGE, device_on: false, ..fresh(COUNTING).relay };
    for c in 0..6 {
        relay.channels[c].loss_run = 11 + c as u8;
        relay.channels[c].over_run = if c < 3 { 0 } else { c as u8 - 1 };
    }
    let runs = |relay: &Relay| relay.channels.map(|c| (c.loss_run, c.over_run));
    let mut risen = next(relay, ON);
    assert_eq!(risen.age, 1);
    for n in 1..=72 {
        assert_eq!(runs(&risen), runs(&relay));
        assert_eq!(risen.channels.map(|c| c.loss_latch), [false, false, false, false, false, true]);
        assert_eq!(risen.channels.map(|c| c.over_latch), [false, false, false, false, false, true]);
        assert_eq!(risen.age, n);
        if n < 72 {
            risen = next(risen, ON);
        }
    }
    assert_eq!(runs(&next(risen, ON)), [(12, 0), (13, 0), (14, 0), (15, 0), (16, 0), (16, 0)]);
    let off = next(relay, OFF);
    assert_eq!((off.age, runs(&off)), (FULL_AGE, [(0, 0); 6]));
    assert_eq!(runs(&next(Relay { age: 71, ..relay }, OFF)), runs(&relay));
}

/// "Nothing else": a reset between the off and the on frame changes neither the
/// age nor the memory; nor does a refused one.
#[test]
fn resets_leave_the_memory() {
    for age in [0, 40, FULL_AGE] {
        for device_on in [true, false] {
            let relay = Relay { age, device_on, ..fresh(COUNTING).relay };
            for mask in 0..=255 {
                let after = reset(relay, mask).relay;
                assert_eq!((after.age, after.device_on), (age, device_on));
                assert_eq!(next(after, ON).age, if device_on { (age + 1).min(FULL_AGE) } else { 1 });
            }
        }
    }
}

/// A refused frame is not remembered: off between two on frames makes no rise,
/// on between off and on takes none away.
#[test]
fn refused_frames_are_not_remembered() {
    let old = Relay { age: FULL_AGE, ..fresh(COUNTING).relay };
    let off = next(old, OFF);
    let one_code = [512, 512, 512, 512, 512, 65_535];
    for (codes, bit_7) in [([1024; 6], 0), (one_code, 0), ([512; 6], 0x80), ([1024; 6], 0x80)] {
        let refused = frame(old, codes, OFF | bit_7);
        assert!(refused.number != 0 && refused.relay == old);
        assert_eq!(next(refused.relay, ON).age, FULL_AGE);
        let refused = frame(off, codes, ON | bit_7);
        assert!(refused.number != 0 && refused.relay == off);
        assert_eq!(next(refused.relay, ON).age, 1);
        assert_eq!(next(next(refused.relay, OFF), ON).age, 1);
    }
    // Checks come first: a rise does not heal an age that is not sound.
    for age in [73, 255] {
        let relay = Relay { age, ..off };
        assert_eq!(frame(relay, [512; 6], ON), Framed { number: 2, relay, amplitudes: [0; 6], output: 0 });
    }
}

/// Latches stay on and show while the device settles, by their enable bits.
#[test]
fn latches_show_while_settling() {
    let mut relay = Relay { age: FULL_AGE, ..fresh(COUNTING).relay };
    relay.channels[0].loss_latch = true;
    relay.channels[5].over_latch = true;
    let answer = frame(relay, [512; 6], OFF);
    assert_eq!(answer.output, 0);
    let answer = frame(answer.relay, [512; 6], ON);
    assert_eq!((answer.output, answer.relay.age), (0x21, 1));
    let answer = frame(answer.relay, [512; 6], 0x41);
    assert_eq!((answer.output, answer.relay.age), (0x01, 2));
}

/// The random trace for the C twin meets rises and falls at every age.
#[test]
fn the_trace_meets_the_switch() {
    let mut prng = Prng(17);
    let (mut rises, mut young_rises, mut falls, mut young_falls, mut refused) = (0, 0, 0, 0, [0; 2]);
    // Rises on relays whose runs would otherwise have changed.
    let mut kept_runs = 0;
    for _ in 0..40_000 {
        let (relay, codes, enable) = trace::frame_arguments(&mut prng);
        let answer = frame(relay, codes, enable);
        let on = enable & 0x40 != 0;
        if answer.number != 0 {
            assert_eq!(answer.relay, relay);
            if is_sound(&relay) && on != relay.device_on {
                refused[usize::from(on)] += 1;
            }
        } else if on && !relay.device_on {
            assert_eq!(answer.relay.age, 1);
            let without = frame(Relay { device_on: true, ..relay }, codes, enable).relay;
            kept_runs += usize::from(without.channels != answer.relay.channels);
            rises += usize::from(relay.age == FULL_AGE);
            young_rises += usize::from(relay.age < FULL_AGE);
        } else if !on && relay.device_on {
            falls += usize::from(relay.age == FULL_AGE);
            young_falls += usize::from(relay.age < FULL_AGE);
        }
    }
    println!("rises {rises} and {young_rises} below age 72, falls {falls} and {young_falls}");
    println!("rises that kept runs or latches {kept_runs}, refused with bit 6 other than remembered {refused:?}");
    assert!(rises > 2000 && young_rises > 500 && falls > 1000 && young_falls > 300);
    assert!(kept_runs > 2000 && refused.iter().all(|&count| count > 200));
}
