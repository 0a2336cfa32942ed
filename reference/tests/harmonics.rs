//! Paper 8: the estimate by order, its exact amplitude and the test of restraint.

use reference::bench::LENGTHS;
use reference::prng::Prng;
use reference::relay::is_unrestrained;
use reference::*;

fn check(window: &Window, order: u8) -> i64 {
    let m = amplitude_of_order(window, order);
    assert!(Exact::of_order(window, order).within_2(m), "{window:?} of order {order} gives {m}");
    assert_eq!(estimate(*window, order), Estimate { refusal: 0, amplitude: m as u16 });
    m
}

/// The amplitude of order 2 depends on two sums only, each −2046 to 2046, and on
/// their sizes only: here are all of them.
#[test]
fn every_second_harmonic_is_below_11600_and_within_2() {
    // Four samples with s0 − s1 + s2 − s3 = sum.
    let split = |sum: i16| {
        let part = |at: i16| (sum * (at + 1) / 4) - (sum * at / 4);
        [part(0), -part(1), part(2), -part(3)]
    };
    let mut highest = 0;
    for even in 0..=2046 {
        let e = split(even);
        for odd in 0..=2046 {
            let o = split(odd);
            let window = [e[0], o[0], e[1], o[1], e[2], o[2], e[3], o[3]];
            highest = highest.max(check(&window, 2));
        }
    }
    println!("highest of order 2: {highest}");
    assert!((11_500..11_600).contains(&highest));
}

#[test]
fn corners_and_random_windows() {
    for pattern in 0..3u32.pow(8) {
        let window = std::array::from_fn(|k| [-512, 0, 511][(pattern / 3u32.pow(k as u32) % 3) as usize]);
        for order in 1..=3 {
            assert!(check(&window, order) < if order == 2 { 11_600 } else { 10_701 });
        }
    }
    let mut prng = Prng(13);
    for round in 0..500_000u32 {
        let spread = if round % 2 == 0 { 512 } else { 1 << prng.below(10) };
        let window = std::array::from_fn(|_| prng.within(-spread, spread - 1) as i16);
        for order in 1..=3 {
            assert!(check(&window, order) < if order == 2 { 11_600 } else { 10_701 });
        }
    }
}

/// Order 1 is document 01's amplitude, order 3 the same of a reordered window.
#[test]
fn orders_1_and_3() {
    let mut prng = Prng(14);
    for _ in 0..100_000 {
        let window: Window = std::array::from_fn(|_| prng.within(-512, 511) as i16);
        assert_eq!(amplitude_of_order(&window, 1), amplitude(&window));
        assert_eq!(Exact::of_order(&window, 1), Exact::of(&window));
        let reordered = std::array::from_fn(|k| window[3 * k % 8]);
        assert_eq!(amplitude_of_order(&window, 3), amplitude(&reordered));
    }
}

/// A wave of one order has its amplitude there and nothing at the others.
#[test]
fn pure_waves() {
    let waves: [Window; 3] = [
        [100, 71, 0, -71, -100, -71, 0, 71],
        [100, 0, -100, 0, 100, 0, -100, 0],
        [100, -71, 0, 71, -100, 71, 0, -71],
    ];
    let found = waves.map(|wave| [1, 2, 3].map(|order| estimate(wave, order).amplitude));
    assert_eq!((found[0][0], found[2][2]), (1603, 1603));
    assert!((1598..=1602).contains(&found[1][1]), "{}", found[1][1]);
    for (wave, amplitudes) in found.iter().enumerate() {
        for (order, &m) in amplitudes.iter().enumerate() {
            assert!(wave == order || m <= 4, "wave {} order {}: {m}", wave + 1, order + 1);
        }
    }
}

#[test]
fn order_rule_agrees_with_floats() {
    let mut prng = Prng(15);
    for _ in 0..200_000 {
        let window: Window = std::array::from_fn(|_| prng.within(-512, 511) as i16);
        for order in 1..=3 {
            let turn = |k: usize| f64::from(order) * k as f64 * std::f64::consts::FRAC_PI_4;
            let re: f64 = (0..8).map(|k| f64::from(window[k]) * turn(k).cos()).sum();
            let im: f64 = (0..8).map(|k| f64::from(window[k]) * turn(k).sin()).sum();
            let z = 4.0 * re.hypot(im);
            let exact = Exact::of_order(&window, order);
            for t in [z as i64 - 1, z as i64, z as i64 + 1, prng.within(0, 11_600)] {
                if (z - t as f64).abs() > 1e-6 {
                    assert_eq!(exact.at_least(t), z > t as f64);
                    assert_eq!(exact.at_most(t), z < t as f64);
                }
            }
        }
    }
}

/// Two windows on either side of restraint 37: equal restrains, one less does not.
const EQUAL: Window = trace::AT_37[0];
const ONE_LESS: Window = trace::AT_37[1];

#[test]
fn the_test_is_strict() {
    assert_eq!(EQUAL, [4, 18, -10, 12, -3, -14, 8, 1]);
    assert_eq!(ONE_LESS, [-7, -14, -1, 10, 9, 13, 3, 5]);
    let pair = |window: &Window| (amplitude(window), amplitude_of_order(window, 2));
    assert_eq!(pair(&EQUAL), (100, 37));
    assert_eq!(pair(&ONE_LESS), (173, 64));
    assert_eq!((37 * 100 - 100 * 37, 37 * 173 - 100 * 64), (0, 1));
    assert!(!is_unrestrained(37, 100, 37) && is_unrestrained(37, 173, 64));
    assert!(is_unrestrained(0, 0, 11_599) && !is_unrestrained(1, 0, 0));
}

/// The over latch of a relay fed with a window in its slots, over and over.
fn trips(window: &Window, pickup: u16, restraint: u8) -> bool {
    let levels = Levels { drop: [1; 6], pickup: [pickup; 3], restraint: [restraint; 3] };
    let mut relay = fresh(Settings { levels, lengths: LENGTHS }).relay;
    for n in 0..100 {
        let answer = frame(relay, [(512 + window[n % 8]) as u16; 6], 0x7F);
        relay = answer.relay;
        assert_eq!(answer.number, 0);
        if n >= 7 {
            assert_eq!(answer.amplitudes, [amplitude(window) as u16; 6], "the fundamental's");
        }
    }
    let on = relay.channels.map(|channel| channel.over_latch);
    assert!(on[3] == on[4] && on[4] == on[5] && !on[0] && !on[1] && !on[2]);
    on[3]
}

#[test]
fn the_computed_pairs_in_a_relay() {
    assert!(!trips(&EQUAL, 100, 37));
    assert!(trips(&EQUAL, 100, 38));
    assert!(trips(&EQUAL, 100, 0));
    assert!(trips(&ONE_LESS, 173, 37));
    assert!(!trips(&ONE_LESS, 173, 36));
    // It comes on top of the pickup level.
    assert!(!trips(&ONE_LESS, 174, 37));
    assert!(!trips(&ONE_LESS, 174, 0));
}

/// Each current has its own level.
#[test]
fn each_current_has_its_own_level() {
    let levels = Levels { drop: [1; 6], pickup: [100; 3], restraint: [37, 38, 0] };
    let mut relay = fresh(Settings { levels, lengths: LENGTHS }).relay;
    let mut output = 0;
    for n in 0..100 {
        let answer = frame(relay, [(512 + EQUAL[n % 8]) as u16; 6], 0x7F);
        relay = answer.relay;
        output = answer.output;
    }
    assert_eq!(output, 0x30);
}

/// "Otherwise, if counted, it makes that run 0": the loss run is not touched, and
/// below age 72 the over run stays.
#[test]
fn a_restrained_frame() {
    let levels = Levels { drop: [10_700; 6], pickup: [100; 3], restraint: [37; 3] };
    let mut relay = fresh(Settings { levels, lengths: LENGTHS }).relay;
    for channel in &mut relay.channels {
        channel.samples = EQUAL;
        channel.loss_run = 3;
    }
    for c in 3..6 {
        relay.channels[c].over_run = 2;
    }
    let codes = [(512 + EQUAL[0]) as u16; 6];
    let young = frame(relay, codes, 0x7F).relay;
    assert_eq!(young.channels.map(|c| (c.loss_run, c.over_run)), [(3, 0), (3, 0), (3, 0), (3, 2), (3, 2), (3, 2)]);
    relay.age = 72;
    let counted = frame(relay, codes, 0x7F).relay;
    assert_eq!(counted.channels.map(|c| (c.loss_run, c.over_run)), [(4, 0); 6]);
}

/// The random trace for the C twin meets restraint at its edge.
#[test]
fn the_trace_meets_restraint() {
    let mut prng = Prng(16);
    let (mut decided, mut passed, mut equal) = (0, 0, 0);
    for _ in 0..40_000 {
        let (relay, codes, enable) = trace::frame_arguments(&mut prng);
        let answer = frame(relay, codes, enable);
        // A young relay, and one to which the device comes back, counts no run.
        if answer.number != 0 || relay.age < 72 || (!relay.device_on && enable >= 64) {
            continue;
        }
        for c in 3..6 {
            let r = relay.settings.levels.restraint[c - 3];
            let m1 = i64::from(answer.amplitudes[c]);
            let m2 = amplitude_of_order(&answer.relay.channels[c].samples, 2);
            let over = m1 >= i64::from(relay.settings.levels.pickup[c - 3]) && enable >> c & 1 == 1 && enable >= 64;
            if over && r > 0 {
                let free = is_unrestrained(r, m1, m2);
                assert_eq!(answer.relay.channels[c].over_run > 0, free);
                decided += usize::from(!free);
                passed += usize::from(free);
                equal += usize::from(100 * m2 == i64::from(r) * m1);
            }
        }
    }
    println!("restrained {decided}, let through {passed}, at equality {equal}");
    assert!(decided > 1000 && passed > 1000 && equal > 10);
}
