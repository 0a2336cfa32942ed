//! Amplitude against the exact amplitude, and the order rule against floats.

use reference::prng::Prng;
use reference::*;

fn check(window: &Window) -> i64 {
    let m = amplitude(window);
    assert!((0..=10_700).contains(&m), "{window:?} gives {m}");
    assert!(Exact::of(window).within_2(m), "{window:?} gives {m}");
    m
}

#[test]
fn corners() {
    let mut highest = 0;
    // Every window of the values −512, 0 and 511.
    for pattern in 0..3u32.pow(8) {
        let window = std::array::from_fn(|k| [-512, 0, 511][(pattern / 3u32.pow(k as u32) % 3) as usize]);
        highest = highest.max(check(&window));
    }
    assert!(highest > 10_600, "the corners come near the bound: {highest}");
}

#[test]
fn one_sample_at_a_time() {
    for slot in 0..8 {
        for sample in -512..=511 {
            let mut window = [0; 8];
            window[slot] = sample;
            check(&window);
        }
    }
}

#[test]
fn random_windows() {
    let mut prng = Prng(11);
    for round in 0..3_000_000u32 {
        let spread = match round % 4 {
            0 => 512,
            1 => 1 << prng.below(10),
            2 => prng.within(1, 512),
            _ => 3,
        };
        let window = std::array::from_fn(|_| match round % 8 {
            7 => [-512, -511, 510, 511][prng.below(4) as usize],
            _ => prng.within(-spread, spread - 1) as i16,
        });
        check(&window);
    }
}

fn float_amplitude(window: &Window) -> f64 {
    let turn = |k: usize| k as f64 * std::f64::consts::FRAC_PI_4;
    let re: f64 = (0..8).map(|k| f64::from(window[k]) * turn(k).cos()).sum();
    let im: f64 = (0..8).map(|k| f64::from(window[k]) * turn(k).sin()).sum();
    // Peak in sixteenths: two eighths of the sums, times 16.
    4.0 * re.hypot(im)
}

#[test]
fn order_rule_agrees_with_floats() {
    let mut prng = Prng(12);
    for _ in 0..300_000 {
        let window = std::array::from_fn(|_| prng.within(-512, 511) as i16);
        let z = float_amplitude(&window);
        let exact = Exact::of(&window);
        for t in [z as i64 - 1, z as i64, z as i64 + 1, prng.within(0, 10_700)] {
            if (z - t as f64).abs() > 1e-6 {
                assert_eq!(exact.at_least(t), z > t as f64);
                assert_eq!(exact.at_most(t), z < t as f64);
                assert_eq!(exact.below(t), z < t as f64);
            }
        }
    }
}

#[test]
fn order_rule_at_equality_and_below_zero() {
    let zero = Exact::of(&[0; 8]);
    assert!(zero.at_least(0) && zero.at_most(0) && !zero.below(0));
    assert!(zero.at_least(-1) && !zero.at_most(-1) && !zero.below(-1));
    assert!(!zero.at_least(1) && zero.at_most(1) && zero.below(1));
    // 100 in one slot: Z = 400 exactly, in each slot.
    for slot in 0..8 {
        let mut window = [0; 8];
        window[slot] = 100;
        let exact = Exact::of(&window);
        assert!(exact.at_least(400) && exact.at_most(400) && !exact.below(400));
        assert!(!exact.at_least(401) && !exact.at_most(399));
        assert!(exact.within_2(398) && exact.within_2(402));
        assert!(!exact.within_2(397) && !exact.within_2(403));
    }
}
