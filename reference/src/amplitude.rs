//! From codes to amplitude, for the fundamental and the harmonics of Paper 8.

use crate::refusal;

/// The last eight samples of a channel, by slot.
pub type Window = [i16; 8];

/// "The weights for slots 0 to 7 come from one fixed table."
pub const COSINE: [i64; 8] = [16384, 11585, 0, -11585, -16384, -11585, 0, 11585];
pub const SINE: [i64; 8] = [0, 11585, 16384, 11585, 0, -11585, -16384, -11585];

/// "A code is 0 to 1023; its sample is s = code − 512."
pub fn sample(code: u16) -> i16 {
    assert!(code <= 1023);
    code as i16 - 512
}

/// "Re and Im are the sums of sample times weight."
pub fn re_im(window: &Window) -> (i64, i64) {
    re_im_of_order(window, 1)
}

/// "Weights at slot p times k mod 8 of the tables", for the sample in slot k.
pub fn re_im_of_order(window: &Window, order: u8) -> (i64, i64) {
    let mut re = 0;
    let mut im = 0;
    for slot in 0..8 {
        let weight = usize::from(order) * slot % 8;
        re += i64::from(window[slot]) * COSINE[weight];
        im += i64::from(window[slot]) * SINE[weight];
    }
    (re, im)
}

/// The x that sixteen CORDIC steps end at. Rust's `>>` on a signed number
/// "rounds towards minus infinity, for negative values too".
pub fn cordic(re: i64, im: i64) -> i64 {
    let mut x = re.abs();
    let mut y = im.abs();
    for i in 0..16 {
        // "Both new values use the old ones."
        (x, y) = if y >= 0 {
            (x + (y >> i), y - (x >> i))
        } else {
            (x - (y >> i), y + (x >> i))
        };
    }
    x
}

/// "The amplitude m is x times 39797, divided by 2^28, rounded down." Defined
/// for any window; "never above 10,700" for samples −512 to 511.
pub fn amplitude(window: &Window) -> i64 {
    amplitude_of_order(window, 1)
}

/// The same CORDIC and scaling for every order. For order 2 "the largest
/// amplitude is below 11,600".
pub fn amplitude_of_order(window: &Window, order: u8) -> i64 {
    let (re, im) = re_im_of_order(window, order);
    (cordic(re, im) * 39797) >> 28
}

/// What `estimate` answers: the refusal number, 0 if accepted.
#[derive(Clone, Copy, Debug, PartialEq, Eq)]
pub struct Estimate {
    pub refusal: u8,
    pub amplitude: u16,
}

/// "The estimate takes an order p of 1, 2 or 3." Refused: "19 for an order
/// outside 1 to 3 or a window sample outside −512 to 511, amplitude 0".
pub fn estimate(samples: Window, order: u8) -> Estimate {
    let in_range = samples.iter().all(|s| (-512..=511).contains(s));
    if !(1..=3).contains(&order) || !in_range {
        return Estimate { refusal: refusal::ESTIMATE, amplitude: 0 };
    }
    Estimate { refusal: refusal::ACCEPTED, amplitude: amplitude_of_order(&samples, order) as u16 }
}
