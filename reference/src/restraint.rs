//! The expected outputs of two test programs on restraint levels.

use crate::bench::{played_text, LENGTHS};
use crate::cases;
use crate::relay::{frame, fresh, reset, Levels, Settings};

/// The captures that are played, with the restraint level of every current.
pub const PLAYED: [(&str, u8); 4] = [("inrush", 0), ("inrush", 15), ("inrush-then-fault", 15), ("over-3", 15)];

/// For each: a line with name and level, then the text that it plays to.
pub fn played_cases() -> String {
    let all = cases::all();
    let mut text = String::new();
    for (name, restraint) in PLAYED {
        let case = all.iter().find(|case| case.name == name).expect("a case of this name");
        text += &format!("{name}.p6k restraint {restraint}\n");
        text += &String::from_utf8(played_text(&case.capture, restraint)).expect("plain text");
    }
    text
}

/// A congruential generator, so that another program can make the same frames.
struct Generator(u32);

impl Generator {
    /// 16 bits.
    fn next(&mut self) -> u16 {
        self.0 = self.0.wrapping_mul(1_664_525).wrapping_add(1_013_904_223);
        (self.0 >> 16) as u16
    }
}

pub const GENERATED_SETTINGS: usize = 12;
const GENERATED_FRAMES: usize = 200;
/// The frames at which the peaks are drawn anew are the multiples of this.
const EPISODE: usize = 40;
const RESTRAINTS: [u8; 12] = [0, 1, 100, 15, 37, 50, 7, 99, 20, 33, 64, 2];
/// Hundredths of the peaks.
const FIRST: [i32; 8] = [100, 71, 0, -71, -100, -71, 0, 71];
const SECOND: [i32; 8] = [100, 0, -100, 0, 100, 0, -100, 0];

pub fn generated() -> String {
    generated_with(|restraint| restraint)
}

/// The text of every setting, with its restraint levels changed by `change`:
/// the line with the levels, a line for every frame in which the output byte
/// differs from the one before, and the sum of all answers.
pub fn generated_with(change: impl Fn([u8; 3]) -> [u8; 3]) -> String {
    let mut generator = Generator(1);
    let mut text = String::new();
    for k in 0..GENERATED_SETTINGS {
        let drop = [1 + generator.next() % 300; 6];
        let pickup = std::array::from_fn(|_| 400 + generator.next() % 2500);
        let restraint = change(std::array::from_fn(|j| RESTRAINTS[(k + 5 * j) % 12]));
        text += &format!("setting {k}: {} {} {}\n", restraint[0], restraint[1], restraint[2]);
        let made = fresh(Settings { levels: Levels { drop, pickup, restraint }, lengths: LENGTHS });
        assert_eq!(made.number, 0);
        let mut relay = made.relay;
        let mut peaks = [(0, 0); 6];
        let mut output = 0;
        let mut sum = 0u32;
        for n in 0..GENERATED_FRAMES {
            if n % EPISODE == 0 {
                for peak in &mut peaks {
                    let first = 20 + generator.next() % 230;
                    let second = generator.next() % (first / 2 + 1);
                    *peak = (i32::from(first), i32::from(second));
                }
            }
            // Each of the two terms is divided towards zero.
            let codes = std::array::from_fn(|c| {
                let (first, second) = peaks[c];
                let slot = (n + c) % 8;
                (512 + first * FIRST[slot] / 100 + second * SECOND[slot] / 100) as u16
            });
            let enable = if n % 50 == 49 { 127 - 8 } else { 127 };
            let answer = frame(relay, codes, enable);
            assert_eq!(answer.number, 0);
            relay = answer.relay;
            for m in answer.amplitudes {
                sum = sum.wrapping_add(u32::from(m));
            }
            sum = sum.wrapping_add(65536 * u32::from(answer.output));
            if answer.output != output {
                output = answer.output;
                text += &n.to_string();
                for m in answer.amplitudes {
                    text += &format!(" {m}");
                }
                text += &format!(" {output:02X}\n");
            }
            if n == 150 {
                relay = reset(relay, 24).relay;
            }
        }
        text += &format!("sum {sum}\n");
    }
    text
}
