//! What the differential tests share: the flags, the tally of the refusals that were answered, and the second
//! implementation's values as the archive's. Not every test needs all of it.
#![allow(dead_code)]

pub mod relays;

use reference::prng::Prng;

/// `--long`: twenty times as much. `--seed N`: other random calls; the gate's are those of seed 1.
pub struct Flags {
    pub seed: u64,
    pub times: u64,
}

impl Flags {
    pub fn given() -> Flags {
        let words: Vec<String> = std::env::args().collect();
        let seed = words.iter().position(|word| word == "--seed").map(|at| words[at + 1].parse().expect("--seed N"));
        let times = if words.iter().any(|word| word == "--long") { 20 } else { 1 };
        Flags { seed: seed.unwrap_or(1), times }
    }

    /// A generator for one part of a test: no part's numbers hang on how many another part drew.
    pub fn prng(&self, part: u64) -> Prng {
        Prng(self.seed.wrapping_mul(1000).wrapping_add(part))
    }
}

/// How often each refusal was answered.
#[derive(Default)]
pub struct Refusals([u64; 22]);

impl Refusals {
    pub fn count(&mut self, refusal: u8) {
        self.0[usize::from(refusal)] += 1;
    }

    /// Prints the tally of the refusals, and fails where one of them came fewer than 100 times.
    pub fn show(&self, rows: impl IntoIterator<Item = usize>) {
        let rows: Vec<usize> = rows.into_iter().collect();
        let tally: Vec<String> = rows.iter().map(|&k| format!("{k}: {}", self.0[k])).collect();
        println!("  accepted {}, refused by {}", self.0[0], tally.join(", "));
        assert!(rows.iter().all(|&k| self.0[k] >= 100), "a refusal came fewer than 100 times");
    }
}
