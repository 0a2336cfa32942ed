//! Six-channel phasor relay: a second implementation of document 01 and of
//! Papers 3, 4, 5, 6, 8, 9 and 12 of document 02.
//!
//! It is written for reading and not for speed. Quotations are from document
//! 01, those on harmonics and restraint from Paper 8, those on the remembered
//! bit 6 from Paper 5, those on changed levels from Paper 6, the one on zero bytes
//! from Paper 3, the one on the step of a rolling sum from Paper 4, those on run lengths
//! from Paper 9: "Wherever a rule on runs says 16 or 4 it means these." Papers 2 and 14
//! are laws and change no rule. The one is about resets: `strokes` and its tests have it.
//! The other is about one channel among six: `phases` has pairs of lists for it, and
//! `tests/one_phase.rs` asks it. Paper 4 changes no answer: `tests/rolling.rs` has its
//! law. Paper 12 stands by itself: `generator` makes frames for a bench. NOTES.md says
//! how far it is independent of the proved one, and lists the decisions taken where the
//! words could be read in two ways.

pub mod amplitude;
pub mod bench;
pub mod capture;
pub mod cases;
pub mod exact;
pub mod generator;
pub mod history;
pub mod lengths;
pub mod levels;
pub mod phases;
pub mod prng;
pub mod relay;
pub mod restraint;
pub mod strokes;
pub mod trace;

pub use amplitude::{amplitude, amplitude_of_order, cordic, estimate, re_im, re_im_of_order, sample, Estimate, Window};
pub use bench::{bench_text, played_text};
pub use capture::{excerpt, excerpt_place, next_sum, read, strongest, strongest_rolling, write, Outcome, Strongest};
pub use exact::Exact;
pub use generator::{generate, GIVEN};
pub use history::{Call, History, Latch};
pub use relay::{
    change, frame, fresh, is_sound, levels_refusal, reset, Changed, Channel, Framed, Fresh, Lengths, Levels, Relay,
    Reset, Settings,
};

/// The refusals by number. An accepted call's number is 0.
pub mod refusal {
    pub const ACCEPTED: u8 = 0;
    pub const SETTING: u8 = 1;
    pub const NOT_SOUND: u8 = 2;
    pub const CODE: u8 = 3;
    pub const ENABLE: u8 = 4;
    pub const MASK: u8 = 5;
    pub const MARK: u8 = 6;
    pub const SECOND_BYTE: u8 = 7;
    pub const ENDS_EARLY: u8 = 8;
    pub const RANGE: u8 = 9;
    pub const TAIL: u8 = 10;
    pub const NO_ROOM: u8 = 11;
    pub const SHAPE: u8 = 12;
    pub const TOO_FEW: u8 = 13;
    pub const ESTIMATE: u8 = 19;
    pub const RESTRAINT: u8 = 20;
    pub const LENGTH: u8 = 21;
    pub const EVEN: u8 = 24;
}
