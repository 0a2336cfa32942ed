//! The proved relay for Rust programs: what `libexport.a` exports, each function in a safe wrapper.
//!
//! Nothing checks these declarations against the Rattle source but the tests beside them (`tests/usage.rs` holds sizes
//! and places of fields, `tests/calls.rs`, `tests/captures.rs` and `tests/generator.rs` hold every answer to a second
//! implementation). Safe Rust meets all that the C header asks of a caller: slices have true lengths, lent buffers do
//! not overlap, a `bool` is 0 or 1.

/// The refusals of an answer, numbered and worded as in document 01's table and in document 02.
pub mod refusal {
    pub const ACCEPTED: u8 = 0;
    /// A setting outside 1 to 10,700.
    pub const BAD_SETTING: u8 = 1;
    /// Relay not sound.
    pub const UNSOUND_RELAY: u8 = 2;
    /// A code above 1023.
    pub const BAD_CODE: u8 = 3;
    /// Enable bit 7 is 1.
    pub const BAD_ENABLE: u8 = 4;
    /// Reset mask bit 6 or 7 is 1.
    pub const BAD_MASK: u8 = 5;
    /// A mark byte differs.
    pub const MARK_DIFFERS: u8 = 6;
    /// Second byte is 0 or has its top bit set.
    pub const BAD_SECOND_BYTE: u8 = 7;
    /// Capture ends early.
    pub const ENDS_EARLY: u8 = 8;
    /// Frame count, code or enable byte out of range.
    pub const OUT_OF_RANGE: u8 = 9;
    /// Bytes after the last frame.
    pub const BYTES_AFTER: u8 = 10;
    /// Answer does not fit.
    pub const DOES_NOT_FIT: u8 = 11;
    /// Cells no multiple of seven, or channel above 5.
    pub const WRONG_SHAPE: u8 = 12;
    /// Fewer than eight frames.
    pub const FEW_FRAMES: u8 = 13;
    /// An order outside 1 to 3, or a window sample outside -512 to 511.
    pub const BAD_ESTIMATE: u8 = 19;
    /// A restraint level above 100.
    pub const BAD_RESTRAINT: u8 = 20;
    /// A run length outside 1 to 24.
    pub const BAD_LENGTH: u8 = 21;
    /// The numbers that a test waveform starts from are all even.
    pub const ALL_EVEN: u8 = 24;
}

/// The cells of a frame: six codes, then the enable byte.
pub const FRAME_CELLS: usize = 7;

/// Cells that hold every capture, of 4,096 frames at most.
pub const READ_ROOM: usize = 28_672;

/// Bytes that hold every capture.
pub const WRITE_ROOM: usize = 53_253;

/// Bytes that hold every report.
pub const REPORT_ROOM: usize = 184_332;

/// The last eight samples of a channel beside its runs and latches.
#[repr(C)]
#[derive(Clone, Copy, Debug, Default, PartialEq, Eq)]
pub struct Channel {
    pub samples: [i16; 8],
    pub loss_run: u8,
    pub over_run: u8,
    pub loss_latch: bool,
    pub over_latch: bool,
}

/// What a dispatcher can change: a drop level for each channel and a pickup level for each current (channels 3, 4, 5),
/// in sixteenths of a code; and a restraint level for each current, 0 for off or 1 to 100: so many hundredths of the
/// fundamental, which the second harmonic must not reach in a frame that feeds the over run.
#[repr(C)]
#[derive(Clone, Copy, Debug, Default, PartialEq, Eq)]
pub struct Levels {
    pub drop: [u16; 6],
    pub pickup: [u16; 3],
    pub restraint: [u8; 3],
}

/// How many successive counted frames make a full run and turn the latch on, 1 to 24: one pair for the device, fixed
/// when it is made.
#[repr(C)]
#[derive(Clone, Copy, Debug, Default, PartialEq, Eq)]
pub struct Lengths {
    pub loss: u8,
    pub over: u8,
}

/// All that a relay is made with.
#[repr(C)]
#[derive(Clone, Copy, Debug, Default, PartialEq, Eq)]
pub struct Settings {
    pub levels: Levels,
    pub lengths: Lengths,
}

/// Any value may be handed in: a relay that is not sound is refused and comes back as it was. `device_on` is bit 6 of
/// the latest accepted frame's enable byte; a fresh relay has it on.
#[repr(C)]
#[derive(Clone, Copy, Debug, Default, PartialEq, Eq)]
pub struct Relay {
    pub channels: [Channel; 6],
    pub age: u8,
    pub slot: u8,
    pub device_on: bool,
    pub settings: Settings,
}

/// `refusal` is one of `refusal`, here and in the other answers.
#[repr(C)]
#[derive(Clone, Copy, Debug, PartialEq, Eq)]
pub struct FreshAnswer {
    pub relay: Relay,
    pub refusal: u8,
}

#[repr(C)]
#[derive(Clone, Copy, Debug, PartialEq, Eq)]
pub struct FrameAnswer {
    pub relay: Relay,
    pub refusal: u8,
    pub amplitudes: [u16; 6],
    pub output: u8,
}

#[repr(C)]
#[derive(Clone, Copy, Debug, PartialEq, Eq)]
pub struct ResetAnswer {
    pub relay: Relay,
    pub refusal: u8,
}

#[repr(C)]
#[derive(Clone, Copy, Debug, PartialEq, Eq)]
pub struct ChangeAnswer {
    pub relay: Relay,
    pub refusal: u8,
}

/// The amplitude of one window for an order.
#[repr(C)]
#[derive(Clone, Copy, Debug, PartialEq, Eq)]
pub struct EstimateAnswer {
    pub refusal: u8,
    pub amplitude: u16,
}

/// `count` is in frames where the call made frames and in bytes where it made bytes.
#[repr(C)]
#[derive(Clone, Copy, Debug, PartialEq, Eq)]
pub struct Answer {
    pub refusal: u8,
    pub count: usize,
}

/// The largest sum of eight squared samples of successive frames, and the first frame where it occurs.
#[repr(C)]
#[derive(Clone, Copy, Debug, PartialEq, Eq)]
pub struct StrongestWindow {
    pub refusal: u8,
    pub sum: u32,
    pub frame: usize,
}

/// The functions as the archive has them. An array does not pass the C boundary by value, nor does a part of a slice
/// come back through it: a struct that holds the array, and start and length, stand in for them.
mod raw {
    use super::*;

    #[repr(C)]
    pub struct Codes {
        pub codes: [u16; 6],
    }

    #[repr(C)]
    pub struct Samples {
        pub samples: [i16; 8],
    }

    #[repr(C)]
    pub struct Numbers {
        pub numbers: [u32; 55],
    }
    const _: () = assert!(std::mem::size_of::<Numbers>() == 220);

    #[repr(C)]
    pub struct Part {
        pub start: usize,
        pub length: usize,
    }

    extern "C" {
        pub fn p6k_fresh(settings: Settings) -> FreshAnswer;
        pub fn p6k_frame(relay: Relay, codes: Codes, enable: u8) -> FrameAnswer;
        pub fn p6k_reset(relay: Relay, mask: u8) -> ResetAnswer;
        pub fn p6k_change(relay: Relay, levels: Levels) -> ChangeAnswer;
        pub fn p6k_estimate(window: Samples, order: u8) -> EstimateAnswer;
        pub fn p6k_read(bytes: *const u8, bytes_length: usize, cells: *mut u16, cells_length: usize) -> Answer;
        pub fn p6k_write(cells: *const u16, cells_length: usize, bytes: *mut u8, bytes_length: usize) -> Answer;
        pub fn p6k_excerpt(cells: *const u16, cells_length: usize, frame: usize, frames: usize) -> Part;
        pub fn p6k_strongest(cells: *const u16, cells_length: usize, channel: usize) -> StrongestWindow;
        pub fn p6k_generate(given: Numbers, frames: usize, cells: *mut u16, cells_length: usize) -> Answer;
        pub fn p6k_report(capture: *const u8, capture_length: usize, text: *mut u8, text_length: usize) -> usize;
    }
}

impl Relay {
    /// A fresh relay, or with 1, 20 or 21 the all-zero one.
    pub fn fresh(settings: Settings) -> FreshAnswer {
        unsafe { raw::p6k_fresh(settings) }
    }

    /// One frame: six codes in channel order and the enable byte. With bit 6 on after a frame with it off the relay
    /// settles again, from age 0.
    pub fn frame(self, codes: [u16; 6], enable: u8) -> FrameAnswer {
        unsafe { raw::p6k_frame(self, raw::Codes { codes }, enable) }
    }

    /// Clears runs and latches of the channels that bits 0 to 5 name.
    pub fn reset(self, mask: u8) -> ResetAnswer {
        unsafe { raw::p6k_reset(self, mask) }
    }

    /// New levels, all of them, while the relay goes on. A run is kept where its own level is equal (loss: the drop;
    /// over: pickup and restraint) and is 0 otherwise; all else stays, the lengths too. With 2, 1 or 20 the relay as
    /// given.
    pub fn change(self, levels: Levels) -> ChangeAnswer {
        unsafe { raw::p6k_change(self, levels) }
    }
}

/// The amplitude of one window, eight samples by slot, for an order: 1 for the fundamental, 2 or 3 for that harmonic.
pub fn estimate(samples: [i16; 8], order: u8) -> EstimateAnswer {
    unsafe { raw::p6k_estimate(raw::Samples { samples }, order) }
}

/// Reads a capture into the front of the cells; the count is in frames, seven cells each. No bytes are a capture of zero
/// frames: an input whose read failed before its first byte would look so too.
pub fn read(bytes: &[u8], cells: &mut [u16]) -> Answer {
    unsafe { raw::p6k_read(bytes.as_ptr(), bytes.len(), cells.as_mut_ptr(), cells.len()) }
}

/// Writes the cells as a capture into the front of the bytes; the count is in bytes.
pub fn write(cells: &[u16], bytes: &mut [u8]) -> Answer {
    unsafe { raw::p6k_write(cells.as_ptr(), cells.len(), bytes.as_mut_ptr(), bytes.len()) }
}

/// The caller's own cells from a frame on, for so many frames; the empty part at the start where they do not lie within
/// the cells.
pub fn excerpt(cells: &[u16], frame: usize, frames: usize) -> &[u16] {
    let part = unsafe { raw::p6k_excerpt(cells.as_ptr(), cells.len(), frame, frames) };
    &cells[part.start..part.start + part.length]
}

/// The strongest window of a channel.
pub fn strongest(cells: &[u16], channel: usize) -> StrongestWindow {
    unsafe { raw::p6k_strongest(cells.as_ptr(), cells.len(), channel) }
}

/// Makes so many frames of a test waveform into the front of the cells, from 55 numbers, the oldest first. Refused by
/// 24, 9 or 11, the cells are as lent.
pub fn generate(given: [u32; 55], frames: usize, cells: &mut [u16]) -> Answer {
    unsafe { raw::p6k_generate(raw::Numbers { numbers: given }, frames, cells.as_mut_ptr(), cells.len()) }
}

/// The bench program's whole output for a capture, into the front of the text; the answer is its length in bytes. Of no
/// bytes it is `frames 0`. A text shorter than `REPORT_ROOM` is left as it was, and the answer is 0.
pub fn report(capture: &[u8], text: &mut [u8]) -> usize {
    unsafe { raw::p6k_report(capture.as_ptr(), capture.len(), text.as_mut_ptr(), text.len()) }
}
