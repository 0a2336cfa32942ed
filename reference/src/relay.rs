//! Settings, channels and the relay; making one, frames, resets and changed
//! levels.
//!
//! The structs hold any value, sound or not, because a relay handed in may be
//! unsound and has to come back "as given".

use crate::amplitude::{amplitude, amplitude_of_order, sample, Window};
use crate::refusal;

pub const HIGHEST_LEVEL: u16 = 10_700;
pub const HIGHEST_RESTRAINT: u8 = 100;
/// A frame that finds this age is counted.
pub const FULL_AGE: u8 = 72;
pub const HIGHEST_LENGTH: u8 = 24;
/// Channels 0 to 2 are voltages, 3 to 5 currents.
pub const FIRST_CURRENT: usize = 3;

/// What a change hands in: the nine levels and, with Paper 8, the restraint
/// levels beside them.
#[derive(Clone, Copy, Debug, Default, PartialEq, Eq)]
pub struct Levels {
    /// A drop level for each channel.
    pub drop: [u16; 6],
    /// A pickup level for each current: channels 3, 4, 5.
    pub pickup: [u16; 3],
    /// A restraint level for each current, "1 to 100 or 0 for off".
    pub restraint: [u8; 3],
}

/// How many frames a full run has: "1 to 24, one pair for the device".
#[derive(Clone, Copy, Debug, Default, PartialEq, Eq)]
pub struct Lengths {
    pub loss: u8,
    pub over: u8,
}

/// What a relay is made with. The lengths stand beside the levels, as they are
/// "fixed when it is made" and a change does not hand them in.
#[derive(Clone, Copy, Debug, Default, PartialEq, Eq)]
pub struct Settings {
    pub levels: Levels,
    pub lengths: Lengths,
}

#[derive(Clone, Copy, Debug, Default, PartialEq, Eq)]
pub struct Channel {
    pub samples: Window,
    pub loss_run: u8,
    pub over_run: u8,
    pub loss_latch: bool,
    pub over_latch: bool,
}

#[derive(Clone, Copy, Debug, Default, PartialEq, Eq)]
pub struct Relay {
    pub settings: Settings,
    pub channels: [Channel; 6],
    pub age: u8,
    pub slot: u8,
    /// "Whether bit 6 was on in the latest accepted frame; a fresh relay
    /// remembers on." The all-zero relay remembers off.
    pub device_on: bool,
}

#[derive(Clone, Copy, Debug, PartialEq, Eq)]
pub struct Fresh {
    pub number: u8,
    pub relay: Relay,
}

#[derive(Clone, Copy, Debug, PartialEq, Eq)]
pub struct Framed {
    pub number: u8,
    pub relay: Relay,
    pub amplitudes: [u16; 6],
    pub output: u8,
}

#[derive(Clone, Copy, Debug, PartialEq, Eq)]
pub struct Reset {
    pub number: u8,
    pub relay: Relay,
}

#[derive(Clone, Copy, Debug, PartialEq, Eq)]
pub struct Changed {
    pub number: u8,
    pub relay: Relay,
}

/// The refusal number that levels alone decide: 1, then "20 for r above 100".
pub fn levels_refusal(levels: &Levels) -> u8 {
    let in_range = |level: &u16| (1..=HIGHEST_LEVEL).contains(level);
    if !levels.drop.iter().all(in_range) || !levels.pickup.iter().all(in_range) {
        refusal::SETTING
    } else if levels.restraint.iter().any(|&r| r > HIGHEST_RESTRAINT) {
        refusal::RESTRAINT
    } else {
        refusal::ACCEPTED
    }
}

/// The refusal number that settings alone decide: 1, 20, and "21, and not 1, for
/// a length outside 1 to 24, after 20".
pub fn settings_refusal(settings: &Settings) -> u8 {
    let Lengths { loss, over } = settings.lengths;
    let in_range = |length: u8| (1..=HIGHEST_LENGTH).contains(&length);
    match levels_refusal(&settings.levels) {
        refusal::ACCEPTED if !in_range(loss) || !in_range(over) => refusal::LENGTH,
        number => number,
    }
}

pub fn settings_in_range(settings: &Settings) -> bool {
    settings_refusal(settings) == refusal::ACCEPTED
}

/// Whether a frame with fundamental m1 and second harmonic m2 may feed the over
/// run: "r is 0 or 100 times the second-harmonic amplitude is less than r times
/// the fundamental".
pub fn is_unrestrained(r: u8, m1: i64, m2: i64) -> bool {
    r == 0 || 100 * m2 < i64::from(r) * m1
}

/// "A relay handed in is sound if ...", with "runs up to its own lengths". A run
/// at its length with its latch off is sound: the document lists nothing between
/// runs and latches. Either remembered bit is sound.
pub fn is_sound(relay: &Relay) -> bool {
    let channel_sound = |c: usize| {
        let channel = &relay.channels[c];
        let samples = channel.samples.iter().all(|s| (-512..=511).contains(s));
        let over = if c < FIRST_CURRENT {
            channel.over_run == 0 && !channel.over_latch
        } else {
            channel.over_run <= relay.settings.lengths.over
        };
        samples && channel.loss_run <= relay.settings.lengths.loss && over
    };
    settings_in_range(&relay.settings)
        && relay.age <= FULL_AGE
        && relay.slot <= 7
        && (0..6).all(channel_sound)
}

/// "Bit 6 enables the device."
pub fn is_device_on(enable: u8) -> bool {
    enable >> 6 & 1 == 1
}

/// "A channel is enabled in a frame if its bit and bit 6 are both 1."
pub fn is_enabled(enable: u8, channel: usize) -> bool {
    enable >> channel & 1 == 1 && is_device_on(enable)
}

pub fn fresh(settings: Settings) -> Fresh {
    let number = settings_refusal(&settings);
    if number != refusal::ACCEPTED {
        // "All-zero relay": the settings and the remembered bit too.
        return Fresh { number, relay: Relay::default() };
    }
    Fresh { number, relay: Relay { settings, device_on: true, ..Relay::default() } }
}

/// The refusal number that codes and enable byte alone decide.
pub fn frame_refusal(codes: &[u16; 6], enable: u8) -> u8 {
    if codes.iter().any(|&code| code > 1023) {
        refusal::CODE
    } else if enable & 0x80 != 0 {
        refusal::ENABLE
    } else {
        refusal::ACCEPTED
    }
}

/// The refusal number that the mask alone decides.
pub fn reset_refusal(mask: u8) -> u8 {
    if mask & 0xC0 != 0 {
        refusal::MASK
    } else {
        refusal::ACCEPTED
    }
}

/// "A frame checks 2, 3, 4."
pub fn frame(relay: Relay, codes: [u16; 6], enable: u8) -> Framed {
    let number = if is_sound(&relay) { frame_refusal(&codes, enable) } else { refusal::NOT_SOUND };
    if number != refusal::ACCEPTED {
        return Framed { number, relay, amplitudes: [0; 6], output: 0 };
    }
    let mut next = relay;

    // "A frame with bit 6 on after one with it off sets age to 0 before
    // anything else." Step 2 of this frame then makes it 1.
    if is_device_on(enable) && !relay.device_on {
        next.age = 0;
    }
    next.device_on = is_device_on(enable);

    // 1. Stores the samples and finds the six amplitudes.
    let mut amplitudes = [0; 6];
    for c in 0..6 {
        let samples = &mut next.channels[c].samples;
        samples[usize::from(relay.slot)] = sample(codes[c]);
        amplitudes[c] = amplitude(samples) as u16;
    }

    if next.age < FULL_AGE {
        // 2. "Adds 1 to age and counts no run; all runs stay as they were."
        next.age += 1;
    } else {
        // 3. Counts the runs.
        for c in 0..6 {
            count_runs(&mut next.channels[c], &next.settings, c, amplitudes[c], is_enabled(enable, c));
        }
    }

    // 4. Turns latches on. This stands outside 2 and 3, so it is done in
    // every accepted frame, counted or not. No length is 0, so a voltage's over
    // run of 0 turns nothing on.
    let lengths = next.settings.lengths;
    for channel in &mut next.channels {
        channel.loss_latch |= channel.loss_run == lengths.loss;
        channel.over_latch |= channel.over_run == lengths.over;
    }

    // 5. Advances the slot and answers.
    next.slot = (relay.slot + 1) % 8;
    let mut output = 0;
    for c in 0..6 {
        let latched = next.channels[c].loss_latch || next.channels[c].over_latch;
        if latched && is_enabled(enable, c) {
            output |= 1 << c;
        }
    }
    Framed { number, relay: next, amplitudes, output }
}

fn count_runs(channel: &mut Channel, settings: &Settings, c: usize, m: u16, enabled: bool) {
    let Settings { levels, lengths } = settings;
    if !enabled {
        channel.loss_run = 0;
        channel.over_run = 0;
        return;
    }
    channel.loss_run = if m < levels.drop[c] { (channel.loss_run + 1).min(lengths.loss) } else { 0 };
    if c >= FIRST_CURRENT {
        // The answer shows the fundamental only; the second harmonic is found here.
        let second = amplitude_of_order(&channel.samples, 2);
        let unrestrained = is_unrestrained(levels.restraint[c - FIRST_CURRENT], i64::from(m), second);
        let over = m >= levels.pickup[c - FIRST_CURRENT] && unrestrained;
        channel.over_run = if over { (channel.over_run + 1).min(lengths.over) } else { 0 };
    }
}

/// "A reset [checks] 2, 5." It "clears runs and latches of the named channels
/// and nothing else": neither age nor slot nor samples nor the remembered bit.
pub fn reset(relay: Relay, mask: u8) -> Reset {
    let number = if is_sound(&relay) { reset_refusal(mask) } else { refusal::NOT_SOUND };
    if number != refusal::ACCEPTED {
        return Reset { number, relay };
    }
    let mut next = relay;
    for c in 0..6 {
        if mask >> c & 1 == 1 {
            next.channels[c] = Channel { samples: relay.channels[c].samples, ..Channel::default() };
        }
    }
    Reset { number, relay: next }
}

/// A change of levels: "refused: 2 and then 1, relay as given", and 20 after 1.
/// "Windows, slot, age, latches and the remembered bit 6 carry over. A run
/// carries over where its own level is equal; otherwise it becomes 0." The run
/// lengths are no levels and stay.
pub fn change(relay: Relay, levels: Levels) -> Changed {
    let number = if is_sound(&relay) { levels_refusal(&levels) } else { refusal::NOT_SOUND };
    if number != refusal::ACCEPTED {
        return Changed { number, relay };
    }
    let old = relay.settings.levels;
    let mut next = relay;
    next.settings.levels = levels;
    for c in 0..6 {
        if levels.drop[c] != old.drop[c] {
            next.channels[c].loss_run = 0;
        }
    }
    // r is "part of the over run's own level". A voltage has no over run.
    for j in 0..3 {
        if levels.pickup[j] != old.pickup[j] || levels.restraint[j] != old.restraint[j] {
            next.channels[FIRST_CURRENT + j].over_run = 0;
        }
    }
    Changed { number, relay: next }
}
