//! The second implementation's levels, settings and relay as the archive's.

use reference::relay::Lengths;
use reference::{Levels, Settings};

pub fn levels_of(of: &Levels) -> host::Levels {
    host::Levels { drop: of.drop, pickup: of.pickup, restraint: of.restraint }
}

pub fn settings_of(of: &Settings) -> host::Settings {
    let Lengths { loss, over } = of.lengths;
    host::Settings { levels: levels_of(&of.levels), lengths: host::Lengths { loss, over } }
}

pub fn relay_of(of: &reference::Relay) -> host::Relay {
    let channels = of.channels.map(|channel| host::Channel {
        samples: channel.samples,
        loss_run: channel.loss_run,
        over_run: channel.over_run,
        loss_latch: channel.loss_latch,
        over_latch: channel.over_latch,
    });
    host::Relay { channels, age: of.age, slot: of.slot, device_on: of.device_on, settings: settings_of(&of.settings) }
}
