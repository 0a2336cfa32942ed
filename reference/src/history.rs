//! The latch history of demand 3, read from the list of calls and not by
//! stepping a relay. Nothing here uses `relay::frame`, `relay::reset` or
//! `relay::change`.

use crate::amplitude::{amplitude, amplitude_of_order, sample, Window};
use crate::exact::Exact;
use crate::relay::{
    frame_refusal, is_device_on, is_enabled, is_unrestrained, levels_refusal, reset_refusal, Lengths, Levels, Settings,
    FIRST_CURRENT,
};

#[derive(Clone, Copy, Debug, PartialEq, Eq)]
pub enum Call {
    Frame { codes: [u16; 6], enable: u8 },
    Reset { mask: u8 },
    Change(Levels),
}

#[derive(Clone, Copy, Debug, PartialEq, Eq)]
pub enum Latch {
    Loss,
    Over,
}

impl Latch {
    /// The frames of a full run.
    pub fn full_run(self, lengths: &Lengths) -> usize {
        usize::from(match self {
            Latch::Loss => lengths.loss,
            Latch::Over => lengths.over,
        })
    }

    /// The own level of the channel's run of this kind, in these levels: the
    /// drop level (loss); the pickup level and r, which is "part of the over
    /// run's own level" (over). A voltage has no over run, and nothing there
    /// ever changes.
    pub fn own_level(self, levels: &Levels, channel: usize) -> Option<(u16, u8)> {
        match self {
            Latch::Loss => Some((levels.drop[channel], 0)),
            Latch::Over => {
                let current = channel.checked_sub(FIRST_CURRENT)?;
                Some((levels.pickup[current], levels.restraint[current]))
            }
        }
    }
}

/// An accepted frame; its number is its place among the accepted frames.
#[derive(Clone, Copy, Debug)]
pub struct AcceptedFrame {
    /// Its place in the list of calls.
    pub place: usize,
    pub enable: u8,
    /// The levels in force: those of the latest accepted change before it, or
    /// those that the relay was made with.
    pub levels: Levels,
    /// Whether it has bit 6 on right after a frame with it off.
    pub is_rise: bool,
    pub is_counted: bool,
    pub m: [i64; 6],
    pub z: [Exact; 6],
    /// The second harmonic, of the same windows.
    pub second_m: [i64; 6],
    pub second_z: [Exact; 6],
}

impl AcceptedFrame {
    /// The drop or pickup level in force. A voltage has no pickup level.
    pub fn level(&self, latch: Latch, channel: usize) -> i64 {
        i64::from(match latch {
            Latch::Loss => self.levels.drop[channel],
            Latch::Over => self.levels.pickup[channel - FIRST_CURRENT],
        })
    }
}

#[derive(Clone, Copy, Debug)]
pub struct AcceptedReset {
    pub place: usize,
    pub mask: u8,
}

#[derive(Clone, Copy, Debug)]
pub struct AcceptedChange {
    pub place: usize,
    /// The levels in force right before it.
    pub old: Levels,
    pub new: Levels,
}

#[derive(Clone, Debug)]
pub struct History {
    /// What the relay was made with.
    pub settings: Settings,
    pub frames: Vec<AcceptedFrame>,
    pub resets: Vec<AcceptedReset>,
    pub changes: Vec<AcceptedChange>,
}

impl History {
    /// The history of a list of calls on a fresh relay made with `settings`.
    /// "A refused call changes nothing, has no frame number and separates
    /// nothing", so it leaves no trace here.
    pub fn of(settings: Settings, calls: &[Call]) -> History {
        let mut codes_of_frame: Vec<[u16; 6]> = Vec::new();
        let mut enable_of_frame: Vec<u8> = Vec::new();
        let mut frames = Vec::new();
        let mut resets = Vec::new();
        let mut changes: Vec<AcceptedChange> = Vec::new();
        for (place, call) in calls.iter().enumerate() {
            let in_force = changes.last().map_or(settings.levels, |change| change.new);
            match *call {
                Call::Frame { codes, enable } if frame_refusal(&codes, enable) == 0 => {
                    codes_of_frame.push(codes);
                    enable_of_frame.push(enable);
                    let n = frames.len();
                    let windows: [Window; 6] =
                        std::array::from_fn(|c| window_at(&codes_of_frame, n, c));
                    frames.push(AcceptedFrame {
                        place,
                        enable,
                        levels: in_force,
                        is_rise: is_rise(&enable_of_frame, n),
                        is_counted: is_counted(&enable_of_frame, n),
                        m: windows.map(|w| amplitude(&w)),
                        z: windows.map(|w| Exact::of(&w)),
                        second_m: windows.map(|w| amplitude_of_order(&w, 2)),
                        second_z: windows.map(|w| Exact::of_order(&w, 2)),
                    });
                }
                Call::Reset { mask } if reset_refusal(mask) == 0 => {
                    resets.push(AcceptedReset { place, mask });
                }
                Call::Change(new) if levels_refusal(&new) == 0 => {
                    changes.push(AcceptedChange { place, old: in_force, new });
                }
                _ => {}
            }
        }
        History { settings, frames, resets, changes }
    }

    /// The frames of a full run, by the lengths that the relay was made with: no
    /// call of the list changes them.
    pub fn full_run(&self, latch: Latch) -> usize {
        latch.full_run(&self.settings.lengths)
    }

    /// Whether the frames `first` and following make a full run: "16 (loss) or
    /// 4 (over) successive counted frames with the channel enabled, none
    /// separated by an accepted reset naming it", with the relay's lengths for 16
    /// and 4, and "between the first and last frame of a full run no change gave
    /// its own level another value". Successive frames are next in number.
    pub fn is_full_run(&self, latch: Latch, channel: usize, first: usize) -> bool {
        let end = first + self.full_run(latch);
        if end > self.frames.len() {
            return false;
        }
        let run = &self.frames[first..end];
        let span = run[0].place..run[run.len() - 1].place;
        run.iter().all(|frame| frame.is_counted && is_enabled(frame.enable, channel))
            && !self.resets_naming(channel).any(|place| span.contains(&place))
            && !self.changes_of(latch, channel).any(|place| span.contains(&place))
    }

    /// "A full run meets its level if m < drop (loss) or m ≥ pickup (over) in
    /// each of its frames." "The level it meets [...] is the one it ran under":
    /// that in force in the frame.
    pub fn meets_level(&self, latch: Latch, channel: usize, first: usize) -> bool {
        self.frames[first..first + self.full_run(latch)].iter().all(|frame| {
            let level = frame.level(latch, channel);
            match latch {
                Latch::Loss => frame.m[channel] < level,
                Latch::Over => frame.m[channel] >= level,
            }
        })
    }

    /// "The history adds that test to a full over run": in each of its frames
    /// the restraint level in force lets the over run grow. A loss run has no
    /// such test.
    pub fn is_unrestrained(&self, latch: Latch, channel: usize, first: usize) -> bool {
        latch == Latch::Loss
            || self.frames[first..first + self.full_run(latch)].iter().all(|frame| {
                let r = frame.levels.restraint[channel - FIRST_CURRENT];
                is_unrestrained(r, frame.m[channel], frame.second_m[channel])
            })
    }

    /// Whether the latch is on after the first `calls` calls of the list: "a
    /// full run that meets its level lies wholly after the last accepted reset
    /// naming the channel, or after the start if there is none", an over run
    /// with the test of restraint. A voltage has no over latch.
    pub fn is_on(&self, latch: Latch, channel: usize, calls: usize) -> bool {
        if latch == Latch::Over && channel < FIRST_CURRENT {
            return false;
        }
        let last_reset = self.resets_naming(channel).filter(|&place| place < calls).last();
        let lies_between = |first: usize| {
            let run = &self.frames[first..first + self.full_run(latch)];
            last_reset.map_or(true, |place| place < run[0].place) && run[run.len() - 1].place < calls
        };
        // The quick questions first: lists are long.
        (0..(self.frames.len() + 1).saturating_sub(self.full_run(latch))).any(|first| {
            lies_between(first)
                && self.meets_level(latch, channel, first)
                && self.is_unrestrained(latch, channel, first)
                && self.is_full_run(latch, channel, first)
        })
    }

    /// The output byte of accepted frame n: "bit c is 1 exactly when channel c
    /// has a latch on by this rule after frame n and is enabled in it".
    pub fn output(&self, n: usize) -> u8 {
        let frame = &self.frames[n];
        let after = frame.place + 1;
        (0..6)
            .filter(|&c| {
                is_enabled(frame.enable, c)
                    && (self.is_on(Latch::Loss, c, after) || self.is_on(Latch::Over, c, after))
            })
            .map(|c| 1 << c)
            .sum()
    }

    /// What the relay remembers of bit 6 after the first `calls` calls: that of
    /// the latest accepted frame, "a fresh relay remembers on".
    pub fn device_on(&self, calls: usize) -> bool {
        let latest = self.frames.iter().filter(|frame| frame.place < calls).last();
        latest.map_or(true, |frame| is_device_on(frame.enable))
    }

    /// The age after the first `calls` calls: the number of accepted frames
    /// from the latest rise on, or from the start if there is none, up to 72.
    pub fn age(&self, calls: usize) -> usize {
        let accepted = self.frames.iter().filter(|frame| frame.place < calls).count();
        let latest_rise = self.frames[..accepted].iter().rposition(|frame| frame.is_rise);
        (accepted - latest_rise.unwrap_or(0)).min(72)
    }

    /// The levels in force after the first `calls` calls: those of the latest
    /// accepted change, or those that the relay was made with.
    pub fn levels(&self, calls: usize) -> Levels {
        let latest = self.changes.iter().filter(|change| change.place < calls).last();
        latest.map_or(self.settings.levels, |change| change.new)
    }

    /// The places of the accepted changes that gave the run's own level another
    /// value than it had right before. So a change and a change back are two.
    pub fn changes_of(&self, latch: Latch, channel: usize) -> impl Iterator<Item = usize> + '_ {
        let own = move |levels| latch.own_level(levels, channel);
        self.changes.iter().filter(move |change| own(&change.old) != own(&change.new)).map(|change| change.place)
    }

    fn resets_naming(&self, channel: usize) -> impl Iterator<Item = usize> + '_ {
        self.resets.iter().filter(move |r| r.mask >> channel & 1 == 1).map(|r| r.place)
    }
}

/// "Frame n [...] has bit 6 on right after one with it off." Frame 0 has none
/// before it.
fn is_rise(enable_of_frame: &[u8], n: usize) -> bool {
    n > 0 && is_device_on(enable_of_frame[n]) && !is_device_on(enable_of_frame[n - 1])
}

/// "Frame n is counted if n is 72 or more and none of the frames n − 71 to n
/// has bit 6 on right after one with it off."
fn is_counted(enable_of_frame: &[u8], n: usize) -> bool {
    n >= 72 && !(n - 71..=n).any(|number| is_rise(enable_of_frame, number))
}

/// "At accepted frame n a channel's window has in slot k the sample of the
/// latest accepted frame up to n whose number mod 8 is k, 0 if there is none."
fn window_at(codes_of_frame: &[[u16; 6]], n: usize, channel: usize) -> Window {
    std::array::from_fn(|k| {
        (0..=n)
            .rev()
            .find(|number| number % 8 == k)
            .map_or(0, |number| sample(codes_of_frame[number][channel]))
    })
}
