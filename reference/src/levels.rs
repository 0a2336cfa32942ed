//! The expected output of a test program on changed levels: short scenarios on
//! a fresh relay, with the runs and the output byte of every counted frame.

use crate::bench::LENGTHS;
use crate::history::Call;
use crate::relay::{change, frame, fresh, Levels, Settings, FIRST_CURRENT, FULL_AGE};

/// The levels that every relay here is made with. The wave below just meets the
/// pickups; still channels just meet the drops.
pub const BASE: Levels = Levels { drop: [1; 6], pickup: [1603; 3], restraint: [0; 3] };

/// The codes of frame n are entry n mod 8, on all six channels.
pub const WAVE: [u16; 8] = [612, 583, 512, 441, 412, 441, 512, 583];
pub const STILL: [u16; 8] = [512; 8];

pub const ENABLE: u8 = 0x7F;

pub struct Scenario {
    pub name: &'static str,
    pub codes: [u16; 8],
    pub last: usize,
    /// The frame right after which the changes come.
    pub after: usize,
    pub changes: Vec<Levels>,
}

fn edited(edit: impl Fn(&mut Levels)) -> Levels {
    let mut levels = BASE;
    edit(&mut levels);
    levels
}

pub fn scenarios() -> Vec<Scenario> {
    let pickups = |pickup| Levels { pickup: [pickup; 3], ..BASE };
    let drops = |drop| Levels { drop: [drop; 6], ..BASE };
    let wave = |name, after, changes| Scenario { name, codes: WAVE, last: 79, after, changes };
    let still = |name, last, changes| Scenario { name, codes: STILL, last, after: 86, changes };
    // Channels 3, 4, 5 are places 0, 1, 2 of pickups and restraints.
    let refused = vec![
        edited(|levels| levels.pickup[2] = 0),
        edited(|levels| levels.drop[5] = 10_701),
        edited(|levels| levels.restraint[2] = 101),
        edited(|levels| (levels.pickup[0], levels.restraint[0]) = (10_701, 255)),
        BASE,
    ];
    vec![
        wave("unchanged", 74, vec![]),
        wave("summer", 74, vec![pickups(1604)]),
        wave("raised and lowered", 74, vec![pickups(1604), BASE]),
        wave("before the run", 71, vec![pickups(1602)]),
        wave("latched", 75, vec![pickups(1604)]),
        wave("drops only", 74, vec![drops(2)]),
        wave("one pickup", 74, vec![edited(|levels| levels.pickup[1] = 1602)]),
        wave("one restraint", 74, vec![edited(|levels| levels.restraint[2] = 100)]),
        wave("refused", 74, refused),
        still("loss", 103, vec![edited(|levels| levels.drop[0] = 2)]),
        still("loss kept", 87, vec![Levels { pickup: [1604; 3], restraint: [15; 3], ..BASE }]),
        still("loss raised and lowered", 103, vec![drops(2), BASE]),
    ]
}

/// For each scenario: a line with its name; from frame 72 on a line a frame,
/// with its number, six loss runs, three over runs and the output byte; a line
/// with the number of each change.
pub fn text() -> String {
    scenarios().iter().map(played).collect()
}

/// Frames `from` up to `end`, the latter left out, with these codes.
pub fn frames(codes: &[u16; 8], from: usize, end: usize) -> impl Iterator<Item = Call> + '_ {
    (from..end).map(|n| Call::Frame { codes: [codes[n % 8]; 6], enable: ENABLE })
}

pub fn played(scenario: &Scenario) -> String {
    let Scenario { name, codes, last, after, changes } = scenario;
    let mut calls: Vec<Call> = frames(codes, 0, after + 1).collect();
    calls.extend(changes.iter().copied().map(Call::Change));
    calls.extend(frames(codes, after + 1, last + 1));
    played_calls(name, Settings { levels: BASE, lengths: LENGTHS }, &calls)
}

/// A list of accepted frames and of changes, on a fresh relay.
pub fn played_calls(name: &str, settings: Settings, calls: &[Call]) -> String {
    let made = fresh(settings);
    assert_eq!(made.number, 0);
    let mut relay = made.relay;
    let mut n = 0;
    let mut text = format!("{name}\n");
    for call in calls {
        match *call {
            Call::Frame { codes, enable } => {
                let answer = frame(relay, codes, enable);
                assert_eq!(answer.number, 0);
                relay = answer.relay;
                if n >= usize::from(FULL_AGE) {
                    text += &n.to_string();
                    for channel in &relay.channels {
                        text += &format!(" {}", channel.loss_run);
                    }
                    for channel in &relay.channels[FIRST_CURRENT..] {
                        text += &format!(" {}", channel.over_run);
                    }
                    text += &format!(" {:02X}\n", answer.output);
                }
                n += 1;
            }
            Call::Change(levels) => {
                let answer = change(relay, levels);
                relay = answer.relay;
                text += &format!("change {}\n", answer.number);
            }
            Call::Reset { .. } => panic!("no scenario has a reset"),
        }
    }
    text
}
