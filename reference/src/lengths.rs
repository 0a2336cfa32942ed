//! The expected output of a test program on run lengths: every length of either
//! kind, what making a relay refuses, and short scenarios as in `levels`.

use crate::history::Call;
use crate::levels::{frames, played_calls, BASE, ENABLE, STILL, WAVE};
use crate::relay::{frame, fresh, Channel, Lengths, Levels, Settings, HIGHEST_LENGTH};

/// The frames that each relay of the sweep is fed. The longest run is full well
/// before the last of them.
const SWEPT_FRAMES: usize = 128;

pub fn text() -> String {
    sweep() + &made() + &scenes().iter().map(played).collect::<String>()
}

/// Channel 5 after each frame of the sweep. All channels are alike, but only a
/// current has both runs.
fn swept(settings: Settings, codes: &[u16; 8]) -> Vec<Channel> {
    let made = fresh(settings);
    assert_eq!(made.number, 0);
    let mut relay = made.relay;
    (0..SWEPT_FRAMES)
        .map(|n| {
            let answer = frame(relay, [codes[n % 8]; 6], ENABLE);
            assert_eq!(answer.number, 0);
            relay = answer.relay;
            relay.channels[5]
        })
        .collect()
}

/// The two lengths run against each other, so that exchanged ones are seen. For
/// each kind: the frame in which its latch goes on, and the run at the end.
pub fn sweep() -> String {
    let mut text = String::from("sweep\n");
    for loss in 1..=HIGHEST_LENGTH {
        let lengths = Lengths { loss, over: HIGHEST_LENGTH + 1 - loss };
        let settings = Settings { levels: BASE, lengths };
        let still = swept(settings, &STILL);
        let wave = swept(settings, &WAVE);
        let lost = still.iter().position(|channel| channel.loss_latch).expect("a full loss run");
        let picked_up = wave.iter().position(|channel| channel.over_latch).expect("a full over run");
        let (loss_run, over_run) = (still[SWEPT_FRAMES - 1].loss_run, wave[SWEPT_FRAMES - 1].over_run);
        text += &format!("{loss} {} loss {lost} {loss_run} over {picked_up} {over_run}\n", lengths.over);
    }
    text
}

/// Lengths at and beyond their limits; then some with a level or a restraint
/// level out of range too.
pub fn asked() -> Vec<Settings> {
    let with = |loss, over, levels| Settings { levels, lengths: Lengths { loss, over } };
    let mut asked: Vec<Settings> = [
        (1, 1), (24, 24), (16, 4), (4, 16), (0, 4), (16, 0), (25, 4), (16, 25), (255, 4), (16, 255), (0, 25),
    ]
    .into_iter()
    .map(|(loss, over)| with(loss, over, BASE))
    .collect();
    // Channels 3, 4, 5 are places 0, 1, 2 of pickups and restraints.
    asked.extend([
        with(0, 4, Levels { drop: [1, 1, 1, 1, 1, 0], ..BASE }),
        with(25, 4, Levels { pickup: [1603, 1603, 10_701], ..BASE }),
        with(16, 0, Levels { restraint: [0, 0, 101], ..BASE }),
        with(16, 25, Levels { drop: [10_701, 1, 1, 1, 1, 1], restraint: [255, 0, 0], ..BASE }),
    ]);
    asked
}

/// The lengths asked for, the refusal number, the lengths of the relay.
pub fn made() -> String {
    let line = |settings: Settings| {
        let (made, asked) = (fresh(settings), settings.lengths);
        let got = made.relay.settings.lengths;
        format!("{} {} {} {} {}\n", asked.loss, asked.over, made.number, got.loss, got.over)
    };
    String::from("fresh\n") + &asked().into_iter().map(line).collect::<String>()
}

pub struct Scene {
    pub name: &'static str,
    pub settings: Settings,
    pub calls: Vec<Call>,
}

pub fn scenes() -> Vec<Scene> {
    let pickups = |pickup| Levels { pickup: [pickup; 3], ..BASE };
    let scene = |name, (loss, over), levels, parts: [Vec<Call>; 3]| Scene {
        name,
        settings: Settings { levels, lengths: Lengths { loss, over } },
        calls: parts.concat(),
    };
    let wave = |from, last: usize| frames(&WAVE, from, last + 1).collect::<Vec<Call>>();
    let still = |from, last: usize| frames(&STILL, from, last + 1).collect::<Vec<Call>>();
    let change = |levels| vec![Call::Change(levels)];
    // The one sample is in the window for eight frames, with an amplitude above 2000.
    let one_bad_sample = || [still(0, 79), frames(&[0; 8], 80, 81).collect(), still(81, 90)];
    vec![
        scene("one and one", (1, 1), BASE, [wave(0, 73), still(74, 83), vec![]]),
        scene("all twenty-four", (24, 24), BASE, [wave(0, 97), vec![], vec![]]),
        scene("loss kept", (20, 6), BASE, [still(0, 90), change(pickups(1604)), still(91, 93)]),
        scene("over anew", (20, 6), BASE, [wave(0, 76), change(pickups(1602)), wave(77, 84)]),
        scene("one bad sample, eight", (9, 8), pickups(2000), one_bad_sample()),
        scene("one bad sample, nine", (9, 9), pickups(2000), one_bad_sample()),
    ]
}

pub fn played(scene: &Scene) -> String {
    played_calls(scene.name, scene.settings, &scene.calls)
}
