//! The expected output of a test program on resets in two strokes: presses of
//! channels 3 and 4 on one relay, what they are equal to, how many pairs of masks
//! obey the law of Paper 2 on it, and in how many fields the comparison sees a
//! difference.

use crate::bench::{line, LENGTHS};
use crate::levels::{BASE, ENABLE, STILL, WAVE};
use crate::relay::{frame, fresh, reset, Channel, Framed, Lengths, Levels, Relay, Settings};
use std::ops::Not;

/// Masks 0 to 63 name channels and nothing else.
pub const MASKS: std::ops::Range<u8> = 0..64;

/// The frame after which the presses come. The over latches of channels 3 and 4
/// and the loss latches of the others are on then.
pub const LAST: usize = 89;

/// Of each channel eight samples, two runs and two latches; age, slot and the
/// remembered bit 6; six drops, three pickups and three restraints; two lengths.
pub const FIELDS: usize = 89;

/// Channels 3 and 4 have the wave, the others are still.
pub fn codes(n: usize) -> [u16; 6] {
    std::array::from_fn(|c| if c == 3 || c == 4 { WAVE[n % 8] } else { STILL[n % 8] })
}

fn next(relay: Relay, n: usize) -> Framed {
    let answer = frame(relay, codes(n), ENABLE);
    assert_eq!(answer.number, 0);
    answer
}

/// The answer of frame 89, with the relay that all presses here are made on.
pub fn start() -> Framed {
    let made = fresh(Settings { levels: BASE, lengths: LENGTHS });
    assert_eq!(made.number, 0);
    let first = next(made.relay, 0);
    (1..=LAST).fold(first, |answer, n| next(answer.relay, n))
}

/// The relay after accepted masks, one after another.
pub fn pressed(relay: Relay, masks: &[u8]) -> Relay {
    masks.iter().fold(relay, |relay, &mask| {
        let answer = reset(relay, mask);
        assert_eq!(answer.number, 0, "mask {mask}");
        answer.relay
    })
}

/// A line for each press, with its number, and the line of the frame after them.
fn presses(relay: Relay, masks: &[u8]) -> String {
    let mut relay = relay;
    let mut text = String::new();
    for &mask in masks {
        let answer = reset(relay, mask);
        relay = answer.relay;
        text += &format!("{mask} answers {}\n", answer.number);
    }
    text + &line(LAST + 1, &next(relay, LAST + 1))
}

/// How many of the 4,096 pairs of accepted masks have this.
fn pairs(has: impl Fn(u8, u8) -> bool) -> usize {
    MASKS.flat_map(|a| MASKS.map(move |b| (a, b))).filter(|&(a, b)| has(a, b)).count()
}

type Alteration<'a> = Box<dyn FnOnce() + 'a>;

/// Turns all bits of a field over, so that no value stays as it was. The field
/// itself is asked, not the relay, whose comparison is what is tried.
fn alteration<'a, T: Copy + PartialEq + Not<Output = T>>(field: &'a mut T) -> Alteration<'a> {
    Box::new(move || {
        let before = *field;
        *field = !before;
        assert!(*field != before);
    })
}

/// One alteration for each field. A new field of the relay has to be named here or
/// this does not compile, and no field can be in the list twice.
fn alterations(relay: &mut Relay) -> Vec<Alteration<'_>> {
    let Relay { settings, channels, age, slot, device_on } = relay;
    let Settings { levels: Levels { drop, pickup, restraint }, lengths: Lengths { loss, over } } = settings;
    let mut list = Vec::new();
    for Channel { samples, loss_run, over_run, loss_latch, over_latch } in channels {
        list.extend(samples.iter_mut().map(alteration));
        list.extend([alteration(loss_run), alteration(over_run), alteration(loss_latch), alteration(over_latch)]);
    }
    list.extend([alteration(age), alteration(slot), alteration(device_on)]);
    list.extend(drop.iter_mut().chain(pickup).map(alteration));
    list.extend(restraint.iter_mut().chain([loss, over]).map(alteration));
    assert_eq!(list.len(), FIELDS);
    list
}

/// The relay with one field altered, for each field.
pub fn altered(relay: Relay) -> [Relay; FIELDS] {
    std::array::from_fn(|field| {
        let mut altered = relay;
        alterations(&mut altered).swap_remove(field)();
        altered
    })
}

pub fn text() -> String {
    let answer = start();
    let relay = answer.relay;
    let after = |masks: &[u8]| pressed(relay, masks);
    let frame_90 = |relay| next(relay, LAST + 1).relay;
    let mut text = line(LAST, &answer);
    for masks in [&[8, 16][..], &[16, 8], &[24]] {
        text += &presses(relay, masks);
    }
    let compared = [
        ("8 then 16, and 16 then 8", after(&[8, 16]), after(&[16, 8])),
        ("8 then 16, and 24", after(&[8, 16]), after(&[24])),
        ("16 then 8, and 24", after(&[16, 8]), after(&[24])),
        ("8 then 8, and 8", after(&[8, 8]), after(&[8])),
        ("0, and no press", after(&[0]), relay),
        ("8, and 24", after(&[8]), after(&[24])),
        ("8, and 16", after(&[8]), after(&[16])),
        ("8, frame 90, 16, and frame 90, 24", pressed(frame_90(after(&[8])), &[16]), pressed(frame_90(relay), &[24])),
    ];
    for (what, left, right) in compared {
        text += &format!("{what}: {}\n", if left == right { "equal" } else { "different" });
    }
    let union = pairs(|a, b| after(&[a, b]) == after(&[a | b]) && after(&[b, a]) == after(&[a | b]));
    let alone = pairs(|a, b| after(&[a, b]) == after(&[a]));
    text += &format!("a then b, b then a, and both at once are equal: {union} of 4096 pairs of masks\n");
    text += &format!("a then b, and a alone, are equal: {alone} of 4096 pairs of masks\n");
    let seen = altered(relay).iter().filter(|&altered| *altered != relay).count();
    text + &format!("one field altered, and not: different in {seen} of {FIELDS} fields\n")
}
