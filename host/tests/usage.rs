//! Uses the archive through the safe wrapper, as a program of the customer's would, and holds the declared structs to the sizes and
//! places written down here.

use host::{estimate, excerpt, read, refusal, report, strongest, write};
use host::{ChangeAnswer, EstimateAnswer, FrameAnswer, FreshAnswer, ResetAnswer, StrongestWindow};
use host::{Channel, Lengths, Levels, Relay, Settings};
use host::{FRAME_CELLS, READ_ROOM, REPORT_ROOM, WRITE_ROOM};
use std::mem::{align_of, offset_of, size_of};

#[test]
fn layout() {
    assert_eq!((size_of::<Channel>(), align_of::<Channel>()), (20, 2));
    assert_eq!((offset_of!(Channel, loss_run), offset_of!(Channel, over_run)), (16, 17));
    assert_eq!((offset_of!(Channel, loss_latch), offset_of!(Channel, over_latch)), (18, 19));
    // The last byte of the levels is padding; so is the one before a relay's settings.
    assert_eq!((size_of::<Levels>(), offset_of!(Levels, pickup), offset_of!(Levels, restraint)), (22, 12, 18));
    assert_eq!((size_of::<Lengths>(), offset_of!(Lengths, loss), offset_of!(Lengths, over)), (2, 0, 1));
    assert_eq!((size_of::<Settings>(), offset_of!(Settings, levels), offset_of!(Settings, lengths)), (24, 0, 22));
    assert_eq!((size_of::<Relay>(), align_of::<Relay>()), (148, 2));
    assert_eq!((offset_of!(Relay, age), offset_of!(Relay, slot)), (120, 121));
    assert_eq!((offset_of!(Relay, device_on), offset_of!(Relay, settings)), (122, 124));
    assert_eq!((size_of::<FreshAnswer>(), offset_of!(FreshAnswer, refusal)), (150, 148));
    assert_eq!((size_of::<ResetAnswer>(), offset_of!(ResetAnswer, refusal)), (150, 148));
    assert_eq!((size_of::<ChangeAnswer>(), offset_of!(ChangeAnswer, refusal)), (150, 148));
    assert_eq!((size_of::<FrameAnswer>(), offset_of!(FrameAnswer, refusal)), (164, 148));
    assert_eq!((offset_of!(FrameAnswer, amplitudes), offset_of!(FrameAnswer, output)), (150, 162));
    assert_eq!((size_of::<EstimateAnswer>(), align_of::<EstimateAnswer>(), offset_of!(EstimateAnswer, amplitude)), (4, 2, 2));
    assert_eq!((size_of::<host::Answer>(), offset_of!(host::Answer, count)), (16, 8));
    assert_eq!((size_of::<StrongestWindow>(), offset_of!(StrongestWindow, sum), offset_of!(StrongestWindow, frame)), (16, 4, 8));
}

const LEVELS: Levels = Levels { drop: [819; 6], pickup: [3413; 3], restraint: [0; 3] };
/// The bench program's.
const LENGTHS: Lengths = Lengths { loss: 16, over: 4 };
const SETTINGS: Settings = Settings { levels: LEVELS, lengths: LENGTHS };

fn made_with(levels: Levels) -> FreshAnswer {
    Relay::fresh(Settings { levels, ..SETTINGS })
}

/// A recording of a fault on channel 4, fed to a relay; the latch is shown until it is reset.
#[test]
fn a_fault_is_seen_and_reset() {
    let fault = [900, 786, 512, 238, 124, 238, 512, 786];
    let mut relay = Relay::fresh(SETTINGS).relay;
    let mut outputs = Vec::new();
    for n in 0..100 {
        let codes = [0, 1, 2, 3, 4, 5].map(|c| if c == 4 { fault[n % 8] } else { 512 + (fault[n % 8] - 512) / 4 });
        let answer = relay.frame(codes.map(|code: i16| code as u16), 0x7F);
        assert_eq!(answer.refusal, refusal::ACCEPTED);
        relay = answer.relay;
        outputs.push(answer.output);
    }
    assert_eq!(outputs.iter().position(|&output| output != 0), Some(75));
    assert_eq!(outputs[99], 0x10);
    let answer = relay.reset(0x10);
    assert_eq!((answer.refusal, answer.relay.channels[4].over_latch), (refusal::ACCEPTED, false));
    assert_eq!(answer.relay.reset(0xC0).refusal, refusal::BAD_MASK);
}

/// The device is switched off and on under a fault on channel 4: the relay settles again, and trips 75 frames after the
/// frame that has bit 6 on again.
#[test]
fn the_device_switch_settles_the_relay_again() {
    let fault = [900, 786, 512, 238, 124, 238, 512, 786];
    for (off, trip) in [(0..0, 75), (0..1, 76), (50..60, 135), (72..75, 150), (60..100, 175)] {
        let mut relay = made_with(Levels { drop: [1; 6], ..LEVELS }).relay;
        assert!(relay.device_on);
        let mut outputs = Vec::new();
        for n in 0..200 {
            let device_on = !off.contains(&n);
            let answer = relay.frame([512, 512, 512, 512, fault[n % 8], 512], if device_on { 0x7F } else { 0x3F });
            assert_eq!((answer.refusal, answer.relay.device_on), (refusal::ACCEPTED, device_on));
            relay = answer.relay;
            outputs.push(answer.output & 0x10);
        }
        assert_eq!(outputs.iter().position(|&output| output != 0), Some(trip), "off in {off:?}");
    }
    let refused = made_with(Levels { drop: [0; 6], ..LEVELS });
    assert!(refused.refusal == refusal::BAD_SETTING && !refused.relay.device_on);
}

/// Magnetising current on channel 3, with a second harmonic of a quarter of the fundamental: it trips a relay without restraint, and no relay
/// whose restraint level the harmonic reaches.
#[test]
fn a_second_harmonic_restrains() {
    let inrush = [287, 162, -57, -162, -172, -162, -57, 162];
    let (fundamental, second) = (estimate(inrush, 1), estimate(inrush, 2));
    assert_eq!(fundamental, EstimateAnswer { refusal: refusal::ACCEPTED, amplitude: 3668 });
    assert_eq!(second, EstimateAnswer { refusal: refusal::ACCEPTED, amplitude: 916 });
    assert_eq!(estimate(inrush, 4), EstimateAnswer { refusal: refusal::BAD_ESTIMATE, amplitude: 0 });
    for (restraint, output) in [(0, 0x08), (24, 0x00), (25, 0x08), (100, 0x08)] {
        let mut relay = made_with(Levels { drop: [1; 6], restraint: [restraint; 3], ..LEVELS }).relay;
        let mut last = 0;
        for n in 0..80 {
            let answer = relay.frame([512, 512, 512, (512 + inrush[n % 8]) as u16, 512, 512], 0x7F);
            (relay, last) = (answer.relay, answer.output);
        }
        assert_eq!(last, output, "restraint {restraint}");
    }
    let refused = made_with(Levels { restraint: [0, 0, 101], ..LEVELS });
    assert_eq!((refused.refusal, refused.relay), (refusal::BAD_RESTRAINT, Relay::default()));
}

/// A wave on channel 4 that just reaches the pickup, the other channels still and just below the drop; levels are
/// changed after frame 74. By then each run has counted frames 72, 73 and 74. The over run is full with frame 75 if it
/// is kept and with frame 78 if not; a loss run with frame 87, or with frame 90.
#[test]
fn levels_are_changed_while_the_relay_runs() {
    let wave = [612, 583, 512, 441, 412, 441, 512, 583];
    let base = Levels { drop: [1; 6], pickup: [1603; 3], restraint: [0; 3] };
    let run = |mut relay: Relay, frames: std::ops::Range<usize>| {
        let mut outputs = Vec::new();
        for n in frames {
            let answer = relay.frame([512, 512, 512, 512, wave[n % 8], 512], 0x7F);
            assert_eq!(answer.refusal, refusal::ACCEPTED);
            relay = answer.relay;
            outputs.push(answer.output);
        }
        (relay, outputs)
    };
    let (relay, _) = run(made_with(base).relay, 0..75);
    assert_eq!((relay.channels[4].over_run, relay.channels[0].loss_run), (3, 3));

    // What is changed, one after the other, and the first frame that shows channel 4, channel 0 and channel 1.
    let raised = Levels { pickup: [1604; 3], ..base };
    let cases = [
        (vec![], [Some(75), Some(87), Some(87)]),
        (vec![base], [Some(75), Some(87), Some(87)]),
        (vec![raised], [None, Some(87), Some(87)]),
        (vec![raised, base], [Some(78), Some(87), Some(87)]),
        (vec![Levels { pickup: [1604, 1603, 1604], ..base }], [Some(75), Some(87), Some(87)]),
        (vec![Levels { pickup: [1602; 3], ..base }], [Some(78), Some(87), Some(87)]),
        (vec![Levels { restraint: [0, 1, 0], ..base }], [Some(78), Some(87), Some(87)]),
        (vec![Levels { restraint: [1, 0, 1], ..base }], [Some(75), Some(87), Some(87)]),
        (vec![Levels { drop: [2, 1, 1, 1, 1, 1], ..base }], [Some(75), Some(90), Some(87)]),
        (vec![Levels { drop: [2; 6], ..base }, base], [Some(75), Some(90), Some(90)]),
        (vec![Levels { drop: [2; 6], restraint: [0, 0, 101], ..base }], [Some(75), Some(87), Some(87)]),
    ];
    for (changes, expected) in cases {
        let changed = changes.iter().fold(relay, |relay, &levels| relay.change(levels).relay);
        let (_, outputs) = run(changed, 75..100);
        let first = [4, 0, 1].map(|c| outputs.iter().position(|output| output >> c & 1 != 0).map(|at| 75 + at));
        assert_eq!(first, expected, "{changes:?}");
    }

    // All that is not a run of a changed level stays; the latch too, until it is reset, and then under the new level.
    let (tripped, _) = run(relay, 75..76);
    let answer = tripped.change(raised);
    let mut expected = Relay { settings: Settings { levels: raised, ..SETTINGS }, ..tripped };
    expected.channels[4].over_run = 0;
    assert_eq!(answer, ChangeAnswer { relay: expected, refusal: refusal::ACCEPTED });
    assert!(expected.channels[4].over_latch && run(expected, 76..80).1.iter().all(|&output| output == 0x10));
    let reset = expected.reset(0x10).relay;
    assert_eq!(reset.settings.levels, raised);
    assert!(run(reset, 76..86).1.iter().all(|&output| output == 0));

    // Refused by 20; by 1 before 20; by 2 before both. The relay comes back as it was.
    let unsound = Relay { age: 73, ..tripped };
    for (relay, levels, number) in [
        (tripped, Levels { restraint: [0, 101, 0], ..raised }, refusal::BAD_RESTRAINT),
        (tripped, Levels { drop: [1, 1, 1, 1, 1, 0], ..raised }, refusal::BAD_SETTING),
        (tripped, Levels { pickup: [10_701; 3], restraint: [101; 3], ..raised }, refusal::BAD_SETTING),
        (unsound, raised, refusal::UNSOUND_RELAY),
        (unsound, Levels { pickup: [0; 3], restraint: [101; 3], ..raised }, refusal::UNSOUND_RELAY),
        (Relay::default(), base, refusal::UNSOUND_RELAY),
    ] {
        assert_eq!(relay.change(levels), ChangeAnswer { relay, refusal: number });
    }
}

/// A wave on channel 4 that just reaches the pickup, the other channels still and just below the drop: frame 72 is the
/// first that is counted, and a latch goes on in frame 71 + its length. A change of levels leaves the lengths.
#[test]
fn run_lengths_are_settings() {
    let wave = [612, 583, 512, 441, 412, 441, 512, 583];
    let levels = Levels { drop: [1; 6], pickup: [1603; 3], restraint: [0; 3] };
    for (loss, over) in (1..=24).flat_map(|loss| [1, 4, 8, 9, 16, 24, loss].map(|over| (loss, over))) {
        let settings = Settings { levels, lengths: Lengths { loss, over } };
        let made = Relay::fresh(settings);
        assert_eq!((made.refusal, made.relay.settings), (refusal::ACCEPTED, settings));
        let mut relay = made.relay;
        for n in 0..110 {
            let answer = relay.frame([512, 512, 512, 512, wave[n % 8], 512], 0x7F);
            assert_eq!(answer.refusal, refusal::ACCEPTED);
            relay = answer.relay;
            let counted = (n + 1).saturating_sub(72);
            let (lost, tripped) = (counted >= usize::from(loss), counted >= usize::from(over));
            assert_eq!(answer.output, u8::from(lost) * 0x2F | u8::from(tripped) << 4, "frame {n} of {loss} and {over}");
            assert_eq!(usize::from(relay.channels[0].loss_run), counted.min(usize::from(loss)));
            assert_eq!(usize::from(relay.channels[4].over_run), counted.min(usize::from(over)));
        }
        let changed = relay.change(Levels { drop: [2; 6], ..levels });
        assert_eq!((changed.refusal, changed.relay.settings.lengths), (refusal::ACCEPTED, settings.lengths));
        assert_eq!((changed.relay.channels[0].loss_run, changed.relay.channels[4].over_run), (0, over));
    }

    // Refused by 21; by 1 or 20 before it. The relay handed back is all-zero, its lengths too.
    let zeros = Relay::default();
    for (levels, loss, over, number) in [
        (levels, 0, 4, refusal::BAD_LENGTH),
        (levels, 16, 0, refusal::BAD_LENGTH),
        (levels, 25, 4, refusal::BAD_LENGTH),
        (levels, 16, 25, refusal::BAD_LENGTH),
        (levels, 255, 255, refusal::BAD_LENGTH),
        (Levels { drop: [1, 1, 1, 1, 1, 0], ..levels }, 0, 4, refusal::BAD_SETTING),
        (Levels { pickup: [1603, 1603, 10_701], ..levels }, 16, 25, refusal::BAD_SETTING),
        (Levels { restraint: [0, 0, 101], ..levels }, 25, 0, refusal::BAD_RESTRAINT),
    ] {
        let answer = Relay::fresh(Settings { levels, lengths: Lengths { loss, over } });
        assert_eq!(answer, FreshAnswer { relay: zeros, refusal: number }, "{loss} and {over}");
    }

    // Not sound: a run above its own length, or a length out of range.
    let sound = Relay::fresh(Settings { levels, lengths: Lengths { loss: 3, over: 2 } }).relay;
    let with = |loss_run, over_run, loss, over| {
        let mut relay = sound;
        (relay.channels[5].loss_run, relay.channels[5].over_run) = (loss_run, over_run);
        relay.settings.lengths = Lengths { loss, over };
        relay
    };
    for (relay, number) in [
        (with(3, 2, 3, 2), refusal::ACCEPTED),
        (with(24, 24, 24, 24), refusal::ACCEPTED),
        (with(4, 2, 3, 2), refusal::UNSOUND_RELAY),
        (with(3, 3, 3, 2), refusal::UNSOUND_RELAY),
        (with(3, 2, 25, 2), refusal::UNSOUND_RELAY),
        (with(3, 2, 3, 25), refusal::UNSOUND_RELAY),
        (with(0, 2, 0, 2), refusal::UNSOUND_RELAY),
        (with(3, 0, 3, 0), refusal::UNSOUND_RELAY),
    ] {
        let (frame, change) = (relay.frame([512; 6], 0x7F), relay.change(levels));
        assert_eq!([frame.refusal, relay.reset(0).refusal, change.refusal], [number; 3], "{relay:?}");
        assert!(number == refusal::ACCEPTED || (frame.relay == relay && change.relay == relay));
    }
}

#[test]
fn a_recording_is_written_read_searched_and_reported() {
    let cells: Vec<u16> = (0..30).flat_map(|n| [512, 512, 512, if n == 20 { 0 } else { 600 }, 512, 512, 0x7F]).collect();
    let mut bytes = [0; WRITE_ROOM];
    let written = write(&cells, &mut bytes);
    assert_eq!(written.refusal, refusal::ACCEPTED);
    let mut back = vec![0; cells.len()];
    let answer = read(&bytes[..written.count], &mut back);
    assert_eq!((answer.refusal, answer.count), (refusal::ACCEPTED, 30));
    assert_eq!(back, cells);
    assert_eq!(strongest(&cells, 3), StrongestWindow { refusal: refusal::ACCEPTED, sum: 7 * 88 * 88 + 512 * 512, frame: 13 });
    assert_eq!(excerpt(&cells, 20, 1), [512, 512, 512, 0, 512, 512, 0x7F]);
    let mut text = vec![0; REPORT_ROOM];
    let length = report(&bytes[..written.count], &mut text);
    assert!(text[..length].ends_with(b"\nframes 30\n"));
    let length = report(&bytes[..written.count - 1], &mut text);
    assert_eq!(&text[..length], b"refused 8\n");
}

/// The longest capture takes all the room of both ways, and not a cell or a byte less will do.
#[test]
fn room_for_the_longest_capture() {
    let cells: Vec<u16> = (0..READ_ROOM).map(|i| if i % FRAME_CELLS == 6 { 0x7F } else { 1023 * ((i / FRAME_CELLS + 1) % 2) as u16 }).collect();
    let mut bytes = [0; WRITE_ROOM];
    assert_eq!(write(&cells, &mut bytes[..WRITE_ROOM - 1]), host::Answer { refusal: refusal::DOES_NOT_FIT, count: 0 });
    assert_eq!(write(&cells, &mut bytes), host::Answer { refusal: refusal::ACCEPTED, count: WRITE_ROOM });
    let mut back = vec![0; READ_ROOM];
    assert_eq!(read(&bytes, &mut back[..READ_ROOM - 1]), host::Answer { refusal: refusal::DOES_NOT_FIT, count: 0 });
    assert_eq!(read(&bytes, &mut back), host::Answer { refusal: refusal::ACCEPTED, count: READ_ROOM / FRAME_CELLS });
    assert_eq!(back, cells);
}

/// No frames, no cells, no bytes: a slice of length 0 is lent as well.
#[test]
fn empty_slices() {
    let mut four = [0; 4];
    assert_eq!(write(&[], &mut four).count, 4);
    assert_eq!(read(&four, &mut []), host::Answer { refusal: refusal::ACCEPTED, count: 0 });
    assert_eq!(read(&[], &mut []), host::Answer { refusal: refusal::ACCEPTED, count: 0 });
    assert_eq!(write(&[], &mut []).refusal, refusal::DOES_NOT_FIT);
    assert_eq!(strongest(&[], 0).refusal, refusal::FEW_FRAMES);
    assert!(excerpt(&[], 0, 0).is_empty());
}
