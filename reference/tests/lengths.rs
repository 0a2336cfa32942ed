//! Paper 9: run lengths from the settings. What making a relay refuses, when a
//! relay handed in is sound, and when latches go on.

use reference::bench::LENGTHS;
use reference::levels::{BASE, ENABLE, STILL, WAVE};
use reference::prng::Prng;
use reference::relay::FULL_AGE;
use reference::*;

const LIMITS: [(u8, bool); 5] = [(0, false), (1, true), (24, true), (25, false), (255, false)];

fn settings(loss: u8, over: u8) -> Settings {
    Settings { levels: BASE, lengths: Lengths { loss, over } }
}

fn made(loss: u8, over: u8) -> Relay {
    let made = fresh(settings(loss, over));
    assert_eq!(made.number, 0);
    made.relay
}

/// A frame with this code on all channels, all enabled.
fn next(relay: Relay, code: u16) -> Relay {
    let answer = frame(relay, [code; 6], ENABLE);
    assert_eq!(answer.number, 0);
    answer.relay
}

/// Every pair of lengths in range.
fn pairs() -> impl Iterator<Item = (u8, u8)> {
    (1..=24).flat_map(|loss| (1..=24).map(move |over| (loss, over)))
}

/// Every frame, reset and change is refused by 2, whatever else is wrong.
fn assert_not_sound(relay: Relay) {
    assert!(!is_sound(&relay));
    for (codes, enable) in [([512; 6], 0x7F), ([512; 6], 0x00), ([1024; 6], 0xFF)] {
        assert_eq!(frame(relay, codes, enable), Framed { number: 2, relay, amplitudes: [0; 6], output: 0 });
    }
    for mask in [0, 0x3F, 0xFF] {
        assert_eq!(reset(relay, mask), Reset { number: 2, relay });
    }
    for levels in [BASE, Levels { drop: [2; 6], ..BASE }, Levels::default(), Levels { restraint: [101; 3], ..BASE }] {
        assert_eq!(change(relay, levels), Changed { number: 2, relay });
    }
}

#[test]
fn refusal_21_each_limit() {
    for (loss, loss_in_range) in LIMITS {
        for (over, over_in_range) in LIMITS {
            let answer = fresh(settings(loss, over));
            assert_eq!(answer.number, if loss_in_range && over_in_range { 0 } else { 21 }, "{loss} and {over}");
        }
    }
    for loss in 0..=255 {
        for over in 0..=255 {
            let settings = settings(loss, over);
            let in_range = (1..=24).contains(&loss) && (1..=24).contains(&over);
            let relay = Relay { settings, device_on: true, ..Relay::default() };
            let refused = Fresh { number: 21, relay: Relay::default() };
            assert_eq!(fresh(settings), if in_range { Fresh { number: 0, relay } } else { refused });
        }
    }
    assert_eq!(Relay::default().settings.lengths, Lengths { loss: 0, over: 0 });
    assert_not_sound(Relay::default());
}

/// "21, and not 1, [...] after 20": faults of each two and of all three kinds, in
/// each place.
#[test]
fn the_order_1_20_21() {
    let refused = |settings, number| {
        assert_eq!(fresh(settings), Fresh { number, relay: Relay::default() });
    };
    for lengths in [(0, 4), (16, 0), (25, 4), (16, 25), (255, 4), (16, 255), (0, 25), (255, 255)] {
        let bad = settings(lengths.0, lengths.1);
        refused(bad, 21);
        for r in 0..3 {
            for restraint in [101, 255] {
                let mut restrained = bad;
                restrained.levels.restraint[r] = restraint;
                refused(restrained, 20);
                refused(Settings { lengths: LENGTHS, ..restrained }, 20);
                for place in 0..9 {
                    for level in [0, 10_701, u16::MAX] {
                        let with_level = |mut settings: Settings| {
                            match place {
                                0..=5 => settings.levels.drop[place] = level,
                                _ => settings.levels.pickup[place - 6] = level,
                            }
                            settings
                        };
                        refused(with_level(restrained), 1);
                        refused(with_level(bad), 1);
                        refused(with_level(settings(16, 4)), 1);
                    }
                }
            }
        }
    }
}

/// Frame 72 is the first counted one, so a run that grows from there is full in
/// frame 71 + length: not before, not later, and at no other pair's length. It
/// stops there.
#[test]
fn every_pair_latches_in_its_frame() {
    for (loss, over) in pairs() {
        for (codes, is_still) in [(&STILL, true), (&WAVE, false)] {
            let mut relay = made(loss, over);
            for n in 0..=100u8 {
                relay = next(relay, codes[usize::from(n % 8)]);
                let counted = (n + 1).saturating_sub(FULL_AGE);
                let loss_run = if is_still { counted.min(loss) } else { 0 };
                let over_run = if is_still { 0 } else { counted.min(over) };
                for (c, channel) in relay.channels.iter().enumerate() {
                    let over_run = if c < 3 { 0 } else { over_run };
                    assert_eq!((channel.loss_run, channel.over_run), (loss_run, over_run), "{loss} {over} frame {n}");
                    assert_eq!(channel.loss_latch, is_still && n >= 71 + loss, "{loss} {over} frame {n}");
                    assert_eq!(channel.over_latch, !is_still && c >= 3 && n >= 71 + over, "{loss} {over} frame {n}");
                }
            }
        }
    }
}

/// Handed in with runs below, at and above their own length. Above is unsound,
/// even if 16 or 4 or the other length would allow it.
#[test]
fn runs_up_to_their_own_length_are_sound() {
    for (loss, over) in pairs() {
        for c in 0..6 {
            for run in 0..=255 {
                // All lengths with runs that any length allows; the higher runs at some.
                if run > 26 && (loss + 7 * over) % 24 != 0 {
                    continue;
                }
                let mut relay = made(loss, over);
                relay.channels[c].loss_run = run;
                assert_eq!(is_sound(&relay), run <= loss, "loss run {run} of {loss}");
                relay.channels[c].loss_run = loss;
                relay.channels[c].over_run = run;
                let highest = if c < 3 { 0 } else { over };
                assert_eq!(is_sound(&relay), run <= highest, "over run {run} of {highest}");
            }
            let mut relay = made(loss, over);
            relay.channels[c].loss_run = loss + 1;
            assert_not_sound(relay);
            relay = made(loss, over);
            relay.channels[c].over_run = if c < 3 { 1 } else { over + 1 };
            assert_not_sound(relay);
        }
    }
    // Below 16 and 4, and above the relay's own.
    let mut relay = made(15, 3);
    relay.channels[5].loss_run = 16;
    assert_not_sound(relay);
    relay = made(15, 3);
    relay.channels[5].over_run = 4;
    assert_not_sound(relay);
    // Above 16 and 4, and the relay's own.
    relay = made(24, 24);
    (relay.channels[5].loss_run, relay.channels[5].over_run) = (24, 24);
    assert!(is_sound(&relay));
}

#[test]
fn lengths_out_of_range_are_not_sound() {
    for wrong in (0..=255).filter(|length| !(1..=24).contains(length)) {
        for lengths in [(wrong, 4), (16, wrong), (wrong, wrong), (wrong, 24), (1, wrong)] {
            let lengths = Lengths { loss: lengths.0, over: lengths.1 };
            let mut relay = Relay { age: FULL_AGE, ..made(16, 4) };
            relay.settings.lengths = lengths;
            assert_not_sound(relay);
            relay.age = 0;
            assert_not_sound(relay);
            for c in 0..6 {
                relay.channels[c].loss_run = lengths.loss;
                relay.channels[c].over_run = if c < 3 { 0 } else { lengths.over };
            }
            assert_not_sound(relay);
        }
    }
}

/// A run one below its length is full in the next counted frame that meets its
/// level, a run at its length stays there, and other ones turn nothing on.
#[test]
fn the_last_frame_of_a_run_turns_the_latch_on() {
    for (loss, over) in pairs() {
        let loss_runs = (0..=loss).map(|run| (run, loss, true));
        let over_runs = (0..=over).map(|run| (run, over, false));
        for (run, length, is_loss) in loss_runs.chain(over_runs) {
            let mut relay = Relay { age: FULL_AGE, ..made(loss, over) };
            for c in 3..6 {
                // In slot 0 the wave's own code comes next.
                relay.channels[c].samples = if is_loss { [0; 8] } else { WAVE.map(|code| code as i16 - 512) };
                *(if is_loss { &mut relay.channels[c].loss_run } else { &mut relay.channels[c].over_run }) = run;
            }
            let seen = |relay: &Relay| {
                let channel = relay.channels[5];
                assert!(relay.channels[3] == channel && relay.channels[4] == channel);
                let (own, other) = ((channel.loss_run, channel.loss_latch), (channel.over_run, channel.over_latch));
                let (own, other) = if is_loss { (own, other) } else { (other, own) };
                assert_eq!(other, (0, false));
                own
            };
            let code = if is_loss { STILL[0] } else { WAVE[0] };
            assert_eq!(seen(&next(relay, code)), ((run + 1).min(length), run + 1 >= length));
            // Not counted: the run stays, and step 4 is done all the same.
            relay.age = FULL_AGE - 1;
            assert_eq!(seen(&next(relay, code)), (run, run == length));
        }
    }
}

/// A change "does not touch" lengths, and a run at its length carries over.
#[test]
fn a_change_keeps_the_lengths() {
    for (loss, over) in pairs() {
        let mut relay = made(loss, over);
        for c in 0..6 {
            relay.channels[c].loss_run = loss;
            relay.channels[c].over_run = if c < 3 { 0 } else { over };
        }
        assert_eq!(change(relay, BASE), Changed { number: 0, relay });
        let levels = Levels { drop: [1, 2, 1, 1, 1, 2], pickup: [1603, 1604, 1603], restraint: [0, 0, 1] };
        let changed = change(relay, levels);
        let mut expected = Relay { settings: Settings { levels, ..settings(loss, over) }, ..relay };
        for c in [1, 5] {
            expected.channels[c].loss_run = 0;
        }
        for c in [4, 5] {
            expected.channels[c].over_run = 0;
        }
        assert_eq!(changed, Changed { number: 0, relay: expected });
        assert_eq!(change(relay, Levels { drop: [0; 6], ..BASE }), Changed { number: 1, relay });
        assert_eq!(change(relay, Levels { restraint: [101; 3], ..BASE }), Changed { number: 20, relay });
    }
    let mut prng = Prng(91);
    for _ in 0..20_000 {
        let (relay, levels) = trace::change_arguments(&mut prng);
        assert_eq!(change(relay, levels).relay.settings.lengths, relay.settings.lengths);
    }
}

/// A list of calls on one pair of lengths. Every frame meets both kinds of level,
/// and the enable bits cut runs near their lengths; so do resets and changes.
fn cut_runs(prng: &mut Prng, lengths: Lengths) -> Vec<Call> {
    let mut calls: Vec<Call> = levels::frames(&WAVE, 0, 72).collect();
    let mut levels = MET;
    let mut left = [0; 6];
    for n in 72..72 + 100 {
        if prng.once_in(25) {
            calls.push(Call::Reset { mask: 1 << prng.below(6) });
        }
        if prng.once_in(25) {
            // Other levels that are met too.
            let c = prng.below(3) as usize;
            if prng.once_in(2) {
                levels.drop[2 * c] ^= 1;
            } else {
                levels.pickup[c] ^= 1;
            }
            calls.push(Call::Change(levels));
        }
        let mut enable = 0x40;
        for (c, left) in left.iter_mut().enumerate() {
            // Disabled once, then enabled for a frame less than the length, as many, or one more.
            if *left == 0 {
                let length = if prng.once_in(2) { lengths.loss } else { lengths.over };
                *left = i64::from(length) + prng.within(0, 2);
            } else {
                enable |= 1 << c;
            }
            *left = (*left - 1).max(0);
        }
        calls.push(Call::Frame { codes: [WAVE[n % 8]; 6], enable });
    }
    calls
}

/// Met by the wave, and still so with the lowest bit of a level turned.
const MET: Levels = Levels { drop: [5000; 6], pickup: [500; 3], restraint: [0; 3] };

fn latches(relay: &Relay) -> [[bool; 6]; 2] {
    [relay.channels.map(|channel| channel.loss_latch), relay.channels.map(|channel| channel.over_latch)]
}

#[test]
fn every_pair_equals_the_history() {
    let mut prng = Prng(92);
    // Latches that went on, by length.
    let mut went_on = [[0; 25]; 2];
    for (loss, over) in pairs() {
        let lengths = Lengths { loss, over };
        let settings = Settings { levels: MET, lengths };
        let calls = cut_runs(&mut prng, lengths);
        let history = History::of(settings, &calls);
        let mut relay = fresh(settings).relay;
        let mut n = 0;
        for (place, call) in calls.iter().enumerate() {
            let before = latches(&relay);
            if let Call::Frame { codes, enable } = *call {
                let answer = frame(relay, codes, enable);
                assert_eq!((answer.number, answer.output), (0, history.output(n)), "{lengths:?} frame {n}");
                relay = answer.relay;
                n += 1;
            } else {
                let (after, number) = trace::play(relay, call);
                assert_eq!(number, 0);
                relay = after;
            }
            let after = latches(&relay);
            for (index, latch) in [Latch::Loss, Latch::Over].into_iter().enumerate() {
                let by_history: [bool; 6] = std::array::from_fn(|c| history.is_on(latch, c, place + 1));
                assert_eq!(after[index], by_history, "{lengths:?} {latch:?} after call {place}");
                let count = (0..6).filter(|&c| after[index][c] && !before[index][c]).count();
                went_on[index][history.full_run(latch)] += count;
            }
            assert_eq!(relay.settings.lengths, lengths);
        }
    }
    println!("went on {went_on:?}");
    assert!(went_on.iter().all(|counts| counts[1..].iter().all(|&count| count > 50)));
}

#[test]
fn the_text_of_the_sweep() {
    let text = lengths::sweep();
    let lines: Vec<&str> = text.lines().collect();
    assert_eq!((lines.len(), lines[0]), (25, "sweep"));
    for loss in 1..=24 {
        let over = 25 - loss;
        assert_eq!(lines[loss], format!("{loss} {over} loss {} {loss} over {} {over}", 71 + loss, 71 + over));
    }
    // A length above 16 is not cut at 16, and 16 and 4 are where the figures have them.
    assert_eq!(lines[1], "1 24 loss 72 1 over 95 24");
    assert_eq!(lines[24], "24 1 loss 95 24 over 72 1");
    assert!(lines[16].starts_with("16 9 loss 87 16 ") && lines[21].ends_with(" over 75 4"));
}

#[test]
fn the_text_of_what_is_made() {
    let expected = [
        "fresh", "1 1 0 1 1", "24 24 0 24 24", "16 4 0 16 4", "4 16 0 4 16", "0 4 21 0 0", "16 0 21 0 0",
        "25 4 21 0 0", "16 25 21 0 0", "255 4 21 0 0", "16 255 21 0 0", "0 25 21 0 0", "0 4 1 0 0", "25 4 1 0 0",
        "16 0 20 0 0", "16 25 1 0 0",
    ];
    assert_eq!(lengths::made().lines().collect::<Vec<&str>>(), expected);
}

/// The lines of a scene, which the history has to agree with; the frame after
/// which channel 5's loss and over latch are on by it.
fn scene(name: &str) -> (Vec<String>, [Option<usize>; 2]) {
    let all = lengths::scenes();
    let scene = all.iter().find(|scene| scene.name == name).expect("a scene of this name");
    let lines: Vec<String> = lengths::played(scene).lines().map(str::to_string).collect();
    let history = History::of(scene.settings, &scene.calls);
    let frames: Vec<&String> = lines[1..].iter().filter(|line| !line.starts_with("change ")).collect();
    assert_eq!(history.frames.len(), 72 + frames.len());
    for (n, line) in (72..).zip(frames) {
        assert!(line.starts_with(&format!("{n} ")) && line.ends_with(&format!(" {:02X}", history.output(n))));
    }
    let on = [Latch::Loss, Latch::Over].map(|latch| {
        history.frames.iter().position(|frame| history.is_on(latch, 5, frame.place + 1))
    });
    (lines, on)
}

/// By hand. Frame 72 is the first counted one. Still channels have amplitude 0,
/// below drop 1, and the wave has 1603 in every frame from 7 on.
#[test]
fn scenes_by_hand() {
    let has = |lines: &[String], line: &str| assert!(lines.iter().any(|found| found == line), "{line}");
    // Code 512 is the wave's own in frame 74; the last of the wave leaves the window in 81.
    let (lines, on) = scene("one and one");
    assert_eq!(on, [Some(81), Some(72)]);
    assert_eq!(lines.len(), 1 + 12);
    assert_eq!(lines[1], "72 0 0 0 0 0 0 1 1 1 38");
    has(&lines, "74 0 0 0 0 0 0 1 1 1 38");
    has(&lines, "75 0 0 0 0 0 0 0 0 0 38");
    has(&lines, "80 0 0 0 0 0 0 0 0 0 38");
    has(&lines, "81 1 1 1 1 1 1 0 0 0 3F");
    has(&lines, "83 1 1 1 1 1 1 0 0 0 3F");
    // Twenty-four frames are 72 to 95.
    let (lines, on) = scene("all twenty-four");
    assert_eq!(on, [None, Some(95)]);
    has(&lines, "94 0 0 0 0 0 0 23 23 23 00");
    has(&lines, "95 0 0 0 0 0 0 24 24 24 38");
    has(&lines, "97 0 0 0 0 0 0 24 24 24 38");
    // Pickups are not the loss runs' own level: twenty frames are 72 to 91.
    let (lines, on) = scene("loss kept");
    assert_eq!(on, [Some(91), None]);
    has(&lines, "90 19 19 19 19 19 19 0 0 0 00");
    assert_eq!(lines[20..22], ["change 0", "91 20 20 20 20 20 20 0 0 0 3F"]);
    assert_eq!(lines[23], "93 20 20 20 20 20 20 0 0 0 3F");
    // Broken one frame before it is full: six frames more are 77 to 82.
    let (lines, on) = scene("over anew");
    assert_eq!(on, [None, Some(82)]);
    assert_eq!(lines[5..8], ["76 0 0 0 0 0 0 5 5 5 00", "change 0", "77 0 0 0 0 0 0 1 1 1 00"]);
    has(&lines, "81 0 0 0 0 0 0 5 5 5 00");
    has(&lines, "82 0 0 0 0 0 0 6 6 6 38");
    assert_eq!(lines[14], "84 0 0 0 0 0 0 6 6 6 38");
    // Sample −512 alone has an amplitude of about 4 times 512, in frames 80 to 87: eight
    // frames over, and eight still ones before it, 72 to 79.
    let (lines, on) = scene("one bad sample, eight");
    assert_eq!(on, [None, Some(87)]);
    has(&lines, "79 8 8 8 8 8 8 0 0 0 00");
    has(&lines, "86 0 0 0 0 0 0 7 7 7 00");
    has(&lines, "87 0 0 0 0 0 0 8 8 8 38");
    assert_eq!(lines[19], "90 3 3 3 3 3 3 0 0 0 38");
    // Neither run gets full, and no latch goes on.
    let (lines, on) = scene("one bad sample, nine");
    assert_eq!(on, [None, None]);
    has(&lines, "79 8 8 8 8 8 8 0 0 0 00");
    has(&lines, "87 0 0 0 0 0 0 8 8 8 00");
    has(&lines, "88 1 1 1 1 1 1 0 0 0 00");
    // In this order, and nothing else.
    let names = [
        "one and one", "all twenty-four", "loss kept", "over anew", "one bad sample, eight", "one bad sample, nine",
    ];
    let scenes: String = names.into_iter().flat_map(|name| scene(name).0).map(|line| line + "\n").collect();
    assert_eq!(lengths::text(), lengths::sweep() + &lengths::made() + &scenes);
}

/// The random trace for the C twin meets lengths in and out of range, and runs at,
/// below and above them.
#[test]
fn the_trace_meets_lengths() {
    let mut prng = Prng(93);
    let mut by_length = [[0; 25]; 2];
    // Relays that only a length out of range makes unsound, by which one; and those
    // that only a run above its own length does, though 16 or 4 would allow it.
    let (mut only_length, mut only_run) = ([0; 2], [0; 2]);
    // Counted frames that made a run full, and runs that were so: above 16 or 4, and other.
    let (mut full, mut stayed) = ([[0; 2]; 2], [[0; 2]; 2]);
    for _ in 0..40_000 {
        let (relay, codes, enable) = trace::frame_arguments(&mut prng);
        let Lengths { loss, over } = relay.settings.lengths;
        let mut widest = relay;
        widest.settings.lengths = Lengths { loss: 24, over: 24 };
        if !is_sound(&relay) {
            if is_sound(&widest) {
                let in_range = [loss, over].map(|length| (1..=24).contains(&length));
                if in_range != [true; 2] {
                    only_length[usize::from(in_range[0])] += 1;
                } else {
                    let above = |run: u8, length: u8, other: u8| run > length && run <= other;
                    only_run[0] += usize::from(relay.channels.iter().any(|c| above(c.loss_run, loss, 16)));
                    only_run[1] += usize::from(relay.channels.iter().any(|c| above(c.over_run, over, 4)));
                }
            }
            continue;
        }
        by_length[0][usize::from(loss)] += 1;
        by_length[1][usize::from(over)] += 1;
        let answer = frame(relay, codes, enable);
        for (old, new) in relay.channels.iter().zip(&answer.relay.channels) {
            let runs = [(old.loss_run, new.loss_run, loss, 16), (old.over_run, new.over_run, over, 4)];
            for (index, (old, new, length, usual)) in runs.into_iter().enumerate() {
                let of = if new == length && old < new { &mut full } else { &mut stayed };
                of[index][usize::from(length > usual)] += usize::from(answer.number == 0 && new == length);
            }
        }
    }
    println!("by length {by_length:?}, only a length {only_length:?}, only a run {only_run:?}");
    println!("full {full:?}, stayed {stayed:?}");
    assert!(by_length.iter().all(|counts| counts[1..].iter().all(|&count| count > 300)));
    assert!(only_length.iter().chain(&only_run).all(|&count| count > 20));
    assert!(full.iter().chain(&stayed).flatten().all(|&count| count > 100));
    // Making a relay: the kind, twelve levels, two lengths, the number.
    let (mut numbers, mut with_bad_length) = ([0; 4], [0; 2]);
    for line in trace::text(30_000).lines().filter(|line| line.starts_with("1 ")) {
        let line: Vec<i64> = line.split(' ').take(16).map(|number| number.parse().unwrap()).collect();
        let in_range = line[13..15].iter().all(|length| (1..=24).contains(length));
        let place = [0, 1, 20, 21].iter().position(|&number| number == line[15]).unwrap();
        numbers[place] += 1;
        if place == 1 || place == 2 {
            with_bad_length[place - 1] += usize::from(!in_range);
        } else {
            assert_eq!(in_range, place == 0);
        }
    }
    println!("numbers 0, 1, 20, 21: {numbers:?}, of 1 and 20 with a length out of range {with_bad_length:?}");
    assert!(numbers.iter().all(|&count| count > 100) && with_bad_length.iter().all(|&count| count > 15));
}
