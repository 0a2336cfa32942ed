//! Paper 6: new levels without a stop. What a change refuses, keeps and breaks.

use reference::bench::LENGTHS;
use reference::levels::BASE;
use reference::prng::Prng;
use reference::relay::FULL_AGE;
use reference::trace::RunsAtChanges;
use reference::*;

/// The twelve places: drops of channels 0 to 5, then pickups and then restraints
/// of channels 3, 4, 5.
const PLACES: usize = 12;

fn put(levels: &mut Levels, place: usize, value: u16) {
    match place {
        0..=5 => levels.drop[place] = value,
        6..=8 => levels.pickup[place - 6] = value,
        _ => levels.restraint[place - 9] = value as u8,
    }
}

fn with(mut levels: Levels, place: usize, value: u16) -> Levels {
    put(&mut levels, place, value);
    levels
}

const LEVELS: Levels =
    Levels { drop: [819, 820, 821, 822, 823, 824], pickup: [3413, 3414, 3415], restraint: [10, 20, 30] };

/// A sound relay with something in every field, runs above 0 and both kinds of
/// latch, on and off.
fn busy() -> Relay {
    let mut relay = fresh(Settings { levels: LEVELS, lengths: LENGTHS }).relay;
    (relay.age, relay.slot, relay.device_on) = (41, 5, false);
    for c in 0..6 {
        let channel = &mut relay.channels[c];
        channel.samples = std::array::from_fn(|k| [-512, 511, 7, -8][(k + c) % 4]);
        channel.loss_run = [1, 16, 5, 7, 15, 16][c];
        channel.loss_latch = c % 2 == 1;
        channel.over_run = [0, 0, 0, 1, 4, 3][c];
        channel.over_latch = c == 4;
    }
    assert!(is_sound(&relay));
    relay
}

/// What an accepted change leaves, written out: the runs named are 0.
fn expected(relay: Relay, levels: Levels, loss: &[usize], over: &[usize]) -> Changed {
    let mut relay = Relay { settings: Settings { levels, ..relay.settings }, ..relay };
    for &c in loss {
        relay.channels[c].loss_run = 0;
    }
    for &c in over {
        relay.channels[c].over_run = 0;
    }
    Changed { number: 0, relay }
}

#[test]
fn each_limit_in_each_place() {
    let relay = busy();
    for place in 0..9 {
        for (level, number) in [(0, 1), (1, 0), (10_700, 0), (10_701, 1), (u16::MAX, 1)] {
            let levels = with(LEVELS, place, level);
            assert_eq!(levels_refusal(&levels), number);
            let answer = change(relay, levels);
            assert_eq!(answer.number, number, "place {place}, level {level}");
            if number != 0 {
                assert_eq!(answer.relay, relay, "as given, and not all-zero");
            } else if place < 6 {
                assert_eq!(answer, expected(relay, levels, &[place], &[]));
            } else {
                assert_eq!(answer, expected(relay, levels, &[], &[place - 3]));
            }
        }
    }
    for place in 9..PLACES {
        for r in 0..=255 {
            let levels = with(LEVELS, place, r);
            let answer = change(relay, levels);
            if r > 100 {
                assert_eq!(answer, Changed { number: 20, relay });
            } else if r == LEVELS.restraint[place - 9].into() {
                assert_eq!(answer, Changed { number: 0, relay });
            } else {
                assert_eq!(answer, expected(relay, levels, &[], &[place - 6]));
            }
        }
    }
}

/// 2, then 1, then 20: each pair of causes in every two places.
#[test]
fn the_order_of_the_checks() {
    let sound = busy();
    let mut unsound = vec![Relay { age: 73, ..sound }, Relay { slot: 8, ..sound }, Relay::default()];
    for place in 0..PLACES {
        let mut relay = sound;
        put(&mut relay.settings.levels, place, if place < 9 { 0 } else { 101 });
        unsound.push(relay);
    }
    for c in 0..6 {
        let mut relay = sound;
        relay.channels[c].loss_run = 17;
        unsound.push(relay);
        relay = sound;
        relay.channels[c].over_run = 5;
        unsound.push(relay);
    }
    for level_place in 0..9 {
        for wrong in [0, 10_701, u16::MAX] {
            let by_1 = with(LEVELS, level_place, wrong);
            assert_eq!(change(sound, by_1), Changed { number: 1, relay: sound });
            for restraint_place in 9..PLACES {
                for r in [101, 255] {
                    let by_20 = with(LEVELS, restraint_place, r);
                    let both = with(by_1, restraint_place, r);
                    assert_eq!(change(sound, by_20), Changed { number: 20, relay: sound });
                    assert_eq!(change(sound, both), Changed { number: 1, relay: sound }, "1 before 20");
                    for &relay in &unsound {
                        for levels in [LEVELS, relay.settings.levels, by_1, by_20, both] {
                            assert_eq!(change(relay, levels), Changed { number: 2, relay }, "2 first");
                        }
                    }
                }
            }
        }
    }
}

/// Each set of the twelve places moved: a loss run goes by its own drop, an over
/// run by its own pickup and restraint, and all else stays.
#[test]
fn each_run_by_its_own_level() {
    for relay in [busy(), Relay { age: FULL_AGE, device_on: true, slot: 0, ..busy() }] {
        for moved in 0..1 << PLACES {
            for by in [1, -1] {
                let mut levels = LEVELS;
                for place in (0..PLACES).filter(|place| moved >> place & 1 == 1) {
                    match place {
                        0..=5 => levels.drop[place] = levels.drop[place].wrapping_add_signed(by),
                        6..=8 => levels.pickup[place - 6] = levels.pickup[place - 6].wrapping_add_signed(by),
                        _ => levels.restraint[place - 9] = levels.restraint[place - 9].wrapping_add_signed(by as i8),
                    }
                }
                let loss: Vec<usize> = (0..6).filter(|c| moved >> c & 1 == 1).collect();
                // Channel c has its pickup in place c + 3 and its restraint in place c + 6.
                let over: Vec<usize> = (3..6).filter(|c| moved >> (c + 3) & 0b1001 != 0).collect();
                let answer = change(relay, levels);
                assert_eq!(answer, expected(relay, levels, &loss, &over));
                // The same levels again change nothing more, the old ones bring nothing back.
                assert_eq!(change(answer.relay, levels), Changed { number: 0, relay: answer.relay });
                let back = Relay { settings: relay.settings, ..answer.relay };
                assert_eq!(change(answer.relay, LEVELS), Changed { number: 0, relay: back });
            }
        }
    }
}

#[test]
fn the_levels_in_force_change_nothing() {
    let mut prng = Prng(62);
    let (mut sound, mut unsound) = (0, 0);
    for _ in 0..20_000 {
        let relay = trace::relay(&mut prng);
        let number = if is_sound(&relay) { 0 } else { 2 };
        assert_eq!(change(relay, relay.settings.levels), Changed { number, relay });
        *(if number == 0 { &mut sound } else { &mut unsound }) += 1;
    }
    assert!(sound > 5000 && unsound > 5000);
}

/// A change is no frame: step 4 is not done, so a run at its end that is handed
/// in with its latch off keeps it off until the next accepted frame.
#[test]
fn a_change_turns_no_latch_on() {
    let mut relay = Relay { age: 10, ..fresh(Settings { levels: BASE, lengths: LENGTHS }).relay };
    relay.channels[0].loss_run = 16;
    relay.channels[1].loss_run = 16;
    relay.channels[4].over_run = 4;
    relay.channels[5].over_run = 4;
    let levels = with(with(BASE, 1, 2), 8, 1604);
    let changed = change(relay, levels).relay;
    assert_eq!(changed.channels.map(|c| c.loss_latch || c.over_latch), [false; 6]);
    assert_eq!(frame(changed, [512; 6], 0x7F).output, 0x11, "channels 0 and 4 kept their runs");
}

/// The new levels hold from the next frame on, and those alone.
#[test]
fn the_next_frame_uses_the_new_levels() {
    let still = |relay| frame(relay, [512; 6], 0x7F).relay.channels.map(|c| c.loss_run);
    let mut relay = Relay { age: FULL_AGE, ..fresh(Settings { levels: BASE, lengths: LENGTHS }).relay };
    assert_eq!(still(relay), [1; 6], "0 is below drop 1");
    // 100 in one slot and nothing else has amplitude 400 or 399, as in document 01's figures.
    relay.channels[0].samples[4] = 100;
    assert_eq!(still(relay), [0, 1, 1, 1, 1, 1]);
    assert_eq!(still(change(relay, with(BASE, 0, 10_700)).relay), [1; 6]);
    let refused = change(relay, with(with(BASE, 0, 10_700), 11, 101));
    assert_eq!((refused.number, still(refused.relay)), (20, [0, 1, 1, 1, 1, 1]));
}

fn scenario(name: &str) -> Vec<String> {
    let all = levels::scenarios();
    let found = all.iter().find(|scenario| scenario.name == name).expect("a scenario of this name");
    levels::played(found).lines().map(str::to_string).collect()
}

/// The numbers of a scenario's changes.
fn numbers(name: &str) -> Vec<String> {
    scenario(name).iter().filter_map(|line| line.strip_prefix("change ").map(str::to_string)).collect()
}

fn line(name: &str, frame: usize) -> String {
    let start = format!("{frame} ");
    scenario(name).into_iter().find(|line| line.starts_with(&start)).expect("a line of this frame")
}

/// Worked out by hand: the wave has amplitude 1603 in every frame from 7 on, and
/// frame 72 is the first counted one. So over runs are 1 in frame 72 and 4 in 75.
#[test]
fn over_scenarios_by_hand() {
    for name in ["unchanged", "summer", "raised and lowered", "drops only", "one pickup", "one restraint", "refused"] {
        assert_eq!(line(name, 72), "72 0 0 0 0 0 0 1 1 1 00");
        assert_eq!(line(name, 74), "74 0 0 0 0 0 0 3 3 3 00");
    }
    assert_eq!(line("unchanged", 75), "75 0 0 0 0 0 0 4 4 4 38");
    // 1603 is not 1604 or more.
    assert_eq!(line("summer", 75), "75 0 0 0 0 0 0 0 0 0 00");
    assert_eq!(line("summer", 79), "79 0 0 0 0 0 0 0 0 0 00");
    // Broken after frame 74: four frames more are 75 to 78.
    assert_eq!(line("raised and lowered", 75), "75 0 0 0 0 0 0 1 1 1 00");
    assert_eq!(line("raised and lowered", 77), "77 0 0 0 0 0 0 3 3 3 00");
    assert_eq!(line("raised and lowered", 78), "78 0 0 0 0 0 0 4 4 4 38");
    // Before the first frame of the run a change does not count.
    assert_eq!(scenario("before the run")[..3], ["before the run", "change 0", "72 0 0 0 0 0 0 1 1 1 00"]);
    assert_eq!(line("before the run", 75), "75 0 0 0 0 0 0 4 4 4 38");
    // Latches carry over, runs do not.
    assert_eq!(line("latched", 75), "75 0 0 0 0 0 0 4 4 4 38");
    assert_eq!(line("latched", 76), "76 0 0 0 0 0 0 0 0 0 38");
    assert_eq!(line("latched", 79), "79 0 0 0 0 0 0 0 0 0 38");
    // Drops are not the over runs' own level.
    assert_eq!(line("drops only", 75), "75 0 0 0 0 0 0 4 4 4 38");
    // Channel 4 starts again; bits 3 and 5 are 28.
    assert_eq!(line("one pickup", 75), "75 0 0 0 0 0 0 4 1 4 28");
    assert_eq!(line("one pickup", 78), "78 0 0 0 0 0 0 4 4 4 38");
    // Channel 5 starts again; bits 3 and 4 are 18. The wave has no second harmonic.
    assert_eq!(line("one restraint", 75), "75 0 0 0 0 0 0 4 4 1 18");
    assert_eq!(line("one restraint", 78), "78 0 0 0 0 0 0 4 4 4 38");
    assert_eq!(line("refused", 75), "75 0 0 0 0 0 0 4 4 4 38");
    assert_eq!(numbers("refused"), ["1", "1", "20", "1", "0"]);
    assert_eq!(numbers("raised and lowered"), ["0", "0"]);
}

/// By hand: still channels have amplitude 0, below drop 1, so loss runs are 1 in
/// frame 72, 15 in 86 and 16 in 87. Broken after 86, sixteen frames are 87 to 102.
#[test]
fn loss_scenarios_by_hand() {
    for name in ["loss", "loss kept", "loss raised and lowered"] {
        assert_eq!(line(name, 72), "72 1 1 1 1 1 1 0 0 0 00");
        assert_eq!(line(name, 86), "86 15 15 15 15 15 15 0 0 0 00");
    }
    assert_eq!(line("loss", 87), "87 1 16 16 16 16 16 0 0 0 3E");
    assert_eq!(line("loss", 101), "101 15 16 16 16 16 16 0 0 0 3E");
    assert_eq!(line("loss", 102), "102 16 16 16 16 16 16 0 0 0 3F");
    assert_eq!(line("loss kept", 87), "87 16 16 16 16 16 16 0 0 0 3F");
    assert_eq!(line("loss raised and lowered", 87), "87 1 1 1 1 1 1 0 0 0 00");
    assert_eq!(line("loss raised and lowered", 101), "101 15 15 15 15 15 15 0 0 0 00");
    assert_eq!(line("loss raised and lowered", 102), "102 16 16 16 16 16 16 0 0 0 3F");
}

#[test]
fn the_text_of_the_scenarios() {
    let text = levels::text();
    let names: Vec<&str> = text.lines().filter(|line| line.starts_with(|c: char| c.is_ascii_lowercase())).collect();
    let names: Vec<&str> = names.into_iter().filter(|line| !line.starts_with("change ")).collect();
    let expected = [
        "unchanged", "summer", "raised and lowered", "before the run", "latched", "drops only", "one pickup",
        "one restraint", "refused", "loss", "loss kept", "loss raised and lowered",
    ];
    assert_eq!(names, expected);
    // Twelve names, changes, and a line a frame: nine times 72 to 79, twice 72 to 103, once 72 to 87.
    let changes = 1 + 2 + 1 + 1 + 1 + 1 + 1 + 5 + 1 + 1 + 2;
    assert_eq!(text.lines().count(), 12 + changes + 9 * 8 + 2 * 32 + 16);
    assert!(text.ends_with("103 16 16 16 16 16 16 0 0 0 3F\n"));
}

/// The random trace for the C twin meets changes of every outcome.
#[test]
fn the_trace_meets_changes() {
    let mut prng = Prng(63);
    let mut runs = RunsAtChanges::default();
    // By number 0, 1, 2 and 20; then those with both faults, on sound relays.
    let (mut by_number, mut both) = ([0; 4], 0);
    // Broken by the pickup alone, and by the restraint level alone.
    let mut over_by = [0; 2];
    for _ in 0..20_000 {
        let (relay, new) = trace::change_arguments(&mut prng);
        let answer = change(relay, new);
        by_number[match answer.number {
            20 => 3,
            number => usize::from(number),
        }] += 1;
        both += usize::from(answer.number == 1 && new.restraint.iter().any(|&r| r > 100));
        if answer.number == 0 {
            runs.add_change(&relay, &answer.relay);
            let old = relay.settings.levels;
            for c in 0..3 {
                if relay.channels[3 + c].over_run > 0 && answer.relay.channels[3 + c].over_run == 0 {
                    over_by[0] += usize::from(old.restraint[c] == new.restraint[c]);
                    over_by[1] += usize::from(old.pickup[c] == new.pickup[c]);
                }
            }
        } else {
            assert_eq!(answer.relay, relay);
        }
    }
    println!("numbers 0, 1, 2, 20: {by_number:?}, both faults {both}, {runs:?}, over by {over_by:?}");
    assert!(by_number.iter().all(|&count| count > 500) && both > 100);
    assert!(over_by.iter().all(|&count| count > 500));
    let RunsAtChanges { loss_kept, loss_broken, over_kept, over_broken } = runs;
    assert!([loss_kept, loss_broken, over_kept, over_broken].iter().all(|&count| count > 2000));
}

/// A test outside that plays lists wants 10,000 of each kind; this many calls
/// are enough.
#[test]
fn the_lists_keep_and_break_runs() {
    let mut prng = Prng(61);
    let mut runs = RunsAtChanges::default();
    let (mut calls_made, mut changes) = (0, 0);
    while calls_made < 300_000 {
        let (settings, calls) = trace::list(&mut prng);
        runs.add_list(settings, &calls);
        calls_made += calls.len();
        changes += calls.iter().filter(|call| matches!(call, Call::Change(_))).count();
    }
    println!("calls {calls_made}, changes {changes}, {runs:?}");
    assert!((15..=25).contains(&(calls_made / changes)));
    let RunsAtChanges { loss_kept, loss_broken, over_kept, over_broken } = runs;
    assert!([loss_kept, loss_broken, over_kept, over_broken].iter().all(|&count| count > 11_000));
}
