//! Demand 3: random lists of calls, where the stepwise relay has to agree with
//! the latch history read from the list, and with the age, the remembered bit
//! and the levels that the list gives it.

use reference::bench::LENGTHS;
use reference::prng::Prng;
use reference::relay::{frame_refusal, is_device_on, is_enabled, is_unrestrained, reset_refusal};
use reference::trace::RunsAtChanges;
use reference::*;

/// What the lists met, so that a test that saw nothing fails.
#[derive(Default)]
struct Seen {
    frames: usize,
    refused: usize,
    latched: [usize; 2],
    lengths: SeenOfLengths,
    cleared: usize,
    z_clause: [usize; 2],
    /// Over latches that went on with a restraint level above 0.
    latched_under_restraint: usize,
    /// Full over runs that meet their level, and clearly so, but are restrained.
    restrained: usize,
    clearly_met_but_restrained: usize,
    switch: SeenOfSwitch,
    changes: SeenOfChanges,
}

/// What the lists met of run lengths, by length.
#[derive(Debug, Default)]
struct SeenOfLengths {
    /// Latches that went on.
    latched: [[usize; 25]; 2],
    /// Frames after which a latch is off though the frames up to it would be a
    /// full run that meets its level, were the length one less.
    one_short: [[usize; 25]; 2],
    /// Lists in which the one or the other is the greater.
    greater: [usize; 2],
}

/// What the lists met of changed levels.
#[derive(Debug, Default)]
struct SeenOfChanges {
    accepted: usize,
    refused: [usize; 2],
    /// Changes to the levels in force.
    same: usize,
    runs: RunsAtChanges,
    /// Latches that went on by a full run with an accepted change of other
    /// levels in its midst, or with a refused one that would have broken it.
    latched_across: [usize; 2],
    latched_across_refused: [usize; 2],
    /// Latches that went on under another own level than the relay was made with.
    latched_under_new: [usize; 2],
    /// Frames after which a latch is off though it would be on, had the changes
    /// not separated a run; and those where the own level is the same in each
    /// frame of that run: it was changed and changed back.
    separated: [usize; 2],
    changed_back: [usize; 2],
    /// Full runs where the clear or the near margin of a run holds by the level
    /// it ran under, but not by the one the relay was made with.
    clear_by_new: [usize; 2],
    near_by_new: [usize; 2],
    /// Changes that left a latch on whose run they broke.
    latch_outlived: [usize; 2],
}

/// What the lists met of the device switch. A rise is a frame with bit 6 on
/// right after one with it off.
#[derive(Debug, Default)]
struct SeenOfSwitch {
    falls: usize,
    rises: usize,
    /// Rises at an age below 72, and those with another within 72 frames.
    young_rises: usize,
    second_rises: usize,
    counted_after_a_rise: usize,
    latched_after_a_rise: [usize; 2],
    /// Frames that show a latch while the device settles after a rise.
    shown_while_settling: usize,
    off_in_frame_0: usize,
    off_for_one_frame: usize,
    /// Accepted frames with refused ones between: by 3 and by 4 with bit 6 off
    /// between a frame with it on and a counted one with it on; with bit 6 on
    /// between two with it off; with bit 6 on between a frame and a rise.
    refused_off_among_on: [usize; 2],
    refused_on_among_off: usize,
    refused_on_before_a_rise: usize,
    /// Accepted resets between the off and the on frame.
    reset_before_a_rise: usize,
}

fn latches(relay: &Relay, latch: Latch) -> [bool; 6] {
    relay.channels.map(|channel| match latch {
        Latch::Loss => channel.loss_latch,
        Latch::Over => channel.over_latch,
    })
}

fn check(settings: Settings, calls: &[Call], seen: &mut Seen) {
    let history = History::of(settings, calls);
    let Lengths { loss, over } = settings.lengths;
    // The same calls, were each length one less.
    let mut shorter = history.clone();
    shorter.settings.lengths = Lengths { loss: (loss - 1).max(1), over: (over - 1).max(1) };
    seen.lengths.greater[0] += usize::from(loss > over);
    seen.lengths.greater[1] += usize::from(loss < over);
    let made = fresh(settings);
    assert_eq!(made.number, 0);
    let mut relay = made.relay;
    let mut n = 0;
    for (place, call) in calls.iter().enumerate() {
        let before = relay;
        match *call {
            Call::Frame { codes, enable } => {
                let answer = frame(relay, codes, enable);
                assert_eq!(answer.number, frame_refusal(&codes, enable));
                relay = answer.relay;
                if answer.number != 0 {
                    assert_eq!((relay, answer.amplitudes, answer.output), (before, [0; 6], 0));
                    seen.refused += 1;
                } else {
                    assert_eq!(answer.amplitudes.map(i64::from), history.frames[n].m);
                    for c in 0..6 {
                        assert!(history.frames[n].z[c].within_2(history.frames[n].m[c]));
                        assert!(history.frames[n].second_z[c].within_2(history.frames[n].second_m[c]));
                    }
                    assert_eq!(answer.output, history.output(n));
                    // It found age 72 and does not settle.
                    assert_eq!(history.frames[n].is_counted, before.age == 72 && relay.age == 72);
                    check_z_clauses(&history, calls, &before, &relay, n, seen);
                    look_at_one_short(&history, &shorter, &relay, n, &mut seen.lengths);
                    n += 1;
                }
            }
            Call::Reset { mask } => {
                let answer = reset(relay, mask);
                assert_eq!(answer.number, reset_refusal(mask));
                relay = answer.relay;
                if answer.number != 0 {
                    assert_eq!(relay, before);
                    seen.refused += 1;
                } else if relay != before {
                    seen.cleared += 1;
                }
            }
            Call::Change(levels) => {
                let answer = change(relay, levels);
                assert_eq!(answer.number, levels_refusal(&levels));
                relay = answer.relay;
                match answer.number {
                    0 => look_at_change(&before, &relay, &mut seen.changes),
                    number => {
                        assert_eq!(relay, before);
                        seen.changes.refused[usize::from(number == 20)] += 1;
                    }
                }
            }
        }
        for latch in [Latch::Loss, Latch::Over] {
            let by_history = std::array::from_fn(|c| history.is_on(latch, c, place + 1));
            assert_eq!(latches(&relay, latch), by_history, "{latch:?} after call {place}");
        }
        assert_eq!(relay.device_on, history.device_on(place + 1), "after call {place}");
        assert_eq!(usize::from(relay.age), history.age(place + 1), "after call {place}");
        assert_eq!(relay.settings.levels, history.levels(place + 1), "after call {place}");
        assert_eq!(relay.settings.lengths, settings.lengths, "after call {place}");
    }
    assert_eq!(n, history.frames.len());
    assert_eq!(history.levels(0), settings.levels);
    seen.frames += n;
    look_at_switch(&history, calls, &mut seen.switch);
}

/// An accepted change, which may alter levels and runs and nothing else.
fn look_at_change(before: &Relay, after: &Relay, seen: &mut SeenOfChanges) {
    let without = |relay: &Relay| {
        let mut relay = Relay { settings: before.settings, ..*relay };
        for channel in &mut relay.channels {
            (channel.loss_run, channel.over_run) = (0, 0);
        }
        relay
    };
    assert_eq!(without(before), without(after));
    seen.accepted += 1;
    if before.settings == after.settings {
        assert_eq!(before, after);
        seen.same += 1;
    }
    seen.runs.add_change(before, after);
    let lengths = before.settings.lengths;
    for (old, new) in before.channels.iter().zip(&after.channels) {
        assert!(new.loss_run == old.loss_run || new.loss_run == 0);
        assert!(new.over_run == old.over_run || new.over_run == 0);
        seen.latch_outlived[0] += usize::from(old.loss_run == lengths.loss && new.loss_run == 0 && new.loss_latch);
        seen.latch_outlived[1] += usize::from(old.over_run == lengths.over && new.over_run == 0 && new.over_latch);
    }
}

fn look_at_switch(history: &History, calls: &[Call], seen: &mut SeenOfSwitch) {
    let frames = &history.frames;
    let on: Vec<bool> = frames.iter().map(|frame| is_device_on(frame.enable)).collect();
    seen.off_in_frame_0 += usize::from(on.first() == Some(&false));
    let mut latest_rise = None;
    for n in 1..frames.len() {
        let between = &calls[frames[n - 1].place + 1..frames[n].place];
        // Whether a frame refused by this number, with bit 6 so, lies between.
        let refused = |number: u8, device: bool| {
            between.iter().any(|call| match *call {
                Call::Frame { codes, enable } => {
                    frame_refusal(&codes, enable) == number && is_device_on(enable) == device
                }
                Call::Reset { .. } | Call::Change(_) => false,
            })
        };
        let reset = between.iter().any(|call| matches!(call, Call::Reset { mask } if reset_refusal(*mask) == 0));
        match (on[n - 1], on[n]) {
            (true, true) if frames[n].is_counted => {
                for (index, number) in [3, 4].into_iter().enumerate() {
                    seen.refused_off_among_on[index] += usize::from(refused(number, false));
                }
            }
            (true, true) => {}
            (false, false) => seen.refused_on_among_off += usize::from(refused(3, true) || refused(4, true)),
            (true, false) => {
                seen.falls += 1;
                seen.off_for_one_frame += usize::from(on.get(n + 1) == Some(&true));
            }
            (false, true) => {
                assert!(frames[n].is_rise);
                seen.rises += 1;
                seen.young_rises += usize::from(history.age(frames[n].place) < 72);
                seen.second_rises += usize::from(latest_rise.is_some_and(|rise| n - rise < 72));
                seen.refused_on_before_a_rise += usize::from(refused(3, true) || refused(4, true));
                seen.reset_before_a_rise += usize::from(reset);
                latest_rise = Some(n);
            }
        }
        if latest_rise.is_some() {
            seen.counted_after_a_rise += usize::from(frames[n].is_counted);
            seen.shown_while_settling += usize::from(!frames[n].is_counted && history.output(n) != 0);
        }
    }
}

/// "The clauses on Z", at accepted frame n, with the margin measured from the
/// level that the run ran under. The clear margin has the test of restraint "as
/// a further premise"; where an over latch went on, the run found there has it in
/// each frame.
fn check_z_clauses(history: &History, calls: &[Call], before: &Relay, after: &Relay, n: usize, seen: &mut Seen) {
    for (index, latch) in [Latch::Loss, Latch::Over].into_iter().enumerate() {
        for c in if latch == Latch::Loss { 0..6 } else { 3..6 } {
            let (was_on, is_on) = (latches(before, latch)[c], latches(after, latch)[c]);
            let first = (n + 1).checked_sub(history.full_run(latch));
            let Some(first) = first.filter(|&first| history.is_full_run(latch, c, first)) else {
                assert!(was_on || !is_on);
                if let (Some(first), false) = (first, is_on) {
                    look_at_separated(history, latch, c, first, &mut seen.changes);
                }
                continue;
            };
            let run = &history.frames[first..=n];
            let own = |levels: &Levels| latch.own_level(levels, c);
            assert!(run.iter().all(|frame| own(&frame.levels) == own(&run[0].levels)), "one own level");
            let level = run[0].level(latch, c);
            let made_with = i64::from(own(&history.settings.levels).unwrap().0);
            let clear_of = |level: i64| {
                run.iter().all(|frame| match latch {
                    Latch::Over => frame.z[c].at_least(level + 2),
                    Latch::Loss => frame.z[c].below(level - 2),
                })
            };
            let near = |level: i64| {
                run.iter().all(|frame| match latch {
                    Latch::Over => frame.z[c].at_least(level - 2),
                    Latch::Loss => frame.z[c].below(level + 2),
                })
            };
            let clearly_met = clear_of(level);
            let unrestrained = history.is_unrestrained(latch, c, first);
            if clearly_met && unrestrained {
                assert!(is_on);
                seen.z_clause[index] += 1;
                seen.changes.clear_by_new[index] += usize::from(!clear_of(made_with));
            }
            seen.clearly_met_but_restrained += usize::from(clearly_met && !unrestrained);
            seen.restrained += usize::from(history.meets_level(latch, c, first) && !unrestrained);
            if is_on && !was_on {
                assert!(near(level));
                assert!(unrestrained);
                seen.latched[index] += 1;
                seen.lengths.latched[index][run.len()] += 1;
                if history.frames[..n].iter().any(|frame| frame.is_rise) {
                    seen.switch.latched_after_a_rise[index] += 1;
                }
                if latch == Latch::Over && run[0].levels.restraint[c - 3] > 0 {
                    seen.latched_under_restraint += 1;
                }
                let changes = &mut seen.changes;
                changes.near_by_new[index] += usize::from(!near(made_with));
                changes.latched_under_new[index] += usize::from(own(&run[0].levels) != own(&history.settings.levels));
                let (mut across, mut across_refused) = (false, false);
                for call in &calls[run[0].place..run[run.len() - 1].place] {
                    if let Call::Change(levels) = call {
                        let accepted = levels_refusal(levels) == 0;
                        across |= accepted;
                        across_refused |= !accepted && own(levels) != own(&run[0].levels);
                    }
                }
                changes.latched_across[index] += usize::from(across);
                changes.latched_across_refused[index] += usize::from(across_refused);
            }
        }
    }
}

/// No full run, and the latch is off. Were it on if changes separated nothing?
/// Then each frame from `first` on is counted, enabled and meets the level that
/// is in force in it, and no reset separates them.
fn look_at_separated(history: &History, latch: Latch, c: usize, first: usize, seen: &mut SeenOfChanges) {
    let run = &history.frames[first..first + history.full_run(latch)];
    let span = run[0].place..run[run.len() - 1].place;
    let reset = history.resets.iter().any(|reset| reset.mask >> c & 1 == 1 && span.contains(&reset.place));
    let counts = |frame: &history::AcceptedFrame| frame.is_counted && is_enabled(frame.enable, c);
    if reset || !run.iter().all(counts) || !history.meets_level(latch, c, first) {
        return;
    }
    let restrained = |frame: &history::AcceptedFrame| {
        latch == Latch::Over && !is_unrestrained(frame.levels.restraint[c - 3], frame.m[c], frame.second_m[c])
    };
    if run.iter().any(restrained) {
        return;
    }
    // Only a change of the own level is left to separate them.
    let separating = history.changes_of(latch, c).filter(|place| span.contains(place)).count();
    assert!(separating > 0);
    let index = usize::from(latch == Latch::Over);
    seen.separated[index] += 1;
    let own = |frame: &history::AcceptedFrame| latch.own_level(&frame.levels, c);
    seen.changed_back[index] += usize::from(run.iter().all(|frame| own(frame) == own(&run[0])));
}

fn look_at_one_short(history: &History, shorter: &History, after: &Relay, n: usize, seen: &mut SeenOfLengths) {
    for (index, latch) in [Latch::Loss, Latch::Over].into_iter().enumerate() {
        let (length, short) = (history.full_run(latch), shorter.full_run(latch));
        for c in if latch == Latch::Loss { 0..6 } else { 3..6 } {
            if length == 1 || latches(after, latch)[c] || n < short {
                continue;
            }
            let first = n + 1 - short;
            let full = shorter.is_full_run(latch, c, first)
                && shorter.meets_level(latch, c, first)
                && shorter.is_unrestrained(latch, c, first);
            seen.one_short[index][length] += usize::from(full);
        }
    }
}

#[test]
fn stepwise_latches_equal_the_history() {
    let mut prng = Prng(21);
    let mut seen = Seen::default();
    check(bench::SETTINGS, &[], &mut seen);
    for _ in 0..300 {
        let (settings, calls) = trace::list(&mut prng);
        check(settings, &calls, &mut seen);
    }
    println!(
        "frames {}, refused {}, latched {:?}, cleared {}, clearly met {:?}",
        seen.frames, seen.refused, seen.latched, seen.cleared, seen.z_clause
    );
    assert!(seen.frames > 10_000 && seen.refused > 300 && seen.cleared > 100);
    assert!(seen.latched.iter().all(|&count| count > 100));
    assert!(seen.z_clause.iter().all(|&count| count > 500));
    println!(
        "latched under restraint {}, restrained full runs {}, clearly met but restrained {}",
        seen.latched_under_restraint, seen.restrained, seen.clearly_met_but_restrained
    );
    assert!(seen.latched_under_restraint > 100 && seen.restrained > 500);
    assert!(seen.clearly_met_but_restrained > 500);
    let lengths = seen.lengths;
    println!("{lengths:?}");
    assert!(lengths.greater.iter().all(|&count| count > 100));
    assert!(lengths.latched.iter().all(|counts| counts[1..].iter().all(|&count| count > 5)));
    assert!(lengths.one_short.iter().all(|counts| counts[2..].iter().all(|&count| count > 5)));
    let switch = seen.switch;
    println!("{switch:?}");
    assert!(switch.falls > 400 && switch.rises > 400);
    assert!(switch.young_rises > 100 && switch.second_rises > 60);
    assert!(switch.counted_after_a_rise > 10_000 && switch.shown_while_settling > 5000);
    assert!(switch.latched_after_a_rise.iter().all(|&count| count > 200));
    assert!(switch.off_in_frame_0 > 20 && switch.off_for_one_frame > 100);
    assert!(switch.refused_off_among_on.iter().all(|&count| count > 200));
    assert!(switch.refused_on_among_off > 500 && switch.refused_on_before_a_rise > 80);
    assert!(switch.reset_before_a_rise > 80);
    let changes = seen.changes;
    println!("{changes:?}");
    assert!(changes.accepted > 5000 && changes.same > 300 && changes.refused.iter().all(|&count| count > 100));
    let RunsAtChanges { loss_kept, loss_broken, over_kept, over_broken } = changes.runs;
    assert!([loss_kept, loss_broken, over_kept, over_broken].iter().all(|&count| count > 3000));
    assert!(changes.latched_across.iter().all(|&count| count > 200));
    assert!(changes.latched_across_refused.iter().all(|&count| count > 20));
    assert!(changes.latched_under_new.iter().all(|&count| count > 800));
    assert!(changes.separated.iter().all(|&count| count > 400));
    assert!(changes.changed_back.iter().all(|&count| count > 30));
    assert!(changes.clear_by_new.iter().all(|&count| count > 2000));
    assert!(changes.near_by_new.iter().all(|&count| count > 80));
    assert!(changes.latch_outlived.iter().all(|&count| count > 1000));
}

/// Every accepted case of up to 500 frames, as calls on the bench program's relay.
#[test]
fn the_cases_equal_the_history() {
    let mut seen = Seen::default();
    for case in cases::all() {
        let mut cells = vec![0; 7 * 4096];
        let outcome = read(&case.capture, &mut cells);
        if outcome.count > 500 {
            continue;
        }
        let frame_of = |cells: &[u16]| Call::Frame { codes: std::array::from_fn(|c| cells[c]), enable: cells[6] as u8 };
        let calls: Vec<Call> = cells.chunks(7).take(outcome.count).map(frame_of).collect();
        check(bench::SETTINGS, &calls, &mut seen);
    }
    println!("cases: frames {}, latched {:?}, {:?}", seen.frames, seen.latched, seen.switch);
    assert!(seen.frames > 10_000 && seen.latched.iter().all(|&count| count > 50));
    assert!(seen.switch.rises > 50 && seen.switch.latched_after_a_rise.iter().all(|&count| count > 10));
}

/// One restrained frame in the midst makes an over run start again; below age
/// 72 and on the loss run restraint does nothing.
#[test]
fn a_restrained_frame_starts_the_over_run_again() {
    let levels = Levels { drop: [1; 6], pickup: [400; 3], restraint: [15; 3] };
    let settings = Settings { levels, lengths: LENGTHS };
    let wave = [100, 71, 0, -71, -100, -71, 0, 71];
    let frame_of = |n: usize, kick: i16| Call::Frame { codes: [(512 + wave[n % 8] + kick) as u16; 6], enable: 0x7F };
    let mut seen = Seen::default();
    // A kick stays in the window for eight frames and adds a second harmonic of 4 times its
    // size: 320 for 80. The wave has 1603, and 15 % of it is 240.
    let mut latched_at = |kicked: usize, kick: i16| {
        let calls: Vec<Call> = (0..120).map(|n| frame_of(n, if n == kicked { kick } else { 0 })).collect();
        check(settings, &calls, &mut seen);
        let history = History::of(settings, &calls);
        (0..=calls.len()).find(|&after| history.is_on(Latch::Over, 3, after)).map(|after| after - 1)
    };
    assert_eq!(latched_at(200, 0), Some(75));
    assert_eq!(latched_at(60, 80), Some(75));
    assert_eq!(latched_at(66, 80), Some(77));
    assert_eq!(latched_at(74, 80), Some(85));
    assert_eq!(latched_at(76, 80), Some(75));
    assert_eq!(latched_at(74, 40), Some(75), "a second harmonic of 160 is not enough");
}

/// A reset between the frames of a run separates it; a refused one, and one
/// that names another channel, do not.
#[test]
fn what_separates_a_run() {
    let quiet = Call::Frame { codes: [512; 6], enable: 0x7F };
    let levels = Levels { drop: [1; 6], pickup: [10_700; 3], restraint: [0; 3] };
    let settings = Settings { levels, lengths: LENGTHS };
    let mut seen = Seen::default();
    let mut latched_at = |between: Call| {
        let mut calls = vec![quiet; 80];
        calls.push(between);
        calls.extend([quiet; 30]);
        check(settings, &calls, &mut seen);
        let history = History::of(settings, &calls);
        (0..=calls.len()).find(|&after| history.is_on(Latch::Loss, 2, after))
    };
    // 88 frames and the call between; separated, 8 frames of the run are lost.
    assert_eq!(latched_at(Call::Reset { mask: 0x04 }), Some(97));
    assert_eq!(latched_at(Call::Reset { mask: 0x3B }), Some(89));
    assert_eq!(latched_at(Call::Reset { mask: 0x00 }), Some(89));
    assert_eq!(latched_at(Call::Reset { mask: 0x44 }), Some(89));
    assert_eq!(latched_at(Call::Frame { codes: [1024; 6], enable: 0 }), Some(89));
    assert_eq!(latched_at(Call::Frame { codes: [512; 6], enable: 0xFF }), Some(89));
    // A counted frame with the channel not enabled does: 9 frames are lost.
    assert_eq!(latched_at(Call::Frame { codes: [512; 6], enable: 0x7B }), Some(97));
}

/// "Between the first and last frame of a full run no change gave its own level
/// another value": what each change does to a loss run of channel 2 and to an
/// over run of channel 4 that are both under way.
#[test]
fn what_change_separates_a_run() {
    // Still voltages are below drop 1; the wave on the currents is at pickup 1603.
    let wave = [100, 71, 0, -71, -100, -71, 0, 71];
    let frame_of = |n: usize| {
        let current = (512 + wave[n % 8]) as u16;
        Call::Frame { codes: [512, 512, 512, current, current, current], enable: 0x7F }
    };
    let base = levels::BASE;
    let settings = Settings { levels: base, lengths: LENGTHS };
    let mut seen = Seen::default();
    // The changes come right before frame `before`; answered are the frames in
    // which the two latches go on.
    let mut latched_at = |before: usize, changes: &[Levels]| {
        let mut calls: Vec<Call> = (0..120).map(frame_of).collect();
        calls.splice(before..before, changes.iter().copied().map(Call::Change));
        check(settings, &calls, &mut seen);
        let history = History::of(settings, &calls);
        [(Latch::Loss, 2), (Latch::Over, 4)].map(|(latch, c)| {
            history.frames.iter().position(|frame| history.is_on(latch, c, frame.place + 1))
        })
    };
    let drop = |c: usize, level| {
        let mut levels = base;
        levels.drop[c] = level;
        levels
    };
    let pickup = |c: usize, level| {
        let mut levels = base;
        levels.pickup[c - 3] = level;
        levels
    };
    let restraint = |c: usize, r| {
        let mut levels = base;
        levels.restraint[c - 3] = r;
        levels
    };
    let unchanged = [Some(87), Some(75)];
    assert_eq!(latched_at(0, &[]), unchanged);
    for before in 0..=120 {
        // Where a change that is met again separates: between the first and the last frame.
        let loss = if (73..=87).contains(&before) { before + 15 } else { 87 };
        let over = if (73..=75).contains(&before) { before + 3 } else { 75 };
        assert_eq!(latched_at(before, &[base]), unchanged);
        assert_eq!(latched_at(before, &[drop(2, 2)]), [Some(loss), Some(75)]);
        assert_eq!(latched_at(before, &[drop(2, 2), base]), [Some(loss), Some(75)]);
        assert_eq!(latched_at(before, &[pickup(4, 1602)]), [Some(87), Some(over)]);
        assert_eq!(latched_at(before, &[pickup(4, 1604), base]), [Some(87), Some(over)]);
        assert_eq!(latched_at(before, &[restraint(4, 100)]), [Some(87), Some(over)]);
        assert_eq!(latched_at(before, &[restraint(4, 1), base]), [Some(87), Some(over)]);
        // Another value that is not met from then on.
        let never = |first: usize| if before > first { Some(first) } else { None };
        assert_eq!(latched_at(before, &[pickup(4, 1604)]), [Some(87), never(75)]);
        // Other channels' levels, and the other kind of this channel's.
        assert_eq!(latched_at(before, &[drop(4, 2), pickup(3, 9), restraint(5, 9)]), unchanged);
        // Refused: by 1, by 20, by 1 with both. They leave the levels too.
        let both = Levels { drop: [0; 6], restraint: [101; 3], ..base };
        assert_eq!(latched_at(before, &[pickup(4, 0), drop(2, 10_701), restraint(4, 101), both]), unchanged);
        let raised_and_spoilt = Levels { drop: [2; 6], pickup: [1604; 3], restraint: [1, 1, 101] };
        assert_eq!(latched_at(before, &[raised_and_spoilt]), unchanged);
    }
    // A level that is met from the change on only: the wave of 1603 on channel 3 is below drop 1604
    // and not below 1603.
    let low = Settings { levels: Levels { drop: [1603; 6], ..base }, lengths: LENGTHS };
    let mut calls: Vec<Call> = (0..120).map(frame_of).collect();
    calls.insert(90, Call::Change(Levels { drop: [1604; 6], ..base }));
    let history = History::of(low, &calls);
    check(low, &calls, &mut seen);
    let on = history.frames.iter().position(|frame| history.is_on(Latch::Loss, 3, frame.place + 1));
    assert_eq!(on, Some(105), "frames 90 to 105");
}

/// The latch stays on though no run would meet the new level, and a reset clears
/// it for good.
#[test]
fn latches_outlive_a_change() {
    let wave = [100, 71, 0, -71, -100, -71, 0, 71];
    let frame_of = |n: usize| Call::Frame { codes: [(512 + wave[n % 8]) as u16; 6], enable: 0x7F };
    let settings = Settings { levels: levels::BASE, lengths: LENGTHS };
    let mut calls: Vec<Call> = (0..160).map(frame_of).collect();
    calls.insert(130, Call::Reset { mask: 0x10 });
    calls.insert(76, Call::Change(Levels { pickup: [1604; 3], ..levels::BASE }));
    check(settings, &calls, &mut Seen::default());
    let history = History::of(settings, &calls);
    let outputs: Vec<u8> = (0..160).map(|n| history.output(n)).collect();
    assert!((0..160).all(|n| outputs[n] == [0x00, 0x38, 0x28][usize::from(n >= 75) + usize::from(n >= 130)]));
    assert_eq!(history.levels(76).pickup, [1603; 3]);
    assert_eq!(history.levels(77).pickup, [1604; 3]);
}
