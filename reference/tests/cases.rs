//! The table of stored captures has what it is meant to have.

use reference::{bench_text, cases, played_text, read, restraint};
use std::collections::{BTreeMap, BTreeSet, HashMap};
use std::path::Path;

fn text_of(capture: &[u8]) -> String {
    String::from_utf8(bench_text(capture)).unwrap()
}

/// The output byte of each frame.
fn outputs(text: &str) -> Vec<u8> {
    let lines: Vec<&str> = text.lines().collect();
    lines[..lines.len() - 1]
        .iter()
        .map(|line| u8::from_str_radix(line.rsplit(' ').next().unwrap(), 16).unwrap())
        .collect()
}

#[test]
fn names_numbers_and_size() {
    let all = cases::all();
    let names: BTreeSet<&str> = all.iter().map(|case| case.name.as_str()).collect();
    assert_eq!(names.len(), all.len());
    let mut size = 0;
    for case in &all {
        let text = text_of(&case.capture);
        size += case.capture.len() + text.len();
        let prefix = case.name.split('-').next().unwrap();
        if prefix.parse::<u8>().is_ok() {
            assert_eq!(text, format!("refused {prefix}\n"), "{}", case.name);
        } else if let Some(rest) = case.name.strip_prefix("order-") {
            let number = rest.split('-').next().unwrap();
            assert_eq!(text, format!("refused {number}\n"), "{}", case.name);
        } else if prefix != "damaged" {
            assert!(text.contains("frames "), "{}", case.name);
        }
    }
    assert!(size < 1_500_000, "{size}");
}

/// The folder `cases` has the files of the table and no others.
#[test]
fn the_folder_is_the_table() {
    let mut table = BTreeMap::new();
    for case in cases::all() {
        table.insert(format!("{}.txt", case.name), bench_text(&case.capture));
        table.insert(format!("{}.p6k", case.name), case.capture);
    }
    let folder = Path::new(env!("CARGO_MANIFEST_DIR")).join("cases");
    let names: BTreeSet<String> =
        folder.read_dir().unwrap().map(|entry| entry.unwrap().file_name().into_string().unwrap()).collect();
    assert_eq!(names, table.keys().cloned().collect());
    for (name, content) in table {
        assert!(std::fs::read(folder.join(&name)).unwrap() == content, "{name}");
    }
}

#[test]
fn latch_cases_do_what_their_names_say() {
    let texts: HashMap<String, String> =
        cases::all().into_iter().map(|case| (case.name, text_of(&case.capture))).collect();
    let out = |name: String| outputs(&texts[&name]);
    let first = |name: String| out(name).iter().position(|&byte| byte != 0);
    for c in 3..6 {
        assert_eq!(first(format!("over-{c}")), Some(75));
        assert!(first(format!("over-burst-{c}")).is_some_and(|n| (103..110).contains(&n)));
        assert_eq!(out(format!("over-burst-{c}"))[129], 1 << c);
        assert_eq!(first(format!("over-too-early-{c}")), None);
    }
    for c in 0..6 {
        assert_eq!(first(format!("loss-{c}")), Some(87));
        assert!(first(format!("loss-late-{c}")).is_some_and(|n| n > 100));
        let switched = out(format!("disabled-and-back-{c}"));
        assert_eq!((switched[89], switched[90], switched[99]), (1 << c, 0, 0));
        assert_eq!((switched[100], switched[110], switched[120]), (1 << c, 0, 1 << c));
        assert_eq!(first(format!("enabled-short-{c}")), None);
        assert_eq!(out(format!("enabled-full-{c}"))[149], 1 << c);
    }
    let first_level = |target: &str, c: usize| out(format!("level-{target}")).iter().position(|byte| byte >> c & 1 == 1);
    assert_eq!(first_level("0818", 0), Some(87));
    assert_eq!(first_level("0819", 0), None);
    assert_eq!(first_level("3412", 4), None);
    assert_eq!(first_level("3413", 4), Some(75));
    let switched = out("device-on-off-on".into());
    assert!(switched[99] != 0 && switched[100..130].iter().all(|&byte| byte == 0) && switched[130] != 0);
    assert_eq!(first("device-off-throughout".into()), None);
    // The rise is at frame 100, and the capture ends before frame 175.
    assert_eq!(first("device-off-then-on".into()), None);
    assert_eq!(first("device-off-while-young".into()), Some(147));
    assert_eq!(first("device-alternating".into()), None);
}

/// Every frame in which the output byte is other than before, from 00 on.
#[test]
fn settling_cases_trip_when_they_should() {
    let texts: HashMap<String, String> =
        cases::all().into_iter().map(|case| (case.name, text_of(&case.capture))).collect();
    let both = |over: usize, loss: usize| vec![(over, 0x10), (loss, 0x11)];
    for (name, expected) in [
        ("settling", vec![(75, 0x08), (90, 0x00), (100, 0x08), (175, 0x18), (187, 0x19)]),
        ("rise-none", both(75, 87)),
        ("rise-at-1", both(1 + 75, 1 + 87)),
        ("rise-at-40", both(40 + 75, 40 + 87)),
        ("rise-at-71", both(71 + 75, 71 + 87)),
        ("rise-at-72", both(72 + 75, 72 + 87)),
        ("rise-at-101", both(101 + 75, 101 + 87)),
        ("rise-at-100-and-150", both(150 + 75, 150 + 87)),
        ("rise-at-100-and-172", both(172 + 75, 172 + 87)),
        ("rise-at-100-and-176", both(176 + 75, 176 + 87)),
        ("rise-at-100-and-177", vec![(175, 0x10), (176, 0x00), (177, 0x10), (177 + 87, 0x11)]),
        ("rise-at-10-and-20-and-90", both(90 + 75, 90 + 87)),
        ("runs-of-15-and-3-cut", both(88 + 75, 88 + 87)),
        ("runs-of-15-and-3-uncut", vec![(87, 0x11)]),
        ("rise-at-97-over-168-to-171", vec![]),
        ("rise-at-97-over-168-to-172", vec![(97 + 75, 0x10)]),
    ] {
        let out = outputs(&texts[name]);
        let before = |n: usize| if n == 0 { 0 } else { out[n - 1] };
        let changes: Vec<(usize, u8)> =
            (0..out.len()).filter(|&n| out[n] != before(n)).map(|n| (n, out[n])).collect();
        assert_eq!(changes, expected, "{name}");
    }
    // Channel 4 is over pickup in exactly the frames named.
    for last in [171, 172] {
        let text = &texts[&format!("rise-at-97-over-168-to-{last}")];
        for (n, line) in text.lines().take(200).enumerate() {
            let m: u16 = line.split(' ').nth(5).unwrap().parse().unwrap();
            assert_eq!(m >= 3413, (168..=last).contains(&n), "{n}");
        }
    }
}

/// The frames of the random cases in which bit 6 comes back; and every case that
/// has such a frame, by name. No case without one changed with Paper 5.
#[test]
fn which_cases_have_a_rise() {
    let rises_of = |capture: &[u8]| -> Vec<usize> {
        let mut cells = vec![0; 7 * 4096];
        let outcome = read(capture, &mut cells);
        let on = |n: usize| cells[7 * n + 6] & 0x40 != 0;
        (1..outcome.count).filter(|&n| on(n) && !on(n - 1)).collect()
    };
    for seed in 0..2 {
        let rises = rises_of(&capture_of(&format!("rises-{seed}")));
        let near = rises.windows(2).filter(|pair| pair[1] - pair[0] < 72).count();
        let far = rises.windows(2).filter(|pair| pair[1] - pair[0] > 90).count();
        println!("rises-{seed}: {rises:?}");
        assert!(near >= 1 && far >= 1);
    }
    let with_rises: Vec<String> =
        cases::all().into_iter().filter(|case| !rises_of(&case.capture).is_empty()).map(|case| case.name).collect();
    println!("with a rise: {with_rises:?}");
    let beginnings = ["rise", "settling", "runs-of-15-and-3-cut", "gap-device-", "device-", "noise-", "frames-4096"];
    assert!(with_rises.iter().all(|name| beginnings.iter().any(|beginning| name.starts_with(beginning))));
    assert!(!with_rises.iter().any(|name| name.starts_with("device-off-throughout") || name == "rise-none"));
}

#[test]
fn at_the_levels_every_channel_trips_exactly_where_it_should() {
    let texts: HashMap<String, String> =
        cases::all().into_iter().map(|case| (case.name, text_of(&case.capture))).collect();
    // The six m from frame 7 on; the frame in which latches go on; the output byte then.
    for (name, amplitudes, trip, byte) in [
        ("drop-818-819-820", [818, 819, 820, 819, 820, 818], 87, 0x21),
        ("drop-819-820-818", [819, 820, 818, 820, 818, 819], 87, 0x14),
        ("drop-820-818-819", [820, 818, 819, 818, 819, 820], 87, 0x0A),
        ("pickup-3412-3413-3414", [3413, 3414, 3412, 3412, 3413, 3414], 75, 0x30),
        ("pickup-3413-3414-3412", [3414, 3412, 3413, 3413, 3414, 3412], 75, 0x18),
        ("pickup-3414-3412-3413", [3412, 3413, 3414, 3414, 3412, 3413], 75, 0x28),
    ] {
        let text = &texts[name];
        let out = outputs(text);
        assert!(out.len() > trip);
        for (n, line) in text.lines().take(out.len()).enumerate() {
            let numbers: Vec<&str> = line.split(' ').collect();
            if n >= 7 {
                assert_eq!(numbers[1..7], amplitudes.map(|m: i32| m.to_string()), "{name} {n}");
            }
            assert_eq!(out[n], if n < trip { 0 } else { byte }, "{name} {n}");
        }
    }
}

fn capture_of(name: &str) -> Vec<u8> {
    cases::all().into_iter().find(|case| case.name == name).unwrap().capture
}

fn played(capture: &[u8], level: u8) -> String {
    String::from_utf8(played_text(capture, level)).unwrap()
}

#[test]
fn restraint_0_is_the_bench_program() {
    for case in cases::all() {
        assert_eq!(played_text(&case.capture, 0), bench_text(&case.capture));
    }
}

/// With restraint off the inrush trips all three currents; with 15 it trips none.
#[test]
fn an_inrush_is_restrained() {
    let capture = capture_of("inrush");
    let off = outputs(&played(&capture, 0));
    let on = outputs(&played(&capture, 15));
    assert_eq!((off.len(), on.len()), (160, 160));
    assert!(off[..84].iter().all(|&byte| byte == 0), "the load trips nothing");
    assert_eq!(off[159], 0x38);
    assert!(on.iter().all(|&byte| byte == 0));
    // The amplitudes are the fundamental's whatever the restraint.
    let amplitudes = |text: String| -> Vec<String> {
        text.lines().map(|line| line.rsplit_once(' ').unwrap().0.to_string()).collect()
    };
    assert_eq!(amplitudes(played(&capture, 0)), amplitudes(played(&capture, 15)));
}

/// A fault on channel 4 in the midst of it trips channel 4 alone.
#[test]
fn a_fault_in_an_inrush_trips_its_channel_only() {
    let capture = capture_of("inrush-then-fault");
    let on = outputs(&played(&capture, 15));
    let first = on.iter().position(|&byte| byte != 0).unwrap();
    assert!((124..140).contains(&first), "{first}");
    assert!(on[first..].iter().all(|&byte| byte == 0x10));
    assert_eq!(outputs(&played(&capture, 0)).last(), Some(&0x38));
}

/// Both inrush captures have every enable bit on, and the same first 124 frames.
#[test]
fn the_inrush_captures_begin_alike() {
    let [first, second] = ["inrush", "inrush-then-fault"].map(|name| {
        let mut cells = vec![0; 7 * 200];
        let outcome = read(&capture_of(name), &mut cells);
        assert_eq!(outcome.number, 0);
        cells.truncate(7 * outcome.count);
        assert!(cells.chunks(7).all(|frame| frame[6] == 0x7F));
        cells
    });
    assert_eq!(first[..7 * 124], second[..7 * 124]);
}

#[test]
fn restraint_texts() {
    let text = restraint::played_cases();
    let heads: Vec<&str> = text.lines().filter(|line| line.contains("restraint")).collect();
    assert_eq!(heads[..2], ["inrush.p6k restraint 0", "inrush.p6k restraint 15"]);
    assert_eq!(heads[2..], ["inrush-then-fault.p6k restraint 15", "over-3.p6k restraint 15"]);
    assert!(text.ends_with(&played(&capture_of("over-3"), 15)));

    // Of the generated settings, most have latches that restraint decides.
    let blocks = |text: String| -> Vec<String> {
        let after_its_levels = |block: &str| block.split_once('\n').unwrap().1.to_string();
        text.split("setting ").skip(1).map(after_its_levels).collect()
    };
    let as_set = blocks(restraint::generated());
    let off = blocks(restraint::generated_with(|_| [0; 3]));
    let decided = (0..restraint::GENERATED_SETTINGS).filter(|&k| as_set[k] != off[k]).count();
    println!("restraint decides in {decided} settings");
    assert!(decided >= 6);
}
