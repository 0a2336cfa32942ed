//! Each refusal, 1 to 13, 19 and 20, with its whole outcome. Refusal 21 is in
//! tests/lengths.rs.

use reference::*;

const GOOD: Settings = bench::SETTINGS;
const MARK: [u8; 3] = capture::MARK;

/// The fresh relay of accepted settings, and the all-zero one of refused ones.
fn made(settings: Settings, number: u8) -> Fresh {
    let relay = if number == 0 { Relay { settings, device_on: true, ..Relay::default() } } else { Relay::default() };
    Fresh { number, relay }
}

fn relay() -> Relay {
    let mut relay = fresh(GOOD).relay;
    relay.age = 72;
    relay.channels[1].loss_latch = true;
    relay.channels[5].over_run = 3;
    relay
}

#[test]
fn refusal_1_settings() {
    for place in 0..9 {
        for (level, number) in [(0, 1), (1, 0), (10_700, 0), (10_701, 1), (u16::MAX, 1)] {
            let mut settings = GOOD;
            match place {
                0..=5 => settings.levels.drop[place] = level,
                _ => settings.levels.pickup[place - 6] = level,
            }
            assert_eq!(fresh(settings), made(settings, number));
        }
    }
}

/// "All-zero" holds for the remembered bit too; a fresh relay remembers on. The
/// all-zero relay is not sound, so no frame with bit 6 on is a rise on it.
#[test]
fn the_all_zero_relay_remembers_off() {
    assert!(fresh(GOOD).relay.device_on);
    for levels in [Levels { drop: [0; 6], ..GOOD.levels }, Levels { restraint: [101; 3], ..GOOD.levels }] {
        let relay = fresh(Settings { levels, ..GOOD }).relay;
        assert_eq!(relay, Relay::default());
        assert!(!relay.device_on);
        for enable in [0x7F, 0x3F] {
            assert_eq!(frame(relay, [512; 6], enable), Framed { number: 2, relay, amplitudes: [0; 6], output: 0 });
        }
        assert_eq!(reset(relay, 0x3F), Reset { number: 2, relay });
        // Good levels do not heal it.
        assert_eq!(change(relay, GOOD.levels), Changed { number: 2, relay });
    }
}

/// Every way of being unsound: the relay comes back as given, and 2 comes
/// before 1, 3, 4, 5 and 20.
#[test]
fn refusal_2_soundness() {
    let mut unsound: Vec<Relay> = Vec::new();
    let mut spoil = |edit: &dyn Fn(&mut Relay)| {
        let mut spoilt = relay();
        edit(&mut spoilt);
        unsound.push(spoilt);
    };
    spoil(&|r| r.age = 73);
    spoil(&|r| r.age = 255);
    spoil(&|r| r.slot = 8);
    for c in 0..6 {
        spoil(&|r| r.channels[c].loss_run = 17);
        spoil(&|r| r.channels[c].over_run = 5);
        spoil(&|r| r.settings.levels.drop[c] = 0);
        spoil(&|r| r.settings.levels.drop[c] = 10_701);
        for slot in 0..8 {
            spoil(&|r| r.channels[c].samples[slot] = -513);
            spoil(&|r| r.channels[c].samples[slot] = 512);
        }
    }
    for c in 0..3 {
        spoil(&|r| r.channels[c].over_run = 1);
        spoil(&|r| r.channels[c].over_latch = true);
        spoil(&|r| r.settings.levels.pickup[c] = 0);
        spoil(&|r| r.settings.levels.pickup[c] = 10_701);
        spoil(&|r| r.settings.levels.restraint[c] = 101);
        spoil(&|r| r.settings.levels.restraint[c] = 255);
    }
    let with_either_bit = |relay| [true, false].map(|device_on| Relay { device_on, ..relay });
    for relay in unsound.into_iter().flat_map(with_either_bit) {
        for (codes, enable) in [([512; 6], 0x7F), ([512; 6], 0x3F), ([1024; 6], 0xFF)] {
            let refused = Framed { number: 2, relay, amplitudes: [0; 6], output: 0 };
            assert_eq!(frame(relay, codes, enable), refused);
        }
        for mask in [0, 0x3F, 0xFF] {
            assert_eq!(reset(relay, mask), Reset { number: 2, relay });
        }
        let bad = [Levels { drop: [0; 6], ..GOOD.levels }, Levels { restraint: [101; 3], ..GOOD.levels }];
        for levels in [GOOD.levels, relay.settings.levels, bad[0], bad[1], Levels::default()] {
            assert_eq!(change(relay, levels), Changed { number: 2, relay });
        }
    }
}

#[test]
fn sound_at_the_ends() {
    let mut relay = relay();
    relay.slot = 7;
    for c in 0..6 {
        relay.channels[c].loss_run = 16;
        relay.channels[c].samples = [-512, 511, -512, 511, 0, 0, 511, -512];
        relay.settings.levels.drop[c] = if c % 2 == 0 { 1 } else { 10_700 };
    }
    for c in 3..6 {
        relay.channels[c].over_run = 4;
        relay.channels[c].over_latch = true;
        relay.settings.levels.restraint[c - 3] = 100;
    }
    assert!(is_sound(&relay));
    let answer = frame(relay, [0, 1023, 512, 0, 1023, 512], 0x7F);
    assert_eq!((answer.number, answer.relay.slot), (0, 0));
}

#[test]
fn refusals_3_and_4_frame() {
    refusals_3_and_4(relay());
    refusals_3_and_4(Relay { device_on: false, ..relay() });
    refusals_3_and_4(Relay { device_on: false, age: 71, ..relay() });
}

fn refusals_3_and_4(relay: Relay) {
    let refused = |number| Framed { number, relay, amplitudes: [0; 6], output: 0 };
    for c in 0..6 {
        for code in [1024, u16::MAX] {
            let mut codes = [512; 6];
            codes[c] = code;
            assert_eq!(frame(relay, codes, 0x7F), refused(3));
            assert_eq!(frame(relay, codes, 0x3F), refused(3));
            assert_eq!(frame(relay, codes, 0x80), refused(3), "3 before 4");
            assert_eq!(frame(relay, codes, 0xC0), refused(3), "3 before 4");
        }
    }
    for enable in 128..=255 {
        assert_eq!(frame(relay, [512; 6], enable), refused(4));
    }
    for enable in 0..128 {
        let answer = frame(relay, [512; 6], enable);
        assert_eq!((answer.number, answer.relay.device_on), (0, enable >= 64));
    }
}

#[test]
fn refusal_5_reset() {
    refusal_5(relay());
    refusal_5(Relay { device_on: false, ..relay() });
}

fn refusal_5(relay: Relay) {
    for mask in 0..=255u8 {
        let answer = reset(relay, mask);
        if mask > 63 {
            assert_eq!(answer, Reset { number: 5, relay });
            continue;
        }
        let mut expected = relay;
        for c in (0..6).filter(|c| mask >> c & 1 == 1) {
            expected.channels[c].loss_run = 0;
            expected.channels[c].over_run = 0;
            expected.channels[c].loss_latch = false;
            expected.channels[c].over_latch = false;
        }
        assert_eq!(answer, Reset { number: 0, relay: expected });
    }
}

/// Reads with much room; a refusal has to leave the cells as they were.
fn refused(bytes: &[u8]) -> u8 {
    let mut cells = [0xBEEF; 70];
    let outcome = read(bytes, &mut cells);
    if outcome.number != 0 {
        assert_eq!((outcome.count, cells), (0, [0xBEEF; 70]));
    }
    outcome.number
}

fn with_mark(rest: &[u8]) -> Vec<u8> {
    [&MARK[..], rest].concat()
}

#[test]
fn refusals_6_to_10_reading() {
    assert_eq!(refused(&[0x50, 0x36, 0x4C, 0]), 6);
    assert_eq!(refused(&[0x51]), 6);
    assert_eq!(refused(&[]), 0, "no bytes are zero frames");
    assert_eq!(refused(&[0x50]), 8);
    assert_eq!(refused(&[0x50, 0x36]), 8);
    assert_eq!(refused(&MARK), 8);
    assert_eq!(refused(&with_mark(&[0x80])), 8);
    assert_eq!(refused(&with_mark(&[0x81, 0x00])), 7);
    assert_eq!(refused(&with_mark(&[0xFF, 0xFF])), 7);
    assert_eq!(refused(&with_mark(&[0x81, 0x20])), 9);
    assert_eq!(refused(&with_mark(&[0x80, 0x20])), 8, "4,096 frames are in range");
    assert_eq!(refused(&with_mark(&[1, 0x80])), 9);
    assert_eq!(refused(&with_mark(&[1, 0x7F])), 8);
    assert_eq!(refused(&with_mark(&[1, 0x7F, 0xFE, 0x07, 0, 0, 0, 0, 0])), 0, "512 + 511");
    assert_eq!(refused(&with_mark(&[1, 0x7F, 0x80, 0x08])), 9, "512 + 512");
    assert_eq!(refused(&with_mark(&[1, 0x7F, 0xFF, 0x07, 0, 0, 0, 0, 0])), 0, "512 − 512");
    assert_eq!(refused(&with_mark(&[1, 0x7F, 0x81, 0x08])), 9, "512 − 513");
    assert_eq!(refused(&with_mark(&[1, 0x7F, 0, 0, 0, 0, 0, 0])), 0);
    assert_eq!(refused(&with_mark(&[1, 0x7F, 0, 0, 0, 0, 0, 0, 0])), 10);
    assert_eq!(refused(&with_mark(&[0, 0])), 10);
}

#[test]
fn refusal_11_no_room() {
    // Reading: the fault before the space, then the space.
    let capture = with_mark(&[1, 0x7F, 0, 0, 0, 0, 0, 0]);
    let mut cells = [7; 6];
    assert_eq!(read(&capture, &mut cells), Outcome { number: 11, count: 0 });
    assert_eq!(cells, [7; 6]);
    let tailed = [&capture[..], &[0]].concat();
    assert_eq!(read(&tailed, &mut cells), Outcome { number: 10, count: 0 });
    let mut cells = [7; 9];
    assert_eq!(read(&capture, &mut cells), Outcome { number: 0, count: 1 });
    assert_eq!(cells, [512, 512, 512, 512, 512, 512, 0x7F, 7, 7]);
    // Writing.
    let cells = [512, 512, 512, 512, 512, 512, 0x7F];
    let mut buffer = [0xAA; 10];
    assert_eq!(write(&cells, &mut buffer), Outcome { number: 11, count: 0 });
    assert_eq!(buffer, [0xAA; 10]);
    let mut buffer = [0xAA; 13];
    assert_eq!(write(&cells, &mut buffer), Outcome { number: 0, count: 11 });
    assert_eq!(buffer[..11], capture);
    assert_eq!(buffer[11..], [0xAA; 2]);
}

#[test]
fn refusals_12_and_9_writing() {
    let outcome = |cells: &[u16], room: usize| {
        let mut buffer = vec![0xAA; room];
        let outcome = write(cells, &mut buffer);
        assert_eq!(buffer, vec![0xAA; room]);
        assert_eq!(outcome.count, 0);
        outcome.number
    };
    assert_eq!(outcome(&[2000; 6], 0), 12);
    assert_eq!(outcome(&[2000; 8], 100), 12);
    for at in 0..7 {
        let mut cells = [512, 512, 512, 512, 512, 512, 0x7F];
        cells[at] = if at == 6 { 128 } else { 1024 };
        assert_eq!(outcome(&cells, 0), 9, "9 before 11");
        cells[at] = u16::MAX;
        assert_eq!(outcome(&cells, 100), 9);
    }
    let mut cells = [512, 512, 512, 512, 512, 512, 0x100];
    assert_eq!(outcome(&cells, 100), 9, "an enable cell is no byte");
    cells[6] = 0;
    assert_eq!(outcome(&cells.repeat(4097), 60_000), 9);
    let mut buffer = vec![0; 60_000];
    assert_eq!(write(&cells.repeat(4096), &mut buffer).number, 0);
    assert_eq!(outcome(&[], 3), 11);
    assert_eq!(write(&[], &mut buffer), Outcome { number: 0, count: 4 });
}

#[test]
fn refusals_12_9_13_strongest() {
    let refused = |number| Strongest { number, sum: 0, frame: 0 };
    let quiet = [512u16, 512, 512, 512, 512, 512, 0];
    assert_eq!(strongest(&[9999; 8], 0), refused(12));
    assert_eq!(strongest(&[9999; 7], 6), refused(12), "12 before 9");
    assert_eq!(strongest(&[1024; 7], 0), refused(9), "9 before 13");
    assert_eq!(strongest(&quiet.repeat(4097), 0), refused(9));
    assert_eq!(strongest(&[], 0), refused(13));
    assert_eq!(strongest(&quiet.repeat(7), 0), refused(13));
    assert_eq!(strongest(&quiet.repeat(8), 5), refused(0));
    // A fault outside the channel is a fault too.
    for at in 0..7 {
        let mut cells = quiet.repeat(8);
        cells[7 * 5 + at] = if at == 6 { 128 } else { 1024 };
        assert_eq!(strongest(&cells, 2), refused(9));
    }
}

#[test]
fn refusal_19_estimate() {
    let refused = Estimate { refusal: 19, amplitude: 0 };
    let wave = [100, 71, 0, -71, -100, -71, 0, 71];
    for order in 0..=255 {
        if (1..=3).contains(&order) {
            assert_eq!(estimate(wave, order).refusal, 0);
        } else {
            assert_eq!(estimate(wave, order), refused, "order {order}");
        }
    }
    for slot in 0..8 {
        for (sample, number) in [(-512, 0), (511, 0), (-513, 19), (512, 19), (i16::MIN, 19), (i16::MAX, 19)] {
            let mut samples = wave;
            samples[slot] = sample;
            for order in 1..=3 {
                let answer = estimate(samples, order);
                assert_eq!(answer.refusal, number);
                assert!(number == 0 || answer == refused);
            }
            assert_eq!(estimate(samples, 0), refused);
        }
    }
}

#[test]
fn refusal_20_restraint() {
    for place in 0..3 {
        for r in 0..=255 {
            let mut settings = GOOD;
            settings.levels.restraint[place] = r;
            let number = if r > 100 { 20 } else { 0 };
            assert_eq!(fresh(settings), made(settings, number));
            settings.levels.drop[5] = 0;
            assert_eq!(fresh(settings), made(settings, 1), "1 before 20");
        }
    }
}
