//! Every bench figure of document 01, and the "mistakes to keep out". "The bench
//! figures keep 16 and 4."

use reference::bench::LENGTHS;
use reference::capture::{number_bytes, sent};
use reference::relay::is_enabled;
use reference::*;

const ALL_ON: u8 = 0x7F;
const WAVE: Window = [100, 71, 0, -71, -100, -71, 0, 71];

fn only(slot: usize) -> Window {
    std::array::from_fn(|k| if k == slot { 100 } else { 0 })
}

fn end_x(window: &Window) -> i64 {
    let (re, im) = re_im(window);
    cordic(re, im)
}

#[test]
fn starred_amplitudes() {
    assert_eq!(amplitude(&[0; 8]), 0);
    assert_eq!(amplitude(&[100; 8]), 0);
    assert_eq!(amplitude(&WAVE), 1603);
    assert_eq!((end_x(&only(0)), amplitude(&only(0))), (2_698_056, 400));
    assert_eq!((end_x(&only(1)), amplitude(&only(1))), (2_697_998, 399));
}

#[test]
fn starred_numbers() {
    assert_eq!(number_bytes(127), [0x7F]);
    assert_eq!(number_bytes(128), [0x80, 0x01]);
    assert_eq!(sent(1023), 2046);
    assert_eq!(number_bytes(2046), [0xFE, 0x0F]);
    assert_eq!(sent(-1), 1);
    let mut cells = [9; 7];
    let over_long = [0x50, 0x36, 0x4B, 0x80, 0x00];
    assert_eq!(read(&over_long, &mut cells), Outcome { number: 7, count: 0 });
    assert_eq!(cells, [9; 7]);
}

/// The first frame, of 400, after which channel 3's over latch is on.
fn first_over(pickup: u16) -> Option<usize> {
    let levels = Levels { drop: [1; 6], pickup: [pickup, 10_700, 10_700], restraint: [0; 3] };
    let mut relay = fresh(Settings { levels, lengths: LENGTHS }).relay;
    (0..400).find(|n| {
        let mut codes = [512; 6];
        codes[3] = (512 + WAVE[n % 8]) as u16;
        let answer = frame(relay, codes, ALL_ON);
        assert_eq!(answer.number, 0);
        relay = answer.relay;
        relay.channels[3].over_latch
    })
}

#[test]
fn steady_wave_on_channel_3() {
    assert_eq!(first_over(1603), Some(75));
    assert_eq!(first_over(1604), None);
}

#[test]
fn code_512_throughout() {
    let levels = Levels { drop: [1; 6], pickup: [10_700; 3], restraint: [0; 3] };
    let mut relay = fresh(Settings { levels, lengths: LENGTHS }).relay;
    for n in 0..=100 {
        let answer = frame(relay, [512; 6], ALL_ON);
        relay = answer.relay;
        let on = n >= 87;
        assert_eq!(relay.channels.map(|c| c.loss_latch), [on; 6], "frame {n}");
        assert_eq!(answer.output, if on { 0x3F } else { 0 });
    }
}

#[test]
fn highest_code() {
    let relay = fresh(bench::SETTINGS).relay;
    assert_eq!(frame(relay, [1023; 6], ALL_ON).number, 0);
    for c in 0..6 {
        let mut codes = [512; 6];
        codes[c] = 1024;
        let refused = Framed { number: 3, relay, amplitudes: [0; 6], output: 0 };
        assert_eq!(frame(relay, codes, ALL_ON), refused);
    }
}

#[test]
fn worked_example() {
    let capture = [0x50, 0x36, 0x4B, 0x01, 0x7F, 0xC8, 0x01, 0, 0, 0, 0, 0];
    assert_eq!(bench_text(&capture), b"0 400 0 0 0 0 0 00\nframes 1\n");
    assert_eq!(bench_text(&[0x50, 0x36, 0x4B, 0]), b"frames 0\n");
    assert_eq!(bench_text(&[0x50, 0x36, 0x4B, 0x80, 0]), b"refused 7\n");
}

#[test]
fn longest_capture() {
    assert_eq!(capture::LONGEST, 3 + 2 + 4096 * (1 + 6 * 2));
}

#[test]
fn shift_of_minus_one() {
    assert_eq!(-1i64 >> 1, -1);
    assert_eq!(-1i64 >> 15, -1);
}

#[test]
fn turning_the_window_may_change_m() {
    assert_ne!(amplitude(&only(0)), amplitude(&only(1)));
}

#[test]
fn reset_keeps_age() {
    let mut relay = fresh(bench::SETTINGS).relay;
    for _ in 0..72 {
        relay = frame(relay, [512; 6], ALL_ON).relay;
    }
    assert_eq!(relay.age, 72);
    assert_eq!(reset(relay, 0x3F).relay.age, 72);
}

#[test]
fn disabled_frame_grows_no_run() {
    let mut relay = fresh(bench::SETTINGS).relay;
    relay.age = 72;
    for _ in 0..15 {
        relay = frame(relay, [512; 6], ALL_ON).relay;
    }
    assert_eq!(relay.channels.map(|c| c.loss_run), [15; 6]);
    for enable in [0x40, 0x3F, 0x00] {
        let after = frame(relay, [512; 6], enable).relay;
        assert_eq!(after.channels.map(|c| (c.loss_run, c.loss_latch)), [(0, false); 6]);
    }
}

#[test]
fn enabled_takes_both_bits() {
    for c in 0..6 {
        assert!(is_enabled(0x40 | 1 << c, c));
        assert!(!is_enabled(0x40, c));
        assert!(!is_enabled(0x3F, c));
    }
}

/// Step 4 stands outside steps 2 and 3: a sound relay that is handed in young
/// with a run at its end gets its latch, enabled or not.
#[test]
fn full_run_handed_in_young() {
    let mut relay = fresh(bench::SETTINGS).relay;
    relay.age = 10;
    relay.channels[0].loss_run = 16;
    relay.channels[4].over_run = 4;
    let answer = frame(relay, [512; 6], 0x41);
    assert!(answer.relay.channels[0].loss_latch && answer.relay.channels[4].over_latch);
    assert_eq!((answer.relay.channels[0].loss_run, answer.relay.channels[4].over_run), (16, 4));
    assert_eq!(answer.output, 0x01);
}
