//! `drive WHAT CAPTURE TIMES`: the same work as drive.c, by the second implementation in Rust. `drive bench`: its bench program.
//! `drive generated FRAMES`: what crates/relay_check does, over frames of the same small generator; its stored output is made by this.
//! `drive restrained FRAMES R`: the same with all enabled, each pickup 1 and each restraint level R, as a first byte of 128 + R asks of it.
//! `drive make FRAMES CAPTURE`: the capture of the first frames of another.

use reference::bench::SETTINGS;
use reference::capture::{CELLS, LONGEST, MOST_FRAMES};
use reference::{bench_text, frame, fresh, generate, read, strongest_rolling, write, Levels, Relay, Settings};
use std::io::{Read, Write};

/// One frame; the sum keeps the work from being dropped and is the same in every language.
fn step(relay: &mut Relay, codes: [u16; 6], enable: u8) -> u64 {
    let answer = frame(*relay, codes, enable);
    *relay = answer.relay;
    u64::from(answer.output) + answer.amplitudes.iter().map(|&m| u64::from(m)).sum::<u64>()
}

fn run(cells: &[u16]) -> u64 {
    let mut relay = fresh(SETTINGS).relay;
    cells.chunks_exact(CELLS).map(|cells| step(&mut relay, std::array::from_fn(|c| cells[c]), cells[6] as u8)).sum()
}

/// All enabled, through a relay that goes on.
fn run_on(relay: &mut Relay, cells: &[u16]) -> u64 {
    cells.chunks_exact(CELLS).map(|cells| step(relay, std::array::from_fn(|c| cells[c]), 127)).sum()
}

/// Pickups 1, and one restraint level.
fn restrained(level: u8) -> Settings {
    Settings { levels: Levels { pickup: [1; 3], restraint: [level; 3], ..SETTINGS.levels }, ..SETTINGS }
}

/// Each enable byte stands for 2 to the power of `hold` frames.
fn generated(frames: u64, settings: Settings, hold: u32) -> u64 {
    let mut relay = fresh(settings).relay;
    let mut state = 1u64;
    let mut code = || {
        state = (state * 1103515245 + 12345) % 2147483648;
        ((state >> 16) % 1024) as u16
    };
    (0..frames).map(|n| step(&mut relay, std::array::from_fn(|_| code()), (127 - (n >> hold) % 64) as u8)).sum()
}

fn drive(what: &str, capture: &[u8], times: u64) -> u64 {
    let mut cells = vec![0; CELLS * MOST_FRAMES];
    let mut bytes = vec![0; LONGEST];
    let frames = read(capture, &mut cells).count;
    let mut relay = fresh(restrained(if what == "on" { 15 } else { 0 })).relay;
    let given = std::array::from_fn(|k| ((k as u32 + 1) << 26) + 1);
    let mut sum = 0;
    for _ in 0..times {
        sum += match what {
            "frame" => run(&cells[..CELLS * frames]),
            "read" => read(capture, &mut cells).count as u64,
            "write" => write(&cells[..CELLS * frames], &mut bytes).count as u64,
            "run" => {
                let frames = read(capture, &mut cells).count;
                run(&cells[..CELLS * frames])
            }
            "strongest" => (0..6)
                .map(|channel| strongest_rolling(&cells[..CELLS * frames], channel))
                .map(|found| u64::from(found.sum) + found.frame as u64)
                .sum(),
            "generate" | "vectors" => {
                let count = generate(given, frames, &mut cells).count;
                count as u64 + (0..CELLS).map(|c| u64::from(cells[c * frames])).sum::<u64>()
            }
            "off" | "on" => run_on(&mut relay, &cells[..CELLS * frames]),
            _ => panic!("frame, read, write, run, strongest, generate, vectors, off or on"),
        };
    }
    sum
}

fn main() {
    let arguments: Vec<String> = std::env::args().skip(1).collect();
    let words: Vec<&str> = arguments.iter().map(String::as_str).collect();
    let out = match words[..] {
        ["bench"] => {
            let mut capture = Vec::new();
            std::io::stdin().read_to_end(&mut capture).unwrap();
            bench_text(&capture)
        }
        ["generated", frames] => format!("{}\n", generated(frames.parse().unwrap(), SETTINGS, 6)).into_bytes(),
        ["restrained", frames, level] => {
            format!("{}\n", generated(frames.parse().unwrap(), restrained(level.parse().unwrap()), 63)).into_bytes()
        }
        ["make", frames, path] => {
            let mut cells = vec![0; CELLS * MOST_FRAMES];
            let mut bytes = vec![0; LONGEST];
            read(&std::fs::read(path).unwrap(), &mut cells);
            let size = write(&cells[..CELLS * frames.parse::<usize>().unwrap()], &mut bytes).count;
            bytes.truncate(size);
            bytes
        }
        [what, path, times] => format!("{}\n", drive(what, &std::fs::read(path).unwrap(), times.parse().unwrap())).into_bytes(),
        _ => panic!("drive WHAT CAPTURE TIMES | bench | generated FRAMES | restrained FRAMES R | make FRAMES CAPTURE"),
    };
    std::io::stdout().write_all(&out).unwrap();
}
