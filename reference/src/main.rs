//! `reference bench`: a capture on standard input, the bench text on standard
//! output. `reference cases DIR`: writes NAME.p6k and NAME.txt for every case.
//! `reference trace LINES`: random calls with their answers, for c/check.c.
//! `reference played R`: as bench, if every current had restraint level R.
//! `reference restraint`: some cases played with restraint levels.
//! `reference relay-check-restraint`: generated frames on relays with them.
//! `reference levels`: scenarios with changed levels.
//! `reference lengths`: relays with other run lengths than 16 and 4.
//! `reference strokes`: resets in two strokes.
//! `reference generate`: 55 numbers on standard input, each of four bytes, the lowest
//! first, and the numbers oldest first; the capture of 4,096 frames made from them on
//! standard output.

use reference::{
    bench_text, capture, cases, generator, lengths, levels, played_text, relay, restraint, strokes, trace,
};
use std::fs::File;
use std::io::{self, Read, Write};
use std::os::fd::AsFd;
use std::path::Path;
use std::process::ExitCode;

fn main() -> ExitCode {
    let arguments: Vec<String> = std::env::args().skip(1).collect();
    let words: Vec<&str> = arguments.iter().map(String::as_str).collect();
    let done = match words[..] {
        ["bench"] => bench(0),
        ["played", level] => match level.parse() {
            Ok(level) if level <= relay::HIGHEST_RESTRAINT => bench(level),
            _ => Err(io::Error::other("R is not 0 to 100")),
        },
        ["restraint"] => io::stdout().write_all(restraint::played_cases().as_bytes()),
        ["relay-check-restraint"] => io::stdout().write_all(restraint::generated().as_bytes()),
        ["levels"] => io::stdout().write_all(levels::text().as_bytes()),
        ["lengths"] => io::stdout().write_all(lengths::text().as_bytes()),
        ["generate"] => answer(generator::GIVEN_BYTES, generator::output),
        ["strokes"] => io::stdout().write_all(strokes::text().as_bytes()),
        ["cases", directory] => write_cases(Path::new(directory)),
        ["trace", lines] => match lines.parse() {
            Ok(lines) => io::stdout().write_all(trace::text(lines).as_bytes()),
            Err(_) => Err(io::Error::other("LINES is not a number")),
        },
        _ => Err(io::Error::other(
            "usage: reference bench | cases DIR | trace LINES | played R | restraint | relay-check-restraint | \
             levels | lengths | strokes | generate",
        )),
    };
    match done {
        Ok(()) => ExitCode::SUCCESS,
        Err(error) => {
            eprintln!("{error}");
            ExitCode::FAILURE
        }
    }
}

fn bench(restraint: u8) -> io::Result<()> {
    answer(capture::LONGEST, |capture| played_text(capture, restraint))
}

/// Writes what `output` makes of standard input, of which `longest` bytes are the most
/// that can be right.
fn answer(longest: usize, output: impl Fn(&[u8]) -> Vec<u8>) -> io::Result<()> {
    match input(longest) {
        Ok(bytes) => io::stdout().write_all(&output(&bytes)),
        // A read failed: no line at all, none on standard error either.
        Err(_) => std::process::exit(1),
    }
}

/// Standard input up to one byte more than the longest: whatever follows, the first
/// byte too many decides. It is read as a file, since `io::Stdin` takes a descriptor
/// that is not open for reading for an end of input.
fn input(longest: usize) -> io::Result<Vec<u8>> {
    let file = File::from(io::stdin().as_fd().try_clone_to_owned()?);
    let mut bytes = Vec::new();
    file.take(longest as u64 + 1).read_to_end(&mut bytes)?;
    Ok(bytes)
}

fn write_cases(directory: &Path) -> io::Result<()> {
    std::fs::create_dir_all(directory)?;
    for case in cases::all() {
        let path = directory.join(&case.name);
        std::fs::write(path.with_extension("p6k"), &case.capture)?;
        std::fs::write(path.with_extension("txt"), bench_text(&case.capture))?;
    }
    Ok(())
}
