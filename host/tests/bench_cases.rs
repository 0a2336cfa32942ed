//! The built bench program on the table of stored captures: its output is the stored text, byte for byte, also where the input comes in
//! pieces. The texts were made by the second implementation, never by the program under test.

use std::io::Write;
use std::os::fd::OwnedFd;
use std::os::unix::net::UnixStream;
use std::path::{Path, PathBuf};
use std::process::{Command, Stdio};
use std::time::Duration;

fn root() -> PathBuf {
    Path::new(env!("CARGO_MANIFEST_DIR")).join("..")
}

/// Every case's name, capture and expected text.
fn cases() -> Vec<(String, Vec<u8>, Vec<u8>)> {
    let mut cases = Vec::new();
    for entry in std::fs::read_dir(root().join("reference/cases")).unwrap() {
        let path = entry.unwrap().path();
        if path.extension().is_some_and(|extension| extension == "p6k") {
            let name = path.file_stem().unwrap().to_str().unwrap().to_string();
            let text = std::fs::read(path.with_extension("txt")).unwrap();
            cases.push((name, std::fs::read(&path).unwrap(), text));
        }
    }
    cases.sort();
    cases
}

/// What the program writes where its input comes in pieces of so many bytes, with a pause after each of the first `pauses`.
fn bench(input: &[u8], piece: usize, pauses: usize) -> Vec<u8> {
    let program = root().join("crates/bench/out/bench");
    let mut child = Command::new(&program)
        .stdin(Stdio::piped())
        .stdout(Stdio::piped())
        .spawn()
        .unwrap_or_else(|error| panic!("{}: {error}: run `rt run` in crates/bench first", program.display()));
    let mut stdin = child.stdin.take().unwrap();
    let pieces: Vec<Vec<u8>> = input.chunks(piece).map(<[u8]>::to_vec).collect();
    // A thread, so that neither side waits on a full pipe. The program may stop reading early: it wants no more than 53,254 bytes.
    let feeder = std::thread::spawn(move || {
        for (k, piece) in pieces.iter().enumerate() {
            if stdin.write_all(piece).is_err() {
                return;
            }
            if k < pauses {
                std::thread::sleep(Duration::from_millis(2));
            }
        }
    });
    let output = child.wait_with_output().unwrap();
    feeder.join().unwrap();
    assert!(output.status.success());
    output.stdout
}

fn check(name: &str, input: &[u8], piece: usize, pauses: usize, expected: &[u8]) {
    let text = bench(input, piece, pauses);
    assert!(text == expected, "{name}, in pieces of {piece}: {}", String::from_utf8_lossy(&text[..text.len().min(300)]));
}

#[test]
fn every_case() {
    let cases = cases();
    assert!(cases.len() >= 390, "the table has {} cases", cases.len());
    for (name, capture, text) in &cases {
        check(name, capture, usize::MAX, 0, text);
        assert_eq!(reference::bench_text(capture), *text, "{name}: make the texts again");
    }
}

/// A short read is not the end of input: each byte comes alone, or the capture comes in a few pieces.
#[test]
fn in_pieces() {
    let mut checked = 0;
    for (name, capture, text) in &cases() {
        let (piece, pauses) = match name.as_str() {
            "example" | "small" | "frames-0001" | "8-last-byte-missing" | "10-tail-00-1" => (1, usize::MAX),
            "frames-0090" | "level-3413" | "noise-3" => (7, 100),
            "frames-4096" | "longest" | "10-longest-and-2000" => (4001, usize::MAX),
            _ => continue,
        };
        check(name, capture, piece, pauses, text);
        checked += 1;
    }
    assert_eq!(checked, 11);
}

/// Document 01's own example.
#[test]
fn example() {
    let capture = [0x50, 0x36, 0x4B, 0x01, 0x7F, 0xC8, 0x01, 0, 0, 0, 0, 0];
    assert_eq!(bench(&capture, usize::MAX, 0), b"0 400 0 0 0 0 0 00\nframes 1\n");
}

/// What the program writes where its input is this one; never anything to standard error.
fn on(input: impl Into<Stdio>) -> String {
    let output = Command::new(root().join("crates/bench/out/bench")).stdin(input).output().unwrap();
    assert!(output.status.success() && output.stderr.is_empty());
    String::from_utf8(output.stdout).unwrap()
}

/// An input that gives these bytes and then, where `fails`, no end but a read that fails: the other end of the pair of sockets is dropped with a
/// byte in it that nobody took.
fn socket(bytes: &[u8], fails: bool) -> OwnedFd {
    let (mut input, mut other) = UnixStream::pair().unwrap();
    other.write_all(bytes).unwrap();
    if fails {
        input.write_all(b"?").unwrap();
    }
    drop(other);
    input.into()
}

/// No bytes are a capture of zero frames, from an empty file and from a socket that ends at once.
#[test]
fn no_bytes() {
    assert_eq!(on(Stdio::null()), "frames 0\n");
    assert_eq!(on(std::fs::File::open(root().join("captures/no-bytes.p6k")).unwrap()), "frames 0\n");
    assert_eq!(on(socket(b"", false)), "frames 0\n");
}

/// An input whose read fails is not one of no bytes: no line at all. A folder; an input that was closed; one that is open for writing; a read that
/// fails at once, within the mark, behind a whole capture, and behind what would have been refused.
#[test]
fn a_read_that_fails_prints_no_line() {
    assert_eq!(on(std::fs::File::open(root()).unwrap()), "");
    assert_eq!(on(std::fs::OpenOptions::new().write(true).open("/dev/null").unwrap()), "");
    let closed = Command::new("sh").args(["-c", "exec \"$0\" <&-"]).arg(root().join("crates/bench/out/bench")).output().unwrap();
    assert!(closed.status.success() && closed.stdout.is_empty() && closed.stderr.is_empty());
    for (bytes, text) in [(&b""[..], "frames 0\n"), (b"P6", "refused 8\n"), (b"P6K\0", "frames 0\n"), (b"?", "refused 6\n")] {
        assert_eq!(on(socket(bytes, false)), text);
        assert_eq!(on(socket(bytes, true)), "", "{bytes:02X?} and a read that fails");
    }
}

/// The buffer is full with one byte more than the longest capture: nothing behind it is read, so that no read can fail there.
#[test]
fn a_full_buffer_is_not_a_failure() {
    let (_, longest, _) = cases().into_iter().find(|(name, ..)| name == "longest").unwrap();
    assert_eq!(longest.len(), 53_253);
    let more = [&longest[..], &[0]].concat();
    assert_eq!(on(socket(&longest, true)), "");
    assert_eq!(on(socket(&more, true)), "refused 10\n");
}
