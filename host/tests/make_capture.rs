//! The built program make_capture against the second implementation: what it writes for numbers of every kind, for
//! inputs that are not 220 bytes, in pieces, and where a read fails. What it makes is read back by the archive, and the
//! bench program runs it.

use reference::generator::{output, GIVEN_BYTES};
use reference::prng::Prng;
use std::io::Write;
use std::os::unix::net::UnixStream;
use std::path::{Path, PathBuf};
use std::process::{Command, Stdio};

fn program(name: &str) -> PathBuf {
    Path::new(env!("CARGO_MANIFEST_DIR")).join("../crates").join(name).join("out").join(name)
}

/// What a program writes where its input is this one; never anything to standard error.
fn on(name: &str, input: impl Into<Stdio>) -> Vec<u8> {
    let output = Command::new(program(name)).stdin(input).output().unwrap();
    assert!(output.status.success() && output.stderr.is_empty());
    output.stdout
}

/// An input of these bytes, in pieces of so many; where `fails` it has no end but a read that fails.
fn socket(bytes: &[u8], piece: usize, fails: bool) -> Stdio {
    let (mut input, mut other) = UnixStream::pair().unwrap();
    if fails {
        input.write_all(b"?").unwrap();
    }
    for piece in bytes.chunks(piece) {
        other.write_all(piece).unwrap();
    }
    drop(other);
    std::os::fd::OwnedFd::from(input).into()
}

fn bytes(numbers: [u32; 55]) -> Vec<u8> {
    numbers.iter().flat_map(|number| number.to_le_bytes()).collect()
}

#[test]
fn numbers_of_every_kind() {
    let mut prng = Prng(12);
    for round in 0..60 {
        let mut numbers: [u32; 55] = std::array::from_fn(|_| prng.below(1 << 32) as u32);
        match round % 4 {
            0 => numbers = numbers.map(|number| number & !1),
            1 => numbers = std::array::from_fn(|k| numbers[k] & !1 | u32::from(k == round % 55)),
            _ => (),
        }
        let input = bytes(numbers);
        let expected = output(&input);
        assert_eq!(expected == b"refused 24\n", numbers.iter().all(|number| number % 2 == 0));
        assert!(on("make_capture", socket(&input, [220, 1, 7][round % 3], false)) == expected, "round {round}");
    }
}

/// Its capture is read back as what the archive makes, and the bench program takes it.
#[test]
fn the_capture_is_taken() {
    let numbers: [u32; 55] = std::array::from_fn(|k| ((k as u32 + 1) << 26) + 1);
    let capture = on("make_capture", socket(&bytes(numbers), 220, false));
    let (mut made, mut read) = (vec![0; host::READ_ROOM], vec![0; host::READ_ROOM]);
    assert_eq!(host::generate(numbers, 4096, &mut made), host::Answer { refusal: 0, count: 4096 });
    assert_eq!(host::read(&capture, &mut read), host::Answer { refusal: 0, count: 4096 });
    assert!(made == read && made[..7] == [528, 560, 592, 624, 656, 688, 0x7F]);
    assert!(on("bench", socket(&capture, usize::MAX, false)).ends_with(b"\nframes 4096\n"));
}

/// Any other number of bytes; the 221st is looked at, and nothing behind it.
#[test]
fn not_220_bytes() {
    for length in [0, 1, 4, 219, 221, 224, 440, 5000] {
        let input = vec![1; length];
        assert_eq!(on("make_capture", socket(&input, 5000, false)), b"220 bytes are wanted\n", "{length} bytes");
        assert_eq!(output(&input), b"220 bytes are wanted\n");
    }
    assert_eq!(on("make_capture", Stdio::null()), b"220 bytes are wanted\n");
    assert_eq!(on("make_capture", socket(&[1; 221], 5000, true)), b"220 bytes are wanted\n");
}

/// Neither of the two lines is taken for a capture.
#[test]
fn a_line_is_no_capture() {
    for line in [&b"refused 24\n"[..], b"220 bytes are wanted\n"] {
        assert_eq!(on("bench", socket(line, usize::MAX, false)), b"refused 6\n");
    }
}

/// Nothing at all, which the bench program then takes for a unit that has recorded nothing.
#[test]
fn a_read_that_fails_prints_nothing() {
    assert_eq!(on("make_capture", std::fs::File::open(env!("CARGO_MANIFEST_DIR")).unwrap()), b"");
    let closed = Command::new("sh").args(["-c", "exec \"$0\" <&-"]).arg(program("make_capture")).output().unwrap();
    assert!(closed.status.success() && closed.stdout.is_empty() && closed.stderr.is_empty());
    for length in [0, 1, 219, GIVEN_BYTES] {
        assert_eq!(on("make_capture", socket(&vec![1; length], 5000, true)), b"", "{length} bytes and a read that fails");
    }
    assert_eq!(on("bench", Stdio::null()), b"frames 0\n");
}
