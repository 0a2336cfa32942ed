//! Paper 3: "A capture of zero bytes now means zero frames, where it was refused by
//! 8. Writing zero frames still gives the mark and a zero. The reading law therefore
//! excepts this one input: every other accepted capture is what writing its frames
//! gives." Wrong readers and writers are asked the same. Last, what the bench program
//! prints for no bytes, and that it prints nothing if a read of its input fails.

use reference::capture::{CELLS, LONGEST, MARK, MOST_FRAMES};
use reference::*;
use std::collections::BTreeMap;
use std::fmt::Debug;
use std::fs::{self, File, OpenOptions};
use std::io::{ErrorKind, Read, Write};
use std::os::fd::OwnedFd;
use std::os::unix::net::UnixStream;
use std::path::Path;
use std::process::{Command, Output, Stdio};
use std::sync::OnceLock;

const OLD_CELL: u16 = 0xBEEF;
const OLD_BYTE: u8 = 0xAA;
const NOTHING: Outcome = Outcome { number: 0, count: 0 };
const NONE_WRITTEN: [u8; 4] = [0x50, 0x36, 0x4B, 0x00];
/// Document 01's capture of one frame.
const EXAMPLE: [u8; 12] = [0x50, 0x36, 0x4B, 0x01, 0x7F, 0xC8, 0x01, 0, 0, 0, 0, 0];

fn refused(number: u8) -> Outcome {
    Outcome { number, count: 0 }
}

/// A reader and a writer.
#[derive(Clone, Copy)]
struct Pair {
    read: fn(&[u8], &mut [u16]) -> Outcome,
    write: fn(&[u16], &mut [u8]) -> Outcome,
}

const OURS: Pair = Pair { read, write };

/// What a check counted, or the first thing that is not as it should be.
type Asked = Result<Vec<usize>, String>;

fn same<T: PartialEq + Debug>(what: &str, is: T, should_be: T) -> Result<(), String> {
    if is == should_be {
        Ok(())
    } else {
        Err(format!("{what}: {is:?}, not {should_be:?}"))
    }
}

/// The outcome and the cells of the answer. All others have to be as they were.
fn taken(pair: Pair, bytes: &[u8], room: usize) -> Result<(Outcome, Vec<u16>), String> {
    let mut cells = vec![OLD_CELL; room];
    let outcome = (pair.read)(bytes, &mut cells);
    let answer = CELLS * outcome.count;
    if answer > room || cells[answer..].iter().any(|&cell| cell != OLD_CELL) {
        return Err(format!("{} bytes into {room} cells: {outcome:?}, cells not old", bytes.len()));
    }
    cells.truncate(answer);
    Ok((outcome, cells))
}

/// The bytes that writing gives. All others have to be as they were.
fn written(pair: Pair, cells: &[u16]) -> Result<Vec<u8>, String> {
    let mut bytes = vec![OLD_BYTE; LONGEST + 9];
    let outcome = (pair.write)(cells, &mut bytes);
    if outcome.number != 0 || bytes[outcome.count..].iter().any(|&byte| byte != OLD_BYTE) {
        return Err(format!("{} cells written: {outcome:?}", cells.len()));
    }
    bytes.truncate(outcome.count);
    Ok(bytes)
}

struct Stored {
    name: String,
    capture: Vec<u8>,
    /// What the stored text says of it.
    outcome: Outcome,
}

/// The stored cases, by name.
fn stored() -> &'static [Stored] {
    static STORED: OnceLock<Vec<Stored>> = OnceLock::new();
    STORED.get_or_init(|| {
        let folder = Path::new(env!("CARGO_MANIFEST_DIR")).join("cases");
        let mut paths: Vec<_> = fs::read_dir(folder).unwrap().map(|entry| entry.unwrap().path()).collect();
        paths.retain(|path| path.extension().is_some_and(|extension| extension == "p6k"));
        paths.sort();
        paths
            .iter()
            .map(|path| {
                let text = fs::read_to_string(path.with_extension("txt")).unwrap();
                let (word, number) = text.lines().last().unwrap().split_once(' ').unwrap();
                let outcome = match word {
                    "refused" => refused(number.parse().unwrap()),
                    "frames" => Outcome { number: 0, count: number.parse().unwrap() },
                    _ => panic!("{text}"),
                };
                let name = path.file_stem().unwrap().to_str().unwrap().to_string();
                Stored { name, capture: fs::read(path).unwrap(), outcome }
            })
            .collect()
    })
}

/// No bytes are zero frames, into no cell, less than a frame's, a frame's, one more
/// and many; the cells stay as they were. Counts the numbers of cells lent.
fn no_bytes(pair: Pair) -> Asked {
    let rooms: Vec<usize> =
        (0..=100).chain([CELLS * MOST_FRAMES - 1, CELLS * MOST_FRAMES, CELLS * MOST_FRAMES + 5]).collect();
    for &room in &rooms {
        same(&format!("no bytes into {room} cells"), taken(pair, &[], room)?, (NOTHING, Vec::new()))?;
    }
    Ok(vec![rooms.len()])
}

/// Every input of one, two and three bytes is refused: by 8 if it is a first part of
/// the mark, else by 6. Counts those by 6 and those by 8.
fn short_inputs(pair: Pair) -> Asked {
    let (mut by_6, mut by_8) = (0, 0);
    for size in 1..=3 {
        for number in 0..1u32 << (8 * size) {
            let bytes = number.to_be_bytes();
            let input = &bytes[4 - size..];
            let is_first_part = *input == MARK[..size];
            let mut cells = [OLD_CELL; CELLS];
            let outcome = (pair.read)(input, &mut cells);
            if outcome != refused(if is_first_part { 8 } else { 6 }) || cells != [OLD_CELL; CELLS] {
                return Err(format!("{input:02X?}: {outcome:?}"));
            }
            *(if is_first_part { &mut by_8 } else { &mut by_6 }) += 1;
        }
    }
    Ok(vec![by_6, by_8])
}

/// Of the inputs of four and five bytes that begin with the mark only the mark and a
/// zero is accepted. Counts those accepted and those refused by 7, 8, 9 and 10.
fn after_the_mark(pair: Pair) -> Asked {
    let mut numbers = [0; 14];
    for size in 1..=2 {
        for number in 0..1u32 << (8 * size) {
            let input = [&MARK[..], &number.to_be_bytes()[4 - size..]].concat();
            let (outcome, _) = taken(pair, &input, CELLS)?;
            numbers[usize::from(outcome.number)] += 1;
            if (outcome.number == 0) != (input == NONE_WRITTEN) || outcome.count != 0 {
                return Err(format!("{input:02X?}: {outcome:?}"));
            }
        }
    }
    Ok([0, 7, 8, 9, 10].map(|number| numbers[number]).to_vec())
}

/// Zero frames are written as the mark and a zero, and bytes past these stay; where
/// four bytes are not lent it is 11, and all stay. What is written is read as zero
/// frames. Counts the bytes lent that are enough, and those that are not.
fn zero_frames(pair: Pair) -> Asked {
    let (mut enough, mut too_few) = (0, 0);
    for room in (0..=100).chain([LONGEST, LONGEST + 1]) {
        let mut bytes = vec![OLD_BYTE; room];
        let outcome = (pair.write)(&[], &mut bytes);
        let what = format!("zero frames into {room} bytes");
        if room < 4 {
            too_few += 1;
            same(&what, (outcome, bytes), (refused(11), vec![OLD_BYTE; room]))?;
        } else {
            enough += 1;
            same(&what, outcome, Outcome { number: 0, count: 4 })?;
            same(&what, &bytes[..4], &NONE_WRITTEN)?;
            same(&what, &bytes[4..], &vec![OLD_BYTE; room - 4])?;
            same(&what, taken(pair, &bytes[..4], room - 4)?, (NOTHING, Vec::new()))?;
        }
    }
    Ok(vec![enough, too_few])
}

/// Every stored case is read as its text says. Every accepted one is what writing its
/// frames gives, but for the one of no bytes; and two hold zero frames. Counts the
/// refused cases, the accepted ones, and those of them that writing gives.
fn stored_cases(pair: Pair) -> Asked {
    let mut accepted = 0;
    let (mut others, mut of_zero_frames) = (Vec::new(), Vec::new());
    for case in stored() {
        let (outcome, cells) = taken(pair, &case.capture, CELLS * MOST_FRAMES)?;
        same(&case.name, outcome, case.outcome)?;
        if outcome.number != 0 {
            continue;
        }
        accepted += 1;
        if outcome.count == 0 {
            of_zero_frames.push(case.name.as_str());
        }
        if written(pair, &cells)? != case.capture {
            others.push(case.name.as_str());
        }
    }
    same("not what writing gives", &others[..], &["no-bytes"])?;
    same("of zero frames", &of_zero_frames[..], &["frames-0000", "no-bytes"])?;
    Ok(vec![stored().len() - accepted, accepted, accepted - others.len()])
}

/// Captures up to this size are cut in all places.
const LONGEST_TO_CUT: usize = 2_100;

/// Every proper first part of an accepted capture is refused by 8, but that of no
/// bytes is accepted; into no cells too, and the cells stay. Counts the captures, the
/// parts refused by 8 and those of no bytes.
fn first_parts(pair: Pair) -> Asked {
    let (mut captures, mut by_8, mut without_bytes) = (0, 0, 0);
    for case in stored() {
        if case.outcome.number != 0 || !(1..=LONGEST_TO_CUT).contains(&case.capture.len()) {
            continue;
        }
        captures += 1;
        let mut cells = vec![OLD_CELL; CELLS * case.outcome.count];
        for cut in 0..case.capture.len() {
            let part = &case.capture[..cut];
            let should_be = if cut == 0 { NOTHING } else { refused(8) };
            for room in [0, cells.len()] {
                let outcome = (pair.read)(part, &mut cells[..room]);
                if outcome != should_be || cells.iter().any(|&cell| cell != OLD_CELL) {
                    return Err(format!("{} cut to {cut} bytes, {room} cells: {outcome:?}", case.name));
                }
            }
            *(if cut == 0 { &mut without_bytes } else { &mut by_8 }) += 1;
        }
    }
    Ok(vec![captures, by_8, without_bytes])
}

type Check = fn(Pair) -> Asked;

/// The checks by name, each with what it has to count.
const CHECKS: [(&str, Check, &[usize]); 6] = [
    ("no bytes", no_bytes, &[104]),
    // 256 + 256² + 256³ inputs.
    ("short inputs", short_inputs, &[16_843_005, 3]),
    // Worked out by hand: 256 + 256² inputs.
    ("after the mark", after_the_mark, &[1, 16_512, 20_480, 28_543, 256]),
    ("zero frames", zero_frames, &[99, 4]),
    ("stored cases", stored_cases, &[262, 159, 158]),
    ("first parts", first_parts, &[146, 156_982, 146]),
];

#[test]
fn what_paper_3_says() {
    for (name, check, counts) in CHECKS {
        assert_eq!(check(OURS), Ok(counts.to_vec()), "{name}");
    }
}

/// A wrong reader: what it answers where it is wrong, if it is.
macro_rules! wrong_reader {
    ($wrong:expr) => {
        Pair {
            read: |bytes, cells| {
                let wrong: fn(&[u8], &mut [u16]) -> Option<Outcome> = $wrong;
                wrong(bytes, cells).unwrap_or_else(|| read(bytes, cells))
            },
            ..OURS
        }
    };
}

/// A wrong writer of zero frames.
macro_rules! wrong_writer {
    ($wrong:expr) => {
        Pair {
            write: |cells, bytes| {
                let wrong: fn(&mut [u8]) -> Outcome = $wrong;
                if cells.is_empty() {
                    wrong(bytes)
                } else {
                    write(cells, bytes)
                }
            },
            ..OURS
        }
    };
}

/// Wrong readers and writers, each with the checks that tell it.
fn wrong_pairs() -> Vec<(&'static str, Pair, Vec<&'static str>)> {
    vec![
        (
            "one byte is zero frames",
            wrong_reader!(|bytes, _| (bytes.len() == 1).then_some(NOTHING)),
            vec!["short inputs", "stored cases", "first parts"],
        ),
        (
            "the byte 0 is zero frames",
            wrong_reader!(|bytes, _| (bytes == [0]).then_some(NOTHING)),
            vec!["short inputs"],
        ),
        (
            "zeros are zero frames",
            wrong_reader!(|bytes, _| bytes.iter().all(|&byte| byte == 0).then_some(NOTHING)),
            vec!["short inputs"],
        ),
        (
            "the mark's first byte is zero frames",
            wrong_reader!(|bytes, _| (bytes == &MARK[..1]).then_some(NOTHING)),
            vec!["short inputs", "stored cases", "first parts"],
        ),
        (
            "any first part of the mark is zero frames",
            wrong_reader!(|bytes, _| MARK.starts_with(bytes).then_some(NOTHING)),
            vec!["short inputs", "stored cases", "first parts"],
        ),
        (
            "the mark alone is zero frames",
            wrong_reader!(|bytes, _| (bytes == MARK).then_some(NOTHING)),
            vec!["short inputs", "stored cases", "first parts"],
        ),
        (
            "up to three bytes are refused by 8 whatever they are",
            wrong_reader!(|bytes, _| (1..4).contains(&bytes.len()).then_some(refused(8))),
            vec!["short inputs", "stored cases"],
        ),
        (
            "a capture that ends early is zero frames",
            wrong_reader!(|bytes, cells| (read(bytes, cells).number == 8).then_some(NOTHING)),
            vec!["short inputs", "after the mark", "stored cases", "first parts"],
        ),
        (
            "no bytes are refused by 8",
            wrong_reader!(|bytes, _| bytes.is_empty().then_some(refused(8))),
            vec!["no bytes", "stored cases", "first parts"],
        ),
        (
            "no bytes are refused by 6",
            wrong_reader!(|bytes, _| bytes.is_empty().then_some(refused(6))),
            vec!["no bytes", "stored cases", "first parts"],
        ),
        (
            "no bytes are refused by 11 where no cell is lent",
            wrong_reader!(|bytes, cells| (bytes.is_empty() && cells.is_empty()).then_some(refused(11))),
            vec!["no bytes", "first parts"],
        ),
        (
            "no bytes are refused by 11 where no frame fits",
            wrong_reader!(|bytes, cells| (bytes.is_empty() && cells.len() < CELLS).then_some(refused(11))),
            vec!["no bytes", "first parts"],
        ),
        (
            "no bytes are one frame",
            wrong_reader!(|bytes, cells| bytes.is_empty().then(|| read(&EXAMPLE, cells))),
            vec!["no bytes", "stored cases", "first parts"],
        ),
        (
            "no bytes are as many frames as there are cells for",
            wrong_reader!(|bytes, cells| {
                bytes.is_empty().then_some(Outcome { number: 0, count: cells.len() / CELLS })
            }),
            vec!["no bytes", "stored cases", "first parts"],
        ),
        (
            "no bytes clear the cells",
            wrong_reader!(|bytes, cells| bytes.is_empty().then(|| {
                cells.fill(0);
                NOTHING
            })),
            vec!["no bytes", "stored cases", "first parts"],
        ),
        (
            "no bytes clear the first cell",
            wrong_reader!(|bytes, cells| bytes.is_empty().then(|| {
                cells.iter_mut().take(1).for_each(|cell| *cell = 0);
                NOTHING
            })),
            vec!["no bytes", "stored cases", "first parts"],
        ),
        (
            "the mark and a zero is no more accepted",
            wrong_reader!(|bytes, _| (bytes == NONE_WRITTEN).then_some(refused(8))),
            vec!["after the mark", "zero frames", "stored cases"],
        ),
        ("zero frames are written as no bytes", wrong_writer!(|_| NOTHING), vec!["zero frames", "stored cases"]),
        (
            "zero frames are written as no bytes where four are not lent",
            wrong_writer!(|bytes| if bytes.len() < 4 { NOTHING } else { write(&[], bytes) }),
            vec!["zero frames"],
        ),
        (
            "zero frames are written as the mark alone",
            wrong_writer!(|bytes| match bytes.first_chunk_mut() {
                Some(first) => {
                    *first = MARK;
                    Outcome { number: 0, count: MARK.len() }
                }
                None => refused(11),
            }),
            vec!["zero frames", "stored cases"],
        ),
        (
            "zero frames clear the bytes past their own",
            wrong_writer!(|bytes| {
                let outcome = write(&[], bytes);
                bytes[outcome.count..].fill(0);
                outcome
            }),
            vec!["zero frames", "stored cases"],
        ),
    ]
}

#[test]
fn wrong_readers_and_writers_are_told() {
    let wrong = wrong_pairs();
    assert_eq!(wrong.len(), 21);
    let mut tells: BTreeMap<&str, usize> = BTreeMap::new();
    for (what, pair, told_by) in wrong {
        let tellers: Vec<&str> = CHECKS
            .into_iter()
            .filter(|(_, check, counts)| check(pair) != Ok(counts.to_vec()))
            .map(|(name, _, _)| name)
            .collect();
        assert_eq!(tellers, told_by, "{what}");
        assert!(!tellers.is_empty(), "{what}");
        for name in tellers {
            *tells.entry(name).or_default() += 1;
        }
    }
    println!("{tells:?}");
}

/// The trace that the C is held to reads no bytes: into no cells, few and many.
#[test]
fn the_trace_reads_no_bytes() {
    let mut by_room: BTreeMap<i64, usize> = BTreeMap::new();
    for line in trace::text(60_000).lines().filter(|line| line.starts_with("4 0 ")) {
        // Kind, number of bytes, room; number, count, cells.
        let line: Vec<i64> = line.split(' ').map(|number| number.parse().unwrap()).collect();
        assert_eq!(line[3..5], [0, 0]);
        assert_eq!(line[5..], vec![i64::from(trace::OLD); line[2] as usize]);
        *by_room.entry(line[2]).or_default() += 1;
    }
    println!("by cells lent: {by_room:?}");
    assert!((0..10).all(|room| by_room[&room] >= 10));
    assert!(by_room.range(10..).map(|(_, count)| count).sum::<usize>() > 200);
}

/// The commands that read a capture, and the restraint level of each.
const COMMANDS: [(&[&str], u8); 3] = [(&["bench"], 0), (&["played", "0"], 0), (&["played", "15"], 15)];

fn run(words: &[&str], input: Stdio) -> Output {
    Command::new(env!("CARGO_BIN_EXE_reference")).args(words).stdin(input).output().unwrap()
}

fn prints(output: &Output, text: &[u8]) {
    assert_eq!((output.status.code(), &output.stderr[..]), (Some(0), &[][..]));
    assert!(output.stdout == text, "{:?}", String::from_utf8_lossy(&output.stdout));
}

/// Not even a newline, and nothing on standard error.
fn prints_nothing(output: &Output) {
    let printed = [&output.stdout, &output.stderr].map(|bytes| String::from_utf8_lossy(bytes).into_owned());
    assert_eq!((output.status.code(), printed), (Some(1), [String::new(), String::new()]));
}

#[test]
fn no_bytes_on_standard_input() {
    for (words, _) in COMMANDS {
        prints(&run(words, Stdio::null()), b"frames 0\n");
        // A pipe and a connection, each closed with nothing written.
        prints(&run(words, Stdio::piped()), b"frames 0\n");
        prints(&run(words, fed(&[], false)), b"frames 0\n");
    }
}

/// A folder, and something that is open for writing only: the first read fails.
#[test]
fn an_input_that_cannot_be_read() {
    for (words, _) in COMMANDS {
        prints_nothing(&run(words, File::open(env!("CARGO_MANIFEST_DIR")).unwrap().into()));
        prints_nothing(&run(words, OpenOptions::new().write(true).open("/dev/null").unwrap().into()));
    }
}

/// Standard input closed is no failed read in a Rust program: before `main` Rust puts
/// the null device in its place, and what is read is its end. (The C program's read
/// fails. c/check.sh asks for no line then.)
#[test]
fn a_closed_input_is_the_null_device() {
    for (words, _) in COMMANDS {
        let program = env!("CARGO_BIN_EXE_reference");
        let closing = Command::new("sh").args(["-c", "exec \"$0\" \"$@\" <&-", program]).args(words).output();
        prints(&closing.unwrap(), b"frames 0\n");
    }
}

/// A connection that gives these bytes and then ends, or fails. If the other end goes
/// away with a byte unread, this end reads what it was sent and is then reset.
fn connection(bytes: &[u8], fails: bool) -> UnixStream {
    let (mut this, mut other) = UnixStream::pair().unwrap();
    other.write_all(bytes).unwrap();
    if fails {
        this.write_all(&[0]).unwrap();
    }
    this
}

fn fed(bytes: &[u8], fails: bool) -> Stdio {
    OwnedFd::from(connection(bytes, fails)).into()
}

#[test]
fn the_connections_are_what_they_should_be() {
    for bytes in [&[][..], &EXAMPLE, &[0; LONGEST + 2000]] {
        for fails in [false, true] {
            let mut read = Vec::new();
            let outcome = connection(bytes, fails).read_to_end(&mut read);
            assert_eq!(read, bytes);
            assert_eq!(outcome.map_err(|error| error.kind()).err(), fails.then_some(ErrorKind::ConnectionReset));
        }
    }
}

/// Whatever came before, a read that fails leaves no line: no bytes, a whole capture,
/// a part of one, and such as are refused. An end of input after the same is no
/// failure.
#[test]
fn an_input_that_fails_after_some_bytes() {
    let longest = &stored().iter().find(|case| case.name == "longest").unwrap().capture[..];
    let with_tail = [&EXAMPLE[..], &[0]].concat();
    for bytes in [&[][..], &NONE_WRITTEN, &EXAMPLE, &EXAMPLE[..5], &MARK[..1], &[0x51], &with_tail, longest] {
        for (words, level) in COMMANDS {
            prints(&run(words, fed(bytes, false)), &played_text(bytes, level));
            prints_nothing(&run(words, fed(bytes, true)));
        }
    }
    // No read is made beyond the first byte too many, so none fails.
    for tail in [&[0][..], &[0; 2000]] {
        let too_long = [longest, tail].concat();
        for (words, _) in COMMANDS {
            prints(&run(words, fed(&too_long, false)), b"refused 10\n");
            prints(&run(words, fed(&too_long, true)), b"refused 10\n");
        }
    }
}
