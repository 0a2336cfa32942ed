//! The generator of Paper 12, so that two benches make one load: frames from 55 given
//! numbers. Quotations are from there.

use crate::capture::{write, Outcome, CELLS, LONGEST, MOST_FRAMES};
use crate::refusal;

/// "Start from 55 numbers of 32 bits that the user gives", the oldest first.
pub const GIVEN: usize = 55;
/// The bytes of the given numbers, as the command `generate` reads them.
pub const GIVEN_BYTES: usize = 4 * GIVEN;
const ENABLE: u16 = 0x7F;

/// The first so many made numbers: "each next number is the sum modulo 2^32 of the
/// numbers 24 and 55 places back".
fn made(given: [u32; GIVEN], count: usize) -> Vec<u32> {
    let mut numbers = given.to_vec();
    for place in GIVEN..GIVEN + count {
        numbers.push(numbers[place - 24].wrapping_add(numbers[place - 55]));
    }
    numbers.split_off(GIVEN)
}

/// "The top ten bits."
fn code(number: u32) -> u16 {
    (number / (1 << 22)) as u16
}

/// 24, then 9, then 11.
fn check(given: &[u32; GIVEN], frames: usize, room: usize) -> Result<(), u8> {
    if given.iter().all(|number| number % 2 == 0) {
        return Err(refusal::EVEN);
    }
    if frames > MOST_FRAMES {
        return Err(refusal::RANGE);
    }
    if CELLS * frames > room {
        return Err(refusal::NO_ROOM);
    }
    Ok(())
}

/// "The top ten bits of six successive made numbers, the given 55 not among them, are
/// the codes of a frame." Cells past the answer are untouched.
pub fn generate(given: [u32; GIVEN], frames: usize, cells: &mut [u16]) -> Outcome {
    Outcome::of(check(&given, frames, cells.len()).map(|()| {
        let numbers = made(given, 6 * frames);
        for (frame, six) in cells.chunks_mut(CELLS).zip(numbers.chunks(6)) {
            for (cell, &number) in frame.iter_mut().zip(six) {
                *cell = code(number);
            }
            frame[6] = ENABLE;
        }
        frames
    }))
}

/// What the command `generate` writes for an input: the capture of 4,096 frames made
/// from it, or a line that says why there is none.
pub fn output(input: &[u8]) -> Vec<u8> {
    if input.len() != GIVEN_BYTES {
        return format!("{GIVEN_BYTES} bytes are wanted\n").into_bytes();
    }
    let given = std::array::from_fn(|place| {
        let bytes: [u8; 4] = std::array::from_fn(|i| input[4 * place + i]);
        u32::from_le_bytes(bytes)
    });
    let mut cells = vec![0; CELLS * MOST_FRAMES];
    let made = generate(given, MOST_FRAMES, &mut cells);
    if made.number != refusal::ACCEPTED {
        return format!("refused {}\n", made.number).into_bytes();
    }
    let mut capture = vec![0; LONGEST];
    let written = write(&cells, &mut capture);
    assert_eq!(written.number, refusal::ACCEPTED, "what is made can be written");
    capture.truncate(written.count);
    capture
}
