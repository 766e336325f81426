//! The cutting of files in plain Rust that passes over the first bytes of each
//! piece: each step doubles the number modulo 2^32, so that no byte weighs in it
//! after 32 more, and no piece but the last ends before its 2,048th byte.

use reference::cutting::{LEAST, MOST};

/// The bytes that weigh in the number.
const WINDOW: usize = 32;

/// A piece may end where the number is below this: its highest 13 bits are 0.
const BOUND: u32 = 1 << (32 - 13);

/// The bytes of a turn of the loop. A loop of one byte a turn was a little faster
/// in most places that it was put at in memory, but had little more than half of
/// that speed in others; this one had about the same speed in all.
const TURN: usize = 8;

#[inline(always)]
fn next(number: u32, byte: u8) -> u32 {
    (number << 1).wrapping_add(2_654_435_761u32.wrapping_mul(u32::from(byte)))
}

/// The length of the first piece of `rest`, a file from some piece's start on.
pub fn piece_length(rest: &[u8]) -> usize {
    let most = rest.len().min(MOST);
    if most < LEAST {
        return most;
    }
    let before = rest[LEAST - WINDOW..LEAST - 1].iter();
    let mut number = before.fold(0, |number, &byte| next(number, byte));

    let mut length = LEAST - 1;
    let mut turns = rest[length..most].chunks_exact(TURN);
    for bytes in &mut turns {
        for (at, &byte) in bytes.iter().enumerate() {
            number = next(number, byte);
            if number < BOUND {
                return length + at + 1;
            }
        }
        length += TURN;
    }
    for &byte in turns.remainder() {
        number = next(number, byte);
        length += 1;
        if number < BOUND {
            return length;
        }
    }
    most
}
