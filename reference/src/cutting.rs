//! Where the pieces of a file end, as `docs/CUTTING.md` has it: byte by byte,
//! straight from the rule.

/// The bytes that a file may have.
pub const MAX_FILE: usize = 16_777_216;

/// The bytes from which on the number decides where a piece ends.
pub const LEAST: usize = 2_048;

/// The bytes that a piece may have.
pub const MOST: usize = 65_536;

/// A piece may end where this many of the number's highest bits are 0.
const ZERO_BITS: u32 = 13;

const MULTIPLIER: u32 = 2_654_435_761;

/// The number after one more byte.
fn next(number: u32, byte: u8) -> u32 {
    number
        .wrapping_mul(2)
        .wrapping_add(MULTIPLIER.wrapping_mul(u32::from(byte)))
}

/// The pieces of the file in their order; `None` where it is too long.
pub fn pieces(file: &[u8]) -> Option<Vec<&[u8]>> {
    if file.len() > MAX_FILE {
        return None;
    }
    let mut pieces = Vec::new();
    let mut number = 0;
    let mut start = 0;
    for (at, &byte) in file.iter().enumerate() {
        number = next(number, byte);
        let end = at + 1;
        let length = end - start;
        if end == file.len()
            || length == MOST
            || (length >= LEAST && number >> (u32::BITS - ZERO_BITS) == 0)
        {
            pieces.push(&file[start..end]);
            start = end;
        }
    }
    Some(pieces)
}

#[cfg(test)]
mod tests {
    use super::*;
    use crate::generator::Generator;

    fn random(seed: u64, count: usize) -> Vec<u8> {
        Generator::new(seed).take(count).collect()
    }

    fn lengths(file: &[u8]) -> Vec<usize> {
        let pieces = pieces(file).expect("the file is not too long");
        pieces.iter().map(|piece| piece.len()).collect()
    }

    /// A file of bytes 0x61, four of them changed, in which the number's highest
    /// 13 bits are 0 after `at` bytes, and nowhere else past the first bytes.
    fn zero_bits_after(at: usize, length: usize) -> Vec<u8> {
        let mut file = vec![0x61; length];
        for seed in 0.. {
            file[at - 4..at].copy_from_slice(&random(seed, 4));
            let mut number = 0;
            let mut found = Vec::new();
            // No byte weighs in the number after 32 more.
            for end in at - 80..at + 40 {
                number = next(number, file[end - 1]);
                if end > at - 40 && number < 1 << 19 {
                    found.push(end);
                }
            }
            if found == [at] {
                break;
            }
        }
        file
    }

    #[test]
    fn no_bytes() {
        assert_eq!(pieces(b""), Some(vec![]));
    }

    #[test]
    fn zeros() {
        assert_eq!(lengths(&[0; 5_000]), [2_048, 2_048, 904]);
        assert_eq!(lengths(&[0; 2_047]), [2_047]);
        assert_eq!(lengths(&[0; 2_048]), [2_048]);
        assert_eq!(lengths(&[0; 2_049]), [2_048, 1]);
        assert_eq!(lengths(&[0; 4_096]), [2_048, 2_048]);
    }

    #[test]
    fn a_repeated_byte() {
        assert_eq!(lengths(&[0x61; 1]), [1]);
        assert_eq!(lengths(&[0x61; 65_535]), [65_535]);
        assert_eq!(lengths(&[0x61; 65_536]), [65_536]);
        assert_eq!(lengths(&[0x61; 65_537]), [65_536, 1]);
        assert_eq!(lengths(&[0x61; 131_072]), [65_536, 65_536]);
        assert_eq!(lengths(&[0x61; 131_073]), [65_536, 65_536, 1]);
        assert_eq!(lengths(&[0x61; 200_000]), [65_536, 65_536, 65_536, 3_392]);
    }

    /// The number of the first bytes, by hand: 2,654,435,761 is 0x9e3779b1.
    #[test]
    fn the_number() {
        assert_eq!(next(0, 0), 0);
        assert_eq!(next(0, 1), 0x9e37_79b1);
        assert_eq!(next(0x9e37_79b1, 0), 0x3c6e_f362);
        assert_eq!(next(0x9e37_79b1, 2), 0x78dd_e6c4);
    }

    /// One place at which the number says that a piece may end, near the limits.
    #[test]
    fn limits() {
        for (at, expected) in [
            (2_047, vec![65_536, 4_464]),
            (2_048, vec![2_048, 65_536, 2_416]),
            (2_049, vec![2_049, 65_536, 2_415]),
            (65_535, vec![65_535, 4_465]),
            (65_536, vec![65_536, 4_464]),
            (65_537, vec![65_536, 4_464]),
            (67_583, vec![65_536, 4_464]),
            (67_584, vec![65_536, 2_048, 2_416]),
        ] {
            assert_eq!(lengths(&zero_bits_after(at, 70_000)), expected, "{at}");
        }
    }

    #[test]
    fn joined_pieces_are_the_file() {
        for length in [
            1, 2, 31, 32, 33, 2_047, 2_048, 2_049, 4_096, 65_535, 65_536, 65_537, 1_000_000,
        ] {
            let file = random(length as u64, length);
            let pieces = pieces(&file).expect("the file is not too long");
            assert_eq!(pieces.concat(), file);
            for (at, piece) in pieces.iter().enumerate() {
                assert!(!piece.is_empty() && piece.len() <= MOST);
                assert!(piece.len() >= LEAST || at + 1 == pieces.len());
            }
        }
    }

    #[test]
    fn the_longest_file() {
        let zeros = vec![0; MAX_FILE + 1];
        assert_eq!(lengths(&zeros[..MAX_FILE]), vec![2_048; 8_192]);
        assert_eq!(pieces(&zeros), None);
    }
}
