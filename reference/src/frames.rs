//! Strings that are read as day files, one after the other. Each comes in a frame: how
//! many bytes follow (4, the high byte first), the machine (1) and the number (4) of the
//! day under whose name it would lie, and the string. For each there is a line:
//! `refused`, or `day` and then, for each file, a space, its path in hexadecimal digits,
//! a space, its length, a space, how many pieces it has, and their names, a space before
//! each. A frame that lacks the five bytes before the string is refused, too; one that is
//! cut short ends the reading, with a line that says so.

use crate::dayfile::{self, File};
use std::io::{self, BufRead, BufReader, BufWriter, Read, Write};

/// The bytes of a frame before the string.
const HEAD: usize = 5;

/// Reads all frames of `input` and writes their lines to `output`.
pub fn read_days(input: impl Read, output: impl Write) -> io::Result<()> {
    let mut input = BufReader::with_capacity(1 << 16, input);
    let mut output = BufWriter::new(output);
    let mut frame = Vec::new();
    while !input.fill_buf()?.is_empty() {
        let mut length = [0; 4];
        input.read_exact(&mut length)?;
        let length = u32::from_be_bytes(length);
        frame.clear();
        input.by_ref().take(length.into()).read_to_end(&mut frame)?;
        if frame.len() < length as usize {
            writeln!(output, "cut short")?;
            output.flush()?;
            return Err(io::ErrorKind::UnexpectedEof.into());
        }
        let Some((head, string)) = frame.split_at_checked(HEAD) else {
            writeln!(output, "refused")?;
            continue;
        };
        let number = u32::from_be_bytes([head[1], head[2], head[3], head[4]]);
        match dayfile::read(head[0], number, string) {
            None => writeln!(output, "refused")?,
            Some(files) => write_day(&files, &mut output)?,
        }
    }
    output.flush()
}

fn write_day(files: &[File], output: &mut impl Write) -> io::Result<()> {
    write!(output, "day")?;
    for file in files {
        write!(output, " ")?;
        write_hex(&file.path, output)?;
        write!(output, " {} {}", file.length, file.pieces.len())?;
        for name in &file.pieces {
            write!(output, " ")?;
            write_hex(name, output)?;
        }
    }
    writeln!(output)
}

fn write_hex(bytes: &[u8], output: &mut impl Write) -> io::Result<()> {
    const DIGITS: &[u8; 16] = b"0123456789abcdef";
    for byte in bytes {
        let (high, low) = (usize::from(byte >> 4), usize::from(byte & 15));
        output.write_all(&[DIGITS[high], DIGITS[low]])?;
    }
    Ok(())
}

#[cfg(test)]
mod tests {
    use super::*;

    fn frame(machine: u8, number: u32, string: &[u8]) -> Vec<u8> {
        let length = (HEAD + string.len()) as u32;
        let mut frame = length.to_be_bytes().to_vec();
        frame.push(machine);
        frame.extend(number.to_be_bytes());
        frame.extend(string);
        frame
    }

    fn lines(input: &[u8]) -> io::Result<String> {
        let mut output = Vec::new();
        read_days(input, &mut output)?;
        Ok(String::from_utf8(output).expect("all lines are ASCII"))
    }

    #[test]
    fn frames() {
        let files = [
            File {
                path: b"a/b".to_vec(),
                length: 0,
                pieces: vec![],
            },
            File {
                path: b"\xff".to_vec(),
                length: 16_777_216,
                pieces: vec![[0xab; 32], [1; 32]],
            },
        ];
        let day = dayfile::write(2, 77, &files);
        let input = [
            frame(2, 77, &day),
            frame(2, 78, &day),
            frame(0, 0, b""),
            frame(9, 1, &dayfile::write(9, 1, &[])),
        ];
        let (first, second) = ("ab".repeat(32), "01".repeat(32));
        assert_eq!(
            lines(&input.concat()).expect("the frames are whole"),
            format!("day 612f62 0 0 ff 16777216 2 {first} {second}\nrefused\nrefused\nday\n")
        );
        assert_eq!(lines(b"").expect("there are none"), "");
    }

    #[test]
    fn frames_that_are_not_whole() {
        let whole = frame(2, 77, b"x");
        for length in 1..whole.len() {
            assert!(lines(&whole[..length]).is_err());
        }
        for length in 0..HEAD as u8 {
            let input = [&[0, 0, 0, length][..], &vec![0; length.into()]].concat();
            assert_eq!(lines(&input).expect("the frame is whole"), "refused\n");
        }
    }
}
