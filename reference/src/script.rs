//! The script of `rehearse`, as `docs/REHEARSE.md` describes it.

use crate::back::back;
use crate::cutting::{self, MAX_FILE, MOST};
use crate::generator::Generator;
use crate::machines::Seen;
use crate::promise::{Broken, Checker, Event, Given};
use crate::refusal::Refusal;
use crate::sha256::{sha256, Digest, Sha256};
use crate::store::Store;
use crate::sweeper::{Moved, Point, Sweeper};
use crate::variant::Variant;
use crate::world::World;
use std::collections::BTreeMap;
use std::fmt;
use std::io::{self, BufRead, BufReader, BufWriter, Read, Write};
use std::iter;
use std::ops::RangeInclusive;

/// The bytes that a line may have, its newline not counted.
pub const MAX_LINE: usize = 67_108_864;

/// The largest count, and the largest seed.
pub const MAX_COUNT: u32 = 1_073_741_824;

/// The machines on the list of a script's store.
const MACHINES: RangeInclusive<u32> = 0..=3;

/// The bytes of a word that a message shows.
const SHOWN: usize = 32;

/// The bytes that are made at a time.
const PART: usize = 8192;

/// What a step answers.
enum Answer<'a> {
    Digest(Digest),
    /// The length and the digest of each piece.
    Pieces(Vec<(usize, Digest)>),
    Begun,
    Seen(Seen),
    /// How many pieces a file has, and how many of them were written.
    Added(usize, usize),
    Raised(u32),
    Named(u32),
    BrokenOff,
    LetGo,
    Bytes(Vec<u8>),
    Flipped,
    CutOff,
    Parted,
    /// How many pieces are to be put aside.
    Looked(usize),
    PutAside(Digest),
    Noted,
    /// How many pieces are to be put back, and how many to be thrown away.
    Decided(usize, usize),
    Moved(Moved),
    Stopped,
    Show(&'a World),
}

impl Answer<'_> {
    fn write(&self, output: &mut impl Write) -> io::Result<()> {
        match self {
            Answer::Digest(digest) => writeln!(output, "{}", Hex(digest)),
            Answer::Pieces(pieces) => {
                writeln!(output, "pieces {}", pieces.len())?;
                for (length, digest) in pieces {
                    writeln!(output, "{length} {}", Hex(digest))?;
                }
                Ok(())
            }
            Answer::Begun => writeln!(output, "begun"),
            Answer::Seen(Seen::Found(name)) => writeln!(output, "found {}", Hex(name)),
            Answer::Seen(Seen::Written(name)) => writeln!(output, "written {}", Hex(name)),
            Answer::Added(count, written) => writeln!(output, "added {count}, written {written}"),
            Answer::Raised(number) => writeln!(output, "raised {number}"),
            Answer::Named(number) => writeln!(output, "named {number}"),
            Answer::BrokenOff => writeln!(output, "broken off"),
            Answer::LetGo => writeln!(output, "let go"),
            Answer::Bytes(bytes) if bytes.is_empty() => writeln!(output, "0"),
            Answer::Bytes(bytes) => writeln!(output, "{} {}", bytes.len(), Hex(bytes)),
            Answer::Flipped => writeln!(output, "flipped"),
            Answer::CutOff => writeln!(output, "cut"),
            Answer::Parted => writeln!(output, "parted"),
            Answer::Looked(count) => writeln!(output, "to put aside {count}"),
            Answer::PutAside(name) => writeln!(output, "put aside {}", Hex(name)),
            Answer::Noted => writeln!(output, "noted"),
            Answer::Decided(back, away) => {
                writeln!(output, "to put back {back}, to throw away {away}")
            }
            Answer::Moved(Moved::PutBack(name)) => writeln!(output, "put back {}", Hex(name)),
            Answer::Moved(Moved::ThrownAway(name)) => {
                writeln!(output, "thrown away {}", Hex(name))
            }
            Answer::Stopped => writeln!(output, "stopped"),
            Answer::Show(world) => write_all_there_is(world, output),
        }
    }
}

/// The answer to `show`: what is where.
fn write_all_there_is(world: &World, output: &mut impl Write) -> io::Result<()> {
    let store = &world.machines.store;
    for (name, bytes) in &store.place {
        writeln!(output, "place {} {}", Hex(name), bytes.len())?;
    }
    for (name, bytes) in &store.aside {
        writeln!(output, "aside {} {}", Hex(name), bytes.len())?;
    }
    for (machine, name) in &store.listed {
        writeln!(output, "listed {machine} {}", Hex(name))?;
    }
    for name in &store.sweeper_listed {
        writeln!(output, "listed sweeper {}", Hex(name))?;
    }
    for (&(machine, number), bytes) in &store.days {
        match Store::files(machine, number, bytes) {
            Some(files) => {
                let names = Names(files.iter().flat_map(|file| &file.pieces));
                writeln!(output, "day {machine} {number}{names}")?;
            }
            None => writeln!(output, "day {machine} {number} damaged")?,
        }
    }
    for machine in MACHINES {
        write!(output, "machine {machine} {} ", store.highest(machine))?;
        match world.machines.making.get(&machine) {
            _ if !store.has_machine(machine) => writeln!(output, "parted")?,
            None => writeln!(output, "none")?,
            Some(day) => match day.number {
                None => writeln!(output, "makes{}", Names(day.pieces()))?,
                Some(number) => writeln!(output, "names {number}{}", Names(day.pieces()))?,
            },
        }
    }
    write_sweeper(&world.sweeper, output)
}

fn write_sweeper(sweeper: &Sweeper, output: &mut impl Write) -> io::Result<()> {
    match &sweeper.point {
        Point::Rests => writeln!(output, "sweeper rests"),
        Point::PutsAside(left) => writeln!(output, "sweeper puts aside{}", Names(left.iter())),
        Point::Waits(noted) => writeln!(output, "sweeper waits{}", Noted(noted)),
        Point::Ends { back, away } => {
            let (back, away) = (Names(back.iter()), Names(away.iter()));
            writeln!(output, "sweeper ends, back{back}, away{away}")
        }
        Point::DecidesAnew => writeln!(output, "sweeper is to decide anew"),
    }
}

/// Names with a space before each.
struct Names<T>(T);

impl<'a, T: Iterator<Item = &'a Digest> + Clone> fmt::Display for Names<T> {
    fn fmt(&self, f: &mut fmt::Formatter) -> fmt::Result {
        for name in self.0.clone() {
            write!(f, " {}", Hex(name))?;
        }
        Ok(())
    }
}

/// The number that was noted of each machine of a script, a space before each.
struct Noted<'a>(&'a BTreeMap<u32, u32>);

impl fmt::Display for Noted<'_> {
    fn fmt(&self, f: &mut fmt::Formatter) -> fmt::Result {
        for machine in MACHINES {
            write!(f, " {}", self.0.get(&machine).unwrap_or(&0))?;
        }
        Ok(())
    }
}

/// Bytes as lowercase hexadecimal digits.
struct Hex<'a>(&'a [u8]);

impl fmt::Display for Hex<'_> {
    fn fmt(&self, f: &mut fmt::Formatter) -> fmt::Result {
        for byte in self.0 {
            write!(f, "{byte:02x}")?;
        }
        Ok(())
    }
}

/// Why a line is not played.
#[derive(Debug, PartialEq, Eq)]
enum Fault<'a> {
    TooLong,
    NoStep(&'a [u8]),
    /// The words are not those of the step, whose line has this form.
    NotTheLine(&'static str),
    /// The words are no form of bytes.
    NotBytes,
    NotADigit {
        byte: &'a [u8],
        place: usize,
    },
    OddDigits(usize),
    NotAByte(&'a [u8]),
    NotANumber {
        word: &'a [u8],
        most: u32,
    },
    Refused(Refusal),
}

impl From<Refusal> for Fault<'_> {
    fn from(refusal: Refusal) -> Self {
        Fault::Refused(refusal)
    }
}

impl fmt::Display for Fault<'_> {
    fn fmt(&self, f: &mut fmt::Formatter) -> fmt::Result {
        match self {
            Fault::TooLong => write!(f, "longer than {MAX_LINE} bytes"),
            Fault::NoStep(word) => write!(f, "no step is called {}", Quoted(word)),
            Fault::NotTheLine(line) => write!(f, "write the line as '{line}'"),
            Fault::NotBytes => {
                f.write_str("write bytes as HEX, as 'repeat BYTE COUNT' or as 'random SEED COUNT'")
            }
            Fault::NotADigit { byte, place } => {
                let byte = Quoted(byte);
                write!(f, "{byte} is not a hexadecimal digit, at place {place}")
            }
            Fault::OddDigits(digits) => {
                write!(f, "an odd number of hexadecimal digits, {digits}")
            }
            Fault::NotAByte(word) => {
                let word = Quoted(word);
                write!(f, "{word} is not a byte of two hexadecimal digits")
            }
            Fault::NotANumber { word, most } => {
                write!(f, "{} is not a number from 0 to {most}", Quoted(word))
            }
            Fault::Refused(refusal) => refusal.fmt(f),
        }
    }
}

/// A word of the script as messages show it: short, and in printable ASCII.
struct Quoted<'a>(&'a [u8]);

impl fmt::Display for Quoted<'_> {
    fn fmt(&self, f: &mut fmt::Formatter) -> fmt::Result {
        f.write_str("'")?;
        for &byte in self.0.iter().take(SHOWN) {
            match byte {
                b'\'' | b'\\' => write!(f, "\\x{byte:02x}")?,
                b' '..=b'~' => write!(f, "{}", char::from(byte))?,
                _ => write!(f, "\\x{byte:02x}")?,
            }
        }
        f.write_str(if self.0.len() > SHOWN { "..'" } else { "'" })
    }
}

/// How a script is played.
#[derive(Clone, Copy, Debug, Default, PartialEq, Eq)]
pub struct Manner {
    /// Whether the promise is checked after each line, up to the first one that damages
    /// something.
    pub check: bool,
    /// A wrong rule to play by.
    pub variant: Option<Variant>,
}

/// Why a script is not played to its end.
#[derive(Debug)]
pub enum Failure {
    /// It cannot be read, or an answer cannot be written.
    Io(io::Error),
    /// The promise is broken after the line of this number.
    Broken(u64, Broken),
}

impl From<io::Error> for Failure {
    fn from(error: io::Error) -> Self {
        Failure::Io(error)
    }
}

impl fmt::Display for Failure {
    fn fmt(&self, f: &mut fmt::Formatter) -> fmt::Result {
        match self {
            Failure::Io(error) => error.fmt(f),
            Failure::Broken(line, broken) => {
                write!(f, "the promise is broken after line {line}: {broken}")
            }
        }
    }
}

/// Plays the script `input` and writes its answers to `output`.
pub fn play(input: impl Read, output: impl Write, manner: Manner) -> Result<(), Failure> {
    let mut input = BufReader::with_capacity(1 << 16, input);
    let mut output = BufWriter::new(output);
    let mut world = World::new(MACHINES).with_variant(manner.variant);
    let mut checker = manner.check.then(Checker::new);
    let mut line = Vec::new();
    let mut number = 0u64;
    loop {
        let answer = match next_line(&mut input, &mut line)? {
            Next::End => return Ok(output.flush()?),
            Next::Line => answer(&line, &mut world),
            Next::TooLong => Some((Event::Other, Err(Fault::TooLong))),
        };
        number += 1;
        let mut event = Event::Other;
        if let Some((done, answer)) = answer {
            event = done;
            match answer {
                Ok(answer) => answer.write(&mut output)?,
                Err(fault) => writeln!(output, "line {number}: {fault}")?,
            }
        }
        if let Some(checker) = &mut checker {
            if let Err(broken) = checker.check(&event, &world) {
                output.flush()?;
                return Err(Failure::Broken(number, broken));
            }
        }
    }
}

enum Next {
    End,
    Line,
    TooLong,
}

/// Reads the next line into `line`, without its newline. Of a line that is too
/// long nothing is kept.
fn next_line(input: &mut impl BufRead, line: &mut Vec<u8>) -> io::Result<Next> {
    line.clear();
    let mut at_end = Next::End;
    loop {
        let bytes = match input.fill_buf() {
            Ok(bytes) => bytes,
            Err(error) if error.kind() == io::ErrorKind::Interrupted => continue,
            Err(error) => return Err(error),
        };
        if bytes.is_empty() {
            return Ok(at_end);
        }
        let newline = bytes.iter().position(|&byte| byte == b'\n');
        let part = &bytes[..newline.unwrap_or(bytes.len())];
        at_end = match at_end {
            Next::TooLong => Next::TooLong,
            _ if part.len() > MAX_LINE - line.len() => {
                line.clear();
                Next::TooLong
            }
            _ => {
                line.extend_from_slice(part);
                Next::Line
            }
        };
        let read = part.len() + usize::from(newline.is_some());
        input.consume(read);
        if newline.is_some() {
            return Ok(at_end);
        }
    }
}

/// What was done, and what is to be written for a line of an allowed length; `None` is
/// nothing.
fn answer<'a>(
    line: &'a [u8],
    world: &'a mut World,
) -> Option<(Event, Result<Answer<'a>, Fault<'a>>)> {
    let line = line.strip_suffix(b"\r").unwrap_or(line);
    let mut words = line
        .split(|byte| matches!(byte, b' ' | b'\t'))
        .filter(|word| !word.is_empty());
    match words.next()? {
        [b'#', ..] => None,
        name => Some(match Step::parse(name, words) {
            Err(fault) => (Event::Other, Err(fault)),
            Ok(step) => match step.play(world) {
                Ok((event, answer)) => (event, Ok(answer)),
                Err(refusal) => (Event::Other, Err(refusal.into())),
            },
        }),
    }
}

/// A step of the script.
enum Step<'a> {
    Digest(Bytes<'a>),
    Cut(Bytes<'a>),
    Begin(u32),
    See(u32, Bytes<'a>),
    File(u32, &'a [u8], Bytes<'a>),
    Raise(u32),
    Name(u32),
    Break(u32),
    Go(u32, u32),
    Back(u32, u32, &'a [u8]),
    Bytes(u32, u32),
    FlipPlace(u32, Bytes<'a>),
    FlipAside(u32, Bytes<'a>),
    FlipDay(u32, u32, u32),
    CutDay(u32, u32, u32),
    Part(u32),
    Look,
    Aside,
    Note,
    Decide,
    Next,
    Stop,
    Show,
}

impl<'a> Step<'a> {
    /// Reads a step's name and the words after it.
    fn parse(name: &'a [u8], mut words: impl Iterator<Item = &'a [u8]>) -> Result<Self, Fault<'a>> {
        Ok(match name {
            b"digest" => Step::Digest(Bytes::parse(words)?),
            b"cut" => Step::Cut(Bytes::parse(words)?),
            b"begin" => Step::Begin(parse_machine(words, "begin M")?),
            b"see" => {
                let machine = words.next().ok_or(Fault::NotTheLine("see M BYTES"))?;
                Step::See(parse_number(machine, u32::MAX)?, Bytes::parse(words)?)
            }
            b"file" => {
                let (Some(machine), Some(path)) = (words.next(), words.next()) else {
                    return Err(Fault::NotTheLine("file M PATH BYTES"));
                };
                let machine = parse_number(machine, u32::MAX)?;
                Step::File(machine, path, Bytes::parse(words)?)
            }
            b"raise" => Step::Raise(parse_machine(words, "raise M")?),
            b"name" => Step::Name(parse_machine(words, "name M")?),
            b"break" => Step::Break(parse_machine(words, "break M")?),
            b"go" => {
                let [machine, number] = numbers(exactly(words, "go M N")?)?;
                Step::Go(machine, number)
            }
            b"back" => {
                let [machine, number, path] = exactly(words, "back M N PATH")?;
                let [machine, number] = numbers([machine, number])?;
                Step::Back(machine, number, path)
            }
            b"bytes" => {
                let [machine, number] = numbers(exactly(words, "bytes M N")?)?;
                Step::Bytes(machine, number)
            }
            b"flip-place" => {
                let at = words.next();
                let at = at.ok_or(Fault::NotTheLine("flip-place AT BYTES"))?;
                Step::FlipPlace(parse_number(at, u32::MAX)?, Bytes::parse(words)?)
            }
            b"flip-aside" => {
                let at = words.next();
                let at = at.ok_or(Fault::NotTheLine("flip-aside AT BYTES"))?;
                Step::FlipAside(parse_number(at, u32::MAX)?, Bytes::parse(words)?)
            }
            b"flip-day" => {
                let [machine, number, at] = numbers(exactly(words, "flip-day M N AT")?)?;
                Step::FlipDay(machine, number, at)
            }
            b"cut-day" => {
                let [machine, number, length] = numbers(exactly(words, "cut-day M N LENGTH")?)?;
                Step::CutDay(machine, number, length)
            }
            b"part" => Step::Part(parse_machine(words, "part M")?),
            b"look" => Step::alone(Step::Look, words, "look")?,
            b"aside" => Step::alone(Step::Aside, words, "aside")?,
            b"note" => Step::alone(Step::Note, words, "note")?,
            b"decide" => Step::alone(Step::Decide, words, "decide")?,
            b"next" => Step::alone(Step::Next, words, "next")?,
            b"stop" => Step::alone(Step::Stop, words, "stop")?,
            b"show" => Step::alone(Step::Show, words, "show")?,
            other => return Err(Fault::NoStep(other)),
        })
    }

    /// The step, whose name is its whole line.
    fn alone(
        self,
        words: impl Iterator<Item = &'a [u8]>,
        line: &'static str,
    ) -> Result<Self, Fault<'a>> {
        let [] = exactly(words, line)?;
        Ok(self)
    }

    fn play(self, world: &mut World) -> Result<(Event, Answer<'_>), Refusal> {
        let World { machines, sweeper } = world;
        let store = &mut machines.store;
        Ok(match self {
            Step::Digest(bytes) => (Event::Other, Answer::Digest(digest(&bytes))),
            Step::Cut(file) => (Event::Other, Answer::Pieces(cut(&file)?)),
            Step::Begin(machine) => {
                machines.begin(machine)?;
                (Event::Begun(machine), Answer::Begun)
            }
            Step::See(machine, piece) => {
                let piece = piece.at_most(MOST).ok_or(Refusal::PieceTooLong)?;
                let seen = machines.see(machine, &piece)?;
                let given = Given {
                    path: None,
                    digest: sha256(&piece),
                    pieces: vec![seen.name()],
                };
                (Event::Added(machine, given), Answer::Seen(seen))
            }
            Step::File(machine, path, file) => {
                let file = file.at_most(MAX_FILE).ok_or(Refusal::FileTooLong)?;
                let seen = machines.add(machine, path, &file)?;
                let written = seen.iter().filter(|seen| matches!(seen, Seen::Written(_)));
                let answer = Answer::Added(seen.len(), written.count());
                let given = Given {
                    path: Some(path.to_vec()),
                    digest: sha256(&file),
                    pieces: seen.iter().map(|seen| seen.name()).collect(),
                };
                (Event::Added(machine, given), answer)
            }
            Step::Raise(machine) => (Event::Other, Answer::Raised(machines.raise(machine)?)),
            Step::Name(machine) => {
                let number = machines.name(machine)?;
                (Event::Named(machine, number), Answer::Named(number))
            }
            Step::Break(machine) => {
                machines.break_off(machine)?;
                (Event::BrokenOff(machine), Answer::BrokenOff)
            }
            Step::Go(machine, number) => {
                store.let_go(machine, number)?;
                (Event::LetGo(machine, number), Answer::LetGo)
            }
            Step::Back(machine, number, path) => {
                let bytes = back(store, machine, number, path)?;
                (Event::Other, Answer::Bytes(bytes))
            }
            Step::Bytes(machine, number) => {
                let bytes = store.days.get(&(machine, number));
                let bytes = bytes.ok_or(Refusal::NotThere)?;
                (Event::Other, Answer::Bytes(bytes.clone()))
            }
            Step::FlipPlace(at, piece) => {
                flip(piece_of(&mut store.place, &piece), at)?;
                (Event::Damaged, Answer::Flipped)
            }
            Step::FlipAside(at, piece) => {
                flip(piece_of(&mut store.aside, &piece), at)?;
                (Event::Damaged, Answer::Flipped)
            }
            Step::FlipDay(machine, number, at) => {
                flip(store.days.get_mut(&(machine, number)), at)?;
                (Event::Damaged, Answer::Flipped)
            }
            Step::CutDay(machine, number, length) => {
                let bytes = store.days.get_mut(&(machine, number));
                let bytes = bytes.ok_or(Refusal::NotThere)?;
                if length as usize > bytes.len() {
                    return Err(Refusal::NotThere.into());
                }
                bytes.truncate(length as usize);
                (Event::Damaged, Answer::CutOff)
            }
            Step::Part(machine) => {
                machines.part(machine)?;
                (Event::Parted(machine), Answer::Parted)
            }
            Step::Look => (Event::Looked, Answer::Looked(sweeper.look(store)?)),
            Step::Aside => {
                let name = sweeper.put_aside(store)?;
                (Event::PutAside(name), Answer::PutAside(name))
            }
            Step::Note => {
                sweeper.note(store)?;
                (Event::Other, Answer::Noted)
            }
            Step::Decide => {
                let (back, away) = sweeper.decide(store)?;
                (Event::Ending, Answer::Decided(back, away))
            }
            Step::Next => (Event::Ending, Answer::Moved(sweeper.next(store)?)),
            Step::Stop => {
                sweeper.stop(store);
                (Event::Stopped, Answer::Stopped)
            }
            Step::Show => (Event::Other, Answer::Show(world)),
        })
    }
}

/// The words after a step's name, which must be `N`. `line` is the step's line.
fn exactly<'a, const N: usize>(
    words: impl Iterator<Item = &'a [u8]>,
    line: &'static str,
) -> Result<[&'a [u8]; N], Fault<'a>> {
    let words: Vec<&[u8]> = words.take(N + 1).collect();
    words.try_into().map_err(|_| Fault::NotTheLine(line))
}

/// The machine that is the one word after a step's name.
fn parse_machine<'a>(
    words: impl Iterator<Item = &'a [u8]>,
    line: &'static str,
) -> Result<u32, Fault<'a>> {
    let [machine] = exactly(words, line)?;
    parse_number(machine, u32::MAX)
}

/// The numbers that these words are.
fn numbers<'a, const N: usize>(words: [&'a [u8]; N]) -> Result<[u32; N], Fault<'a>> {
    let mut numbers = [0; N];
    for (number, word) in numbers.iter_mut().zip(words) {
        *number = parse_number(word, u32::MAX)?;
    }
    Ok(numbers)
}

/// What lies under the name of the piece of these bytes. There is none of more bytes
/// than a piece may have.
fn piece_of<'a>(
    pieces: &'a mut BTreeMap<Digest, Vec<u8>>,
    bytes: &Bytes,
) -> Option<&'a mut Vec<u8>> {
    let piece = bytes.at_most(MOST)?;
    pieces.get_mut(&sha256(&piece))
}

/// Turns round each bit of a byte of what lies there.
fn flip(bytes: Option<&mut Vec<u8>>, at: u32) -> Result<(), Refusal> {
    let byte = bytes.and_then(|bytes| bytes.get_mut(at as usize));
    let byte = byte.ok_or(Refusal::NotThere)?;
    *byte = !*byte;
    Ok(())
}

/// The answer to `digest`.
fn digest(bytes: &Bytes) -> Digest {
    let mut hasher = Sha256::new();
    bytes.each_part(|part| hasher.update(part));
    hasher.finish()
}

/// The answer to `cut`: the length and the digest of each piece.
fn cut(file: &Bytes) -> Result<Vec<(usize, Digest)>, Refusal> {
    let file = file.at_most(MAX_FILE).ok_or(Refusal::FileTooLong)?;
    let pieces = cutting::pieces(&file).ok_or(Refusal::FileTooLong)?;
    let pieces = pieces.iter().map(|piece| (piece.len(), sha256(piece)));
    Ok(pieces.collect())
}

/// The bytes that a step is about.
enum Bytes<'a> {
    /// An even number of hexadecimal digits.
    Hex(&'a [u8]),
    Repeat {
        byte: u8,
        count: usize,
    },
    Random {
        seed: u64,
        count: usize,
    },
}

impl<'a> Bytes<'a> {
    /// Reads the words after a step's name.
    fn parse(words: impl Iterator<Item = &'a [u8]>) -> Result<Self, Fault<'a>> {
        // No form has more than three words.
        let words: Vec<&[u8]> = words.take(4).collect();
        match words[..] {
            [] => Ok(Bytes::Hex(b"")),
            [b"repeat", byte, count] => Ok(Bytes::Repeat {
                byte: parse_byte(byte).ok_or(Fault::NotAByte(byte))?,
                count: parse_number(count, MAX_COUNT)? as usize,
            }),
            [b"random", seed, count] => Ok(Bytes::Random {
                seed: u64::from(parse_number(seed, MAX_COUNT)?),
                count: parse_number(count, MAX_COUNT)? as usize,
            }),
            [b"repeat" | b"random", ..] => Err(Fault::NotBytes),
            [hex] => parse_hex(hex),
            _ => Err(Fault::NotBytes),
        }
    }

    /// How many they are.
    fn count(&self) -> usize {
        match *self {
            Bytes::Hex(digits) => digits.len() / 2,
            Bytes::Repeat { count, .. } | Bytes::Random { count, .. } => count,
        }
    }

    /// All of them; `None` where they are more than `most`, before any is made.
    fn at_most(&self, most: usize) -> Option<Vec<u8>> {
        if self.count() > most {
            return None;
        }
        let mut bytes = Vec::with_capacity(self.count());
        self.each_part(|part| bytes.extend_from_slice(part));
        Some(bytes)
    }

    /// Makes the bytes and hands them on, `PART` at a time.
    fn each_part(&self, take: impl FnMut(&[u8])) {
        match *self {
            Bytes::Hex(digits) => each_part(digits.chunks_exact(2).filter_map(parse_byte), take),
            Bytes::Repeat { byte, count } => each_part(iter::repeat(byte).take(count), take),
            Bytes::Random { seed, count } => each_part(Generator::new(seed).take(count), take),
        }
    }
}

fn each_part(mut bytes: impl Iterator<Item = u8>, mut take: impl FnMut(&[u8])) {
    let mut part = Vec::with_capacity(PART);
    loop {
        part.clear();
        part.extend(bytes.by_ref().take(PART));
        if part.is_empty() {
            return;
        }
        take(&part);
    }
}

fn parse_hex(word: &[u8]) -> Result<Bytes<'_>, Fault<'_>> {
    if let Some(at) = word.iter().position(|digit| !digit.is_ascii_hexdigit()) {
        let byte = &word[at..=at];
        return Err(Fault::NotADigit {
            byte,
            place: at + 1,
        });
    }
    if word.len() % 2 == 1 {
        return Err(Fault::OddDigits(word.len()));
    }
    Ok(Bytes::Hex(word))
}

/// The byte that two hexadecimal digits spell.
fn parse_byte(word: &[u8]) -> Option<u8> {
    match word {
        &[high, low] => Some(hex_digit(high)? << 4 | hex_digit(low)?),
        _ => None,
    }
}

fn hex_digit(digit: u8) -> Option<u8> {
    match digit {
        b'0'..=b'9' => Some(digit - b'0'),
        b'a'..=b'f' => Some(digit - b'a' + 10),
        b'A'..=b'F' => Some(digit - b'A' + 10),
        _ => None,
    }
}

/// The number that decimal digits spell, if it is at most `most`.
fn parse_number(word: &[u8], most: u32) -> Result<u32, Fault<'_>> {
    let fault = Fault::NotANumber { word, most };
    let mut number: u32 = 0;
    for &digit in word {
        if !digit.is_ascii_digit() {
            return Err(fault);
        }
        let next = u64::from(number) * 10 + u64::from(digit - b'0');
        match u32::try_from(next) {
            Ok(next) if next <= most => number = next,
            _ => return Err(fault),
        }
    }
    Ok(number)
}

#[cfg(test)]
mod tests {
    use super::*;

    const EMPTY: &str = "e3b0c44298fc1c149afbf4c8996fb92427ae41e4649b934ca495991b7852b855\n";
    const ABC: &str = "ba7816bf8f01cfea414140de5dae2223b00361a396177a9cb410ff61f20015ad\n";
    const A: &str = "ca978112ca1bbdcafac231b39a23dc4da786eff8147c4e72b9807785afee48bb\n";
    const USAGE: &str =
        "line 1: write bytes as HEX, as 'repeat BYTE COUNT' or as 'random SEED COUNT'\n";
    const FILE_TOO_LONG: &str = "line 1: refused by 1: a file has at most 16777216 bytes\n";

    fn played(script: impl Read) -> String {
        played_as(script, Manner::default())
    }

    fn played_as(script: impl Read, manner: Manner) -> String {
        let mut output = Vec::new();
        play(script, &mut output, manner).expect("memory takes all writes");
        String::from_utf8(output).expect("answers are ASCII")
    }

    #[track_caller]
    fn answers(script: &[u8], expected: &str) {
        assert_eq!(played(script), expected);
    }

    #[test]
    fn steps() {
        answers(b"digest\n", EMPTY);
        answers(b"digest 616263\n", ABC);
        answers(b"\t digest \t 616263 \t\r\n", ABC);
        answers(b"digest repeat 61 0\n", EMPTY);
        answers(
            b"digest repeat 61 0001000000",
            "cdc76e5c9914fb9281a1c7e284d73e67f1809a48a497200e046d39ccc7112cd0\n",
        );
        answers(
            b"digest repeat fF 1\ndigest fF\ndigest FF",
            &"a8100ae6aa1940d0b663bb31cd466142ebbdbd5187131b92d93818987832eb89\n".repeat(3),
        );
        answers(
            b"digest random 1 4\ndigest random 01 0004\ndigest 6c82a562",
            &"4c9dc834ecbb8b2cb70013652d48d92274748cf3ff08cc4d47e809e7cb905757\n".repeat(3),
        );
        answers(b"digest random 1073741824 0\n", EMPTY);
    }

    /// Bytes that come in several parts are the same as those that come in one.
    #[test]
    fn parts() {
        for count in [PART - 1, PART, PART + 1, 2 * PART, 3 * PART + 5] {
            let bytes: Vec<u8> = Generator::new(5).take(count).collect();
            let expected = format!("{}\n", Hex(&sha256(&bytes)));
            answers(format!("digest {}", Hex(&bytes)).as_bytes(), &expected);
            answers(format!("digest random 5 {count}").as_bytes(), &expected);
            let expected = format!("{}\n", Hex(&sha256(&vec![0x61; count])));
            answers(format!("digest repeat 61 {count}").as_bytes(), &expected);
        }
    }

    #[test]
    fn cuts() {
        answers(b"cut", "pieces 0\n");
        answers(b"cut repeat 61 0", "pieces 0\n");
        answers(b"cut random 1 0", "pieces 0\n");
        answers(b"cut 616263\n", &format!("pieces 1\n3 {ABC}"));
        answers(
            b"\tcut repeat 00 5000 \r\n",
            "pieces 3\n\
             2048 e5a00aa9991ac8a5ee3109844d84a55583bd20572ad3ffcd42792f3c36b183ad\n\
             2048 e5a00aa9991ac8a5ee3109844d84a55583bd20572ad3ffcd42792f3c36b183ad\n\
             904 cc401ce5099578287fd15c062a92893754851bdb7ca3c1fe742bbff85e2281c2\n",
        );
        answers(
            b"cut random 1 4\nx\ncut",
            "pieces 1\n\
             4 4c9dc834ecbb8b2cb70013652d48d92274748cf3ff08cc4d47e809e7cb905757\n\
             line 2: no step is called 'x'\n\
             pieces 0\n",
        );
    }

    #[test]
    fn the_longest_file() {
        let zeros = "2048 e5a00aa9991ac8a5ee3109844d84a55583bd20572ad3ffcd42792f3c36b183ad\n";
        answers(
            b"cut repeat 00 16777216",
            &format!("pieces 8192\n{}", zeros.repeat(8192)),
        );
        answers(b"cut repeat 00 16777217", FILE_TOO_LONG);
        answers(b"cut random 0 16777217", FILE_TOO_LONG);
        answers(b"cut random 1 1073741824", FILE_TOO_LONG);
        let hex = "0".repeat(2 * MAX_FILE + 2);
        answers(format!("cut {hex}").as_bytes(), FILE_TOO_LONG);
        answers(
            format!("cut {hex}0").as_bytes(),
            "line 1: an odd number of hexadecimal digits, 33554435\n",
        );
        answers(
            format!("cut {hex}g").as_bytes(),
            "line 1: 'g' is not a hexadecimal digit, at place 33554435\n",
        );
    }

    #[test]
    fn lines() {
        answers(b"", "");
        answers(b"\n", "");
        answers(b"\r\n \t\n# digest\n  #\n#x", "");
        answers(b"\n\nx", "line 3: no step is called 'x'\n");
        answers(
            b"x\ndigest\n",
            &format!("line 1: no step is called 'x'\n{EMPTY}"),
        );
        answers(b"digest\r", EMPTY);
        answers(
            b"digest \r\r\n",
            "line 1: '\\x0d' is not a hexadecimal digit, at place 1\n",
        );
    }

    #[test]
    fn unknown_steps() {
        answers(b"Digest", "line 1: no step is called 'Digest'\n");
        answers(b"dig#est x", "line 1: no step is called 'dig#est'\n");
        answers(b"Cut", "line 1: no step is called 'Cut'\n");
        answers(b"random 1 1", "line 1: no step is called 'random'\n");
        answers(
            b"a'b\\c\x7f~\xff\0",
            "line 1: no step is called 'a\\x27b\\x5cc\\x7f~\\xff\\x00'\n",
        );
        let word = "0123456789abcdef0123456789abcdef";
        answers(
            word.as_bytes(),
            &format!("line 1: no step is called '{word}'\n"),
        );
        let longer = format!("{word}!");
        answers(
            longer.as_bytes(),
            &format!("line 1: no step is called '{word}..'\n"),
        );
    }

    #[test]
    fn usage() {
        for words in [
            "61 62",
            "x y z",
            "repeat",
            "repeat 61",
            "repeat 61 1 1",
            "Repeat 61 1",
            "random",
            "random 1",
            "random x",
            "random 1 1 1",
            "Random 1 1",
            "61 random 1",
        ] {
            answers(format!("digest {words}").as_bytes(), USAGE);
            answers(format!("cut {words}").as_bytes(), USAGE);
        }
    }

    #[test]
    fn hexadecimal_digits() {
        answers(
            b"digest 61g",
            "line 1: 'g' is not a hexadecimal digit, at place 3\n",
        );
        answers(
            b"digest 0x61",
            "line 1: 'x' is not a hexadecimal digit, at place 2\n",
        );
        answers(
            b"digest '1z",
            "line 1: '\\x27' is not a hexadecimal digit, at place 1\n",
        );
        answers(
            b"digest 616",
            "line 1: an odd number of hexadecimal digits, 3\n",
        );
    }

    #[test]
    fn repeats() {
        answers(
            b"digest repeat 6 x",
            "line 1: '6' is not a byte of two hexadecimal digits\n",
        );
        answers(
            b"digest repeat 611 1",
            "line 1: '611' is not a byte of two hexadecimal digits\n",
        );
        answers(
            b"digest repeat 6g 1",
            "line 1: '6g' is not a byte of two hexadecimal digits\n",
        );
        for count in [
            "x",
            "-1",
            "+1",
            "1073741825",
            "99999999999999999999999",
            "1_0",
            "0x1",
        ] {
            let expected = format!("line 1: '{count}' is not a number from 0 to 1073741824\n");
            for line in [
                format!("digest repeat 61 {count}"),
                format!("digest random 1 {count}"),
                format!("digest random {count} 1"),
                format!("digest random {count} y"),
                format!("cut random {count} 16777217"),
            ] {
                answers(line.as_bytes(), &expected);
            }
        }
    }

    /// `NAME` in the answers stands for the name of the piece `616263`.
    #[track_caller]
    fn machines_answer(script: &str, expected: &str) {
        answers(script.as_bytes(), &expected.replace("NAME", ABC.trim_end()));
    }

    #[test]
    fn show() {
        answers(
            b"show",
            "machine 0 0 none\nmachine 1 0 none\nmachine 2 0 none\nmachine 3 0 none\n\
             sweeper rests\n",
        );
        let places = format!(
            "place NAME 3\n\
             place {} 1\n\
             listed 1 {}\n\
             listed 3 NAME\n",
            A.trim_end(),
            A.trim_end()
        );
        machines_answer(
            "begin 3\nsee 3 616263\nsee 3 616263\nraise 3\nname 3\nbegin 1\nsee 1 61\n\
             begin 3\nraise 3\nbegin 0\nshow\n\
             see 0 616263\nraise 0\nname 3\nbreak 1\nbegin 1\nsee 1 616263\nsee 1 61\nshow\n",
            &format!(
                "begun\nwritten NAME\nfound NAME\nraised 1\nnamed 1\nbegun\nwritten {A}\
                 begun\nraised 2\nbegun\n\
                 {places}\
                 day 3 1 NAME NAME\n\
                 machine 0 0 makes\n\
                 machine 1 0 makes {A}\
                 machine 2 0 none\n\
                 machine 3 2 names 2\n\
                 sweeper rests\n\
                 found NAME\nraised 1\nnamed 2\nbroken off\nbegun\nfound NAME\nfound {A}\
                 {places}\
                 day 3 1 NAME NAME\n\
                 day 3 2\n\
                 machine 0 1 names 1 NAME\n\
                 machine 1 0 makes NAME {A}\
                 machine 2 0 none\n\
                 machine 3 2 none\n\
                 sweeper rests\n"
            ),
        );
    }

    #[test]
    fn machines() {
        machines_answer(
            "begin 00\nsee 0 616263\nraise 0\nbreak 0\nbegin 0\nsee 0 616263\nraise 0\nname 0\n\
             go 00 0002\ngo 0 2\nbegin 0\nraise 0",
            "begun\nwritten NAME\nraised 1\nbroken off\nbegun\nfound NAME\nraised 2\nnamed 2\n\
             let go\nline 10: refused by 1: there is no such machine, day or path\n\
             begun\nraised 3\n",
        );
    }

    /// All that `show` writes of the sweeper, and a machine that is gone.
    #[test]
    fn sweeping() {
        let last = |script: &str| {
            let answers = played(format!("{script}\nshow").as_bytes());
            answers.lines().last().map(str::to_owned)
        };
        let check = |script: &str, sweeper: &str| {
            let sweeper = sweeper.replace("NAME", ABC.trim_end());
            let sweeper = sweeper.replace("NO", A.trim_end());
            assert_eq!(last(script), Some(format!("sweeper {sweeper}")));
        };
        let script = "begin 1\nsee 1 61\nsee 1 616263\nraise 1\nlook";
        check(script, "puts aside NAME NO");
        let script = &format!("{script}\naside");
        check(script, "puts aside NO");
        check(&format!("{script}\nstop"), "rests");
        let script = &format!("{script}\naside");
        check(script, "puts aside");
        let script = &format!("{script}\npart 3\nnote");
        check(script, "waits 0 1 0 0");
        let days = "begin 0\nraise 0\nname 0\npart 1\nbegin 2\nsee 2 616263\nraise 2\nname 2";
        let script = &format!("{script}\nstop\n{days}\ndecide");
        check(script, "ends, back NAME, away NO");
        check(&format!("{script}\nstop"), "is to decide anew");
        let script = &format!("{script}\nnext");
        check(script, "ends, back, away NO");
        check(&format!("{script}\nstop\ndecide"), "ends, back, away NO");
        check(&format!("{script}\ngo 2 1"), "ends, back, away NO");
        let script = &format!("{script}\nnext");
        check(script, "rests");
        machines_answer(
            &format!("{script}\nshow"),
            &format!(
                "begun\nwritten {A}written NAME\nraised 1\nto put aside 2\n\
                 put aside NAME\nput aside {A}parted\nnoted\nstopped\n\
                 begun\nraised 1\nnamed 1\nparted\nbegun\nwritten NAME\nraised 1\nnamed 1\n\
                 to put back 1, to throw away 1\nput back NAME\nthrown away {A}\
                 place NAME 3\n\
                 listed 1 NAME\n\
                 listed 1 {A}\
                 listed 2 NAME\n\
                 listed sweeper NAME\n\
                 listed sweeper {A}\
                 day 0 1\n\
                 day 2 1 NAME\n\
                 machine 0 1 none\n\
                 machine 1 1 parted\n\
                 machine 2 1 none\n\
                 machine 3 0 parted\n\
                 sweeper rests\n"
            ),
        );
        // The promise is kept all along.
        let manner = Manner {
            check: true,
            variant: None,
        };
        assert_eq!(
            played_as(script.as_bytes(), manner),
            played(script.as_bytes())
        );
    }

    /// A day of files, what lies under its name, and its files as they are had back.
    #[test]
    fn files() {
        let day = |files: &[(&[u8], &[u8])], number| {
            let files = files.iter().map(|(path, bytes)| crate::dayfile::File {
                path: path.to_vec(),
                length: bytes.len() as u32,
                pieces: cutting::pieces(bytes)
                    .map_or(vec![], |pieces| pieces.into_iter().map(sha256).collect()),
            });
            crate::dayfile::write(1, number, &files.collect::<Vec<_>>())
        };
        let shown = |bytes: &[u8]| format!("{} {}", bytes.len(), Hex(bytes));
        let zeros = &[0; 5_000][..];
        let first = day(&[], 1);
        let second = day(
            &[
                (b"!\xff", b""),
                (b"/a", zeros),
                (b"0003", b"abc"),
                (b"0004", b"a"),
            ],
            2,
        );
        let script = b"begin 1\nraise 1\nname 1\nbytes 1 1\nback 1 1 x\n\
            begin 1\nfile 1 !\xff\nfile 01 /a repeat 00 5000\nsee 1 616263\nfile 1 0004 61\n\
            raise 1\nname 1\nbytes 1 2\nback 1 2 !\xff\nback 1 2 /a\nback 01 002 0003\n\
            part 1\nback 1 2 0004\ngo 1 2\nback 1 2 0004";
        let absent = "refused by 1: there is no such machine, day or path";
        let expected = format!(
            "begun\nraised 1\nnamed 1\n{}\nline 5: {absent}\n\
             begun\nadded 0, written 0\nadded 3, written 2\nwritten {ABC}added 1, written 1\n\
             raised 2\nnamed 2\n{}\n0\n{}\n3 616263\nparted\n1 61\nlet go\nline 20: {absent}\n",
            shown(&first),
            shown(&second),
            shown(zeros),
        );
        answers(script, &expected);
        let manner = Manner {
            check: true,
            variant: None,
        };
        assert_eq!(played_as(&script[..], manner), expected);
    }

    #[test]
    fn damage() {
        let last = |script: &str| {
            let answers = played(script.as_bytes());
            let answer = answers.lines().last().map(str::to_owned);
            answer.expect("there is an answer")
        };
        let day = "begin 0\nfile 0 a 616263\nraise 0\nname 0\n";
        let bytes = last(&format!("{day}bytes 0 1"));
        let check = |lines: &str, answer: &str| {
            let answer = answer.replace("BYTES", &bytes);
            assert_eq!(last(&format!("{day}{lines}")), answer, "{lines}");
        };
        let damaged = &format!(
            "line {}: refused by 2: a day is damaged or incomplete",
            day.lines().count() + 2
        );
        let absent = &format!(
            "line {}: refused by 1: there is no such machine, day or path",
            day.lines().count() + 1
        );
        check("flip-place 2 616263\nback 0 1 a", damaged);
        check("flip-place 2 616263\nlook", damaged);
        check("flip-place 2 616263\ndecide", damaged);
        check(
            "flip-place 0 616263\nflip-place 0 616263\nback 0 1 a",
            "3 616263",
        );
        check("flip-place 3 616263", absent);
        check("flip-place 0 616264", absent);
        check("flip-place 0", absent);
        check("flip-place 0 repeat 61 65537", absent);
        check("flip-aside 0 616263", absent);
        for at in [0, 5, 50, 79] {
            check(&format!("flip-day 0 1 {at}\nback 0 1 a"), damaged);
            check(&format!("flip-day 0 1 {at}\nback 0 1 b"), damaged);
            check(&format!("flip-day 0 1 {at}\nlook"), damaged);
            check(
                &format!("flip-day 0 1 {at}\nflip-day 0 1 {at}\nbytes 0 1"),
                "BYTES",
            );
            check(&format!("cut-day 0 1 {at}\nback 0 1 a"), damaged);
            check(
                &format!("cut-day 0 1 {at}\nflip-day 0 1 {at}\ngo 0 1"),
                "let go",
            );
        }
        assert!(bytes.starts_with("80 4400000000010001"));
        check("flip-day 0 1 80", absent);
        check("flip-day 0 2 0", absent);
        check("flip-day 4 1 0", absent);
        check("cut-day 0 1 80\nbytes 0 1", "BYTES");
        check("cut-day 0 1 81", absent);
        check("cut-day 0 2 0", absent);
        check("cut-day 0 1 0\nbytes 0 1", "0");
        check("flip-day 0 1 4294967295", absent);
        let shown = played(format!("{day}flip-day 0 1 0\nshow").as_bytes());
        assert!(shown.contains("\nday 0 1 damaged\nmachine 0 1 none\n"));
        // The promise is checked up to the damage, and no longer.
        let manner = Manner {
            check: true,
            variant: None,
        };
        let script = format!("{day}flip-place 0 616263\nlook\nflip-day 0 1 0\nshow");
        assert_eq!(
            played_as(script.as_bytes(), manner),
            played(script.as_bytes())
        );
    }

    #[test]
    fn refusals() {
        let absent = "refused by 1: there is no such machine, day or path";
        let long = "refused by 1: a piece has at most 65536 bytes";
        let empty = "refused by 1: a piece has at least one byte";
        let long_file = "refused by 1: a file has at most 16777216 bytes";
        let no_path = "refused by 1: a path has from 1 to 255 bytes";
        let not_above = "refused by 1: a path must be above the one before it";
        let longest = &format!("file 0 {} 61", "z".repeat(255));
        let longer = &format!("file 4 {} 61", "z".repeat(256));
        let both = &format!("file 4 {} repeat 61 16777217", "z".repeat(256));
        let again = "refused by 3: the machine already makes a day";
        let none = "refused by 3: the machine makes no day";
        let raised =
            "refused by 3: the day has its number already, and is to be named or broken off";
        let not_raised = "refused by 3: the day has no number yet, which is to be raised first";
        let point = "refused by 4: the sweeper is not at that point";
        let since = "refused by 4: a machine has finished no day since";
        for (before, line, answer) in [
            ("", "begin 4", absent),
            ("", "see 4 61", absent),
            ("", "raise 4", absent),
            ("", "name 64", absent),
            ("", "break 4294967295", absent),
            ("", "part 4", absent),
            ("begin 1\npart 1", "part 1", absent),
            ("begin 1\npart 1", "begin 1", absent),
            ("begin 1\npart 1", "see 1 61", absent),
            ("begin 1\npart 1", "raise 1", absent),
            ("begin 1\nraise 1\npart 1", "name 1", absent),
            ("begin 1\npart 1", "break 1", absent),
            ("", "go 0 0", absent),
            ("", "go 4 1", absent),
            ("begin 0", "go 0 1", absent),
            ("begin 0", "begin 0", again),
            ("", "see 0 61", none),
            ("", "raise 0", none),
            ("", "name 0", none),
            ("", "break 0", none),
            ("begin 0", "name 0", not_raised),
            ("begin 0\nraise 0", "go 0 1", absent),
            ("begin 0\nraise 0", "begin 0", again),
            ("begin 0\nraise 0", "see 0 61", raised),
            ("begin 0\nraise 0", "raise 0", raised),
            ("begin 0", "see 0 repeat 61 65537", long),
            ("begin 0\nraise 0", "see 0 repeat 61 65537", long),
            ("", "see 0 random 1 1073741824", long),
            ("", "see 4 repeat 61 65537", long),
            ("", "see 0", empty),
            ("", "see 4 repeat 61 0", empty),
            ("begin 0\nfile 0 z\nraise 0", "see 0 random 1 0", empty),
            ("", "file 4 a 61", absent),
            ("", "file 4 a repeat 61 16777217", long_file),
            ("", longer, no_path),
            ("", both, long_file),
            ("", longest, none),
            ("begin 0\nraise 0", longest, raised),
            ("begin 0\nfile 0 a", "file 0 a 61", not_above),
            ("begin 0\nfile 0 a", "file 0 Z", not_above),
            ("begin 0\nfile 0 z", "see 0 61", not_above),
            ("begin 0\nfile 0 z\nraise 0", "see 0 61", not_above),
            ("begin 0\nfile 0 0000\nraise 0", "see 0 61", raised),
            ("begin 0\nfile 0 a", "back 0 1 a", absent),
            ("begin 0\nfile 0 a", "bytes 0 1", absent),
            ("begin 0\nfile 0 a\nraise 0\nname 0", "back 0 1 b", absent),
            ("begin 0\nfile 0 a\nraise 0\nname 0", "back 0 0 a", absent),
            ("", "bytes 4 1", absent),
            ("", "aside", point),
            ("", "note", point),
            ("", "decide", point),
            ("", "next", point),
            ("look", "look", point),
            ("look", "aside", point),
            ("begin 0\nsee 0 61\nlook", "note", point),
            ("look", "decide", point),
            ("look", "next", point),
            ("look\nnote", "look", point),
            ("look\nnote", "aside", point),
            ("look\nnote", "note", point),
            ("look\nnote", "next", point),
            ("look\nnote", "decide", since),
            ("look\nnote\nstop", "decide", since),
            (
                "begin 0\nlook\nnote\npart 1\npart 2\npart 3\nraise 0",
                "decide",
                since,
            ),
        ] {
            let script = |lines: &[&str]| played(lines.join("\n").as_bytes());
            let answers = script(&[before, line]);
            assert_eq!(
                answers.lines().last(),
                Some(&*format!(
                    "line {}: {answer}",
                    before.lines().count().max(1) + 1
                ))
            );
            // Nothing is changed.
            let shown = script(&[before, "show"]);
            let shown = &shown[script(&[before]).len()..];
            assert!(script(&[before, line, "show"]).ends_with(shown));
        }
    }

    #[test]
    fn lines_of_machines() {
        for (line, form) in [
            ("begin", "begin M"),
            ("begin 0 0", "begin M"),
            ("begin x y", "begin M"),
            ("see", "see M BYTES"),
            ("raise", "raise M"),
            ("raise 0 0", "raise M"),
            ("name", "name M"),
            ("name 0 0", "name M"),
            ("break", "break M"),
            ("break 0 0", "break M"),
            ("go", "go M N"),
            ("go 0", "go M N"),
            ("go x", "go M N"),
            ("go 0 0 0", "go M N"),
            ("part", "part M"),
            ("part 0 0", "part M"),
            ("file", "file M PATH BYTES"),
            ("file x", "file M PATH BYTES"),
            ("back 0 1", "back M N PATH"),
            ("back 0 1 a b", "back M N PATH"),
            ("bytes", "bytes M N"),
            ("bytes 0", "bytes M N"),
            ("bytes 0 1 1", "bytes M N"),
            ("flip-place", "flip-place AT BYTES"),
            ("flip-aside", "flip-aside AT BYTES"),
            ("flip-day 0 1", "flip-day M N AT"),
            ("flip-day 0 1 1 1", "flip-day M N AT"),
            ("cut-day 0 1", "cut-day M N LENGTH"),
            ("cut-day 0 1 1 1", "cut-day M N LENGTH"),
            ("look 0", "look"),
            ("aside x", "aside"),
            ("note 0 0", "note"),
            ("decide #", "decide"),
            ("next next", "next"),
            ("stop 61", "stop"),
            ("show 0", "show"),
            ("show #", "show"),
        ] {
            let expected = format!("line 1: write the line as '{form}'\n");
            answers(line.as_bytes(), &expected);
        }
        for word in ["x", "4294967296", "-0", "+1", "0x1", "99999999999999999999"] {
            let expected = format!("line 1: '{word}' is not a number from 0 to 4294967295\n");
            for line in [
                format!("begin {word}"),
                format!("see {word}"),
                format!("see {word} repeat 61"),
                format!("raise {word}"),
                format!("name {word}"),
                format!("break {word}"),
                format!("part {word}"),
                format!("go {word} y"),
                format!("go 0 {word}"),
                format!("file {word} a"),
                format!("file {word} a x y"),
                format!("back {word} y a"),
                format!("back 0 {word} a"),
                format!("bytes {word} y"),
                format!("bytes 0 {word}"),
                format!("flip-place {word}"),
                format!("flip-aside {word} x y"),
                format!("flip-day {word} y z"),
                format!("flip-day 0 {word} z"),
                format!("flip-day 0 1 {word}"),
                format!("cut-day {word} y z"),
                format!("cut-day 0 {word} z"),
                format!("cut-day 0 1 {word}"),
            ] {
                answers(line.as_bytes(), &expected);
            }
        }
        answers(b"see 9 61 62", USAGE);
        answers(b"file 9 a 61 62", USAGE);
        answers(b"flip-place 9 61 62", USAGE);
        answers(b"flip-aside 9 random 1", USAGE);
        answers(b"see 9 repeat 61", USAGE);
        answers(
            b"see 9 6g",
            "line 1: 'g' is not a hexadecimal digit, at place 2\n",
        );
        answers(
            b"see 9 random 1 1073741825",
            "line 1: '1073741825' is not a number from 0 to 1073741824\n",
        );
    }

    #[test]
    fn longest_line() {
        let line = |byte, length: usize| io::repeat(byte).take(length as u64);
        let rest = b"\ndigest\n";
        let word = "x".repeat(32);
        assert_eq!(
            played(line(b'x', MAX_LINE).chain(&rest[..])),
            format!("line 1: no step is called '{word}..'\n{EMPTY}")
        );
        let too_long = "line 1: longer than 67108864 bytes\n";
        for byte in *b"x# " {
            assert_eq!(
                played(line(byte, MAX_LINE + 1).chain(&rest[..])),
                format!("{too_long}{EMPTY}")
            );
        }
        assert_eq!(played(line(b' ', MAX_LINE).chain(&b"\r\n"[..])), too_long);
        assert_eq!(played(line(b' ', MAX_LINE - 1).chain(&b"\r\n"[..])), "");
        assert_eq!(played(line(b'x', MAX_LINE + 1)), too_long);
    }
}
