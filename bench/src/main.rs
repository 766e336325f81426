//! Measures the proved SHA-256 against a plain Rust one, `sha256sum` and
//! `openssl`, and the proved cutting against two plain Rust ones, all on the same
//! bytes. The argument is a folder for the file that the programs read.

mod ours;
mod skipping;

use reference::cutting::{self, MAX_FILE};
use reference::sha256::sha256 as plain;
use std::env;
use std::fs;
use std::hint::black_box;
use std::path::Path;
use std::process::{Command, ExitCode, Stdio};
use std::time::Instant;

/// The bytes that are hashed and cut: 128 MiB, 8 of the longest files.
const SIZE: usize = 128 << 20;
const SEED: u64 = 0x5eed_5ba2_5600_0001;

/// How often each function, and each program, is timed.
const ROUNDS: usize = 7;
const RUNS: usize = 3;

/// The least speed of ours, as a part of that of a plain Rust one.
const LEAST: f64 = 0.9;

type Digest = [u8; 32];

fn main() -> ExitCode {
    match measure() {
        Ok(()) => ExitCode::SUCCESS,
        Err(why) => {
            eprintln!("bench: {why}");
            ExitCode::FAILURE
        }
    }
}

fn measure() -> Result<(), String> {
    let folder = env::args_os().nth(1).ok_or("give a folder for the data")?;
    let file = Path::new(&folder).join("data");

    check_digests()?;
    check_cutting()?;
    let data = seeded(SIZE);
    fs::write(&file, &data).map_err(|error| format!("{}: {error}", file.display()))?;

    let mut slow = measure_digests(&data, &file)?;
    slow.extend(measure_cutting(&data)?);
    slow.extend(measure_both(&data)?);
    if slow.is_empty() {
        return Ok(());
    }
    Err(format!("less than {LEAST}: {}", slow.join("; ")))
}

/// SHA-256 alone. Answers where ours is slow.
fn measure_digests(data: &[u8], file: &Path) -> Result<Vec<String>, String> {
    let [(ours, our_digest), (plain, plain_digest)] = time([ours::sha256, plain], data);
    let (coreutils, coreutils_digest) = time_program("sha256sum", &[], file)?;
    let (openssl, openssl_digest) = time_program("openssl", &["dgst", "-sha256"], file)?;

    let wanted = hex(&our_digest);
    for (name, digest) in [
        ("plain Rust", hex(&plain_digest)),
        ("sha256sum", coreutils_digest),
        ("openssl", openssl_digest),
    ] {
        if digest != wanted {
            return Err(format!("the digest of {name} is {digest}, ours {wanted}"));
        }
    }

    println!("SHA-256 of {SIZE} seeded bytes, in MB/s (10^6 bytes a second)");
    print_table(
        ours,
        &[
            ("plain Rust, release", plain),
            ("sha256sum", coreutils),
            ("openssl dgst -sha256", openssl),
        ],
    );
    println!("The first two: the best of {ROUNDS} rounds each, by turns, in one process and on one buffer.");
    println!(
        "The others: the best of {RUNS} runs each after one to warm up; these are whole processes,"
    );
    println!("so they include their start and reading the file from the page cache.");
    println!("All four digests agree: {wanted}");
    println!();

    Ok(slower("SHA-256", ours, &[("plain Rust", plain)]))
}

/// Cutting alone. Answers where ours is slow.
fn measure_cutting(data: &[u8]) -> Result<Vec<String>, String> {
    let [(ours, our_lengths), (straight, straight_lengths), (skipping, skipping_lengths)] =
        time([our_cut, straight_cut, skipping_cut], data);
    if our_lengths != straight_lengths || our_lengths != skipping_lengths {
        return Err("the lengths of the pieces differ".to_string());
    }

    let files = SIZE / MAX_FILE;
    println!("Cutting of the same bytes, as {files} files of {MAX_FILE}, in MB/s");
    print_table(
        ours,
        &[
            ("plain Rust, every byte", straight),
            ("plain Rust, passing over", skipping),
        ],
    );
    println!("The best of {ROUNDS} rounds each, by turns, in one process and on one buffer.");
    println!("All agree on the {} pieces.", our_lengths.len());
    println!();

    let others = [
        ("plain Rust on every byte", straight),
        ("plain Rust passing over bytes", skipping),
    ];
    Ok(slower("cutting", ours, &others))
}

/// Cutting, with the digest of each piece. Answers where ours is slow.
fn measure_both(data: &[u8]) -> Result<Vec<String>, String> {
    let [(ours, our_pieces), (plain, plain_pieces)] =
        time([our_cut_with_digests, plain_cut_with_digests], data);
    if our_pieces != plain_pieces {
        return Err("the digests of the pieces differ".to_string());
    }

    println!("Cutting of the same files, with SHA-256 of each piece, in MB/s");
    print_table(ours, &[("plain Rust, passing over", plain)]);
    println!("The best of {ROUNDS} rounds each, by turns, in one process and on one buffer.");
    println!("Both agree on the {} digests.", our_pieces.len());

    let others = [("plain Rust", plain)];
    Ok(slower("cutting with digests", ours, &others))
}

/// What is measured is worth it only if it is right: the two functions agree on
/// short messages, and ours refuses room for a digest that is not 32 bytes.
fn check_digests() -> Result<(), String> {
    let bytes = seeded(1024);
    for length in (0..300).chain([511, 512, 513, 1024]) {
        let message = &bytes[..length];
        if ours::sha256(message) != plain(message) {
            return Err(format!("the digests of {length} bytes differ"));
        }
    }
    for length in [0, 31, 33, 64] {
        let mut out = vec![0xa5; length];
        if ours::sha256_into(&bytes, &mut out) || out.iter().any(|&byte| byte != 0xa5) {
            return Err(format!("ours wrote a digest to {length} bytes"));
        }
    }
    Ok(())
}

/// The three ways to cut agree on short files, and so do the two that take digests.
fn check_cutting() -> Result<(), String> {
    let lengths = (0..=3)
        .chain(31..=33)
        .chain(2_047..=2_049)
        .chain(4_095..=4_097)
        .chain(65_535..=65_537)
        .chain(131_071..=131_073)
        .chain([1_000_000]);
    for length in lengths {
        for (kind, file) in [
            ("zero", vec![0; length]),
            ("seeded", seeded(length)),
            ("equal", vec![0x61; length]),
        ] {
            let pieces = straight_cut(&file);
            if our_cut(&file) != pieces || skipping_cut(&file) != pieces {
                return Err(format!("the pieces of {length} {kind} bytes differ"));
            }
            if our_cut_with_digests(&file) != plain_cut_with_digests(&file) {
                return Err(format!(
                    "the digests of the pieces of {length} {kind} bytes differ"
                ));
            }
        }
    }
    match ours::piece_length(b"") {
        0 => Ok(()),
        length => Err(format!("ours has a piece of {length} bytes of none")),
    }
}

/// The lengths of the pieces, by ours.
fn our_cut(data: &[u8]) -> Vec<usize> {
    let mut lengths = Vec::new();
    cut(data, ours::piece_length, |piece| lengths.push(piece.len()));
    lengths
}

/// The lengths of the pieces, by plain Rust that passes over bytes.
fn skipping_cut(data: &[u8]) -> Vec<usize> {
    let mut lengths = Vec::new();
    cut(data, skipping::piece_length, |piece| {
        lengths.push(piece.len())
    });
    lengths
}

/// The lengths of the pieces, by plain Rust that looks at every byte.
fn straight_cut(data: &[u8]) -> Vec<usize> {
    let mut lengths = Vec::new();
    for file in data.chunks(MAX_FILE) {
        let pieces = cutting::pieces(file).expect("the file is not too long");
        lengths.extend(pieces.iter().map(|piece| piece.len()));
    }
    lengths
}

/// The lengths and the digests of the pieces, by ours.
fn our_cut_with_digests(data: &[u8]) -> Vec<(usize, Digest)> {
    let mut pieces = Vec::new();
    cut(data, ours::piece_length, |piece| {
        pieces.push((piece.len(), ours::sha256(piece)))
    });
    pieces
}

/// The lengths and the digests of the pieces, by plain Rust.
fn plain_cut_with_digests(data: &[u8]) -> Vec<(usize, Digest)> {
    let mut pieces = Vec::new();
    cut(data, skipping::piece_length, |piece| {
        pieces.push((piece.len(), plain(piece)))
    });
    pieces
}

/// Hands on the pieces of the files that `data` is, one after the other.
fn cut(data: &[u8], piece_length: impl Fn(&[u8]) -> usize, mut take: impl FnMut(&[u8])) {
    for file in data.chunks(MAX_FILE) {
        let mut rest = file;
        while !rest.is_empty() {
            let length = piece_length(rest);
            assert!(
                0 < length && length <= rest.len(),
                "a piece of {length} bytes of {}",
                rest.len()
            );
            let (piece, after) = rest.split_at(length);
            take(piece);
            rest = after;
        }
    }
}

/// The bytes of SplitMix64 from `SEED`.
fn seeded(size: usize) -> Vec<u8> {
    let mut state = SEED;
    let mut bytes = Vec::with_capacity(size + 8);
    while bytes.len() < size {
        state = state.wrapping_add(0x9e37_79b9_7f4a_7c15);
        let mut word = state;
        word = (word ^ (word >> 30)).wrapping_mul(0xbf58_476d_1ce4_e5b9);
        word = (word ^ (word >> 27)).wrapping_mul(0x94d0_49bb_1331_11eb);
        word ^= word >> 31;
        bytes.extend_from_slice(&word.to_le_bytes());
    }
    bytes.truncate(size);
    bytes
}

/// The fewest seconds of each function, with what it answers. They take turns, so
/// that what slows the machine down for a while slows all.
fn time<T, const N: usize>(functions: [fn(&[u8]) -> T; N], data: &[u8]) -> [(f64, T); N] {
    let mut best = functions.map(|function| (f64::INFINITY, function(data)));
    for round in 0..ROUNDS {
        for turn in 0..N {
            let which = (round + turn) % N;
            let start = Instant::now();
            best[which].1 = black_box(functions[which](black_box(data)));
            best[which].0 = best[which].0.min(start.elapsed().as_secs_f64());
        }
    }
    best
}

/// The fewest seconds that a program takes for the file, and the digest it prints.
fn time_program(program: &str, words: &[&str], file: &Path) -> Result<(f64, String), String> {
    let mut best = f64::INFINITY;
    let mut digest = String::new();
    for run in 0..=RUNS {
        let mut command = Command::new(program);
        command.args(words).arg(file).stdin(Stdio::null());
        let start = Instant::now();
        let done = command
            .output()
            .map_err(|error| format!("{program}: {error}"))?;
        let seconds = start.elapsed().as_secs_f64();
        if !done.status.success() {
            return Err(format!("{program}: {}", done.status));
        }
        // Run 0 warms up.
        if run > 0 {
            best = best.min(seconds);
        }
        // `sha256sum` prints the digest before the file's name, `openssl` after it.
        digest = String::from_utf8_lossy(&done.stdout)
            .split_whitespace()
            .find(|word| word.len() == 64 && word.bytes().all(|byte| byte.is_ascii_hexdigit()))
            .ok_or_else(|| format!("{program} printed no digest"))?
            .to_string();
    }
    Ok((best, digest))
}

/// The speed of ours, and of the others with the ratio to them.
fn print_table(ours: f64, others: &[(&str, f64)]) {
    println!();
    println!("{:24}  {:>8}   ours / it", "", "MB/s");
    println!("{:24}  {:8.1}", "ours, proved", speed(ours));
    for (name, seconds) in others {
        let ratio = seconds / ours;
        println!("{name:24}  {:8.1}   {ratio:9.2}", speed(*seconds));
    }
    println!();
}

/// Those of the others of whose speed ours has too small a part.
fn slower(what: &str, ours: f64, others: &[(&str, f64)]) -> Vec<String> {
    let ratios = others.iter().map(|(name, seconds)| (name, seconds / ours));
    ratios
        .filter(|(_, ratio)| *ratio < LEAST)
        .map(|(name, ratio)| format!("{what}: ours has {ratio:.3} of the speed of {name}"))
        .collect()
}

fn speed(seconds: f64) -> f64 {
    SIZE as f64 / seconds / 1e6
}

fn hex(digest: &Digest) -> String {
    digest.iter().map(|byte| format!("{byte:02x}")).collect()
}
