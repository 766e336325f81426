//! A second, independent implementation of SHA-256, of the cutting of files, of
//! machines that make days, of day files, of the sweeper, of the script of
//! `rehearse` and of the programs on a store in a folder, in plain Rust. The tests
//! compare the programs; the benchmark measures the proved code against this one.
//!
//! `sha256` follows FIPS 180-4, `cutting` follows `docs/CUTTING.md`, `generator`
//! follows `docs/GENERATOR.md`, `dayfile` and `back` follow `docs/DAYS.md`, `store`,
//! `machines` and `sweeper` follow `docs/STORE.md`, and `script` and `refusal` follow
//! `docs/REHEARSE.md`. `promise` checks what `docs/STORE.md` and `docs/DAYS.md`
//! promise, after each step of a script; `variant` has wrong rules, by which a script
//! can be played; `frames` reads strings as day files, one after the other. `programs`
//! follows `docs/PROGRAMS.md` and `docs/FOLDER.md`.

#![forbid(unsafe_code)]

pub mod back;
pub mod cutting;
pub mod dayfile;
pub mod frames;
pub mod generator;
pub mod machines;
pub mod programs;
pub mod promise;
pub mod refusal;
pub mod script;
pub mod sha256;
pub mod store;
pub mod sweeper;
pub mod variant;
pub mod world;
