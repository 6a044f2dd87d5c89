//! Document 01 once more, by brute force, to compare the proved library with.
//!
//! This package is written from document 01 alone and shares no idea with the proved code. It keeps no rows while it
//! reads: it runs a list on all 2^n basis states and searches for the parity that explains what each wire holds. It is
//! slow on purpose, so that each line can be held against a sentence of the paper.
//!
//! - [`gates`], [`running`]: what a gate is and what it does to a basis state.
//! - [`parity`], [`reading`]: the parity a wire holds, found by search; weights and rows.
//! - [`odd_set`]: the odd set and the T count.
//! - [`coefficients`], [`new_weights`]: signed sums over all parities; the even rest, found by trying its values.
//! - [`moves`], [`existence`]: legality word for word, and the marks that differ after a move; whether a legal move
//!   exists, and the smallest z, by solving its conditions.
//! - [`writing`], [`trimming`]: what must hold of a written list, and of a trim: demand 3 and the smallest z.
//! - [`text`]: the text form, split at its newlines. [`printing`]: what the program prints for a text.
//! - [`again`]: what must hold of the trim of a trim, and of the reply to a reply.
//! - [`alike`]: whether two lists act alike, by running both. [`same`]: what the program `same` says of two files.
//! - [`faults`]: the table of faults and the order of checks.
//! - [`demands`]: what must hold of any answer, whatever made it.
//! - [`entries`]: the proved library's C functions. [`program`]: the proved programs, run as processes.
//! - [`lent`], [`comparison`]: lent buffers with guards around them; one call, held against the reference.
//! - [`random`]: the generator and the random circuits, weights, odd sets, rows and moves. [`texts`]: texts to try.
//!   [`variations`]: lists to compare with others.
//! - [`fast`], [`published`]: for the benchmark, a trimmer, a replay of logs and runs of two lists built for speed, and
//!   the published search taken literally. The first makes the proved code's own search, and the second its checks, so
//!   comparisons with the library take inputs from them at most.
//!
//! The comparisons stand in `tests/`. With the library made by `rt lib` in `crates/capi`, run
//! `cargo test --release --offline` here. Each group of C functions is compared once its feature is on: `weights`,
//! `moves`, `writing`, `trim`, `text`, `comparing`; `program` for the whole reply to a text, in C and by the program,
//! which `rt run` makes in `crates/trim`; and `same` for the program that compares two files, which `rt run` makes in
//! `crates/same`. Tests named `own_` call no C function: there the reference is held against itself.

pub mod again;
pub mod alike;
pub mod coefficients;
pub mod comparison;
pub mod demands;
pub mod entries;
pub mod existence;
pub mod fast;
pub mod faults;
pub mod gates;
pub mod lent;
pub mod moves;
pub mod new_weights;
pub mod odd_set;
pub mod parity;
pub mod printing;
#[cfg(feature = "program")]
pub mod program;
pub mod published;
pub mod random;
pub mod reading;
pub mod running;
pub mod same;
pub mod text;
pub mod texts;
pub mod trimming;
pub mod variations;
pub mod writing;
