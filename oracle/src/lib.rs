//! The original Rust of the IronFix journal, asked by framed requests. README.md has the protocol.
//!
//! The original's `crc32.rs`, `format.rs` and `stored.rs` are compiled unchanged, from where `build.rs` finds them. Behind the text of
//! `format.rs` one child module is declared, `inner`, which asks what that file keeps private. What they lean on and the sources lack
//! stands in `standins`. Nothing is guessed: a request or an answer of the original that isn't known is an error.

pub mod check;
pub mod checking;
pub mod comparison;
mod cursors;
pub mod direct;
mod entries;
pub mod edges;
pub mod every;
pub mod frames;
pub mod generate;
mod layout;
pub mod losses;
pub mod operations;
mod pieces;
pub mod port;
mod refusals;
mod reread;
pub mod restated;
pub mod samples;
mod scan;
pub mod shrink;
// The original is compiled whole, though not every part of it is asked.
#[allow(dead_code)]
mod standins;

// The original names these crates; the stand-ins take their place.
extern crate self as bytes;
extern crate self as ironfix_core;
pub(crate) use standins::bytes::{Buf, Bytes};
pub(crate) use standins::{error, message};

include!(concat!(env!("OUT_DIR"), "/original.rs"));
