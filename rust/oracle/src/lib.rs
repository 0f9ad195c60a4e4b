//! What the Rust answers.
//!
//! `tokenizer.rs`, `types/token.rs` and `types/position.rs` of the source are compiled unchanged
//! over small stand-ins, with overflow checks on but where it is timed. The modules here ask them on
//! plain values: numbers, texts, and places as pairs of line and position.
//!
//! An answer of `None` means that the Rust has none: it panics, or what is asked cannot be put to
//! it, as a scan from inside a character.
//!
//! Where the source was not found, this crate is empty (see `build.rs`).
#![cfg(rhai_source)]

include!(concat!(env!("OUT_DIR"), "/modules.rs"));

mod caught;
mod cursor;
mod scan;
mod smart_string;
mod stand_ins;

pub mod book;
pub mod comment;
pub mod identifier;
pub mod position;
pub mod raw;
pub mod reading;
pub mod run;
pub mod script;
pub mod speed;
pub mod string;
pub mod token;
pub mod words;

// The names that the copied files take from their crate's root.
use smart_string::{new_smart_string, SmartString};
use stand_ins::{engine, func};
use stand_ins::{Engine, Identifier, StaticVec, FLOAT, INT, UNSIGNED_INT};
use types::Position;

pub use scan::{Accepted, Refused};
pub use stand_ins::LexError;

/// Line and position as they are stored: (0, 0) is NONE, (1, 0) is START.
pub type Place = (u16, u16);
