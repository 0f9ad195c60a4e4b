//! The proved tokenizer for Rust programs: reads a script into tokens, and writes raw literals.
//!
//! A script is either read to its end, or it is an error that says why and where it stopped:
//!
//! ```
#![doc = include_str!("../examples/read.rs")]
//! ```
//!
//! The tokens before a stop are there to be looked at, and cannot be taken for the script's:
//!
//! ```
#![doc = include_str!("../examples/stopped.rs")]
//! ```
//!
//! An office reserves words of its own by a book:
//!
//! ```
#![doc = include_str!("../examples/book.rs")]
//! ```
//!
//! Any remark can be carried in a script by its raw literal:
//!
//! ```
#![doc = include_str!("../examples/remark.rs")]
//! ```
//!
//! The calls on memory that the caller lends are in [`lent`].

mod book;
mod kind;
pub mod lent;
mod place;
mod refusal;
mod room;
mod script;
mod token;
mod writer;

pub use book::{Book, BookError, BookFault, Word};
pub use kind::Kind;
pub use place::Place;
pub use refusal::Refusal;
pub use room::LONGEST;
pub use script::{Fault, Limits, Script, Stopped, Tokens};
pub use token::{Iter, Token};
pub use writer::raw_write;
