// The copied files, where they expect each other to be. They are not ours to tidy.

#[allow(warnings)]
mod tokenizer;

#[allow(warnings)]
mod types {
    pub mod position;
    pub mod token;

    pub use crate::stand_ins::FloatWrapper;
    pub use position::{Position, Span};
    pub use token::Token;
}
