//! The run over a script and the raw writer, in memory that the caller lends.
//!
//! Nothing is kept and nothing grows: where the memory is too small, the answer is 9 or 10, and it
//! is the caller who looks at the ending. [`Script::read`](crate::Script::read) does both.

pub mod c;

pub use crate::kind::Kind;
pub use crate::place::Place;

use std::ops::Range;

/// How many bytes of `entries` a token takes.
pub const ENTRY: usize = 20;

/// How many bytes a run's answer takes: seven numbers.
pub const ANSWER: usize = 28;

#[derive(Debug, Clone, PartialEq, Eq)]
pub struct Token {
    pub kind: Kind,
    pub place: Place,
    /// Its bytes: among the run's literals where it is one, else in the script.
    pub part: Range<usize>,
}

impl Token {
    /// The token that an entry tells.
    ///
    /// # Panics
    ///
    /// Where the entry is shorter than one, or names no kind. A run writes none such.
    pub(crate) fn of(entry: &[u8]) -> Self {
        let [kind, line, column, offset, length] = numbers(entry);
        Self {
            kind: Kind::from_number(kind).expect("a run lists tokens of known kinds"),
            place: place(line, column),
            part: range(offset, length),
        }
    }
}

#[derive(Debug, Clone, PartialEq, Eq)]
pub enum Ending {
    End(Place),
    Stop(Fault),
}

#[derive(Debug, Clone, PartialEq, Eq)]
pub struct Fault {
    /// The refusal's number in document 01.
    pub number: u32,
    pub place: Place,
    /// The bytes of the script that the fault is about, if it is about some.
    pub part: Option<Range<usize>>,
}

/// What a run left in the memory that it was lent.
#[derive(Debug, Clone, PartialEq, Eq)]
pub struct Run<'a> {
    pub ending: Ending,
    /// The bytes of the literals, one behind the other.
    pub literals: &'a [u8],
    entries: &'a [u8],
}

impl<'a> Run<'a> {
    /// The tokens before the ending.
    pub fn tokens(&self) -> impl ExactSizeIterator<Item = Token> + 'a {
        self.entries.chunks_exact(ENTRY).map(Token::of)
    }

    /// A token's bytes, of a run over this script.
    pub fn bytes(&self, token: &Token, script: &'a [u8]) -> &'a [u8] {
        let part = token.part.clone();
        match token.kind.is_literal() {
            true => &self.literals[part],
            false => &script[part],
        }
    }
}

/// Lists the tokens of a script. A limit of 0 is none.
pub fn run<'a>(
    script: &[u8],
    book: &[u8],
    limit: u64,
    literals: &'a mut [u8],
    entries: &'a mut [u8],
) -> Run<'a> {
    let mut answer = [0; ANSWER];
    c::run(script, book, limit, literals, entries, &mut answer);
    let [number, line, column, listed, used, offset, length] = numbers(&answer);
    let place = place(line, column);
    let part = (length > 0).then(|| range(offset, length));
    Run {
        ending: match number {
            0 => Ending::End(place),
            number => Ending::Stop(Fault {
                number,
                place,
                part,
            }),
        },
        literals: &literals[..used as usize],
        entries: &entries[..ENTRY * listed as usize],
    }
}

/// Writes the raw literal of a body, and answers its bytes; or the refusal's number in document 01.
pub fn raw_write<'a>(body: &[u8], out: &'a mut [u8]) -> Result<&'a [u8], u32> {
    let mut answer = [0; 4];
    match c::raw_write(body, out, &mut answer) {
        0 => Ok(&out[..u32::from_le_bytes(answer) as usize]),
        number => Err(number),
    }
}

/// Numbers as they cross: little endian, four bytes each.
fn numbers<const N: usize>(bytes: &[u8]) -> [u32; N] {
    std::array::from_fn(|n| {
        let number = [0, 1, 2, 3].map(|at| bytes[4 * n + at]);
        u32::from_le_bytes(number)
    })
}

/// No line and no column passes 65,535.
fn place(line: u32, column: u32) -> Place {
    let [line, column] = [line, column].map(|number| number as u16);
    Place { line, column }
}

fn range(offset: u32, length: u32) -> Range<usize> {
    offset as usize..(offset + length) as usize
}
