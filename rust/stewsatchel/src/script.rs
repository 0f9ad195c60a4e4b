//! A script read whole, or where it stopped.

use crate::book::Book;
use crate::lent::{self, Ending, ENTRY};
use crate::place::Place;
use crate::refusal::Refusal;
use crate::room::Room;
use crate::token::{Iter, List, Token};
use std::error::Error;
use std::fmt;
use std::ops::Range;

/// The way from a script's text to its tokens.
#[derive(Debug)]
pub enum Script {}

impl Script {
    /// Reads a script.
    ///
    /// Only a script that was read to its end gives [`Tokens`]. One that stopped is an error, which
    /// holds the tokens before the stop. Memory is taken as the script needs it: the refusals for
    /// too little of it, 9 and 10, are never answered.
    ///
    /// # Panics
    ///
    /// Where the archive answers a number that this crate does not know, which is where the two are
    /// not of one version.
    pub fn read<'a, T>(text: &'a T, book: &Book, limits: &Limits) -> Result<Tokens<'a>, Stopped<'a>>
    where
        T: AsRef<[u8]> + ?Sized,
    {
        let script = text.as_ref();
        let mut room = Room::guess(script.len());
        loop {
            let (list, ending) = run(script, book, limits, room);
            let fault = match ending {
                Ending::End(end) => return Ok(Tokens { list, end }),
                Ending::Stop(fault) => Fault::of(fault),
            };
            room = match room.grown(fault.refusal) {
                Some(more) => more,
                None => return Err(Stopped { list, fault }),
            };
        }
    }
}

/// What a run lists in so much memory.
fn run<'a>(script: &'a [u8], book: &Book, limits: &Limits, room: Room) -> (List<'a>, Ending) {
    let mut literals = vec![0; room.literals];
    let mut entries = vec![0; ENTRY * room.entries];
    let (book, limit) = (book.as_bytes(), limits.string_bytes);
    let run = lent::run(script, book, limit, &mut literals, &mut entries);
    let (used, listed) = (run.literals.len(), run.tokens().len());
    let ending = run.ending;
    for (memory, used) in [(&mut literals, used), (&mut entries, ENTRY * listed)] {
        memory.truncate(used);
        memory.shrink_to_fit();
    }
    let list = List {
        script,
        literals,
        entries,
    };
    (list, ending)
}

/// What a script may not pass. There are no limits where none is set.
#[derive(Debug, Clone, Copy, PartialEq, Eq, Default)]
pub struct Limits {
    string_bytes: u64,
}

impl Limits {
    pub const NONE: Self = Self { string_bytes: 0 };

    /// The most bytes that a literal may have. 0 is no limit.
    #[must_use]
    pub fn string_bytes(self, most: u64) -> Self {
        Self { string_bytes: most }
    }
}

/// The tokens of a whole script.
#[derive(Debug, Clone)]
pub struct Tokens<'a> {
    list: List<'a>,
    end: Place,
}

impl Tokens<'_> {
    pub fn iter(&self) -> Iter<'_> {
        self.list.iter()
    }

    pub fn len(&self) -> usize {
        self.list.len()
    }

    pub fn is_empty(&self) -> bool {
        self.len() == 0
    }

    /// Where the script ends.
    pub fn end(&self) -> Place {
        self.end
    }
}

impl<'t> IntoIterator for &'t Tokens<'_> {
    type Item = Token<'t>;
    type IntoIter = Iter<'t>;

    fn into_iter(self) -> Iter<'t> {
        self.iter()
    }
}

/// A script that was not read to its end, and what was read of it.
#[derive(Debug, Clone)]
#[must_use = "a script that stopped is not whole"]
pub struct Stopped<'a> {
    list: List<'a>,
    fault: Fault,
}

impl<'a> Stopped<'a> {
    pub fn fault(&self) -> &Fault {
        &self.fault
    }

    pub fn refusal(&self) -> Refusal {
        self.fault.refusal
    }

    /// The refusal's number.
    pub fn number(&self) -> u32 {
        self.fault.refusal.number()
    }

    pub fn place(&self) -> Place {
        self.fault.place
    }

    /// The bytes of the script that the fault is about, if it is about some: a wrong escape, say.
    pub fn part(&self) -> Option<&'a [u8]> {
        let part = self.fault.part.clone()?;
        self.list.script.get(part)
    }

    /// The tokens before the stop. They are not the script's: what follows them is missing.
    pub fn tokens_before(&self) -> Iter<'_> {
        self.list.iter()
    }
}

impl fmt::Display for Stopped<'_> {
    fn fmt(&self, f: &mut fmt::Formatter<'_>) -> fmt::Result {
        self.fault.fmt(f)
    }
}

impl Error for Stopped<'_> {}

/// Why and where a script stopped. It borrows nothing, so that it can be handed on.
#[derive(Debug, Clone, PartialEq, Eq)]
#[non_exhaustive]
pub struct Fault {
    pub refusal: Refusal,
    pub place: Place,
    /// The part of the script that the fault is about, if it is about one.
    pub part: Option<Range<usize>>,
}

impl Fault {
    fn of(fault: lent::Fault) -> Self {
        let lent::Fault {
            number,
            place,
            part,
        } = fault;
        let refusal = Refusal::from_number(number);
        Self {
            refusal: refusal.expect("a run stops with a known number"),
            place,
            part,
        }
    }
}

impl From<Stopped<'_>> for Fault {
    fn from(stopped: Stopped<'_>) -> Self {
        stopped.fault
    }
}

impl fmt::Display for Fault {
    fn fmt(&self, f: &mut fmt::Formatter<'_>) -> fmt::Result {
        let number = self.refusal.number();
        write!(f, "stop {} at {}: {}", number, self.place, self.refusal)
    }
}

impl Error for Fault {}
