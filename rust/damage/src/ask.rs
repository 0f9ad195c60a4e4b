//! One question to the run, and what is known of every answer without reading the script a second
//! time.

use crate::book::is_book;
use crate::entries;
use crate::lent::Lent;
use crate::names;

/// The longest script, in bytes.
pub const LONGEST: usize = 16_777_216;

/// How many bytes of `entries` a token takes.
pub const ENTRY: usize = 20;

/// How many bytes `answer` has to have.
pub const ANSWER: usize = 28;

/// What was not kept.
pub type Fault = &'static str;

/// Goes on only if a fact holds.
pub fn hold(is_so: bool, otherwise: Fault) -> Result<(), Fault> {
    if is_so {
        Ok(())
    } else {
        Err(otherwise)
    }
}

#[derive(Clone, Copy)]
pub struct Question<'a> {
    pub script: &'a [u8],
    pub book: &'a [u8],
    pub limit: u64,
    /// The bytes lent, each.
    pub literals: usize,
    pub entries: usize,
    pub answer: usize,
    /// What they hold before, and what stands around everything that is lent.
    pub fill: u8,
}

impl<'a> Question<'a> {
    /// No limit, and room for what any script of this length lists: a token takes a byte of it at
    /// least, and a literal has no more bytes than it takes.
    pub fn ample(script: &'a [u8], book: &'a [u8], fill: u8) -> Self {
        Self {
            script,
            book,
            limit: 0,
            literals: script.len(),
            entries: ENTRY * script.len(),
            answer: ANSWER,
            fill,
        }
    }

    /// The refusal that comes before any token, or 0.
    fn refusal(&self) -> u32 {
        if self.script.len() > LONGEST {
            2
        } else if std::str::from_utf8(self.script).is_err() {
            1
        } else if !is_book(self.book) {
            14
        } else {
            0
        }
    }

    /// Whether a run may end with this number.
    fn allows(&self, number: u32) -> bool {
        match number {
            0 | 4..=6 | 8 | 11..=13 => true,
            7 => self.limit > 0,
            9 => self.literals < self.script.len(),
            10 => self.entries / ENTRY < self.script.len(),
            _ => false,
        }
    }
}

/// The seven numbers of an answer.
#[derive(Debug, Clone, Copy, Default, PartialEq, Eq)]
pub struct Told {
    pub number: u32,
    pub place: (u32, u32),
    pub listed: usize,
    pub used: usize,
    pub part: (usize, usize),
}

impl Told {
    fn of(answer: &[u8]) -> Self {
        let [number, line, column, listed, used, offset, length] = numbers(answer);
        Self {
            number,
            place: (line, column),
            listed: listed as usize,
            used: used as usize,
            part: (offset as usize, length as usize),
        }
    }
}

/// Numbers as they cross: little endian, four bytes each.
pub fn numbers<const N: usize>(bytes: &[u8]) -> [u32; N] {
    std::array::from_fn(|n| u32::from_le_bytes([0, 1, 2, 3].map(|at| bytes[4 * n + at])))
}

/// The memory lent to the run, as it is after the last question.
#[derive(Default)]
pub struct Memory {
    script: Lent,
    book: Lent,
    literals: Lent,
    entries: Lent,
    answer: Lent,
}

impl Memory {
    pub fn ask(&mut self, question: &Question) -> Result<Told, Fault> {
        let fill = question.fill;
        let returned = names::run(
            self.script.hold(question.script, fill),
            self.book.hold(question.book, fill),
            question.limit,
            self.literals.room(question.literals, fill),
            self.entries.room(question.entries, fill),
            self.answer.room(question.answer, fill),
        );
        hold(
            self.script.still_holds(question.script),
            "the script or what is around it was written",
        )?;
        hold(
            self.book.still_holds(question.book),
            "the book or what is around it was written",
        )?;
        if question.answer < ANSWER {
            return self.short(question, returned);
        }
        let told = Told::of(self.answer.bytes());
        hold(
            told.number == returned,
            "the number returned is not the answer's",
        )?;
        self.written(question, &told)?;
        self.ending(question, &told)?;
        entries::check(question, self.entries(&told), self.literals(&told))?;
        Ok(told)
    }

    /// The entries listed.
    pub fn entries(&self, told: &Told) -> &[u8] {
        &self.entries.bytes()[..ENTRY * told.listed]
    }

    /// The literal bytes used.
    pub fn literals(&self, told: &Told) -> &[u8] {
        &self.literals.bytes()[..told.used]
    }

    /// An answer too short: nothing is written anywhere.
    fn short(&self, question: &Question, returned: u32) -> Result<Told, Fault> {
        let lent = [&self.literals, &self.entries, &self.answer];
        hold(
            lent.iter().all(|lent| lent.is_kept_behind(0)),
            "written although the answer is short",
        )?;
        let refusal = question.refusal();
        let right = if refusal == 0 { 9 } else { refusal };
        hold(returned == right, "another number for a short answer")?;
        Ok(Told {
            number: returned,
            ..Told::default()
        })
    }

    /// Only what is listed, used and answered is written.
    fn written(&self, question: &Question, told: &Told) -> Result<(), Fault> {
        hold(
            told.listed <= question.entries / ENTRY,
            "more entries than there is room for",
        )?;
        hold(
            told.used <= question.literals,
            "more literal bytes than there is room for",
        )?;
        hold(
            self.answer.is_kept_behind(ANSWER),
            "written around the answer",
        )?;
        hold(
            self.entries.is_kept_behind(ENTRY * told.listed),
            "written around the entries listed",
        )?;
        hold(
            self.literals.is_kept_behind(told.used),
            "written around the literal bytes used",
        )
    }

    /// The number, its place and its part of the script.
    fn ending(&self, question: &Question, told: &Told) -> Result<(), Fault> {
        let refusal = question.refusal();
        if refusal != 0 {
            let right = Told {
                number: refusal,
                place: (1, 0),
                ..Told::default()
            };
            return hold(*told == right, "1, 2 or 14 not as document 01 has it");
        }
        hold(
            question.allows(told.number),
            "a number that this run may not end with",
        )?;
        let is_full = told.listed == question.entries / ENTRY;
        hold(told.number != 10 || is_full, "10 with an entry left")?;
        let (line, column) = told.place;
        hold(
            (1..=65_535).contains(&line) && column <= 65_535,
            "the ending's place is none",
        )?;
        let (offset, length) = told.part;
        hold(
            offset + length <= question.script.len(),
            "the fault's part is not in the script",
        )?;
        let has_part = matches!(told.number, 5 | 6 | 8);
        hold(
            has_part == (length > 0),
            "a part where the fault has none, or none where it has one",
        )
    }
}
