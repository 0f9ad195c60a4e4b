//! What all sides answer about a script, compared before it is timed.

use crate::hostile::Source;
use crate::run::{Runs, EMPTY, ENTRY};
use oracle::script::{Bounds, Ending, Entry, Kind, Script};
use oracle::speed::{self, Seen};
use std::str;

/// The longest script that is held to the oracle's run, which keeps every literal. A longer one is
/// held to the plain lexer, which was held to the oracle on the shorter ones.
const HELD: usize = 1 << 20;

type Held = Result<(), String>;

impl Runs {
    /// Compares ours with the plain lexer, with the oracle's run under both books, and with the
    /// source's own tokens.
    pub fn check(&mut self, script: &[u8], source: Source) -> Held {
        if script.len() <= HELD {
            for book in [self.book.clone(), EMPTY.into()] {
                self.ours.ours(script, &book);
                self.check_oracle(script, &book)?;
            }
        }
        self.other.plain(script);
        self.ours.ours(script, &EMPTY);
        if self.ours.told() != self.other.told() {
            return Err("ours and the plain lexer differ".into());
        }
        self.check_source(script, source)
    }

    /// Holds what ours told to the oracle's run by document 01's rules.
    fn check_oracle(&self, script: &[u8], book: &[u8]) -> Held {
        let left = Script::read(script, book).cut(Bounds {
            limit: 0,
            literals: self.ours.literals.len(),
            entries: self.ours.entries.len() / ENTRY,
        });
        let (_, entries, literals) = self.ours.told();
        let told = [0, 1, 2, 5, 6].map(|at| self.ours.number(at));
        let listed = left.entries.iter().flat_map(crossing).flatten();
        let is_same = listed.eq(entries.iter().copied())
            && left.literals == literals
            && ending(left.ending) == told;
        match is_same {
            true => Ok(()),
            false => Err("ours and the oracle's run differ".into()),
        }
    }

    /// Holds the source's own tokens to ours: how many, where, and their texts.
    fn check_source(&self, script: &[u8], source: Source) -> Held {
        let text = str::from_utf8(script).map_err(|why| why.to_string())?;
        match source {
            Source::Other => Ok(()),
            Source::Refuses => {
                let mut is_fault = false;
                let count = speed::seen(text, true, |seen| is_fault = seen.is_fault);
                match count == 1 && is_fault {
                    true => Ok(()),
                    false => Err("the source does not refuse it".into()),
                }
            }
            Source::Same => [true, false]
                .into_iter()
                .try_for_each(|comments| self.check_tokens(text, comments)),
        }
    }

    /// A fault is one token more than ours lists. Without comments, ours are passed over.
    fn check_tokens(&self, text: &str, comments: bool) -> Held {
        let mut at = 0;
        let mut wrong = None;
        speed::seen(text, comments, |seen| {
            at = self.passing(at, comments);
            if wrong.is_none() && !self.is_same(text.as_bytes(), at, seen) {
                wrong = Some(format!("entry {} is not the source's {:?}", at, seen));
            }
            at += 1;
        });
        let fault = usize::from(self.ours.number(0) != 0);
        match wrong {
            Some(wrong) => Err(wrong),
            None if self.passing(at, comments) == self.ours.listed() + fault => Ok(()),
            None => Err(format!("the source lists {} tokens", at)),
        }
    }

    /// The first entry from there on that is asked for.
    fn passing(&self, at: usize, comments: bool) -> usize {
        let is_passed = |&at: &usize| {
            let is_comment =
                at < self.ours.listed() && self.ours.entry(at)[0] == Kind::Comment as usize;
            !comments && is_comment
        };
        at + (at..).take_while(is_passed).count()
    }

    fn is_same(&self, script: &[u8], at: usize, seen: Seen) -> bool {
        if at >= self.ours.listed() {
            return at == self.ours.listed() && seen.is_fault;
        }
        let [kind, line, column, offset, length] = self.ours.entry(at);
        let is_literal = (Kind::String as usize..=Kind::Char as usize).contains(&kind);
        let bytes = match is_literal {
            true => &self.ours.literals[..],
            false => script,
        };
        // A resumed piece of text stands at the `}` before it. The source tells its first character.
        let is_resumed = at > 0 && is_literal && self.ours.entry(at - 1)[1..3] == [line, column];
        let place = (line as u16, column as u16);
        let is_text = |text: &str| text.as_bytes() == &bytes[offset..offset + length];
        (is_resumed || place == seen.place) && seen.text.map_or(!is_literal, is_text)
    }
}

/// An entry as it crosses.
fn crossing(entry: &Entry) -> [[u8; 4]; 5] {
    let (line, column) = entry.place;
    let (offset, length) = (entry.part.offset as u32, entry.part.length as u32);
    let numbers = [
        entry.kind as u32,
        line.into(),
        column.into(),
        offset,
        length,
    ];
    numbers.map(u32::to_le_bytes)
}

/// Number, line, column, offset and length.
fn ending(ending: Ending) -> [usize; 5] {
    let (line, column) = ending.place;
    let (offset, length) = (ending.part.offset, ending.part.length);
    [
        ending.number as usize,
        line.into(),
        column.into(),
        offset,
        length,
    ]
}

#[cfg(test)]
mod tests {
    use super::*;
    use compare::random::Random;
    use compare::scripts::random_script;

    /// The plain lexer has the rules of document 01, the faults too.
    #[test]
    fn random_scripts_are_listed_the_same() {
        let mut random = Random::new(1);
        let mut runs = Runs::new(4096);
        for _ in 0..20_000 {
            let script = random_script(&mut random, 40);
            let damaged = random.damaged(script.as_bytes());
            for script in [script.as_bytes(), &damaged] {
                if str::from_utf8(script).is_ok() {
                    let held = runs.check(script, Source::Other);
                    assert_eq!(held, Ok(()), "{}", script.escape_ascii());
                }
            }
        }
    }
}
