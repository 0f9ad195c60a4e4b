//! Why a script stopped, where in its bytes, and what is open there.

use crate::picture::{Line, Mark, Picture};
use crate::walk::Walk;
use crate::width::{harmless, width};
use std::fmt;
use std::str;
use stewsatchel::{Place, Refusal, Stopped};

/// What a script may leave open.
#[derive(Debug, Clone, Copy, PartialEq, Eq)]
pub enum What {
    String,
    Char,
    Text,
    Raw,
    Comment,
    Interpolation,
}

impl fmt::Display for What {
    fn fmt(&self, f: &mut fmt::Formatter<'_>) -> fmt::Result {
        f.write_str(match self {
            Self::String => "string literal",
            Self::Char => "character literal",
            Self::Text => "text literal",
            Self::Raw => "raw literal",
            Self::Comment => "block comment",
            Self::Interpolation => "interpolation",
        })
    }
}

/// Something that is not closed where a script stops, and where it begins.
#[derive(Debug, Clone, Copy, PartialEq, Eq)]
pub struct Opened {
    pub what: What,
    pub offset: usize,
}

/// A stop, in the bytes of its script and in words.
#[derive(Debug, Clone, PartialEq, Eq)]
pub struct Stop {
    pub number: u32,
    /// As the run counts.
    pub place: Place,
    pub sentence: String,
    /// Where that place is in the script, if the script was read at all.
    pub offset: Option<usize>,
    pub opened: Option<Opened>,
}

impl Stop {
    pub fn of(script: &[u8], stopped: &Stopped) -> Self {
        let found = match (stopped.refusal(), str::from_utf8(script)) {
            (Refusal::TooLong, _) => Found::nowhere("the script is longer than 16,777,216 bytes"),
            (_, Ok(text)) => Found::in_text(text, stopped),
            (_, Err(error)) => Found::at(error.valid_up_to(), "the script is not UTF-8"),
        };
        Self {
            number: stopped.number(),
            place: stopped.place(),
            sentence: found.sentence,
            offset: found.offset,
            opened: found.opened,
        }
    }

    /// The lines of the script where it stops, and where what is open begins.
    pub fn picture(&self, script: &str, columns: usize) -> String {
        let offset = match self.offset {
            Some(offset) => offset,
            None => return String::new(),
        };
        let opened = self.opened.filter(|opened| opened.offset != offset);
        let mut marks: Vec<Mark> = opened.iter().map(Opened::mark).collect();
        marks.push(Mark {
            offset,
            sign: '^',
            label: String::new(),
        });
        let line = Line::at(script, offset).number;
        let note = match line == usize::from(self.place.line) {
            true => String::new(),
            false => format!(
                "  = it is line {} of the file: {}\n",
                line,
                self.why_other()
            ),
        };
        Picture::of(script, &marks, columns) + &note
    }

    /// Why the place is not on the line of the file where the fault is.
    fn why_other(&self) -> &'static str {
        match self.place.line {
            _ if self.number == Refusal::NotUtf8.number() => {
                "such a script is refused at its start"
            }
            u16::MAX => "lines are counted up to 65,535",
            _ => "a new line right behind a quote in a raw literal is not counted",
        }
    }
}

impl Opened {
    fn mark(&self) -> Mark {
        Mark {
            offset: self.offset,
            sign: '-',
            label: format!("the {} begins here", self.what),
        }
    }
}

/// What is found out about a stop.
struct Found {
    sentence: String,
    offset: Option<usize>,
    opened: Option<Opened>,
}

impl Found {
    fn nowhere(sentence: &str) -> Self {
        Self {
            sentence: sentence.into(),
            offset: None,
            opened: None,
        }
    }

    fn at(offset: usize, sentence: impl Into<String>) -> Self {
        Self {
            sentence: sentence.into(),
            offset: Some(offset),
            opened: None,
        }
    }

    fn open(offset: usize, opened: Opened, sentence: String) -> Self {
        Self {
            sentence,
            offset: Some(offset),
            opened: Some(opened),
        }
    }

    fn in_text(text: &str, stopped: &Stopped) -> Self {
        let walk = Walk::past(text, stopped.tokens_before());
        // A text that goes on is refused at the `}` before it.
        let start = walk.next() - usize::from(walk.text().is_some());
        let part = stopped.fault().part.clone().unwrap_or(start..start);
        let about = &text[part.clone()];
        let refusal = stopped.refusal();
        match (refusal, opened(text, &walk)) {
            (Refusal::UnexpectedInput, Some(_)) => {
                Self::at(start, "no quote follows the hashes of a raw literal")
            }
            (Refusal::UnexpectedInput, None) => {
                let ch = character(about);
                Self::at(start, format!("the character {} begins no token", ch))
            }
            (Refusal::MalformedIdentifier, _) => {
                let name = shortened(about);
                let sentence = format!("the name {} has no letter behind its underscores", name);
                Self::at(start, sentence)
            }
            (_, Some(opened)) => {
                let offset = match refusal {
                    Refusal::MalformedEscapeSequence => last(text, part.end),
                    Refusal::OpenAtEnd => cursor(text, opened.what, stopped.place()),
                    _ => start,
                };
                Self::open(offset, opened, sentence(refusal, opened.what, about))
            }
            (_, None) => Self::nowhere(&refusal.to_string()),
        }
    }
}

/// What is wrong with something that is open, or with the part of it that the stop is about.
fn sentence(refusal: Refusal, what: What, about: &str) -> String {
    match refusal {
        Refusal::UnterminatedString => format!("a {} is not closed", what),
        Refusal::MalformedEscapeSequence => {
            format!("the escape sequence {} is malformed", shortened(about))
        }
        Refusal::StringTooLong => format!("a {} is longer than the limit", what),
        Refusal::OpenAtEnd if what == What::Interpolation => {
            "an interpolation is still open at the end of the script".into()
        }
        Refusal::OpenAtEnd => format!("a {} is still open at the end of the script", what),
        _ => refusal.to_string(),
    }
}

/// What begins where a walk ends, or goes on there.
fn opened(text: &str, walk: &Walk) -> Option<Opened> {
    if let Some(offset) = walk.text() {
        let what = What::Text;
        return Some(Opened { what, offset });
    }
    let offset = walk.next();
    let what = match text.as_bytes().get(offset) {
        Some(b'"') => What::String,
        Some(b'\'') => What::Char,
        Some(b'`') => What::Text,
        Some(b'#') => What::Raw,
        Some(b'/') => What::Comment,
        Some(_) => return None,
        None => {
            let what = What::Interpolation;
            return walk.interpolation().map(|offset| Opened { what, offset });
        }
    };
    Some(Opened { what, offset })
}

/// Where the run's cursor is at the end: behind a string or a text, since the end adds a column
/// there, else at the last character, if one is on its line.
fn cursor(text: &str, what: What, place: Place) -> usize {
    match what {
        What::String | What::Text => text.len(),
        _ if place.column == 0 => text.len(),
        _ => last(text, text.len()),
    }
}

/// Where the last character before an offset begins.
fn last(text: &str, end: usize) -> usize {
    let ch = text[..end].chars().next_back();
    end - ch.map_or(0, char::len_utf8)
}

/// The longest part of a script that a sentence has, in characters.
const SHORT: usize = 40;

/// A part of a script in a sentence.
fn shortened(part: &str) -> String {
    match part.char_indices().nth(SHORT) {
        Some((end, _)) => harmless(&part[..end]) + "\u{2026}",
        None => harmless(part),
    }
}

/// A character in a sentence. One that may not be seen, or look like another, has its number.
fn character(part: &str) -> String {
    match part.chars().next() {
        Some(ch) if ch.is_ascii_graphic() => ch.into(),
        Some(ch) if width(ch) == 0 => format!("U+{:04X}", u32::from(ch)),
        Some(ch) => format!("{} (U+{:04X})", harmless(part), u32::from(ch)),
        None => String::new(),
    }
}

#[cfg(test)]
mod tests {
    use super::*;
    use stewsatchel::{Book, Limits, Script};

    const SCRIPT: &str = "let a = #\"b\"c\"# + `d${ if e { \"f\\n\" } else { 'g' } }h${#{i: 1}}`;
/* j /* k */ */ // é l
\"m\\\n n\" + `o``p\n q${`r`}`";

    /// What the run does not count as a column or as a line.
    fn is_counted(script: &str) -> bool {
        !["\\$", "\"\n", "#\n"]
            .iter()
            .any(|&part| script.contains(part))
    }

    /// The run tells the place of a stop, and no offset. What the walk finds is that place.
    #[test]
    fn the_offset_that_is_found_is_the_place_that_the_run_tells() {
        let mut stops = [0; 16];
        let limits = [0, 2].map(|most| Limits::NONE.string_bytes(most));
        for (at, ch) in SCRIPT.char_indices() {
            let (front, back) = SCRIPT.split_at(at);
            for put in "\"'`#{}\\\n/*$~_1a é".chars().map(String::from) {
                for (back, limits) in [(back, &limits[0]), (&back[ch.len_utf8()..], &limits[1])] {
                    let script = [front, &put, back].concat();
                    let read = Script::read(&script, &Book::empty(), limits);
                    let stop = match read {
                        Err(stopped) if is_counted(&script) => {
                            Stop::of(script.as_bytes(), &stopped)
                        }
                        _ => continue,
                    };
                    let offset = stop.offset.expect("a script that is read has a place");
                    let line = Line::at(&script, offset);
                    let found = (line.number, line.column(&script, offset));
                    let told = (stop.place.line.into(), stop.place.column.max(1).into());
                    assert_eq!(found, told, "{:?} in {}", stop, script);
                    stops[stop.number as usize] += 1;
                }
            }
        }
        for number in [4, 5, 6, 7, 8, 11, 12] {
            assert!(stops[number] > 0, "{:?}", stops);
        }
    }
}
