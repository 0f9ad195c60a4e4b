//! The raw writer: bodies of all sorts, damaged ones too, in rooms around the literal's length.
//! What it writes is read back.

use crate::ask::{hold, Fault, Memory, Question, LONGEST};
use crate::book;
use crate::lent::Lent;
use crate::names;
use crate::random::Random;
use crate::report::Report;
use crate::script::RAW;

/// How many bytes `answer` has to have.
const ANSWER: usize = 4;

const UNITS: [&str; 9] = ["a", "é", "€", "😀", "\"", "\"#", "\"##", "#", "\n"];

/// How many hashes a literal of this body needs: one more than ever stand behind a quote.
pub fn hashes(body: &[u8]) -> usize {
    let behind_quotes = body.split(|&byte| byte == b'"').skip(1);
    let run = |part: &[u8]| part.iter().take_while(|&&byte| byte == b'#').count();
    behind_quotes.map(run).max().unwrap_or(0) + 1
}

fn literal(body: &[u8]) -> Vec<u8> {
    let hashes = vec![b'#'; hashes(body)];
    [&hashes, &b"\""[..], body, b"\"", &hashes].concat()
}

pub struct Write<'a> {
    pub body: &'a [u8],
    pub room: usize,
    pub answer: usize,
    pub fill: u8,
}

/// The memory lent to the writer.
#[derive(Default)]
pub struct Pen {
    body: Lent,
    out: Lent,
    answer: Lent,
}

impl Pen {
    /// The number answered, with all that was lent as it has to be.
    pub fn write(&mut self, write: &Write) -> Result<u32, Fault> {
        let returned = names::raw_write(
            self.body.hold(write.body, write.fill),
            self.out.room(write.room, write.fill),
            self.answer.room(write.answer, write.fill),
        );
        hold(
            self.body.still_holds(write.body),
            "the body or what is around it was written",
        )?;
        let literal = literal(write.body);
        let number = refusal(write, literal.len());
        hold(
            returned == number,
            "another number than the writer's rule has",
        )?;
        let text: &[u8] = if number == 0 { &literal } else { b"" };
        hold(self.out.bytes().starts_with(text), "another literal")?;
        hold(
            self.out.is_kept_behind(text.len()),
            "written around the literal",
        )?;
        let told = (text.len() as u32).to_le_bytes();
        let answer: &[u8] = if write.answer < ANSWER { b"" } else { &told };
        hold(self.answer.bytes().starts_with(answer), "another length")?;
        hold(
            self.answer.is_kept_behind(answer.len()),
            "written around the answer",
        )?;
        Ok(number)
    }
}

fn refusal(write: &Write, length: usize) -> u32 {
    if write.body.len() > LONGEST {
        2
    } else if std::str::from_utf8(write.body).is_err() {
        1
    } else if write.answer < ANSWER || write.room < length {
        9
    } else {
        0
    }
}

/// Reads a literal back, which has to list its body and nothing else.
pub fn read_back(memory: &mut Memory, body: &[u8], fill: u8) -> Result<u32, Fault> {
    let literal = literal(body);
    let told = memory.ask(&Question::ample(&literal, book::EMPTY, fill))?;
    let right = (told.number, told.listed, memory.literals(&told)) == (0, 1, body);
    let entry = [RAW, 1, 1, 0, body.len() as u32]
        .map(u32::to_le_bytes)
        .concat();
    hold(
        right && memory.entries(&told) == entry,
        "what was written is not read back",
    )?;
    Ok(told.number)
}

/// One body of up to 24 pieces, in a room around the literal's length.
pub fn case(seed: u64, pen: &mut Pen, memory: &mut Memory, report: &mut Report) {
    let random = &mut Random::new(seed);
    let pieces = random.below(25);
    let body: String = (0..pieces).map(|_| random.one_of(&UNITS)).collect();
    let mut body = body.into_bytes();
    if random.once_in(4) && !body.is_empty() {
        let at = random.below(body.len());
        body[at] = random.byte();
    }
    let length = literal(&body).len();
    let write = Write {
        room: random.one_of(&[0, 1, length / 2, length - 1, length, length + 1, length + 9]),
        answer: random.one_of(&[ANSWER, ANSWER, ANSWER, ANSWER + 3, 3, 0]),
        fill: random.byte(),
        body: &body,
    };
    let given = || {
        format!(
            "room {}, answer {} bytes, each {:02x}",
            write.room, write.answer, write.fill
        )
    };
    match pen.write(&write) {
        Ok(number) => report.count("raw writer", number),
        Err(fault) => report.fault("raw writer", fault, seed, &body, given()),
    }
    if std::str::from_utf8(&body).is_err() {
        return;
    }
    match read_back(memory, &body, write.fill) {
        Ok(number) => report.count("raw writer, read back", number),
        Err(fault) => report.fault("raw writer, read back", fault, seed, &body, given()),
    }
}

#[cfg(test)]
mod tests {
    use super::*;

    #[test]
    fn hashes_are_one_more_than_behind_any_quote() {
        assert_eq!(hashes(b""), 1);
        assert_eq!(hashes(b"##"), 1);
        assert_eq!(hashes(b"a\"b"), 1);
        assert_eq!(hashes(b"\"#\"##a"), 3);
        assert_eq!(literal(b"\"##"), b"###\"\"##\"###");
    }
}
