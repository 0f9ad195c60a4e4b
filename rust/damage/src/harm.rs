//! Scripts as they were made, and damaged: cut, spliced, changed, with bad books, and with too
//! little of what is lent.

use crate::ask::{hold, numbers, Fault, Memory, Question, Told, ANSWER, ENTRY};
use crate::book::random_book;
use crate::entries::is_literal;
use crate::random::Random;
use crate::report::{given, Report};
use crate::script::{random_script, Script};

/// The most tokens that a script begins.
const TOKENS: usize = 40;

/// Bytes that mean something to a scanner.
const MEANT: &[u8] = b"\"'`$\\#{}/*\n\r!_ x0~";

/// One script and its damage, all of which the seed decides.
pub fn case(seed: u64, memory: &mut Memory, report: &mut Report) {
    let mut random = Random::new(seed);
    let (words, book) = random_book(&mut random);
    let script = random_script(&mut random, &words, TOKENS);
    let fill = random.byte();
    let mut case = Case {
        seed,
        random,
        book: &book,
        script: &script,
        fill,
        memory,
        report,
    };
    if seed % 8 == 0 {
        case.whole();
    }
    case.damage();
}

struct Case<'a> {
    seed: u64,
    random: Random,
    book: &'a [u8],
    script: &'a Script,
    fill: u8,
    memory: &'a mut Memory,
    report: &'a mut Report,
}

impl Case<'_> {
    fn damage(&mut self) {
        match self.random.below(11) {
            0 | 1 => self.cut(),
            2 => self.text("spliced", Self::spliced),
            3 => self.text("bytes changed", Self::changed),
            4 => self.text("a part doubled", Self::doubled),
            5 => self.text("a part dropped", Self::dropped),
            6 => self.text("texts opened", Self::deeper),
            7 => self.text("several of these", Self::several),
            8 => self.bad_book(),
            9 => self.small(),
            _ => self.around(),
        }
    }

    /// Asks, holds the answer to what is known of it beside, and counts it.
    fn ask(
        &mut self,
        done: &'static str,
        question: &Question,
        known: impl Fn(&Memory, &Told) -> Result<(), Fault>,
    ) {
        let told = self.memory.ask(question);
        let held = told.and_then(|told| known(self.memory, &told).map(|()| told.number));
        self.count(done, question, held);
    }

    /// Asks, counts the answer, and keeps what was left. A fault leaves nothing.
    fn left_by(&mut self, done: &'static str, question: &Question) -> Option<Left> {
        let told = self.memory.ask(question);
        let left = told.map(|told| Left::of(self.memory, told)).ok();
        self.count(done, question, told.map(|told| told.number));
        left
    }

    fn count(&mut self, done: &'static str, question: &Question, held: Result<u32, Fault>) {
        match held {
            Ok(number) => self.report.count(done, number),
            Err(fault) => {
                let input = smallest(self.memory, question, fault);
                let given = given(question);
                self.report.fault(done, fault, self.seed, &input, given);
            }
        }
    }

    /// The script as it was made: it ends, and every token is listed.
    fn whole(&mut self) {
        let script = self.script;
        let question = Question::ample(&script.text, self.book, self.fill);
        self.ask("none", &question, |memory, told| {
            hold(told.number == 0, "a script without a fault stopped")?;
            hold(
                told.listed == script.tokens.len(),
                "another number of tokens",
            )?;
            lists(memory, told, script, told.listed)
        });
    }

    /// Cut, half of the time where something is open. It then has to stop; what ended before is
    /// listed.
    fn cut(&mut self) {
        let script = self.script;
        let mut at = self.random.below(script.text.len() + 1);
        if self.random.once_in(2) {
            let open = script.stops[at..].iter().position(|&stops| stops);
            at += open.unwrap_or(0);
        }
        let question = Question::ample(&script.text[..at], self.book, self.fill);
        let is_open = script.stops[at];
        let before = script.tokens.iter().filter(|token| token.end < at).count();
        let done = if is_open {
            "cut inside a token"
        } else {
            "cut elsewhere"
        };
        self.ask(done, &question, |memory, told| {
            hold(
                !is_open || told.number != 0,
                "cut inside a token, and it ended",
            )?;
            if told.number == 1 {
                return Ok(());
            }
            hold(
                told.listed >= before,
                "a token before the cut is not listed",
            )?;
            lists(memory, told, script, before)
        });
    }

    /// The script with a damage done to its bytes.
    fn text(&mut self, done: &'static str, damage: fn(&mut Self, Vec<u8>) -> Vec<u8>) {
        let text = damage(self, self.script.text.clone());
        let question = Question::ample(&text, self.book, self.fill);
        self.ask(done, &question, |_, _| Ok(()));
    }

    /// The front of it, a part of another one, and its back.
    fn spliced(&mut self, text: Vec<u8>) -> Vec<u8> {
        let other = random_script(&mut self.random, &[], TOKENS).text;
        let (begin, end) = self.random.part(&other);
        let (front, back) = self.random.part(&text);
        [&text[..front], &other[begin..end], &text[back..]].concat()
    }

    /// Some characters changed, or put in.
    fn changed(&mut self, mut text: Vec<u8>) -> Vec<u8> {
        for _ in 0..self.random.below(4) + 1 {
            let at = self.random.place(&text);
            let end = if self.random.once_in(3) {
                at
            } else {
                behind(&text, at)
            };
            let byte = if self.random.once_in(16) {
                self.random.byte()
            } else {
                self.random.one_of(MEANT)
            };
            text.splice(at..end, [byte]);
        }
        text
    }

    /// Texts opened in it, up to more than may be open.
    fn deeper(&mut self, text: Vec<u8>) -> Vec<u8> {
        let at = self.random.place(&text);
        let opened = b"`m ${".repeat(self.random.below(20) + 1);
        [&text[..at], &opened, &text[at..]].concat()
    }

    fn doubled(&mut self, text: Vec<u8>) -> Vec<u8> {
        let (begin, end) = self.random.part(&text);
        [&text[..end], &text[begin..]].concat()
    }

    fn dropped(&mut self, text: Vec<u8>) -> Vec<u8> {
        let (begin, end) = self.random.part(&text);
        [&text[..begin], &text[end..]].concat()
    }

    fn several(&mut self, mut text: Vec<u8>) -> Vec<u8> {
        let damages = [
            Self::spliced,
            Self::changed,
            Self::doubled,
            Self::dropped,
            Self::deeper,
        ];
        for _ in 0..self.random.below(3) + 2 {
            text = self.random.one_of(&damages)(self, text);
        }
        text
    }

    fn bad_book(&mut self) {
        let mut book = self.book.to_vec();
        match self.random.below(5) {
            0 => book.truncate(self.random.below(book.len() + 1)),
            1 => book.push(self.random.byte()),
            2 => book = self.dropped(book),
            3 => book = self.doubled(book),
            _ => {
                let at = self.random.below(book.len());
                book[at] = self
                    .random
                    .one_of(&[0, 1, 2, 4, 11, b'A', b'z', 0x80, 0xff]);
            }
        }
        let question = Question::ample(&self.script.text, &book, self.fill);
        self.ask("book broken", &question, |_, _| Ok(()));
    }

    /// Limits, rooms and answers that are too small, none, or odd. They only cut what there is with
    /// enough of all.
    fn small(&mut self) {
        let text = if self.random.once_in(2) {
            self.changed(self.script.text.clone())
        } else {
            self.script.text.clone()
        };
        let ample = Question::ample(&text, self.book, self.fill);
        let enough = match self.left_by("rooms, with enough", &ample) {
            Some(left) => left,
            None => return,
        };
        let random = &mut self.random;
        let mut question = Question {
            limit: random.one_of(&[0, 0, 0, 1, 2, 5, 9, u64::MAX, 1 << 32 | 1]),
            answer: random.one_of(&[ANSWER, ANSWER, ANSWER, ANSWER + 1, 40, 27, 4, 1, 0]),
            ..ample
        };
        if random.once_in(2) {
            question.literals = random.below(enough.literals.len() + 2);
        }
        if random.once_in(2) {
            question.entries = random.below(enough.entries.len() + ENTRY);
        }
        self.ask("rooms, too small or odd", &question, |memory, told| {
            hold(
                question.answer < ANSWER || enough.is_cut_by(memory, told),
                "not a front of what there is with enough",
            )
        });
    }

    /// The same script, with other bytes around and in all that is lent: they change nothing.
    fn around(&mut self) {
        let text = self.changed(self.script.text.clone());
        let question = Question::ample(&text, self.book, self.fill);
        let first = match self.left_by("asked a first time", &question) {
            Some(left) => left,
            None => return,
        };
        let again = Question {
            fill: self
                .random
                .one_of(&[b'"', b'a', b'#', b'/', b'`', 0x80, !self.fill]),
            ..question
        };
        self.ask("asked a second time", &again, |memory, told| {
            let second = Left::of(memory, *told);
            hold(first == second, "another answer with other bytes around")
        });
    }
}

/// Where the character at a place ends.
fn behind(text: &[u8], at: usize) -> usize {
    let goes_on = |byte: &&u8| **byte & 0xc0 == 0x80;
    let more = text.iter().skip(at + 1).take_while(goes_on).count();
    text.len().min(at + 1 + more)
}

/// Whether the first tokens listed are those that the script was made of.
fn lists(memory: &Memory, told: &Told, script: &Script, count: usize) -> Result<(), Fault> {
    let entries = memory.entries(told).chunks_exact(ENTRY);
    for (entry, token) in entries.zip(&script.tokens[..count]) {
        let [kind, _, _, offset, length] = numbers(entry);
        let (offset, length) = (offset as usize, length as usize);
        let of: &[u8] = if is_literal(kind) {
            memory.literals(told)
        } else {
            &script.text
        };
        let is_same = kind == token.kind && of[offset..offset + length] == token.bytes[..];
        hold(is_same, "another token than the script was made of")?;
    }
    Ok(())
}

/// What a run left.
#[derive(PartialEq)]
struct Left {
    told: Told,
    entries: Vec<u8>,
    literals: Vec<u8>,
}

impl Left {
    fn of(memory: &Memory, told: Told) -> Self {
        Self {
            told,
            entries: memory.entries(&told).to_vec(),
            literals: memory.literals(&told).to_vec(),
        }
    }

    /// Whether another run left a front of this, and stopped for the room or the limit; or left the
    /// same.
    fn is_cut_by(&self, memory: &Memory, told: &Told) -> bool {
        let is_same = self.told == *told;
        let is_front = self.entries.starts_with(memory.entries(told));
        let is_packed = self.literals.starts_with(memory.literals(told));
        is_front && is_packed && (is_same || matches!(told.number, 7 | 9 | 10))
    }
}

/// The script with all taken out that the fault does not need. One that only its making tells stays
/// as it is.
fn smallest(memory: &mut Memory, question: &Question, fault: Fault) -> Vec<u8> {
    let mut text = question.script.to_vec();
    let mut step = text.len();
    while step > 0 {
        text = without(memory, question, fault, text, step);
        step /= 2;
    }
    text
}

/// The script without each part of so many bytes that the fault does not need.
fn without(
    memory: &mut Memory,
    question: &Question,
    fault: Fault,
    mut text: Vec<u8>,
    step: usize,
) -> Vec<u8> {
    let mut at = 0;
    while at + step <= text.len() {
        let shorter = [&text[..at], &text[at + step..]].concat();
        let question = Question {
            script: &shorter,
            ..*question
        };
        if memory.ask(&question) == Err(fault) {
            text = shorter;
        } else {
            at += step;
        }
    }
    text
}
