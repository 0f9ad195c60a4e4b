//! The largest of each kind, and one more.

use crate::ask::{hold, numbers, Fault, Memory, Question, Told, ANSWER, ENTRY, LONGEST};
use crate::book::{book_of, is_book, EMPTY};
use crate::report::Report;
use crate::writer::{Pen, Write};

const FILL: u8 = 0xa7;

/// A script, the room that it is read in, and what has to be told.
struct Large {
    script: Vec<u8>,
    listed: usize,
    used: usize,
    number: u32,
}

/// A front, a byte as often as it takes, and a back: a script of the length given.
fn script(front: &str, byte: u8, back: &str, length: usize) -> Vec<u8> {
    let middle = vec![byte; length - front.len() - back.len()];
    [front.as_bytes(), &middle, back.as_bytes()].concat()
}

pub fn all(pen: &mut Pen, memory: &mut Memory, report: &mut Report) {
    scripts(memory, report);
    open_scripts(memory, report);
    books(memory, report);
    places(memory, report);
    levels(memory, report);
    written(pen, report);
}

fn ask(
    memory: &mut Memory,
    report: &mut Report,
    done: &'static str,
    question: &Question,
    known: impl Fn(&Memory, &Told) -> Result<(), Fault>,
) {
    let told = memory.ask(question);
    match told.and_then(|told| known(memory, &told).map(|()| told.number)) {
        Ok(number) => report.count(done, number),
        Err(fault) => {
            let front = &question.script[..question.script.len().min(64)];
            let given = format!("a script of {} bytes that begins so", question.script.len());
            report.fault(done, fault, 0, front, given);
        }
    }
}

/// Scripts of 16,777,216 bytes: white space, one token, and as many tokens. One byte more is too
/// many.
fn scripts(memory: &mut Memory, report: &mut Report) {
    // how it begins, what it is made of, how it ends; the tokens listed
    let kinds: [(&str, u8, &str, usize); 9] = [
        ("", b' ', "", 0),
        ("", b'\n', "", 0),
        ("#\"", b'x', "\"#", 1),
        ("\"", b'x', "\"", 1),
        ("`", b'\n', "`", 1),
        ("/*", b'x', "*/", 1),
        ("//", b'x', "", 1),
        ("", b'x', "", 1),
        ("", b';', "", LONGEST),
    ];
    for (front, byte, back, listed) in kinds {
        let mut large = Large {
            script: script(front, byte, back, LONGEST),
            listed,
            used: 0,
            number: 0,
        };
        if matches!(front, "#\"" | "\"" | "`") {
            large.used = LONGEST - front.len() - back.len();
        }
        longest(memory, report, &large);
        too_long(memory, report, script(front, byte, back, LONGEST + 1));
    }
}

/// The same length, open at the end.
fn open_scripts(memory: &mut Memory, report: &mut Report) {
    for (front, number) in [("#\"", 11), ("\"", 4), ("`", 11), ("/*", 11), ("'", 4)] {
        let large = Large {
            script: script(front, b'x', "", LONGEST),
            listed: 0,
            used: 0,
            number,
        };
        longest(memory, report, &large);
    }
}

/// With just the room that it needs, and for a literal with a byte less.
fn longest(memory: &mut Memory, report: &mut Report, large: &Large) {
    let question = Question {
        literals: if large.number == 0 {
            large.used
        } else {
            LONGEST
        },
        entries: ENTRY * large.listed.max(1),
        ..Question::ample(&large.script, EMPTY, FILL)
    };
    let right = (large.number, large.listed, large.used);
    ask(memory, report, "16,777,216 bytes", &question, |_, told| {
        hold(
            (told.number, told.listed, told.used) == right,
            "another answer to the longest script",
        )
    });
    if large.used == 0 {
        return;
    }
    let narrow = Question {
        literals: large.used - 1,
        ..question
    };
    ask(
        memory,
        report,
        "16,777,216 bytes, room for one fewer",
        &narrow,
        |_, told| {
            hold(
                (told.number, told.listed, told.used) == (9, 0, 0),
                "not 9 where the room is a byte short",
            )
        },
    );
}

fn too_long(memory: &mut Memory, report: &mut Report, script: Vec<u8>) {
    let question = Question {
        literals: 64,
        entries: 3 * ENTRY,
        ..Question::ample(&script, EMPTY, FILL)
    };
    ask(memory, report, "16,777,217 bytes", &question, |_, told| {
        hold(told.number == 2, "not 2 for a script too long")
    });
    let short = Question {
        answer: ANSWER - 1,
        ..question
    };
    ask(
        memory,
        report,
        "16,777,217 bytes, short answer",
        &short,
        |_, _| Ok(()),
    );
}

/// A script of all words of a book of 512 words, of ten letters each, and the same with a word
/// more.
fn books(memory: &mut Memory, report: &mut Report) {
    let words: Vec<String> = (0..513).map(|word| format!("word{:06}", word)).collect();
    let text = words[..512].join(" ");
    for (count, number) in [(512, 0), (513, 14)] {
        let book = book_of(&words[..count], 3);
        let done = if is_book(&book) {
            "book of 512 words"
        } else {
            "book of 513 words"
        };
        let question = Question::ample(text.as_bytes(), &book, FILL);
        ask(memory, report, done, &question, |memory, told| {
            let entries = memory.entries(told).chunks_exact(ENTRY);
            let reserved = entries.filter(|entry| numbers::<5>(entry)[0] == 11).count();
            let right = if number == 0 { 512 } else { 0 };
            hold(
                (told.number, reserved) == (number, right),
                "another answer with a full book",
            )
        });
    }
}

/// A name at the last line or column that there is, and two further on, where places stay.
fn places(memory: &mut Memory, report: &mut Report) {
    for (byte, before, place) in [
        ("\n", 65_534, (65_535, 1)),
        ("\n", 65_535, (65_535, 1)),
        ("\n", 65_536, (65_535, 1)),
        (" ", 65_533, (1, 65_534)),
        (" ", 65_534, (1, 65_535)),
        (" ", 65_535, (1, 65_535)),
        (" ", 65_536, (1, 65_535)),
    ] {
        let text = byte.repeat(before) + "a";
        let question = Question::ample(text.as_bytes(), EMPTY, FILL);
        ask(
            memory,
            report,
            "65,535 lines and columns",
            &question,
            |memory, told| {
                hold((told.number, told.listed) == (0, 1), "not the one name")?;
                let [_, line, column, offset, _] = numbers(memory.entries(told));
                let right = (line, column) == place && offset as usize == before;
                hold(right && told.place == place, "another place")
            },
        );
    }
}

/// Sixteen open interpolations, closed and not, and seventeen.
fn levels(memory: &mut Memory, report: &mut Report) {
    for (levels, closed, number, listed) in [
        (16, 16, 0, 64),
        (16, 15, 11, 62),
        (16, 0, 11, 32),
        (17, 17, 13, 32),
        (17, 0, 13, 32),
        (5_000, 5_000, 13, 32),
    ] {
        let text = "`a${".repeat(levels) + &"}b`".repeat(closed);
        let question = Question::ample(text.as_bytes(), EMPTY, FILL);
        let done = if levels == 16 {
            "16 levels"
        } else {
            "17 levels and more"
        };
        ask(memory, report, done, &question, |_, told| {
            hold(
                (told.number, told.listed) == (number, listed),
                "another answer at the deepest level",
            )
        });
    }
}

/// The longest bodies, whose literals may be longer than a script, and one byte more.
fn written(pen: &mut Pen, report: &mut Report) {
    for (front, byte) in [("", b'x'), ("", b'"'), ("\"", b'#'), ("", b'#')] {
        body(pen, report, &script(front, byte, "", LONGEST));
        body(pen, report, &script(front, byte, "", LONGEST + 1));
    }
}

/// In a room for every literal of such a body, and in one for none.
fn body(pen: &mut Pen, report: &mut Report, body: &[u8]) {
    for room in [3 * LONGEST + 8, 4] {
        let write = Write {
            body,
            room,
            answer: 4,
            fill: FILL,
        };
        let begins = format!("{} bytes that begin so, room {}", body.len(), room);
        match pen.write(&write) {
            Ok(number) => report.count("longest bodies", number),
            Err(fault) => report.fault("longest bodies", fault, 0, &body[..64], begins),
        }
    }
}
