//! Asks the Rust the cases that the program `replay` runs.
//!
//!     replay < crates/replay/stdout    holds the Rust's answers to those of the file, and names each line that differs
//!     replay sample                    prints the sample of cases that the file has, with the Rust's answers
//!
//! A line is a case, ` = `, and its answer; `crates/replay/src/line.rt` says how a case is written.

#[cfg(not(rhai_source))]
fn main() {
    println!("replay: the Rust source folder is missing (set RHAI_SRC)");
}

#[cfg(rhai_source)]
fn main() -> std::process::ExitCode {
    match std::env::args().nth(1).as_deref() {
        Some("sample") => sample::print(),
        None => return compare::run(),
        _ => {
            eprintln!("usage: replay < FILE, or replay sample");
            return std::process::ExitCode::from(2);
        }
    }
    std::process::ExitCode::SUCCESS
}

/// A case as a line of text, and back.
#[cfg(rhai_source)]
mod case {
    use oracle::Place;

    /// What is asked: its name, its numbers in order, and its texts.
    #[derive(Default)]
    pub struct Case {
        pub name: String,
        pub numbers: Vec<usize>,
        pub texts: Vec<Vec<u8>>,
    }

    impl Case {
        pub fn number(&self, i: usize) -> usize {
            self.numbers.get(i).copied().unwrap_or(0)
        }

        pub fn place(&self, i: usize) -> Option<Place> {
            Some((
                self.number(i).try_into().ok()?,
                self.number(i + 1).try_into().ok()?,
            ))
        }

        pub fn text(&self, i: usize) -> Option<&str> {
            std::str::from_utf8(self.texts.get(i).map_or(b"", |text| text)).ok()
        }
    }

    pub fn parse(line: &str) -> Case {
        let bytes = line.as_bytes();
        let mut case = Case {
            texts: vec![Vec::new()],
            ..Case::default()
        };
        case.name = line.split(' ').next().unwrap_or_default().into();
        let (mut at, mut times) = (0, 1);
        while at < bytes.len() {
            let rest = &bytes[at + 1..];
            match bytes[at] {
                b'0'..=b'9' => {
                    let digits = bytes[at..]
                        .iter()
                        .take_while(|b| b.is_ascii_digit())
                        .count();
                    case.numbers.push(line[at..at + digits].parse().unwrap());
                    at += digits - 1;
                }
                b @ (b'"' | b'\'' | b'`' | b'#' | b'$') => case.numbers.push(b.into()),
                b'*' => times = case.numbers.pop().unwrap_or(1),
                b',' => case.texts.push(Vec::new()),
                b'[' => {
                    let piece = rest.split(|&b| b == b']').next().unwrap_or_default();
                    put(&mut case, piece, times);
                    at += piece.len() + 1;
                    times = 1;
                }
                b'<' => {
                    let piece = rest.split(|&b| b == b'>').next().unwrap_or_default();
                    put(&mut case, &from_hex(piece), times);
                    at += piece.len() + 1;
                    times = 1;
                }
                _ => (),
            }
            at += 1;
        }
        case
    }

    fn put(case: &mut Case, piece: &[u8], times: usize) {
        let text = case.texts.last_mut().unwrap();
        for &b in piece {
            text.resize(text.len() + times, b);
        }
    }

    fn from_hex(piece: &[u8]) -> Vec<u8> {
        let digits: Vec<u8> = piece
            .iter()
            .filter_map(|&b| (b as char).to_digit(16))
            .map(|d| d as u8)
            .collect();
        digits
            .chunks(2)
            .map(|pair| pair[0] * 16 + pair[1])
            .collect()
    }

    /// A text as pieces: what can be read as it is, and the rest in hex.
    pub fn pieces(text: &str) -> String {
        let mut out = String::new();
        let mut plain = None;
        for c in text.chars() {
            let is_plain = !c.is_control() && c != ']';
            if plain != Some(is_plain) {
                out += match plain {
                    Some(true) => "]",
                    Some(false) => ">",
                    None => "",
                };
                out += if is_plain { "[" } else { "<" };
            }
            plain = Some(is_plain);
            if is_plain {
                out.push(c);
            } else {
                c.to_string()
                    .bytes()
                    .for_each(|b| out += &format!("{:02x}", b));
            }
        }
        out += match plain {
            Some(true) => "]",
            Some(false) => ">",
            None => "[]",
        };
        out
    }
}

/// The Rust's answer to a case, as `replay` writes it.
#[cfg(rhai_source)]
mod ask {
    use crate::case::Case;
    use oracle::identifier::{parse_identifier_token, Word};
    use oracle::{comment, position, raw, script, string, token, words};
    use oracle::{Accepted, LexError, Place, Refused};

    /// `None` where the Rust is not asked or has no answer: it panics, or the case is about what we add. The runs are ours to
    /// give, and are held to the oracle's.
    pub fn answer(case: &Case) -> Option<String> {
        let token = case.number(0) as u32;
        let truth = |b: bool| Some(b.to_string());
        let number = |t: Option<u32>| Some(t.map_or("none".into(), |t| format!("token {}", t)));
        match case.name.as_str() {
            "string" | "raw" | "resumed" => literal(case),
            "comment" => {
                let at = case.number(3);
                let c =
                    comment::scan_block_comment(case.text(0)?, at, case.number(0), case.place(1)?)?;
                Some(format!("level {}{}", c.level, ends(c.offset, c.position)))
            }
            "identifier" => identifier(case),
            "advance" => Some(place(position::advance(case.place(0)?)?)),
            "rewind" => Some(place(position::rewind(case.place(0)?)?)),
            "newline" => Some(place(position::new_line(case.place(0)?)?)),
            "sum" => Some(place(position::add(case.place(0)?, case.place(2)?)?)),
            "display" => Some(format!("[{}]", position::display(case.place(0)?))),
            "debug" => Some(format!("[{}]", position::debug(case.place(0)?))),
            "span" => Some(format!(
                "[{}]",
                position::span_display(case.place(0)?, case.place(2)?)
            )),
            "lookup" => number(token::lookup_symbol_from_syntax(case.text(0)?)),
            "syntax" => Some(format!("[{}]", token::literal_syntax(token)?)),
            "precedence" => Some(token::precedence(token).unwrap_or(0).to_string()),
            "base" => number(token::get_base_op_from_assignment(token)),
            "assignment" => number(token::convert_to_op_assignment(token)),
            "doc" => truth(comment::is_doc_comment(case.text(0)?)),
            "valid" => truth(words::is_valid_identifier(case.text(0)?)),
            "white" => truth(char::from_u32(token)?.is_whitespace()),
            "run" => Some(run(case)),
            "listing" => Some(lines(&script::listing(&case.texts[0]))),
            "last" => {
                let listing = script::listing(&case.texts[0]);
                let last = listing.lines().last()?;
                Some(format!("lines {} {}|", listing.lines().count(), last))
            }
            _ => None,
        }
    }

    /// A run is document 01's, over the Rust's own scanners.
    fn run(case: &Case) -> String {
        let bounds = script::Bounds {
            limit: case.number(0),
            literals: case.number(1),
            entries: case.number(2) / 5,
        };
        let left = script::Script::read(&case.texts[0], &case.texts[1]).cut(bounds);
        let mut shown = String::new();
        for entry in &left.entries {
            let (line, column) = entry.place;
            let (offset, length) = (entry.part.offset, entry.part.length);
            let kind = entry.kind as u32;
            shown += &format!("{} {} {} {} {}, ", kind, line, column, offset, length);
        }
        let at = place(left.ending.place);
        shown += &match left.ending.number {
            0 => format!("end {}", at),
            number => {
                let part = left.ending.part;
                format!(
                    "stop {} {} part {} {}",
                    number, at, part.offset, part.length
                )
            }
        };
        format!("{} literals {} kept true", shown, hex(&left.literals))
    }

    /// A text with `|` for each line feed.
    fn lines(text: &str) -> String {
        text.replace('\n', "|")
    }

    fn literal(case: &Case) -> Option<String> {
        let (text, at, limit) = (case.text(0)?, case.number(5), case.number(4));
        let (start, first) = (case.place(1)?, case.number(0));
        let read = match case.name.as_str() {
            "string" => string::parse_string_literal(text, at, start, (first as u8).into(), limit),
            "raw" => raw::parse_raw_string_literal(text, at, start, 0, limit),
            _ => raw::parse_raw_string_literal(text, at, start, first, limit),
        };
        Some(match read? {
            Ok(read) => accepted(&read),
            Err(read) => refused(&read, text),
        })
    }

    /// Bytes in hex, `-` for none.
    fn hex(bytes: &[u8]) -> String {
        if bytes.is_empty() {
            return "-".into();
        }
        bytes.iter().map(|b| format!("{:02x}", b)).collect()
    }

    fn accepted(read: &Accepted) -> String {
        let body = hex(read.body.as_bytes());
        let ends = ends(read.offset, read.position);
        let interpolated = if read.interpolated {
            " interpolated"
        } else {
            ""
        };
        format!(
            "ok {}{} first {}{}{}",
            body,
            ends,
            place(read.first),
            record(&read.record),
            interpolated
        )
    }

    fn refused(read: &Refused, text: &str) -> String {
        let fault = fault(&read.fault, read.place, text, read.offset);
        format!(
            "{}{}{}",
            fault,
            ends(read.offset, read.position),
            record(&read.record)
        )
    }

    /// The part of the script that a fault is about ends where the scan stopped.
    fn fault(fault: &LexError, at: Place, text: &str, offset: usize) -> String {
        assert!(text[..offset].ends_with(fault.part()));
        let number = fault.number().unwrap_or(0);
        let length = fault.part().len();
        let from = if length == 0 { 0 } else { offset - length };
        format!(
            "refused {} at {} part {} {}",
            number,
            place(at),
            from,
            length
        )
    }

    /// What is reserved is the word book's to say: the Rust is asked under the empty book, of a word that it does not reserve.
    fn identifier(case: &Case) -> Option<String> {
        if case.texts.get(1)? != &[0, 0] {
            return None;
        }
        let text = case.text(0)?;
        let read = parse_identifier_token(text, case.number(2), case.place(0)?)?;
        let ends = ends(read.offset, read.position);
        match read.word {
            Word::Token(t) => {
                let letters =
                    token::literal_syntax(t)?.starts_with(|c: char| c.is_ascii_alphabetic());
                let kind = if letters { "keyword" } else { "symbol" };
                Some(format!("{} token {}{}", kind, t, ends))
            }
            Word::Identifier(_) => Some(format!("name token 2{}", ends)),
            Word::LexError(f) => Some(format!(
                "{}{}",
                fault(&f, read.place, text, read.offset),
                ends
            )),
            Word::Reserved(_) => None,
        }
    }

    fn place(p: Place) -> String {
        format!("{}:{}", p.0, p.1)
    }

    fn ends(offset: usize, p: Place) -> String {
        format!(" ends {} {}", offset, place(p))
    }

    fn record(record: &Option<String>) -> String {
        match record {
            None => " record -".into(),
            Some(text) => format!(" record {}{}", text.len(), &text[..1]),
        }
    }
}

/// The Rust held to a file of cases and answers.
#[cfg(rhai_source)]
mod compare {
    use crate::{ask, case};
    use std::io::Read;
    use std::process::ExitCode;

    /// The refusals of what the Rust takes, and of what we add: 1, 2, 3, 9, 14, 15.
    const OURS: [&str; 6] = ["1", "2", "3", "9", "14", "15"];

    fn is_ours(answer: &str) -> bool {
        let mut words = answer.split(' ');
        words.next() == Some("refused") && matches!(words.next(), Some(n) if OURS.contains(&n))
    }

    pub fn run() -> ExitCode {
        let mut input = String::new();
        std::io::stdin()
            .read_to_string(&mut input)
            .expect("the file is UTF-8");
        let (mut same, mut ours, mut differ) = (0, 0, 0);
        for line in input
            .lines()
            .filter(|line| !line.is_empty() && !line.starts_with('#'))
        {
            let (asked, answer) = match line.rfind(" = ") {
                Some(at) => (&line[..at], &line[at + 3..]),
                None => (line, ""),
            };
            match ask::answer(&case::parse(asked)) {
                Some(rust) if rust == answer => same += 1,
                Some(rust) if !is_ours(answer) => {
                    println!("{}\n  the Rust: {}", line, rust);
                    differ += 1;
                }
                _ => ours += 1,
            }
        }
        println!(
            "replay: {} answers the same as the Rust's, {} differ; {} are not the Rust's to give",
            same, differ, ours
        );
        if differ == 0 {
            ExitCode::SUCCESS
        } else {
            ExitCode::FAILURE
        }
    }
}

/// Cases made at random, the same in every run.
#[cfg(rhai_source)]
mod sample {
    use crate::{ask, case};

    /// The generator xorshift64*.
    struct Random(u64);

    impl Random {
        fn below(&mut self, bound: usize) -> usize {
            self.0 ^= self.0 >> 12;
            self.0 ^= self.0 << 25;
            self.0 ^= self.0 >> 27;
            (self.0.wrapping_mul(0x2545_F491_4F6C_DD1D) % bound as u64) as usize
        }

        fn one_of<T: Copy>(&mut self, things: &[T]) -> T {
            things[self.below(things.len())]
        }

        /// A text of one to `longest` pieces.
        fn text(&mut self, pieces: &[&str], longest: usize) -> String {
            let length = 1 + self.below(longest);
            let text: String = (0..length).map(|_| self.one_of(pieces)).collect();
            case::pieces(&text)
        }

        /// A place on a line, most often at its beginning.
        fn place(&mut self) -> String {
            let line = self.one_of(&[1, 1, 1, 2, 65534, 65535]);
            let column = self.one_of(&[1, 1, 2, 3, 9, 65534, 65535]);
            format!("{}:{}", line, column)
        }
    }

    const STRINGS: [&str; 24] = [
        "a", "b", " ", "  ", "é", "\"", "\"\"", "'", "''", "`", "``", "\\", "\\n", "\\\"", "\\x4",
        "\\u00e9", "\\q", "\n", "\\\n", "\r\n", "\\\r\n", "$", "${", "\\${",
    ];
    const RAWS: [&str; 10] = ["a", "é", "\"", "\"\"", "#", "##", "\"#", "\"##", "\n", "\r"];
    const COMMENTS: [&str; 8] = ["a", "é", "/", "*", "/*", "*/", "\n", "\r"];
    const WORDS: [&str; 12] = [
        "a", "_", "1", "é", "+", "!in", "let", "in", " ", "A", "z", "$",
    ];

    /// The rows of the tables of returns in front of the source's two functions, in order.
    const TABLES: [&str; 18] = [
        "raw # at 1:1 room 99 [\"hello\"#]",
        "raw # at 1:1 room 99 [\"hello]",
        "raw # at 1:1 room 99 [###\"hello]",
        "raw # at 1:1 room 99 [\" \"hello\" \"]",
        "raw # at 1:1 room 99 [\"\"hello\"\"#]",
        "raw # at 1:1 room 99 [#\"hello #\"# world\"##]",
        "raw # at 1:1 room 99 [\"R\"#]",
        "raw # at 1:1 room 99 [\"\\x52\"#]",
        "string \" at 1:1 room 99 [hello\"]",
        "string \" at 1:1 room 99 [hello]<0a>",
        "string \" at 1:1 room 99 [hello]",
        "string \" at 1:1 room 99 [hello\\]",
        "string \" at 1:1 room 99 [hello\\]<0a>",
        "string ` at 1:1 room 99 [hello]",
        "string ` at 1:1 room 99 [hello]<0a>",
        "string ` at 1:1 room 99 [hello ${]",
        "string ` at 1:1 room 99 [ hello`]",
        "string ` at 1:1 room 99 [ hello]",
    ];

    fn print_case(asked: &str) {
        if let Some(answer) = ask::answer(&case::parse(asked)) {
            println!("{} = {}", asked, answer);
        }
    }

    pub fn print() {
        println!(
            "# The tables of returns in front of the source's two functions, answered by its code."
        );
        TABLES.iter().for_each(|asked| print_case(asked));
        println!("\n# Cases made at random.");
        let mut random = Random(1);
        for _ in 0..120 {
            let terminator = random.one_of(&['"', '\'', '`']);
            let limit = random.one_of(&[0, 0, 0, 1, 2, 4]);
            let (start, text) = (random.place(), random.text(&STRINGS, 6));
            print_case(&format!(
                "string {} at {} room 99 limit {} {}",
                terminator, start, limit, text
            ));
        }
        for _ in 0..30 {
            let limit = random.one_of(&[0, 0, 1, 2]);
            let (start, text) = (random.place(), random.text(&RAWS, 6));
            print_case(&format!(
                "raw # at {} room 99 limit {} {}",
                start, limit, text
            ));
        }
        for _ in 0..60 {
            let (hashes, limit) = (1 + random.below(3), random.one_of(&[0, 0, 1, 2]));
            let (start, text) = (random.place(), random.text(&RAWS, 8));
            print_case(&format!(
                "resumed {} at {} room 99 limit {} {}",
                hashes, start, limit, text
            ));
        }
        for _ in 0..30 {
            let (level, start) = (random.one_of(&[1, 1, 2, 65535]), random.place());
            print_case(&format!(
                "comment {} at {} {}",
                level,
                start,
                random.text(&COMMENTS, 8)
            ));
        }
        for _ in 0..40 {
            let start = random.place();
            print_case(&format!(
                "identifier at {} {}, <0000>",
                start,
                random.text(&WORDS, 4)
            ));
        }
        places(&mut random);
        println!("\n# Every token: its text, what the text is looked up as, its precedence and its partner.");
        tokens();
    }

    fn places(random: &mut Random) {
        for name in ["advance", "rewind", "newline", "display", "debug"] {
            for _ in 0..4 {
                print_case(&format!("{} {}", name, random.place()));
            }
        }
        for _ in 0..12 {
            let (left, right) = (random.place(), random.place());
            print_case(&format!("sum {} + {}", left, right));
            print_case(&format!("span {} to {}", left, right));
        }
    }

    /// Every token that has a text: the text, and what it is looked up as. Every operator.
    fn tokens() {
        for t in 0..oracle::token::count() {
            print_case(&format!("syntax {}", t));
            if let Some(text) = oracle::token::literal_syntax(t) {
                print_case(&format!("lookup {}", case::pieces(text)));
            }
            for name in ["precedence", "base", "assignment"] {
                let asked = format!("{} {}", name, t);
                let answer = ask::answer(&case::parse(&asked));
                if !matches!(answer.as_deref(), Some("0" | "none") | None) {
                    print_case(&asked);
                }
            }
        }
    }
}
