//! Scripts read through `Script::read`, held to the calls on lent memory.

use stewsatchel::lent::{self, Ending, ENTRY};
use stewsatchel::{
    raw_write, Book, BookFault, Kind, Limits, Place, Refusal, Script, Word, LONGEST,
};

/// Every kind of token, each way to be cut, and more tokens and literals than a first guess lends.
const SCRIPTS: [&str; 5] = [
    "let a = #\"x\"y\"# + `p${ if b { \"q\" } else { 'r' } }s${c}t`; // u\n/* v /* w */ */ 0x1F",
    ";;;;;;;;;;;;;;;;;;;;;;;;;;;;;;;;;;;;;;;;;;;;;;;;;;;;;;;;;;;;;;;;;;;;;;;;;;;;;;;;;;;;;;;;;;",
    "\"aaaaaaaaaaaaaaaaaaaaaaaaaaaaaaaaaaaaaaaaaaaaaaaaaaaaaaaaaaaaaaaaaaaaaaaaaaaaaaaaaaaaaaa\"",
    "``````````````````````````````````````````````````````````````````````````````````````````",
    "'\\U0001F6A2''\u{1F6A2}'\"\\u00e9\u{e9}\"_1",
];

/// What a run lists in more memory than it can need, as far as a caller sees it.
type Seen = (Vec<(Kind, Place, Vec<u8>)>, Ending);

fn lent(script: &[u8], book: &Book) -> Seen {
    let mut literals = vec![0; 4 * script.len()];
    let mut entries = vec![0; ENTRY * script.len()];
    let run = lent::run(script, book.as_bytes(), 0, &mut literals, &mut entries);
    let tokens = run.tokens().map(|token| {
        let bytes = run.bytes(&token, script).to_vec();
        (token.kind, token.place, bytes)
    });
    (tokens.collect(), run.ending.clone())
}

fn read(script: &[u8], book: &Book) -> Seen {
    let read = Script::read(script, book, &Limits::NONE);
    let tokens = match &read {
        Ok(tokens) => tokens.iter(),
        Err(stopped) => stopped.tokens_before(),
    };
    let tokens = tokens.map(|token| (token.kind, token.place, token.bytes.to_vec()));
    let ending = match &read {
        Ok(tokens) => Ending::End(tokens.end()),
        Err(stopped) => Ending::Stop(lent::Fault {
            number: stopped.number(),
            place: stopped.place(),
            part: stopped.fault().part.clone(),
        }),
    };
    (tokens.collect(), ending)
}

#[test]
fn every_cut_is_read_as_in_memory_that_is_large_enough() {
    let book = Book::new(["if", "p", "_1"]).unwrap();
    for script in SCRIPTS {
        for cut in 0..=script.len() {
            let script = &script.as_bytes()[..cut];
            assert_eq!(read(script, &book), lent(script, &book));
        }
    }
}

#[test]
fn memory_grows_with_the_script() {
    for length in [0, 1, 2, 100, 70_000] {
        let symbols = ";".repeat(length);
        let tokens = Script::read(&symbols, &Book::empty(), &Limits::NONE).unwrap();
        assert_eq!((tokens.len(), tokens.is_empty()), (length, length == 0));

        let string = format!("\"{}\"", "a".repeat(length));
        let tokens = Script::read(&string, &Book::empty(), &Limits::NONE).unwrap();
        assert_eq!(tokens.iter().next().unwrap().bytes.len(), length);
    }
}

#[test]
fn a_stop_tells_its_number_its_place_and_its_part() {
    type Stop<'a> = (&'a [u8], u32, &'a str, Option<&'a [u8]>);
    let stops: [Stop; 9] = [
        (b"\x80", 1, "1", None),
        (b"a \"b", 4, "1:3", None),
        (b"a ~", 5, "1:3", Some(b"~")),
        (b"#a", 5, "1:1", Some(b"a")),
        (b"\"\\q\"", 6, "1:3", Some(b"\\q")),
        (b"_1", 8, "1:1", Some(b"_1")),
        (b"/* ", 11, "1:3", None),
        (b"'ab'", 12, "1:1", None),
        (&b"`${".repeat(17), 13, "1:49", None),
    ];
    for (script, number, place, part) in stops {
        let stopped = Script::read(script, &Book::empty(), &Limits::NONE).unwrap_err();
        assert_eq!(stopped.number(), number);
        assert_eq!(stopped.place().to_string(), place);
        assert_eq!(stopped.part(), part);
        let sentence = format!("stop {} at {}: {}", number, place, stopped.refusal());
        assert_eq!(stopped.to_string(), sentence);
    }
}

#[test]
fn a_limit_holds_for_literals() {
    let [three, two] = [3, 2].map(|most| Limits::NONE.string_bytes(most));
    let read = |limits| Script::read("\"abc\"", &Book::empty(), limits).map(|read| read.len());
    assert_eq!(read(&three).unwrap(), 1);
    let stopped = read(&two).unwrap_err();
    assert_eq!(stopped.refusal(), Refusal::StringTooLong);
}

#[test]
fn a_script_is_read_up_to_its_longest() {
    let longest = vec![b' '; LONGEST];
    let tokens = Script::read(&longest, &Book::empty(), &Limits::NONE).unwrap();
    assert!(tokens.is_empty());
    let longer = vec![b' '; LONGEST + 1];
    let stopped = Script::read(&longer, &Book::empty(), &Limits::NONE).unwrap_err();
    assert_eq!(stopped.refusal(), Refusal::TooLong);
}

#[test]
fn tokens_are_listed_from_both_ends() {
    let tokens = Script::read("a + 1", &Book::empty(), &Limits::NONE).unwrap();
    let mut back: Vec<_> = tokens.iter().rev().map(|token| token.text()).collect();
    back.reverse();
    assert_eq!(back, ["a", "+", "1"]);
    assert_eq!(tokens.iter().nth(2).unwrap().part, Some(4..5));
}

#[test]
fn a_book_is_laid_out_in_order_with_its_flags() {
    let words = [
        Word::from("b"),
        Word {
            text: "a",
            a: true,
            b: true,
        },
    ];
    let book = Book::new(words).unwrap();
    assert_eq!(book.as_bytes(), b"\x02\0\0\0\x01\x03\x01\0\x01\0ab");
    assert_eq!(Book::from_bytes(book.as_bytes()), Ok(book));
    assert_eq!(Book::new([""; 0]), Ok(Book::empty()));
}

#[test]
fn a_refused_book_says_which_word_and_why() {
    type Refused<'a> = (&'a [&'a str], Option<(usize, &'a str)>, BookFault);
    let refused: [Refused; 4] = [
        (&["b", ""], Some((1, "")), BookFault::EmptyWord),
        (&["caf\u{e9}"], Some((0, "caf\u{e9}")), BookFault::NotAscii),
        (&["b", "a", "b"], Some((2, "b")), BookFault::Twice),
        (&["a"; 513], None, BookFault::TooManyWords),
    ];
    for (words, word, fault) in refused {
        let error = Book::new(words.iter().copied()).unwrap_err();
        assert_eq!((error.refused_word(), error.fault()), (word, fault));
    }
    let error = Book::from_bytes(*b"\0\0\0").unwrap_err();
    assert_eq!(error.fault(), BookFault::Over);
}

#[test]
fn a_raw_literal_is_written_whatever_its_length() {
    for hashes in [0, 1, 2, 1_000] {
        let body = format!("\"{}", "#".repeat(hashes));
        let fence = "#".repeat(hashes + 1);
        let literal = format!("{0}\"{1}\"{0}", fence, body);
        assert_eq!(raw_write(&body), Ok(literal));
    }
    assert_eq!(raw_write(""), Ok("#\"\"#".to_string()));
    assert_eq!(raw_write(vec![b'a'; LONGEST + 1]), Err(Refusal::TooLong));
    assert_eq!(raw_write(b"\x80"), Err(Refusal::NotUtf8));
}
