//! The two names on memory that is lent, on examples of the requirements.

use stewsatchel::lent::{raw_write, run, Ending, Fault, Kind, Place, ENTRY};

/// A book without a word.
const EMPTY: &[u8] = &[0, 0];

const fn at(line: u16, column: u16) -> Place {
    Place { line, column }
}

#[test]
fn a_script_is_listed() {
    let script = b"let d = #\"a\"b\"#;\n";
    let (mut literals, mut entries) = ([0; 8], [0; 8 * ENTRY]);
    let run = run(script, EMPTY, 0, &mut literals, &mut entries);
    let tokens = run.tokens().map(|token| {
        let bytes = run.bytes(&token, script);
        (token.place, token.kind, bytes)
    });
    let listed: [(Place, Kind, &[u8]); 5] = [
        (at(1, 1), Kind::Keyword, b"let"),
        (at(1, 5), Kind::Name, b"d"),
        (at(1, 7), Kind::Symbol, b"="),
        (at(1, 9), Kind::Raw, b"a\"b"),
        (at(1, 16), Kind::Symbol, b";"),
    ];
    assert_eq!(tokens.collect::<Vec<_>>(), listed);
    assert_eq!(run.ending, Ending::End(at(2, 0)));
}

#[test]
fn a_stop_has_its_place_and_its_part() {
    let script = b"'a' ~";
    let mut entries = [0; 8 * ENTRY];
    let fault = |number, column, part| {
        let place = at(1, column);
        Ending::Stop(Fault {
            number,
            place,
            part,
        })
    };
    let mut literals = [0; 1];
    let stopped = run(script, EMPTY, 0, &mut literals, &mut entries);
    assert_eq!(stopped.ending, fault(5, 5, Some(4..5)));
    assert_eq!((stopped.tokens().len(), stopped.literals), (1, &b"a"[..]));

    let narrow = run(script, EMPTY, 0, &mut [], &mut entries);
    assert_eq!(narrow.ending, fault(9, 1, None));
    let few = run(script, EMPTY, 0, &mut literals, &mut []);
    assert_eq!(few.ending, fault(10, 1, None));
}

#[test]
fn a_raw_literal_is_written() {
    let mut out = [0; 16];
    assert_eq!(raw_write(b"\"##", &mut out), Ok(&b"###\"\"##\"###"[..]));
    assert_eq!(raw_write(b"\"##", &mut out[..10]), Err(9));
    assert_eq!(raw_write(b"\x80", &mut out), Err(1));
}
