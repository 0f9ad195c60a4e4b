//! The program `stewsatchel-check` as a chart compiler runs it: what it prints, and how it ends.

mod support;

use support::{Ended, Folder};

fn ended(status: i32, out: &str, err: &str) -> Ended {
    let [out, err] = [out, err].map(String::from);
    Ended { status, out, err }
}

// Three stories.

/// A rule is commented out, and has a comment inside. What is behind the inner comment's end stays
/// commented out: no allowance comes back to life.
#[test]
fn a_comment_inside_a_rule_that_is_commented_out() {
    let folder = Folder::new("story-comment");
    folder.write("a.rhai", "/* old: /* inner */ allowance 3.28 */");
    let hex = "2f2a206f6c643a202f2a20696e6e6572202a2f20616c6c6f77616e636520332e3238202a2f";
    let listed = format!("1:1 comment {}\nend 1:37\n", hex);
    let sums = "1 script, 1 token, 0 faults, 37 bytes\n";
    assert_eq!(
        folder.check(&["--tokens", "a.rhai"]),
        ended(0, &listed, sums)
    );
    assert_eq!(folder.check(&["a.rhai"]), ended(0, sums, ""));

    // Where the outer end is missing, the script is not whole.
    let report = folder.report("/* old: /* inner */ allowance 3.28\nlight(7);\n");
    let right = "\
a.rhai:3:0: stop 11: a block comment is still open at the end of the script
1 | /* old: /* inner */ allowance 3.28
  | - the block comment begins here
...
3 |
  | ^
1 script, 0 tokens, 1 fault, 45 bytes
";
    assert_eq!(report, right);
}

/// A remark has a quote and a hash. Wrapped, it is read back as it was; pasted, it is not.
#[test]
fn a_remark_with_a_quote_and_a_hash() {
    let folder = Folder::new("story-remark");
    let remark = "see \"#4\" on the sheet";
    let wrapped = folder.check_with(&["--wrap-remark"], format!("{}\n", remark).as_bytes());
    assert_eq!(wrapped, ended(0, "##\"see \"#4\" on the sheet\"##\n", ""));

    folder.write("a.rhai", format!("note({});", wrapped.out.trim_end()));
    let listed = folder.check(&["--tokens", "a.rhai"]);
    let hex: String = remark.bytes().map(|byte| format!("{:02x}", byte)).collect();
    let raw = format!("1:6 raw {}\n", hex);
    assert!(
        listed.status == 0 && listed.out.contains(&raw),
        "{:?}",
        listed
    );

    let report = folder.report(format!("note(#\"{}\"#);\n", remark));
    let right = "\
a.rhai:1:30: stop 5: no quote follows the hashes of a raw literal
1 | note(#\"see \"#4\" on the sheet\"#);
  |                              ^
1 script, 5 tokens, 1 fault, 33 bytes
";
    assert_eq!(report, right);
}

/// A script is cut in transfer inside a literal. Forty buoys are missing, and it is said.
#[test]
fn a_script_cut_in_transfer_inside_a_literal() {
    let folder = Folder::new("story-cut");
    let report = folder.report("buoy(1, #\"red\"#);\nbuoy(2, #\"gre");
    let right = "\
a.rhai:2:13: stop 11: a raw literal is still open at the end of the script
2 | buoy(2, #\"gre
  |         -   ^
  |         the raw literal begins here
1 script, 11 tokens, 1 fault, 31 bytes
";
    assert_eq!(report, right);
    assert_eq!(folder.check(&["a.rhai"]).status, 1);
}

// Every refusal that a script can show.

#[test]
fn stop_1_is_a_script_that_is_not_utf_8() {
    let folder = Folder::new("stop-1");
    let right = "\
a.rhai:1:0: stop 1: the script is not UTF-8
2 | \"ab\u{fffd}\"
  |    ^
  = it is line 2 of the file: such a script is refused at its start
1 script, 0 tokens, 1 fault, 7 bytes
";
    assert_eq!(folder.report(b"a\n\"ab\xff\""), right);
}

#[test]
fn stop_2_is_a_script_that_is_too_long() {
    let folder = Folder::new("stop-2");
    let right = "\
a.rhai:1:0: stop 2: the script is longer than 16,777,216 bytes
1 script, 0 tokens, 1 fault, 16,777,217 bytes
";
    assert_eq!(folder.report(vec![b' '; 16_777_217]), right);
    let whole = "1 script, 0 tokens, 0 faults, 16,777,216 bytes\n";
    assert_eq!(folder.report(vec![b' '; 16_777_216]), whole);
}

#[test]
fn stop_4_is_a_literal_without_its_end() {
    let folder = Folder::new("stop-4");
    let right = "\
a.rhai:1:9: stop 4: a string literal is not closed
1 | let a = \"b;
  |         ^
1 script, 3 tokens, 1 fault, 13 bytes
";
    assert_eq!(folder.report("let a = \"b;\nc"), right);
    let right = "\
a.rhai:1:1: stop 4: a character literal is not closed
1 | 'a
  | ^
1 script, 0 tokens, 1 fault, 2 bytes
";
    assert_eq!(folder.report("'a"), right);
    let right = "\
a.rhai:1:3: stop 4: a raw literal is not closed
1 | a ##
  |   ^
1 script, 1 token, 1 fault, 4 bytes
";
    assert_eq!(folder.report("a ##"), right);
}

#[test]
fn stop_5_is_a_character_that_begins_no_token() {
    let folder = Folder::new("stop-5");
    let right = "\
a.rhai:1:5: stop 5: the character ~ begins no token
1 | a + ~b
  |     ^
1 script, 2 tokens, 1 fault, 6 bytes
";
    assert_eq!(folder.report("a + ~b"), right);
    let right = "\
a.rhai:1:1: stop 5: the character \u{e9} (U+00E9) begins no token
1 | \u{e9}
  | ^
1 script, 0 tokens, 1 fault, 2 bytes
";
    assert_eq!(folder.report("\u{e9}"), right);
    let right = "\
a.rhai:1:1: stop 5: the character \u{241b} (U+001B) begins no token
1 | \u{241b}[31m
  | ^
1 script, 0 tokens, 1 fault, 5 bytes
";
    assert_eq!(folder.report("\u{1b}[31m"), right);
    let right = "\
a.rhai:1:3: stop 5: no quote follows the hashes of a raw literal
1 | a ##b
  |   ^
1 script, 1 token, 1 fault, 5 bytes
";
    assert_eq!(folder.report("a ##b"), right);
}

#[test]
fn stop_6_is_a_malformed_escape_sequence() {
    let folder = Folder::new("stop-6");
    let right = "\
a.rhai:1:11: stop 6: the escape sequence \\q is malformed
1 | let a = \"\\q\";
  |         - ^
  |         the string literal begins here
1 script, 3 tokens, 1 fault, 13 bytes
";
    assert_eq!(folder.report("let a = \"\\q\";"), right);
    let right = "\
a.rhai:2:4: stop 6: the escape sequence \\xg is malformed
1 | \"a\\
  | - the string literal begins here
2 |  \\xg0\"
  |    ^
1 script, 0 tokens, 1 fault, 10 bytes
";
    assert_eq!(folder.report("\"a\\\n \\xg0\""), right);
}

#[test]
fn stop_7_is_a_literal_that_is_longer_than_the_limit() {
    let folder = Folder::new("stop-7");
    folder.write("a.rhai", "a = #\"bcd\"#");
    let right = "\
a.rhai:1:5: stop 7: a raw literal is longer than the limit
1 | a = #\"bcd\"#
  |     ^
1 script, 2 tokens, 1 fault, 11 bytes
";
    assert_eq!(
        folder.check(&["--limit", "2", "a.rhai"]),
        ended(1, right, "")
    );
    assert_eq!(folder.check(&["--limit", "3", "a.rhai"]).status, 0);

    // A piece of text behind an interpolation stands at its brace.
    folder.write("a.rhai", "`a${b}cde`");
    let right = "\
a.rhai:1:6: stop 7: a text literal is longer than the limit
1 | `a${b}cde`
  | -    ^
  | the text literal begins here
1 script, 4 tokens, 1 fault, 10 bytes
";
    assert_eq!(
        folder.check(&["--limit", "2", "a.rhai"]),
        ended(1, right, "")
    );
}

#[test]
fn stop_8_is_a_malformed_name() {
    let folder = Folder::new("stop-8");
    let right = "\
a.rhai:1:3: stop 8: the name __1 has no letter behind its underscores
1 | a.__1
  |   ^
1 script, 2 tokens, 1 fault, 5 bytes
";
    assert_eq!(folder.report("a.__1"), right);
    let name = format!("_{}", "1".repeat(39));
    let report = folder.report(format!("{}1", name));
    let front = format!("a.rhai:1:1: stop 8: the name {}\u{2026} has no", name);
    assert!(report.starts_with(&front), "{}", report);
}

#[test]
fn stop_11_is_something_open_at_the_end() {
    let folder = Folder::new("stop-11");
    let opens = [
        ("a = \"b\\", "1:8", 4, 7, "a string literal"),
        ("a = `b", "1:7", 4, 6, "a text literal"),
        ("a = `b\\", "1:8", 4, 7, "a text literal"),
        ("a = #\"b\"", "1:8", 4, 7, "a raw literal"),
        ("a = /* b", "1:8", 4, 7, "a block comment"),
        ("a = `b${c", "1:9", 7, 8, "an interpolation"),
        ("a = `b${{}", "1:10", 7, 9, "an interpolation"),
        ("a = `b${c} d", "1:13", 4, 12, "a text literal"),
        ("a = `b${`c` + `d${e", "1:19", 17, 18, "an interpolation"),
    ];
    for (script, place, open, stop, what) in opens {
        let (_, bare) = what.split_once(' ').unwrap();
        let report = folder.report(script);
        let lines: Vec<&str> = report.lines().collect();
        let sentence = format!("{} is still open at the end of the script", what);
        assert_eq!(lines[0], format!("a.rhai:{}: stop 11: {}", place, sentence));
        assert_eq!(lines[1], format!("1 | {}", script));
        let signs = format!("  | {0:1$}-{0:2$}^", "", open, stop - open - 1);
        assert_eq!(lines[2], signs);
        let label = format!("  | {0:1$}the {2} begins here", "", open, bare);
        assert_eq!(lines[3], label);
    }
}

#[test]
fn stop_12_is_a_literal_in_single_quotes_of_more_or_less_than_a_character() {
    let folder = Folder::new("stop-12");
    for (script, bytes) in [("('ab')", 6), ("('')", 4), ("('e\u{301}')", 7)] {
        let right = format!(
            "\
a.rhai:1:2: stop 12: a literal in single quotes is not one character
1 | {}
  |  ^
1 script, 1 token, 1 fault, {} bytes
",
            script, bytes
        );
        assert_eq!(folder.report(script), right);
    }
}

#[test]
fn stop_13_is_a_seventeenth_interpolation() {
    let folder = Folder::new("stop-13");
    let right = format!(
        "\
a.rhai:1:49: stop 13: interpolations stand more than 16 deep in each other
1 | {}
  | {:48}^
1 script, 32 tokens, 1 fault, 51 bytes
",
        "`${".repeat(17),
        ""
    );
    assert_eq!(folder.report("`${".repeat(17)), right);
}

#[test]
fn stop_14_is_a_bad_book() {
    let folder = Folder::new("stop-14");
    folder.write("a.rhai", "light buoy");
    let books: [(&[u8], &str); 7] = [
        (
            b"buoy\n\nlighthouses\n",
            "book:3: stop 14: word 2, \"lighthouses\", has more than 10 bytes\n",
        ),
        (
            b"b\nbuoy a\nb ab\n",
            "book:3: stop 14: word 3, \"b\", stands there twice\n",
        ),
        (
            b"buoy c\n",
            "book:1: stop 14: \"c\" is none of the flags a, b and ab\n",
        ),
        (
            b"buoy a b\n",
            "book:1: stop 14: \"b\" stands behind the flags\n",
        ),
        (b"\xff\n", "book: stop 14: the word book is not UTF-8\n"),
        (
            b"\x01\0\0\0\x01\x04a",
            "book: stop 14: word 1, \"a\", has other flags than a and b\n",
        ),
        (b"\0", "book: stop 14: the word book ends too early\n"),
    ];
    for (book, right) in books {
        folder.write("book", book);
        let checked = folder.check(&["--book", "book", "a.rhai"]);
        assert_eq!(checked, ended(2, "", right));
    }
    let missing = "none: No such file or directory (os error 2)\n";
    let checked = folder.check(&["--book", "none", "a.rhai"]);
    assert_eq!(checked, ended(2, "", missing));
}

#[test]
fn the_words_of_a_good_book_are_reserved() {
    let folder = Folder::new("book");
    folder.write("a.rhai", "light buoy");
    let listed = "1:1 reserved 6c69676874\n1:7 name 62756f79\nend 1:10\n";
    let sums = "1 script, 2 tokens, 0 faults, 10 bytes\n";
    for book in [&b"// ours\nlight ab\n"[..], b"\x01\0\0\0\x05\x03light"] {
        folder.write("book", book);
        let checked = folder.check(&["--tokens", "--book", "book", "a.rhai"]);
        assert_eq!(checked, ended(0, listed, sums));
    }
}

// A script cut at every byte.

/// What must not be cut stands between ⟦ and ⟧. Where ¦ stands, a cut leaves what is between the
/// innermost of them whole by the rules: a quote that would be doubled closes, and the slash that
/// would begin a comment divides.
const MARKED: &str = r####"// a chart … with buoys
let depth = ⟦#"see "4" on 水"#⟧ + ⟦##""#"##⟧;
⟦/¦* old: /* inner */ allowance 3.28 **/⟧ _a1 >>= 0x1F..=b;
buoy(⟦"a"¦"b\n\x41\u00e9\"水 \
      c"⟧, ⟦'\''⟧, ⟦''''⟧, ⟦'é'⟧, ⟦`d`¦`\${ e $`⟧, ⟦""⟧, ⟦``⟧, ⟦#""#⟧) !in f;
name(⟦`g$⟦{ if h { ⟦"i"⟧ } else { ⟦#{⟧ j: ⟦`k$⟦{ l }⟧`⟧ } } }⟧ m$⟦{n}⟧$⟦{⟦'o'⟧}⟧ 水`⟧);
"####;

/// The script without its marks, and for each of its bytes the innermost part that a cut before it
/// leaves open, by where that begins.
struct Marked {
    script: String,
    open: Vec<Option<usize>>,
}

impl Marked {
    fn of(marked: &str) -> Self {
        let mut script = String::new();
        let mut open = Vec::new();
        let mut begun: Vec<usize> = Vec::new();
        let mut is_closed = false;
        for ch in marked.chars() {
            match ch {
                '⟦' => begun.push(script.len()),
                '⟧' => drop(begun.pop()),
                '¦' => is_closed = true,
                ch => {
                    let mut inner = begun.iter().rev().filter(|&&at| at < script.len());
                    let cut = inner.nth(usize::from(is_closed));
                    open.resize(script.len() + ch.len_utf8(), cut.copied());
                    is_closed = false;
                    script.push(ch);
                }
            }
        }
        assert!(
            begun.is_empty(),
            "what begins in the marked script ends there"
        );
        open.push(None);
        Self { script, open }
    }
}

/// A number of a JSON object, the first behind a name.
fn number(object: &str, name: &str) -> Option<usize> {
    let (_, behind) = object.split_once(&format!("\"{}\":", name))?;
    let digits = behind.split(|ch: char| !ch.is_ascii_digit()).next()?;
    digits.parse().ok()
}

/// The number of the stop that an object tells, and where what is open begins.
fn stop(object: &str) -> Option<(usize, Option<usize>)> {
    let (_, stop) = object.split_once("\"stop\":{")?;
    let (stop, opened) = stop.split_once("\"opened\":")?;
    Some((number(stop, "number")?, number(opened, "offset")))
}

/// Every cut inside a literal, a comment or an interpolation is a stop, and what is open there is
/// found. Every other cut is a whole script, but for one inside a character.
#[test]
fn a_script_cut_at_every_byte() {
    let Marked { script, open } = Marked::of(MARKED);
    let folder = Folder::new("cuts");
    for cut in 0..=script.len() {
        let name = format!("{:04}.rhai", cut);
        folder.write(&name, &script.as_bytes()[..cut]);
    }
    let checked = folder.check(&["--json", "."]);
    assert_eq!(checked.status, 1);
    assert_eq!(checked.out.lines().count(), script.len() + 1);
    for (cut, object) in checked.out.lines().enumerate() {
        let front = format!("{{\"file\":\"./{0:04}.rhai\",\"bytes\":{0},", cut);
        assert!(object.starts_with(&front), "{}", object);
        match (open[cut], stop(object)) {
            (_, Some((1, None))) => assert!(!script.is_char_boundary(cut), "{}", object),
            (Some(begun), Some((4 | 6 | 11 | 12, opened))) => assert_eq!(opened, Some(begun)),
            (None, None) => assert!(object.contains("\"end\":{"), "{}", object),
            _ => panic!("the cut at {}: {}", cut, object),
        }
    }
    let stopped = open.iter().flatten().count();
    assert!(stopped > script.len() / 2, "most cuts are inside something");
}

// The rest of what the program is asked for.

#[test]
fn a_folder_is_every_script_below_it_in_order() {
    let folder = Folder::new("folder");
    folder.write("rules/b.rhai", "a ~");
    folder.write("rules/a/z.rhai", "");
    folder.write("rules/a.rhai", "a");
    folder.write("rules/notes.txt", "~");
    let right = "\
rules/b.rhai:1:3: stop 5: the character ~ begins no token
1 | a ~
  |   ^
3 scripts, 2 tokens, 1 fault, 4 bytes
";
    assert_eq!(folder.check(&["rules"]), ended(1, right, ""));
    let objects = folder.check(&["--json", "rules", "rules/notes.txt"]).out;
    let files: Vec<&str> = objects
        .lines()
        .map(|object| object.split('"').nth(3).unwrap())
        .collect();
    let right = [
        "rules/a/z.rhai",
        "rules/a.rhai",
        "rules/b.rhai",
        "rules/notes.txt",
    ];
    assert_eq!(files, right);
}

#[test]
fn what_could_not_be_read_is_2_whatever_else_was_met() {
    let folder = Folder::new("unread");
    folder.write("a.rhai", "~ ");
    folder.write("empty/notes.txt", "");
    let report = "\
a.rhai:1:1: stop 5: the character ~ begins no token
1 | ~ 
  | ^
1 script, 0 tokens, 1 fault, 2 bytes, 2 not read
";
    let unread = "\
b.rhai: No such file or directory (os error 2)
empty: no *.rhai is below this folder
";
    let checked = folder.check(&["a.rhai", "b.rhai", "empty"]);
    assert_eq!(checked, ended(2, report, unread));

    let error = "No such file or directory (os error 2)";
    let nulls = "\"bytes\":null,\"tokens\":null,\"end\":null,\"stop\":null";
    let object = format!(
        "{{\"file\":\"b.rhai\",{},\"error\":\"{}\"}}\n",
        nulls, error
    );
    let sums = "0 scripts, 0 tokens, 0 faults, 0 bytes, 1 not read\n";
    let checked = folder.check(&["--json", "b.rhai"]);
    assert_eq!(checked, ended(2, &object, sums));
}

#[test]
fn an_empty_script_is_whole() {
    let folder = Folder::new("empty");
    folder.write("a.rhai", "");
    let sums = "1 script, 0 tokens, 0 faults, 0 bytes\n";
    assert_eq!(folder.check(&["a.rhai"]), ended(0, sums, ""));
    let checked = folder.check(&["--tokens", "a.rhai"]);
    assert_eq!(checked, ended(0, "end 1\n", sums));
}

#[test]
fn several_listings_have_their_names_and_a_stop_its_report_beside_them() {
    let folder = Folder::new("listings");
    folder.write("a.rhai", "a");
    folder.write("b.rhai", "b ~");
    let listed = "\
a.rhai:
1:1 name 61
end 1:1
b.rhai:
1:1 name 62
stop 5 1:3
";
    let report = "\
b.rhai:1:3: stop 5: the character ~ begins no token
1 | b ~
  |   ^
2 scripts, 2 tokens, 1 fault, 4 bytes
";
    let checked = folder.check(&["--tokens", "a.rhai", "b.rhai"]);
    assert_eq!(checked, ended(1, listed, report));
}

#[test]
fn objects_have_all_that_is_known() {
    let folder = Folder::new("objects");
    folder.write("a.rhai", "a\n");
    folder.write("\"b\".rhai", "a\n水#\"");
    let checked = folder.check(&["--json", "."]);
    let right = r#"{"file":"./\"b\".rhai","bytes":7,"tokens":1,"end":null,"stop":{"number":5,"line":2,"column":1,"message":"the character 水 (U+6C34) begins no token","offset":2,"opened":null},"error":null}
{"file":"./a.rhai","bytes":2,"tokens":1,"end":{"line":2,"column":0},"stop":null,"error":null}
"#;
    let sums = "2 scripts, 2 tokens, 1 fault, 9 bytes\n";
    assert_eq!(checked, ended(1, right, sums));

    folder.write("a.rhai", "a +\n `水\n");
    let checked = folder.check(&["--json", "a.rhai"]);
    let stop = r#""stop":{"number":11,"line":3,"column":1,"message":"a text literal is still open at the end of the script","offset":10,"opened":{"what":"text literal","offset":5,"line":2,"column":2}}"#;
    assert!(checked.out.contains(stop), "{}", checked.out);
}

#[test]
fn lines_may_end_in_cr_lf() {
    let folder = Folder::new("crlf");
    let right = "\
a.rhai:2:5: stop 12: a literal in single quotes is not one character
2 | a = 'bc';
  |     ^
1 script, 5 tokens, 1 fault, 19 bytes
";
    assert_eq!(folder.report("let a;\r\na = 'bc';\r\n"), right);
}

/// A mark stands under its character whatever stands before it: under wide characters wide blanks
/// stand, under a tab a tab, and under what has no column nothing.
#[test]
fn marks_stand_under_their_characters() {
    let folder = Folder::new("wide");
    let right = "\
a.rhai:1:15: stop 6: the escape sequence \\q is malformed
1 | \tb = \"水深 e\u{301}\t🚢\\q\";
  | \t    -\u{3000}\u{3000}  \t\u{3000} ^
  | \t    the string literal begins here
1 script, 2 tokens, 1 fault, 25 bytes
";
    assert_eq!(folder.report("\tb = \"水深 e\u{301}\t🚢\\q\";"), right);
}

#[test]
fn a_long_line_is_shown_around_its_marks() {
    let folder = Folder::new("long");
    let [front, back] = ["a ", " c"].map(|word| word.repeat(9_000));
    let script = |between| format!("{}\"{}\\q{}", front, "b".repeat(between), back);
    let column = |line: &str, ch| line.chars().position(|other| other == ch).unwrap();

    let report = folder.report(script(40));
    let lines: Vec<&str> = report.lines().collect();
    assert!(lines[1].starts_with("1 | …") && lines[1].ends_with('…'));
    assert_eq!(lines[1].chars().count(), 79);
    assert_eq!(column(lines[1], '"'), column(lines[2], '-'));
    assert_eq!(column(lines[1], 'q'), column(lines[2], '^'));

    // Two marks that are too far from each other have a line each.
    for between in [90, 900] {
        let report = folder.report(script(between));
        let lines: Vec<&str> = report.lines().collect();
        assert_eq!(column(lines[1], '"'), column(lines[2], '-'));
        assert_eq!(column(lines[3], 'q'), column(lines[4], '^'));
        assert!(lines[2].ends_with("- the string literal begins here"));
    }
}

#[test]
fn a_line_that_the_run_does_not_count_is_said() {
    let folder = Folder::new("uncounted");
    let right = "\
a.rhai:1:11: stop 5: the character ~ begins no token
2 | a\"#; ~
  |      ^
  = it is line 2 of the file: a new line right behind a quote in a raw literal is not counted
1 script, 2 tokens, 1 fault, 11 bytes
";
    assert_eq!(folder.report("#\"b\"\na\"#; ~"), right);
}

#[test]
fn a_remark_that_is_no_text_is_refused() {
    let folder = Folder::new("remark");
    let refused = folder.check_with(&["--wrap-remark"], b"\xff");
    let right = "standard input: stop 1: the text is not UTF-8\n";
    assert_eq!(refused, ended(1, "", right));
    let empty = folder.check_with(&["--wrap-remark"], b"");
    assert_eq!(empty, ended(0, "#\"\"#\n", ""));
}

#[test]
fn wrong_words_are_2() {
    let folder = Folder::new("words");
    let right = "stewsatchel-check: there is no PATH; --help says what may be asked\n";
    assert_eq!(folder.check(&[]), ended(2, "", right));
    let right = "stewsatchel-check: --jsom is unknown; --help says what may be asked\n";
    assert_eq!(folder.check(&["--jsom", "a"]), ended(2, "", right));
    let help = folder.check(&["--help"]);
    assert!(help.status == 0 && help.out.contains("--wrap-remark"));
    let version = format!("stewsatchel-check {}\n", env!("CARGO_PKG_VERSION"));
    assert_eq!(folder.check(&["--version"]), ended(0, &version, ""));
}
