//! Asks the Rust one question and prints its answer, as `show string '"' 0 'a""b"'`.

#[cfg(not(rhai_source))]
fn main() {
    println!("show: the Rust source folder is missing (set RHAI_SRC)");
}

#[cfg(rhai_source)]
fn main() -> std::process::ExitCode {
    let words: Vec<String> = std::env::args().skip(1).collect();
    let words: Vec<&str> = words.iter().map(String::as_str).collect();
    match ask::answer(&words) {
        Some(answer) => {
            println!("{}", answer);
            std::process::ExitCode::SUCCESS
        }
        None => {
            eprintln!("{}", ask::USAGE);
            std::process::ExitCode::from(2)
        }
    }
}

#[cfg(rhai_source)]
mod ask {
    use oracle::{comment, identifier, position, raw, run, script, string, token, Place};

    pub const USAGE: &str = "\
usage: show identifier TEXT [PLACE]
       show comment LEVEL TEXT [PLACE]
       show raw HASHES LIMIT TEXT [PLACE]
       show string TERMINATOR LIMIT TEXT [PLACE]
       show run TEXT
       show listing TEXT
PLACE is LINE:POSITION, 1:1 if left out. None is printed where the Rust panics.
The run is the source's own, the listing is document 01's.";

    /// The printed answer, or `None` where the words are no question.
    pub fn answer(words: &[&str]) -> Option<String> {
        Some(match *words {
            ["identifier", text, ref rest @ ..] => {
                let place = place(rest)?;
                format!("{:?}", identifier::parse_identifier_token(text, 0, place))
            }
            ["comment", level, text, ref rest @ ..] => {
                let (level, place) = (level.parse().ok()?, place(rest)?);
                format!("{:?}", comment::scan_block_comment(text, 0, level, place))
            }
            ["raw", hashes, limit, text, ref rest @ ..] => {
                let (hashes, limit) = (hashes.parse().ok()?, limit.parse().ok()?);
                let read = raw::parse_raw_string_literal(text, 0, place(rest)?, hashes, limit);
                format!("{:?}", read)
            }
            ["string", terminator, limit, text, ref rest @ ..] => {
                let (terminator, limit) = (terminator.parse().ok()?, limit.parse().ok()?);
                let read = string::parse_string_literal(text, 0, place(rest)?, terminator, limit);
                format!("{:?}", read)
            }
            ["run", text] => tokens(text),
            ["listing", text] => script::listing(text.as_bytes()).trim_end().into(),
            _ => return None,
        })
    }

    fn place(rest: &[&str]) -> Option<Place> {
        match *rest {
            [] => Some((1, 1)),
            [place] => {
                let (line, position) = place.split_once(':')?;
                Some((line.parse().ok()?, position.parse().ok()?))
            }
            _ => None,
        }
    }

    fn tokens(text: &str) -> String {
        let line = |&(number, place): &(u32, Place)| {
            let name = token::name(number).unwrap_or_default();
            format!("{} {}", position::debug(place), name)
        };
        run::tokens(text).map_or("None".into(), |tokens| {
            let lines: Vec<_> = tokens.iter().map(line).collect();
            lines.join("\n")
        })
    }
}
