//! What the program's words ask for.

use std::ffi::OsString;
use std::path::PathBuf;
use stewsatchel::Limits;

pub const HELP: &str = "\
stewsatchel-check: says of each script whether it is whole, and if not, where
it stops and why.

    stewsatchel-check [--book FILE] [--limit BYTES] [--tokens | --json] PATH..
    stewsatchel-check --wrap-remark <REMARK

A PATH is a script, or a folder: every *.rhai below it is a script.

    --book FILE     the words that are reserved: one on a line, its flags
                    (a, b or ab) behind it if it has some. An empty line, and
                    one that begins with //, is none. Or a binary book.
    --limit BYTES   the most bytes of a literal; 0, as without it, is no limit
    --tokens        lists the tokens of each script, as the listing program
                    does; reports go to standard error
    --json          one JSON object on a line for each script (see below)
    --wrap-remark   prints the raw literal of the remark on standard input.
                    A line feed that ends the remark is not part of it.
    --              what follows is a PATH
    --help, --version

A report has the file, the line and the column of the stop, counted in
characters; the number and the reason of the stop; and the lines of the script
where it stops (^) and where what is still open begins (-), for a terminal of
COLUMNS columns (80).

The status is 0 if every script is whole, 1 if one stopped, and 2 if something
could not be read or was asked for wrongly, whatever else was met. A folder
without a script could not be read.

An object of --json has \"file\", \"bytes\", \"tokens\" (how many), and one of
these, the others being null:
    \"end\"     \"line\", \"column\"
    \"stop\"    \"number\", \"line\", \"column\", \"message\"; \"offset\" in bytes, or
              null; \"opened\", null or what is not closed: \"what\", \"offset\",
              and the \"line\" and \"column\" of the file, from 1 on
    \"error\"   why it could not be read; \"bytes\" and \"tokens\" are null then
";

#[derive(Debug, Clone, PartialEq, Eq)]
pub enum Asked {
    Help,
    Version,
    WrapRemark,
    Check(Check),
}

/// How the answers are given.
#[derive(Debug, Clone, Copy, PartialEq, Eq)]
pub enum Form {
    Reports,
    Tokens,
    Json,
}

#[derive(Debug, Clone, PartialEq, Eq)]
pub struct Check {
    pub paths: Vec<PathBuf>,
    pub book: Option<PathBuf>,
    pub limits: Limits,
    pub form: Form,
}

impl Asked {
    /// What is asked for, or why that is nothing.
    pub fn of(words: impl IntoIterator<Item = OsString>) -> Result<Self, String> {
        let mut words = words.into_iter();
        let mut check = Check {
            paths: Vec::new(),
            book: None,
            limits: Limits::NONE,
            form: Form::Reports,
        };
        while let Some(word) = words.next() {
            match word.to_str() {
                Some("--help") => return Ok(Self::Help),
                Some("--version") => return Ok(Self::Version),
                Some("--wrap-remark") => return Ok(Self::WrapRemark),
                Some("--tokens") => check.take(Form::Tokens)?,
                Some("--json") => check.take(Form::Json)?,
                Some("--book") => check.book = Some(behind("--book", &mut words)?.into()),
                Some("--limit") => check.limits = limits(&behind("--limit", &mut words)?)?,
                Some("--") => check.paths.extend(words.by_ref().map(PathBuf::from)),
                Some(word) if word.starts_with('-') => return Err(format!("{} is unknown", word)),
                _ => check.paths.push(word.into()),
            }
        }
        match check.paths.is_empty() {
            true => Err("there is no PATH".into()),
            false => Ok(Self::Check(check)),
        }
    }
}

impl Check {
    fn take(&mut self, form: Form) -> Result<(), String> {
        if self.form != Form::Reports && self.form != form {
            return Err("--tokens and --json are not asked together".into());
        }
        self.form = form;
        Ok(())
    }
}

/// The word behind an option.
fn behind(option: &str, words: &mut impl Iterator<Item = OsString>) -> Result<OsString, String> {
    let missing = || format!("nothing stands behind {}", option);
    words.next().ok_or_else(missing)
}

fn limits(bytes: &OsString) -> Result<Limits, String> {
    let most = bytes.to_str().and_then(|bytes| bytes.parse().ok());
    let most = most.ok_or("--limit is a number of bytes")?;
    Ok(Limits::NONE.string_bytes(most))
}

#[cfg(test)]
mod tests {
    use super::*;

    fn asked(words: &[&str]) -> Result<Asked, String> {
        Asked::of(words.iter().map(OsString::from))
    }

    #[test]
    fn words_ask_for_scripts() {
        let words = ["--book", "b", "a", "--json", "--limit", "7", "--", "--json"];
        let check = Check {
            paths: ["a", "--json"].map(PathBuf::from).to_vec(),
            book: Some("b".into()),
            limits: Limits::NONE.string_bytes(7),
            form: Form::Json,
        };
        assert_eq!(asked(&words), Ok(Asked::Check(check)));
    }

    #[test]
    fn wrong_words_are_refused() {
        let wrong: [&[&str]; 7] = [
            &[],
            &["--"],
            &["a", "--jsom"],
            &["a", "--book"],
            &["a", "--limit", "x"],
            &["a", "--limit", "-1"],
            &["a", "--json", "--tokens"],
        ];
        for words in wrong {
            assert!(asked(words).is_err(), "{:?}", words);
        }
        assert_eq!(asked(&["a", "--help"]), Ok(Asked::Help));
    }
}
