//! What is written about one script.

use crate::json;
use crate::picture::Line;
use crate::stop::Stop;
use std::fmt;
use std::io::{self, Write};
use std::path::Path;
use stewsatchel::{Iter, Place, Stopped, Tokens};

/// What became of a script.
pub type Read<'a> = Result<Tokens<'a>, Stopped<'a>>;

/// The tokens of a script, all or those before its stop.
pub fn tokens<'t>(read: &'t Read) -> Iter<'t> {
    match read {
        Ok(tokens) => tokens.iter(),
        Err(stopped) => stopped.tokens_before(),
    }
}

/// A report of a stop: a line that editors know, and a picture.
pub fn report(path: &Path, script: &[u8], stop: &Stop, columns: usize) -> String {
    let Place { line, column } = stop.place;
    let picture = stop.picture(&String::from_utf8_lossy(script), columns);
    let path = path.display();
    let (number, sentence) = (stop.number, &stop.sentence);
    format!("{path}:{line}:{column}: stop {number}: {sentence}\n{picture}")
}

/// The tokens as the listing program lists them.
pub fn listing(out: &mut dyn Write, read: &Read) -> io::Result<()> {
    for token in tokens(read) {
        writeln!(out, "{} {} {}", token.place, token.kind, Hex(token.bytes))?;
    }
    match read {
        Ok(tokens) => writeln!(out, "end {}", tokens.end()),
        Err(stopped) => writeln!(out, "stop {} {}", stopped.number(), stopped.place()),
    }
}

/// Bytes in lowercase hex, `-` for none.
struct Hex<'a>(&'a [u8]);

impl fmt::Display for Hex<'_> {
    fn fmt(&self, f: &mut fmt::Formatter<'_>) -> fmt::Result {
        if self.0.is_empty() {
            return f.write_str("-");
        }
        self.0.iter().try_for_each(|byte| write!(f, "{:02x}", byte))
    }
}

/// One JSON object for a script that was read.
pub fn object(
    out: &mut dyn Write,
    path: &Path,
    script: &[u8],
    read: &Read,
    stop: Option<&Stop>,
) -> io::Result<()> {
    let end = read.as_ref().map(|tokens| {
        let end = tokens.end();
        json::object(&[
            ("line", end.line.to_string()),
            ("column", end.column.to_string()),
        ])
    });
    let fields = [
        ("file", json::string(&path.to_string_lossy())),
        ("bytes", script.len().to_string()),
        ("tokens", tokens(read).len().to_string()),
        ("end", end.unwrap_or_else(|_| json::NULL.into())),
        (
            "stop",
            stop.map_or(json::NULL.into(), |stop| stop_object(script, stop)),
        ),
        ("error", json::NULL.into()),
    ];
    writeln!(out, "{}", json::object(&fields))
}

/// One JSON object for a script that could not be read.
pub fn unread_object(out: &mut dyn Write, path: &Path, why: &str) -> io::Result<()> {
    let null = || json::NULL.to_string();
    let fields = [
        ("file", json::string(&path.to_string_lossy())),
        ("bytes", null()),
        ("tokens", null()),
        ("end", null()),
        ("stop", null()),
        ("error", json::string(why)),
    ];
    writeln!(out, "{}", json::object(&fields))
}

fn stop_object(script: &[u8], stop: &Stop) -> String {
    let text = String::from_utf8_lossy(script);
    let opened = stop.opened.map(|opened| {
        let line = Line::at(&text, opened.offset);
        json::object(&[
            ("what", json::string(&opened.what.to_string())),
            ("offset", opened.offset.to_string()),
            ("line", line.number.to_string()),
            ("column", line.column(&text, opened.offset).to_string()),
        ])
    });
    let offset = stop.offset.map(|offset| offset.to_string());
    json::object(&[
        ("number", stop.number.to_string()),
        ("line", stop.place.line.to_string()),
        ("column", stop.place.column.to_string()),
        ("message", json::string(&stop.sentence)),
        ("offset", offset.unwrap_or_else(|| json::NULL.into())),
        ("opened", opened.unwrap_or_else(|| json::NULL.into())),
    ])
}
