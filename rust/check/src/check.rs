//! A check of many scripts, one after the other.

use crate::asked::{Check, Form};
use crate::book;
use crate::forms;
use crate::found::{self, Unread};
use crate::progress::Progress;
use crate::status::Status;
use crate::stop::Stop;
use crate::sums::Sums;
use std::env;
use std::fs::File;
use std::io::{self, Read, Write};
use std::path::Path;
use std::time::Instant;
use stewsatchel::{Book, Script, LONGEST};

/// The columns of a terminal that does not say, and the least that a picture is made for.
const COLUMNS: usize = 80;
const LEAST: usize = 20;

/// Checks the scripts that are asked for.
pub fn check(asked: &Check, out: &mut dyn Write) -> io::Result<Status> {
    let started = Instant::now();
    let book = match &asked.book {
        None => Book::empty(),
        Some(path) => match book::read(path) {
            Ok(book) => book,
            Err(why) => {
                eprintln!("{}", why);
                return Ok(Status::Unread);
            }
        },
    };
    let found = found::scripts(&asked.paths);
    let mut checker = Checker {
        asked,
        book,
        columns: columns(),
        is_titled: found.len() > 1,
        progress: Progress::start(),
        sums: Sums::default(),
        out,
    };
    for (done, script) in found.iter().enumerate() {
        checker.tell(done, found.len());
        match script {
            Ok(path) => match bytes(path) {
                Ok(script) => checker.hold(path, &script)?,
                Err(error) => checker.unread(&Unread::new(path, error))?,
            },
            Err(unread) => checker.unread(unread)?,
        }
    }
    checker.progress.clear();
    checker.sums.time = started.elapsed();
    checker.sum_up()
}

fn columns() -> usize {
    let told = env::var("COLUMNS").ok().and_then(|told| told.parse().ok());
    told.unwrap_or(COLUMNS).max(LEAST)
}

/// The bytes of a script. One more than a script may have tell that it is too long.
fn bytes(path: &Path) -> io::Result<Vec<u8>> {
    let mut bytes = Vec::new();
    let most = LONGEST as u64 + 1;
    File::open(path)?.take(most).read_to_end(&mut bytes)?;
    Ok(bytes)
}

struct Checker<'a> {
    asked: &'a Check,
    book: Book,
    columns: usize,
    /// Whether a listing has its file's name above it.
    is_titled: bool,
    progress: Progress,
    sums: Sums,
    out: &'a mut dyn Write,
}

impl Checker<'_> {
    fn tell(&mut self, done: usize, all: usize) {
        if self.asked.form == Form::Reports {
            self.progress.tell(done, all);
        }
    }

    /// Reads a script, and writes what is to be said of it.
    fn hold(&mut self, path: &Path, script: &[u8]) -> io::Result<()> {
        let read = Script::read(script, &self.book, &self.asked.limits);
        let stop = read.as_ref().err().map(|stopped| Stop::of(script, stopped));
        self.sums.scripts += 1;
        self.sums.bytes += script.len();
        self.sums.tokens += forms::tokens(&read).len();
        self.sums.faults += usize::from(stop.is_some());
        match self.asked.form {
            Form::Json => return forms::object(self.out, path, script, &read, stop.as_ref()),
            Form::Tokens if self.is_titled => writeln!(self.out, "{}:", path.display())?,
            Form::Tokens | Form::Reports => {}
        }
        if self.asked.form == Form::Tokens {
            forms::listing(self.out, &read)?;
        }
        match stop {
            Some(stop) => self.report(path, script, &stop),
            None => Ok(()),
        }
    }

    /// Reports a stop where no listing is.
    fn report(&mut self, path: &Path, script: &[u8], stop: &Stop) -> io::Result<()> {
        self.progress.clear();
        let report = forms::report(path, script, stop, self.columns);
        if self.asked.form == Form::Reports {
            self.out.write_all(report.as_bytes())?;
        } else {
            self.out.flush()?;
            eprint!("{}", report);
        }
        self.out.flush()
    }

    fn unread(&mut self, unread: &Unread) -> io::Result<()> {
        self.sums.unread += 1;
        self.progress.clear();
        if self.asked.form == Form::Json {
            return forms::unread_object(self.out, &unread.path, &unread.why);
        }
        self.out.flush()?;
        eprintln!("{}: {}", unread.path.display(), unread.why);
        Ok(())
    }

    fn sum_up(&mut self) -> io::Result<Status> {
        if self.asked.form == Form::Reports {
            writeln!(self.out, "{}", self.sums)?;
        } else {
            self.out.flush()?;
            eprintln!("{}", self.sums);
        }
        Ok(self.sums.status())
    }
}
