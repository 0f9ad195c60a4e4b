//! Says of each script whether it is whole, and if not, where it stops and why.

mod asked;
mod book;
mod cells;
mod check;
mod forms;
mod found;
mod json;
mod picture;
mod progress;
mod remark;
mod status;
mod stop;
mod sums;
mod tables;
mod walk;
mod width;

use asked::Asked;
use status::Status;
use std::env;
use std::io::{self, BufWriter, Write};
use std::process::ExitCode;

fn main() -> ExitCode {
    match answered() {
        Ok(status) => status.into(),
        // Who reads no further needs no word about it.
        Err(error) if error.kind() == io::ErrorKind::BrokenPipe => Status::Unread.into(),
        Err(error) => {
            eprintln!("stewsatchel-check: {}", error);
            Status::Unread.into()
        }
    }
}

fn answered() -> io::Result<Status> {
    let mut out = BufWriter::new(io::stdout().lock());
    let status = match Asked::of(env::args_os().skip(1)) {
        Ok(Asked::Help) => {
            out.write_all(asked::HELP.as_bytes())?;
            Status::Whole
        }
        Ok(Asked::Version) => {
            writeln!(out, "stewsatchel-check {}", env!("CARGO_PKG_VERSION"))?;
            Status::Whole
        }
        Ok(Asked::WrapRemark) => remark::wrap(io::stdin().lock(), &mut out)?,
        Ok(Asked::Check(asked)) => check::check(&asked, &mut out)?,
        Err(wrong) => {
            eprintln!(
                "stewsatchel-check: {}; --help says what may be asked",
                wrong
            );
            Status::Unread
        }
    };
    out.flush()?;
    Ok(status)
}
