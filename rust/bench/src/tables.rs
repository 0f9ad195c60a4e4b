//! The tables of whole scripts: by kind, by size, and the hostile ones.

use crate::asked::Asked;
use crate::hostile::{self, Source};
use crate::report::{nanoseconds, ratio, shown, Table, Worst};
use crate::run::{Runs, Times};
use crate::scripts::{script, KINDS};

/// The size that every table of kinds shows.
const SHOWN: usize = 1 << 16;

const HEADS: [&str; 9] = [
    "ours",
    "source",
    "source, no comments",
    "plain",
    "ours : source",
    "ours : no comments",
    "ours : plain",
    "ours, with a book",
    "bytes",
];

/// The times of one kind, by the sizes asked for.
struct Timed {
    name: &'static str,
    times: Vec<(usize, Times)>,
}

/// Prints the tables of the kinds.
pub fn kinds(asked: &Asked, worst: &mut [Worst; 2]) -> Result<(), String> {
    let sizes = asked.sizes();
    let mut runs = Runs::new(sizes[sizes.len() - 1]);
    let mut kinds = Vec::new();
    for (name, piece) in KINDS {
        if !asked.has("script", name) {
            continue;
        }
        let mut times = Vec::new();
        for &size in sizes {
            let script = script(piece, size);
            let name = format!("{}, {}", name, shown(size));
            let held = runs.check(&script, Source::Same);
            held.map_err(|why| format!("{}: {}", name, why))?;
            let time = runs.time(&script, asked.effort(size));
            worst[0].see(time.ours / time.source, || name.clone());
            worst[1].see(time.ours / time.skipping, || name);
            times.push((size, time));
        }
        kinds.push(Timed { name, times });
    }
    print!("{}", by_kind(&kinds));
    if sizes.len() > 1 {
        growth(&kinds, sizes);
    }
    Ok(())
}

fn by_kind(kinds: &[Timed]) -> Table {
    let title = format!("Scripts of {}, ns a byte", shown(SHOWN));
    let mut table = Table::new(&title, ["kind"].into_iter().chain(HEADS));
    for kind in kinds {
        let shown = kind.times.iter().filter(|&&(size, _)| size == SHOWN);
        shown.for_each(|&(size, times)| table.row(kind.name, cells(times, size)));
    }
    table
}

/// The cells of a row of either table.
fn cells(times: Times, size: usize) -> Vec<String> {
    vec![
        nanoseconds(times.ours),
        nanoseconds(times.source),
        nanoseconds(times.skipping),
        nanoseconds(times.plain),
        ratio(times.ours / times.source),
        ratio(times.ours / times.skipping),
        ratio(times.ours / times.plain),
        nanoseconds(times.booked),
        size.to_string(),
    ]
}

/// What a table by size shows of some times.
type Cell = fn(Times) -> String;

/// Prints how the time of a byte grows with the script.
fn growth(kinds: &[Timed], sizes: &[usize]) {
    let heads: Vec<String> = sizes.iter().map(|&size| shown(size)).collect();
    let heads = ["kind"].into_iter().chain(heads.iter().map(String::as_str));
    let heads: Vec<&str> = heads.collect();
    let columns: [(&str, Cell); 6] = [
        ("ours, ns a byte", |times| nanoseconds(times.ours)),
        ("source, ns a byte", |times| nanoseconds(times.source)),
        ("plain, ns a byte", |times| nanoseconds(times.plain)),
        ("ours : source", |times| ratio(times.ours / times.source)),
        ("ours : source, no comments", |times| {
            ratio(times.ours / times.skipping)
        }),
        ("ours : plain", |times| ratio(times.ours / times.plain)),
    ];
    for (title, cell) in columns {
        let title = format!("By size of script: {}", title);
        let mut table = Table::new(&title, heads.iter().copied());
        for kind in kinds {
            table.row(kind.name, kind.times.iter().map(|&(_, times)| cell(times)));
        }
        print!("{}", table);
    }
}

/// Prints the table of the hostile scripts.
pub fn hostile(asked: &Asked, worst: &mut [Worst; 2]) -> Result<(), String> {
    let mut runs = Runs::new(SHOWN);
    let title = format!("Hostile scripts of {}, ns a byte", shown(SHOWN));
    let mut table = Table::new(&title, ["script"].into_iter().chain(HEADS));
    let scripts = hostile::scripts().into_iter();
    for hostile in scripts.filter(|script| asked.has("hostile", script.name)) {
        let (name, script) = (hostile.name, &hostile.script[..]);
        let held = runs.check(script, hostile.source);
        held.map_err(|why| format!("hostile, {}: {}", name, why))?;
        let effort = asked.effort(script.len());
        let times = match hostile.source {
            Source::Same => runs.time(script, effort),
            Source::Refuses | Source::Other => runs.time_alone(script, effort),
        };
        worst[0].see(times.ours / times.source, || name.into());
        worst[1].see(times.ours / times.skipping, || name.into());
        table.row(name, cells(times, script.len()));
    }
    print!("{}", table);
    Ok(())
}
