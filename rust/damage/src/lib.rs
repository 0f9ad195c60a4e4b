//! Load and damage: asks the proved run and raw writer about damaged input and about the largest,
//! and looks at every byte of the memory that it lends and around it.

mod ask;
mod book;
mod entries;
mod harm;
mod largest;
mod lent;
mod names;
mod random;
pub mod report;
mod script;
mod writer;

use ask::Memory;
use report::Report;
use std::ops::RangeInclusive;
use writer::Pen;

/// A damaged script for each seed, and a body for every eighth.
pub fn damaged(seeds: RangeInclusive<u64>, report: &mut Report) {
    let (mut memory, mut pen) = (Memory::default(), Pen::default());
    for seed in seeds {
        harm::case(seed, &mut memory, report);
        if seed % 8 == 0 {
            writer::case(seed, &mut pen, &mut memory, report);
        }
    }
}

/// The largest input of each kind, and one byte more.
pub fn largest(report: &mut Report) {
    largest::all(&mut Pen::default(), &mut Memory::default(), report);
}
