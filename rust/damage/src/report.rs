//! Counts of calls by what was done and what was answered, and the faults found.

use crate::ask::{Fault, Question};
use std::collections::BTreeMap;
use std::fmt;
use std::process::ExitCode;

#[derive(Default)]
pub struct Report {
    /// By what was done: how often each number was answered.
    rows: BTreeMap<&'static str, [u64; 16]>,
    faults: u64,
    /// The smallest input of each fault.
    smallest: BTreeMap<(&'static str, Fault), Found>,
}

struct Found {
    seed: u64,
    input: Vec<u8>,
    given: String,
}

impl Report {
    /// Counts a call that kept all.
    pub fn count(&mut self, done: &'static str, number: u32) {
        self.rows.entry(done).or_default()[number as usize & 15] += 1;
    }

    /// Counts a fault. Of those with one name the shortest input is kept.
    pub fn fault(
        &mut self,
        done: &'static str,
        fault: Fault,
        seed: u64,
        input: &[u8],
        given: String,
    ) {
        self.faults += 1;
        let found = Found {
            seed,
            input: input.to_vec(),
            given,
        };
        let key = (done, fault);
        match self.smallest.get(&key) {
            Some(smallest) if smallest.input.len() <= found.input.len() => (),
            _ => drop(self.smallest.insert(key, found)),
        }
    }

    pub fn calls(&self) -> u64 {
        self.rows.values().flatten().sum::<u64>() + self.faults
    }

    pub fn exit_code(&self) -> ExitCode {
        ExitCode::from(u8::from(self.faults > 0))
    }
}

/// What a question has beside its script.
pub fn given(question: &Question) -> String {
    format!(
        "book \"{}\", limit {}, room for literals {}, entries {}, answer {} bytes, each {:02x}",
        question.book.escape_ascii(),
        question.limit,
        question.literals,
        question.entries,
        question.answer,
        question.fill
    )
}

impl fmt::Display for Report {
    fn fmt(&self, f: &mut fmt::Formatter<'_>) -> fmt::Result {
        for (done, numbers) in &self.rows {
            write!(
                f,
                "{:<38} {:>9} calls, answered",
                done,
                numbers.iter().sum::<u64>()
            )?;
            for (number, count) in numbers.iter().enumerate().filter(|(_, &count)| count > 0) {
                write!(f, " {}: {},", number, count)?;
            }
            writeln!(f)?;
        }
        for ((done, fault), found) in &self.smallest {
            writeln!(f, "FAULT, {}: {} (seed {})", done, fault, found.seed)?;
            let shown = &found.input[..found.input.len().min(2_000)];
            writeln!(
                f,
                "    {} bytes: \"{}\"",
                found.input.len(),
                shown.escape_ascii()
            )?;
            writeln!(f, "    {}", found.given)?;
        }
        writeln!(f, "damage: {} calls, {} faults", self.calls(), self.faults)
    }
}
