//! Counts of cases, and the smallest input of each difference.

use std::collections::BTreeMap;
use std::fmt::{self, Debug};
use std::process::ExitCode;

/// Why document 01 asks for another answer than the Rust's, as docs/DIFFERENCES.md has it.
pub type Why = &'static str;

/// One question, and its answers.
pub struct Case<'a, G, A> {
    /// The function asked.
    pub name: &'static str,
    pub text: &'a [u8],
    /// What was given beside the text.
    pub given: G,
    /// The Rust's answer. `None` where it has none, or where it was not asked.
    pub rust: Option<A>,
    /// The answer that document 01 asks for where it is not the Rust's.
    pub explained: Option<(Why, A)>,
    pub ours: A,
}

/// What was compared, by the name of the function asked.
#[derive(Default)]
pub struct Report {
    rows: BTreeMap<&'static str, Row>,
    reasons: BTreeMap<Why, u64>,
}

#[derive(Default)]
struct Row {
    cases: u64,
    explained: u64,
    differences: u64,
    smallest: Option<Difference>,
}

struct Difference {
    text: Vec<u8>,
    given: String,
    rust: Option<String>,
    explained: Option<String>,
    ours: String,
}

impl Difference {
    fn of<G: Debug, A: Debug>(case: &Case<G, A>) -> Self {
        let shown = |answer: &A| format!("{:?}", answer);
        Self {
            text: case.text.to_vec(),
            given: format!("{:?}", case.given),
            rust: case.rust.as_ref().map(shown),
            explained: case.explained.as_ref().map(|(_, answer)| shown(answer)),
            ours: shown(&case.ours),
        }
    }

    /// Fewer bytes come first, then those that sort first.
    fn text_size(&self) -> (usize, &[u8]) {
        (self.text.len(), &self.text)
    }

    /// Then the shorter words beside them.
    fn size(&self) -> impl Ord + '_ {
        (self.text_size(), self.given.len(), &self.given)
    }
}

impl Row {
    fn keep<G: Debug, A: Debug>(&mut self, case: &Case<G, A>) {
        self.differences += 1;
        let size = (case.text.len(), case.text);
        if matches!(&self.smallest, Some(smallest) if smallest.text_size() < size) {
            return;
        }
        let found = Difference::of(case);
        match &self.smallest {
            Some(smallest) if smallest.size() <= found.size() => (),
            _ => self.smallest = Some(found),
        }
    }
}

impl Report {
    /// Counts one case. Where document 01 asks for another answer than the Rust's, ours is held
    /// to that one. A case in which neither has an answer is a difference.
    pub fn compare<G: Debug, A: Debug + PartialEq>(&mut self, case: Case<G, A>) {
        let row = self.rows.entry(case.name).or_default();
        row.cases += 1;
        let mut right = case.rust.as_ref();
        if let Some((why, answer)) = &case.explained {
            row.explained += 1;
            *self.reasons.entry(why).or_default() += 1;
            right = Some(answer);
        }
        if right != Some(&case.ours) {
            row.keep(&case);
        }
    }

    /// Counts one case of a function that document 01 leaves as it is in the Rust.
    pub fn same<A: Debug + PartialEq>(
        &mut self,
        name: &'static str,
        given: impl Debug,
        rust: A,
        ours: A,
    ) {
        self.compare(Case {
            name,
            text: b"",
            given,
            rust: Some(rust),
            explained: None,
            ours,
        });
    }

    /// Counts one case of a test on a text. What is no text cannot be put to the Rust: it is asked
    /// with U+FFFD for the bytes that are of no character.
    pub fn holds(
        &mut self,
        name: &'static str,
        text: &[u8],
        rust: fn(&str) -> bool,
        ours: fn(&[u8]) -> bool,
    ) {
        let answer = rust(&String::from_utf8_lossy(text));
        let is_text = std::str::from_utf8(text).is_ok();
        self.compare(Case {
            name,
            text,
            given: (),
            rust: is_text.then_some(answer),
            explained: (!is_text).then_some(("not UTF-8", answer)),
            ours: ours(text),
        });
    }

    pub fn cases(&self) -> u64 {
        self.sum(|row| row.cases)
    }

    pub fn explained(&self) -> u64 {
        self.sum(|row| row.explained)
    }

    pub fn differences(&self) -> u64 {
        self.sum(|row| row.differences)
    }

    fn sum(&self, count: fn(&Row) -> u64) -> u64 {
        self.rows.values().map(count).sum()
    }

    /// Success only if something was compared and nothing differs.
    pub fn exit_code(&self) -> ExitCode {
        ExitCode::from(u8::from(self.cases() == 0 || self.differences() > 0))
    }

    fn write_functions(&self, f: &mut fmt::Formatter<'_>, width: usize) -> fmt::Result {
        let mut line = |name: &str, counts: [&dyn fmt::Display; 3]| {
            let [cases, explained, differences] = counts;
            writeln!(
                f,
                "{:width$}  {:>12}  {:>12}  {:>12}",
                name, cases, explained, differences
            )
        };
        line("function", [&"cases", &"explained", &"differences"])?;
        for (name, row) in &self.rows {
            line(name, [&row.cases, &row.explained, &row.differences])?;
        }
        Ok(())
    }
}

impl fmt::Display for Report {
    fn fmt(&self, f: &mut fmt::Formatter<'_>) -> fmt::Result {
        let names = self.rows.keys().chain(self.reasons.keys());
        let width = names.map(|name| name.len()).max().unwrap_or(0);
        self.write_functions(f, width)?;
        writeln!(f, "\n{:width$}  {:>12}", "explained by", "cases")?;
        for (why, cases) in &self.reasons {
            writeln!(f, "{:width$}  {:>12}", why, cases)?;
        }
        for (name, row) in &self.rows {
            if let Some(found) = &row.smallest {
                writeln!(f, "\n{} {}", name, found)?;
            }
        }
        writeln!(
            f,
            "\ncompare: {} cases, {} explained, {} differences",
            self.cases(),
            self.explained(),
            self.differences()
        )
    }
}

impl fmt::Display for Difference {
    fn fmt(&self, f: &mut fmt::Formatter<'_>) -> fmt::Result {
        write!(f, "b\"{}\" {}", self.text.escape_ascii(), self.given)?;
        if let Some(rust) = &self.rust {
            write!(f, "\n    rust {}", rust)?;
        }
        if let Some(explained) = &self.explained {
            write!(f, "\n    want {}", explained)?;
        }
        write!(f, "\n    ours {}", self.ours)
    }
}

#[cfg(test)]
mod tests {
    use super::*;

    fn case<G>(text: &[u8], given: G, rust: Option<u8>, ours: u8) -> Case<'_, G, u8> {
        Case {
            name: "f",
            text,
            given,
            rust,
            explained: None,
            ours,
        }
    }

    #[test]
    fn equal_answers_are_counted() {
        let mut report = Report::default();
        report.compare(case(b"a", (), Some(1), 1));
        report.compare(Case {
            name: "longer",
            ..case(b"a", (), Some(1), 1)
        });
        report.compare(Case {
            explained: Some(("a longer reason", 3)),
            ..case(b"b", (), Some(1), 3)
        });
        assert_eq!(
            report.to_string(),
            "function                cases     explained   differences\n\
             f                           2             1             0\n\
             longer                      1             0             0\n\
             \n\
             explained by            cases\n\
             a longer reason             1\n\
             \n\
             compare: 3 cases, 1 explained, 0 differences\n"
        );
    }

    #[test]
    fn the_smallest_difference_is_kept() {
        let mut report = Report::default();
        report.compare(case(b"ccc", (1, 1), Some(1), 2));
        report.compare(case(b"b\n", (10, 1), Some(3), 4));
        report.compare(case(b"b\n", (1, 1), Some(5), 6));
        report.compare(case(b"z!", (1, 1), Some(7), 8));
        assert_eq!(report.differences(), 4);
        let shown = report.to_string();
        assert!(
            shown.contains("\nf b\"b\\n\" (1, 1)\n    rust 5\n    ours 6\n"),
            "{}",
            shown
        );
    }

    #[test]
    fn a_case_with_no_answer_to_hold_ours_to_is_a_difference() {
        let mut report = Report::default();
        report.compare(case(b"", (), None, 1));
        assert_eq!(report.differences(), 1);
    }

    #[test]
    fn the_rust_does_not_count_where_another_answer_is_asked_for() {
        let mut report = Report::default();
        report.compare(Case {
            explained: Some(("", 3)),
            ..case(b"", (), Some(1), 1)
        });
        let counts = (report.cases(), report.explained(), report.differences());
        assert_eq!(counts, (1, 1, 1));
        assert!(report
            .to_string()
            .contains("    rust 1\n    want 3\n    ours 1\n"));
    }

    #[test]
    fn what_is_no_text_is_explained() {
        let mut report = Report::default();
        let ours = |text: &[u8]| text.is_empty();
        report.holds("f", b"", str::is_empty, ours);
        report.holds("f", b"\xff", str::is_empty, ours);
        let counts = (report.cases(), report.explained(), report.differences());
        assert_eq!(counts, (2, 1, 0));
    }
}
