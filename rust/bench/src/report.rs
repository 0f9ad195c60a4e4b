//! The tables, and the worst ratio of each subject.

use std::fmt;

/// A table with its title, printed as Markdown with its columns lined up.
pub struct Table {
    title: String,
    /// The heads first.
    rows: Vec<Vec<String>>,
}

impl Table {
    pub fn new<'a>(title: &str, heads: impl IntoIterator<Item = &'a str>) -> Self {
        Self {
            title: title.into(),
            rows: vec![heads.into_iter().map(String::from).collect()],
        }
    }

    /// A table of pairs of times, ours and another's, at several sizes.
    pub fn of_pairs(title: &str, head: &str, other: &str, sizes: &[usize]) -> Self {
        let mut heads = vec![head.to_string()];
        for &size in sizes {
            heads.push(format!("{}: ours", shown(size)));
            heads.extend([other.to_string(), "ratio".to_string()]);
        }
        Self::new(title, heads.iter().map(String::as_str))
    }

    /// A row of a table of pairs.
    pub fn pairs(&mut self, name: &str, pairs: &[[f64; 2]]) {
        let cells = pairs.iter().flat_map(|&[ours, other]| {
            [nanoseconds(ours), nanoseconds(other), ratio(ours / other)]
        });
        self.row(name, cells);
    }

    pub fn row(&mut self, name: &str, cells: impl IntoIterator<Item = String>) {
        let name = [name.to_string()].into_iter();
        self.rows.push(name.chain(cells).collect());
    }
}

/// A table without rows is not shown.
impl fmt::Display for Table {
    fn fmt(&self, f: &mut fmt::Formatter<'_>) -> fmt::Result {
        if self.rows.len() == 1 {
            return Ok(());
        }
        let width = |column: usize| {
            let cells = self.rows.iter().map(|row| row[column].chars().count());
            cells.max().unwrap_or(0)
        };
        let widths: Vec<usize> = (0..self.rows[0].len()).map(width).collect();
        writeln!(f, "{}\n", self.title)?;
        for (at, row) in self.rows.iter().enumerate() {
            write!(f, "| {:1$} |", row[0], widths[0])?;
            for (cell, width) in row.iter().zip(&widths).skip(1) {
                write!(f, " {:>1$} |", cell, width)?;
            }
            writeln!(f)?;
            if at == 0 {
                write!(f, "|{}|", "-".repeat(widths[0] + 2))?;
                for width in &widths[1..] {
                    write!(f, "{}:|", "-".repeat(width + 1))?;
                }
                writeln!(f)?;
            }
        }
        writeln!(f)
    }
}

/// The worst ratio seen of a subject, and of what.
pub struct Worst {
    subject: &'static str,
    ratio: f64,
    of: String,
}

impl Worst {
    pub fn new(subject: &'static str) -> Self {
        Self {
            subject,
            ratio: 0.0,
            of: String::new(),
        }
    }

    pub fn see(&mut self, ratio: f64, of: impl FnOnce() -> String) {
        if ratio > self.ratio {
            self.ratio = ratio;
            self.of = of();
        }
    }
}

/// Nothing is shown where nothing was seen.
impl fmt::Display for Worst {
    fn fmt(&self, f: &mut fmt::Formatter<'_>) -> fmt::Result {
        match self.of.is_empty() {
            true => Ok(()),
            false => writeln!(f, "{}: {} ({})", self.subject, ratio(self.ratio), self.of),
        }
    }
}

/// What was not timed is `-`.
pub fn nanoseconds(time: f64) -> String {
    match time {
        time if time.is_nan() => "-".into(),
        time if time >= 1000.0 => format!("{:.0}", time),
        time if time >= 100.0 => format!("{:.1}", time),
        time => format!("{:.2}", time),
    }
}

/// A ratio with what was not timed is `-`.
pub fn ratio(ratio: f64) -> String {
    match ratio.is_nan() {
        true => "-".into(),
        false => format!("{:.2}", ratio),
    }
}

/// A number of bytes.
pub fn shown(size: usize) -> String {
    match size {
        size if size >= 1 << 20 => format!("{} MB", size >> 20),
        size if size >= 1 << 10 => format!("{} KB", size >> 10),
        size => format!("{} B", size),
    }
}
