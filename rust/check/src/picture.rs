//! The lines of a script around its stop, with marks under them.

use crate::cells::Cells;
use std::ops::Range;

/// A sign under a place of a script, and what it means.
#[derive(Debug, Clone, PartialEq, Eq)]
pub struct Mark {
    pub offset: usize,
    pub sign: char,
    pub label: String,
}

impl Mark {
    /// The sign, and behind it what it means, if that is said.
    fn signed(&self) -> String {
        match self.label.is_empty() {
            true => self.sign.into(),
            false => format!("{} {}", self.sign, self.label),
        }
    }
}

/// A line of a script: its number, from 1 on, and its part without the line's end.
#[derive(Debug, Clone, PartialEq, Eq)]
pub struct Line {
    pub number: usize,
    pub part: Range<usize>,
}

impl Line {
    /// The line that has an offset.
    pub fn at(script: &str, offset: usize) -> Self {
        let (before, behind) = script.split_at(offset);
        let start = before.rfind('\n').map_or(0, |at| at + 1);
        let end = behind.find('\n').map_or(script.len(), |at| offset + at);
        let line = &script[start..end];
        Self {
            number: before.matches('\n').count() + 1,
            part: start..start + line.strip_suffix('\r').unwrap_or(line).len(),
        }
    }

    /// The column of an offset, from 1 on, in characters.
    pub fn column(&self, script: &str, offset: usize) -> usize {
        script[self.part.start..offset].chars().count() + 1
    }
}

/// Pictures of a script for a terminal of so many columns.
pub struct Picture<'s> {
    script: &'s str,
    columns: usize,
    /// The digits of the largest line number.
    digits: usize,
}

impl<'s> Picture<'s> {
    /// One mark, or two that rise.
    pub fn of(script: &'s str, marks: &[Mark], columns: usize) -> String {
        let lines: Vec<Line> = marks
            .iter()
            .map(|mark| Line::at(script, mark.offset))
            .collect();
        let largest = lines.iter().map(|line| line.number).max().unwrap_or(1);
        let picture = Self {
            script,
            columns,
            digits: largest.to_string().len(),
        };
        match (&lines[..], marks) {
            ([one, other], [first, second]) if one == other => {
                let both = picture.both(one, [first, second]);
                both.unwrap_or_else(|| picture.one(one, first) + &picture.one(other, second))
            }
            ([one, other], [first, second]) => {
                let between = match other.number - one.number {
                    1 => "",
                    _ => "...\n",
                };
                picture.one(one, first) + between + &picture.one(other, second)
            }
            _ => (lines.iter().zip(marks))
                .map(|(line, mark)| picture.one(line, mark))
                .collect(),
        }
    }

    /// A line with one mark.
    fn one(&self, line: &Line, mark: &Mark) -> String {
        let offset = mark.offset - line.part.start;
        let cells = self
            .around(line, [offset; 2])
            .unwrap_or_else(|| self.cells(line, [offset; 2]));
        let blank = cells.blank(0..offset);
        let under = format!("{}{}", blank, mark.signed());
        self.rows(line, &[cells.shown(), under])
    }

    /// A line with two marks, if there is room for both.
    fn both(&self, line: &Line, marks: [&Mark; 2]) -> Option<String> {
        let offsets = [0, 1].map(|at| marks[at].offset - line.part.start);
        let cells = self.around(line, offsets)?;
        let [front, between] = [
            cells.blank(0..offsets[0]),
            cells.blank(offsets[0]..offsets[1]),
        ];
        // The first mark takes the first cell of what is between, which may be wider than it.
        let signs = match between.strip_prefix(' ') {
            Some(rest) => format!("{}{}{}{}", front, marks[0].sign, rest, marks[1].signed()),
            None => return None,
        };
        let label = format!("{}{}", front, marks[0].label);
        Some(self.rows(line, &[cells.shown(), signs, label]))
    }

    fn around(&self, line: &Line, offsets: [usize; 2]) -> Option<Cells> {
        if offsets[1] - offsets[0] > self.far() {
            return None;
        }
        let gutter = self.digits + " | ".len();
        let room = self.columns.saturating_sub(gutter);
        self.cells(line, offsets).around(offsets, room)
    }

    /// More bytes than are shown, but for characters of no column. A character has at most four.
    fn far(&self) -> usize {
        4 * self.columns
    }

    /// The cells of a line, but not of all that is far from two offsets of it.
    fn cells(&self, line: &Line, [first, last]: [usize; 2]) -> Cells {
        let text = &self.script[line.part.clone()];
        let start = boundary(text, first.saturating_sub(self.far()));
        let end = boundary(text, (last + self.far()).min(text.len()));
        Cells::of(&text[start..end], start, [start > 0, end < text.len()])
    }

    /// A row with the line's number, and rows under it.
    fn rows(&self, line: &Line, rows: &[String]) -> String {
        let mut text = String::new();
        let mut number = line.number.to_string();
        for row in rows {
            let space = if row.is_empty() { "" } else { " " };
            text += &format!("{:>1$} |{2}{3}\n", number, self.digits, space, row);
            number.clear();
        }
        text
    }
}

/// The end of the last character that ends there, or before.
fn boundary(text: &str, at: usize) -> usize {
    (0..=at)
        .rev()
        .find(|&at| text.is_char_boundary(at))
        .unwrap_or(0)
}
