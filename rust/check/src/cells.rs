//! A part of a line as a terminal shows it, in cells: a character with the marks that stand on it.

use crate::width::{shown, width};
use std::iter;
use std::ops::Range;

/// The columns that a tab takes at most.
const TAB: usize = 8;

#[derive(Debug, Clone, PartialEq, Eq)]
pub struct Cell {
    /// Where it ends in the line.
    end: usize,
    text: String,
    width: usize,
}

impl Cell {
    fn of(ch: char, end: usize) -> Self {
        let ch = shown(ch);
        let (text, width) = match width(ch) {
            _ if ch == '\t' => (ch.to_string(), TAB),
            // A mark with nothing to stand on is given a sign for it.
            0 => (format!("\u{25cc}{}", ch), 1),
            width => (ch.to_string(), width),
        };
        Self { end, text, width }
    }

    /// Blank, and as wide as the cell whatever the terminal's font is.
    fn blank(&self) -> &'static str {
        match self.width {
            TAB => "\t",
            2 => "\u{3000}",
            _ => " ",
        }
    }
}

/// The cells of a part of a line.
#[derive(Debug, Clone, PartialEq, Eq)]
pub struct Cells {
    cells: Vec<Cell>,
    /// Whether more of the line is in front, and behind.
    is_cut: [bool; 2],
}

impl Cells {
    /// The cells of a line from a front on, and whether there is more of it on either side.
    pub fn of(part: &str, front: usize, is_cut: [bool; 2]) -> Self {
        let mut cells: Vec<Cell> = Vec::new();
        for (at, ch) in part.char_indices() {
            let end = front + at + ch.len_utf8();
            match cells.last_mut() {
                Some(cell) if width(shown(ch)) == 0 => {
                    cell.text.push(ch);
                    cell.end = end;
                }
                _ => cells.push(Cell::of(ch, end)),
            }
        }
        Self { cells, is_cut }
    }

    /// The cell at an offset of the line. Behind the last one there is one more.
    fn index(&self, offset: usize) -> usize {
        self.cells.partition_point(|cell| cell.end <= offset)
    }

    fn columns(&self, cells: Range<usize>) -> usize {
        self.cells[cells].iter().map(|cell| cell.width).sum()
    }

    /// As much as has room, around two offsets of the line. `None` where they are too far from each
    /// other.
    pub fn around(&self, offsets: [usize; 2], room: usize) -> Option<Self> {
        let all = 0..self.cells.len();
        let [first, last] = offsets.map(|offset| self.index(offset));
        // A mark may stand behind the last cell, and a cut takes a column on either side.
        if self.is_cut == [false; 2] && self.columns(all.clone()) < room {
            return Some(self.clone());
        }
        let room = room.saturating_sub(3);
        let mut part = first..(last + 1).min(all.end);
        let columns = self.columns(part.clone());
        if part.len() > 1 && columns > room {
            return None;
        }
        let left = room.saturating_sub(columns);
        let (cells, front) = fitting(self.cells[..part.start].iter().rev(), left / 2);
        part.start -= cells;
        let (cells, back) = fitting(self.cells[part.end..].iter(), left - front);
        part.end += cells;
        let (cells, _) = fitting(self.cells[..part.start].iter().rev(), left - front - back);
        part.start -= cells;
        Some(Self {
            is_cut: [
                self.is_cut[0] || part.start > 0,
                self.is_cut[1] || part.end < all.end,
            ],
            cells: self.cells[part].to_vec(),
        })
    }

    /// The line as it is shown.
    pub fn shown(&self) -> String {
        let [front, back] = self
            .is_cut
            .map(|is_cut| if is_cut { "\u{2026}" } else { "" });
        let cells = self.cells.iter().map(|cell| &cell.text[..]);
        iter::once(front)
            .chain(cells)
            .chain(iter::once(back))
            .collect()
    }

    /// What stands under the line from one offset to before another one: all of it is blank.
    pub fn blank(&self, offsets: Range<usize>) -> String {
        let front = if self.is_cut[0] && offsets.start == 0 {
            " "
        } else {
            ""
        };
        let cells = self.index(offsets.start)..self.index(offsets.end);
        let blanks = self.cells[cells].iter().map(Cell::blank);
        iter::once(front).chain(blanks).collect()
    }
}

/// How many cells have room, and how many columns they take.
fn fitting<'c>(cells: impl Iterator<Item = &'c Cell>, room: usize) -> (usize, usize) {
    let mut taken = (0, 0);
    for cell in cells {
        if taken.1 + cell.width > room {
            break;
        }
        taken = (taken.0 + 1, taken.1 + cell.width);
    }
    taken
}
