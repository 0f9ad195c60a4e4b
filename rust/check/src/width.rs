//! How many columns of a terminal a character takes.

use crate::tables::{NONE, TWO};
use std::cmp::Ordering;

pub fn width(ch: char) -> usize {
    if is_in(&NONE, ch) {
        0
    } else if is_in(&TWO, ch) {
        2
    } else {
        1
    }
}

fn is_in(ranges: &[(char, char)], ch: char) -> bool {
    let order = |&(first, last): &(char, char)| match () {
        _ if last < ch => Ordering::Less,
        _ if ch < first => Ordering::Greater,
        _ => Ordering::Equal,
    };
    ranges.binary_search_by(order).is_ok()
}

/// What a terminal is given in a character's place: a sign of one column for what would move the
/// cursor, ring its bell or turn the line around.
pub fn shown(ch: char) -> char {
    match ch {
        '\t' => ch,
        '\0'..='\u{1f}' => char::from_u32(0x2400 + u32::from(ch)).unwrap_or('\u{fffd}'),
        '\u{7f}' => '\u{2421}',
        '\u{80}'..='\u{9f}' | '\u{61c}' | '\u{200e}' | '\u{200f}' => '\u{fffd}',
        '\u{2028}'..='\u{202e}' | '\u{2066}'..='\u{2069}' => '\u{fffd}',
        _ => ch,
    }
}

/// A text in a sentence, with no character that a terminal would obey.
pub fn harmless(text: &str) -> String {
    text.chars()
        .map(|ch| if ch == '\t' { '\u{2409}' } else { shown(ch) })
        .collect()
}

#[cfg(test)]
mod tests {
    use super::*;

    #[test]
    fn ranges_rise() {
        for ranges in [&NONE[..], &TWO] {
            assert!(ranges.iter().all(|(first, last)| first <= last));
            assert!(ranges.windows(2).all(|two| two[0].1 < two[1].0));
        }
    }

    #[test]
    fn a_character_has_its_columns() {
        let widths = [
            ('a', 1),
            ('\u{e9}', 1),
            ('\u{301}', 0),
            ('\u{200d}', 0),
            ('\u{fe0f}', 0),
            ('\u{e31}', 0),
            ('\u{6c34}', 2),
            ('\u{ac00}', 2),
            ('\u{ff01}', 2),
            ('\u{1f6a2}', 2),
            ('\u{43a}', 1),
        ];
        for (ch, columns) in widths {
            assert_eq!(width(ch), columns, "{:?}", ch);
        }
    }

    #[test]
    fn a_terminal_obeys_nothing_of_a_script() {
        assert_eq!(
            harmless("\u{1b}[31m\r\n\u{202e}a"),
            "\u{241b}[31m\u{240d}\u{240a}\u{fffd}a"
        );
    }
}
