//! What the program's words ask for.

use crate::timing::Effort;

#[derive(Debug, Clone, PartialEq, Eq)]
pub struct Asked {
    /// Only 64 KB of each kind of script, in seconds.
    is_quick: bool,
    /// What the subject or the name of a row has to have in it.
    word: String,
}

impl Asked {
    /// `None` where the words ask for nothing that there is.
    pub fn of(words: impl IntoIterator<Item = String>) -> Option<Self> {
        let mut asked = Self {
            is_quick: false,
            word: String::new(),
        };
        for word in words {
            match &word[..] {
                "--quick" => asked.is_quick = true,
                word if word.starts_with('-') || !asked.word.is_empty() => return None,
                word => asked.word = word.into(),
            }
        }
        Some(asked)
    }

    pub fn has(&self, subject: &str, name: &str) -> bool {
        subject.contains(&self.word) || name.contains(&self.word)
    }

    /// The sizes of the scripts of each kind, the last being the longest that is accepted.
    pub fn sizes(&self) -> &'static [usize] {
        match self.is_quick {
            true => &[1 << 16],
            false => &[1 << 10, 1 << 16, 1 << 20, 1 << 24],
        }
    }

    /// What is spent on input of a size.
    pub fn effort(&self, size: usize) -> Effort {
        match size {
            0..=0xfffff if self.is_quick => Effort::new(2, 15),
            0..=0xfffff => Effort::new(2, 25),
            0x100000..=0xffffff => Effort::new(2, 9),
            _ => Effort::new(2, 4),
        }
    }
}
