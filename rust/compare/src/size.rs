//! How much is compared in one run.

#[derive(Debug, Clone, Copy, PartialEq, Eq)]
pub enum Size {
    /// A fixed share, in seconds.
    Share,
    /// Everything, in minutes.
    All,
}

impl Size {
    /// The size that the program's words ask for, or `None` where they ask for none.
    pub fn asked(words: impl IntoIterator<Item = String>) -> Option<Self> {
        let words: Vec<String> = words.into_iter().collect();
        match words.iter().map(String::as_str).collect::<Vec<_>>()[..] {
            [] => Some(Self::Share),
            ["--all"] => Some(Self::All),
            _ => None,
        }
    }

    /// What a list of cases takes for its share, or for everything.
    pub fn of<T>(self, share: T, all: T) -> T {
        match self {
            Self::Share => share,
            Self::All => all,
        }
    }
}

#[cfg(test)]
mod tests {
    use super::*;

    #[test]
    fn words_ask_for_a_size() {
        let asked = |words: &[&str]| Size::asked(words.iter().map(|word| word.to_string()));
        assert_eq!(asked(&[]), Some(Size::Share));
        assert_eq!(asked(&["--all"]), Some(Size::All));
        assert_eq!(asked(&["--more"]), None);
        assert_eq!(asked(&["--all", "--all"]), None);
    }
}
