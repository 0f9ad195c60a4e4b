/// The tables, which are private.
pub(crate) mod access {
    use super::Token;

    pub(crate) fn keywords_list() -> &'static [(&'static str, Token)] {
        &super::KEYWORDS_LIST
    }

    pub(crate) fn reserved_list() -> &'static [(&'static str, bool, bool, bool)] {
        &super::RESERVED_LIST
    }
}
