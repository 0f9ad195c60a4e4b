/// The functions that are private.
pub(crate) mod access {
    use super::{InputStream, Position, Token, TokenizeState, TokenizerControlBlock};

    pub(crate) fn scan_block_comment(
        stream: &mut impl InputStream,
        level: usize,
        pos: &mut Position,
    ) -> usize {
        super::scan_block_comment(stream, level, pos, None)
    }

    pub(crate) fn parse_identifier_token(
        stream: &mut impl InputStream,
        state: &mut TokenizeState,
        pos: &mut Position,
        first_char: char,
    ) -> (Token, Position) {
        let start_pos = *pos;
        super::parse_identifier_token(stream, state, pos, start_pos, first_char)
    }

    pub(crate) fn record_token(control: &mut TokenizerControlBlock, token: &Token, pos: Position) {
        control.record_token(token, pos);
    }
}
