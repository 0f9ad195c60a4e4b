/// Line and position in and out as they are stored, so that line 0 can be asked about.
pub(crate) mod access {
    use super::Position;

    pub(crate) const fn from_pair((line, pos): (u16, u16)) -> Position {
        Position { line, pos }
    }

    pub(crate) const fn to_pair(place: Position) -> (u16, u16) {
        (place.line, place.pos)
    }
}
