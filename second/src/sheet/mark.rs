//! The mark of a sheet: what stands in its figures where a book has a point.

/// "a first line `mark,` or `mark.`".
#[derive(Clone, Copy, Debug, PartialEq, Eq)]
pub enum Mark {
    Comma,
    Point,
}

impl Mark {
    pub fn of(byte: u8) -> Option<Mark> {
        match byte {
            b',' => Some(Mark::Comma),
            b'.' => Some(Mark::Point),
            _ => None,
        }
    }

    /// What a sheet's figures have.
    pub fn byte(self) -> u8 {
        match self {
            Mark::Comma => b',',
            Mark::Point => b'.',
        }
    }

    /// What they must not have.
    pub fn other(self) -> Mark {
        match self {
            Mark::Comma => Mark::Point,
            Mark::Point => Mark::Comma,
        }
    }
}
