//! Document 01, "Refusal numbers": which rule a book breaks, and where.

/// The rules, each with its number in document 01's table.
#[derive(Clone, Copy, Debug, PartialEq, Eq)]
pub enum Rule {
    BookTooLong = 1,
    FieldCut = 2,
    WrongTag = 3,
    Comma = 4,
    Form = 5,
    EdgesOrder = 6,
    CodeTwice = 7,
    PendingOverHeld = 8,
    TradesShort = 9,
    TooManyCustomers = 10,
    NoRoom = 11,
    PriceFar = 12,
    SeatTwice = 13,
}

/// A refusal: the first rule broken and its place. The place is an offset in the
/// book, for [`Rule::NoRoom`] the length needed.
#[derive(Clone, Copy, Debug, PartialEq, Eq)]
pub struct Refusal {
    pub rule: Rule,
    pub place: usize,
}

impl Refusal {
    /// The rule's number in document 01's table.
    pub fn number(self) -> u64 {
        self.rule as u64
    }
}
