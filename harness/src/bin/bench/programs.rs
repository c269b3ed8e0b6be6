//! The programs that are measured, called in the same way: the product, the second program, and the product worked in rows.

use crate::timing::Timed;

/// More than any report takes.
pub const ROOM: usize = 34_000;

#[derive(Clone, Copy)]
pub enum Program {
    Product,
    Second,
    InRows,
}

/// Two that are measured in turns.
pub type Pair = [Program; 2];

impl Program {
    pub const BOTH: Pair = [Program::Product, Program::Second];
    /// The product works in columns.
    pub const LAYOUTS: Pair = [Program::Product, Program::InRows];
    pub const ALL: [Program; 3] = [Program::Product, Program::Second, Program::InRows];

    pub fn name(self) -> &'static str {
        match self {
            Program::Product => "product",
            Program::Second => "second",
            Program::InRows => "rows",
        }
    }
}

impl Timed for Program {
    type Room = [u8; ROOM];

    fn room() -> Self::Room {
        [0; ROOM]
    }

    fn call(self, book: &[u8], report: &mut [u8]) -> (u64, u64, u64) {
        match self {
            Program::Product => numbers(harness::product::allot(book, report)),
            Program::Second => second::allot_into(book, report),
            Program::InRows => numbers(harness::product::allot_in_rows(book, report)),
        }
    }
}

pub fn numbers(answer: harness::product::Answer) -> (u64, u64, u64) {
    (answer.number, answer.place, answer.length)
}

/// Whether all give the same answer and leave the same bytes in the whole buffer.
pub fn agree(book: &[u8]) -> bool {
    let [product, others @ ..] = Program::ALL.map(|program| {
        let mut report = vec![0xa5; ROOM];
        (program.call(book, &mut report), report)
    });
    others.iter().all(|other| *other == product)
}
