//! In place of `product` on a machine that cannot link the product's x86-64 archive. There the product is asked by
//! [`crate::through`].

/// What a call answers, as in `product`.
#[derive(Clone, Copy, Debug, PartialEq, Eq)]
pub struct Answer {
    pub number: u64,
    pub place: u64,
    pub length: u64,
}

/// There is nothing to call.
pub fn allot(_book: &[u8], _report: &mut [u8]) -> Answer {
    panic!("{NOT_LINKED}")
}

pub fn allot_in_rows(book: &[u8], report: &mut [u8]) -> Answer {
    allot(book, report)
}

pub fn columns(_book: &[u8], _standings: &mut [u8], _lots: [&mut [u64]; 3]) -> Answer {
    panic!("{NOT_LINKED}")
}

pub fn moves(list: &[u8], spans: &mut [u8]) -> Answer {
    allot(list, spans)
}

pub fn ladder(_list: &[u8], _steps: &mut [u64]) -> Answer {
    panic!("{NOT_LINKED}")
}

pub fn sheet_to_book(sheet: &[u8], book: &mut [u8]) -> Answer {
    allot(sheet, book)
}

pub fn book_to_sheet(book: &[u8], _mark: u8, sheet: &mut [u8]) -> Answer {
    allot(book, sheet)
}

const NOT_LINKED: &str = "the product is an x86-64 archive and is not linked in on this machine";
