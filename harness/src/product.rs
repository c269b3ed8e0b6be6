//! The product, called as a C program calls it.

/// What a call answers, as include/frundavel.h has it.
#[repr(C)]
#[derive(Clone, Copy, Debug, PartialEq, Eq)]
pub struct Answer {
    pub number: u64,
    pub place: u64,
    pub length: u64,
}

extern "C" {
    fn frundavel_allot(book: *const u8, size: usize, report: *mut u8, room: usize) -> Answer;

    /// Of an archive of its own, for the comparison of both layouts.
    fn frundavel_allot_in_rows(
        book: *const u8,
        size: usize,
        report: *mut u8,
        room: usize,
    ) -> Answer;

    fn frundavel_columns(
        book: *const u8,
        size: usize,
        standings: *mut u8,
        standings_places: usize,
        offered: *mut u64,
        offered_places: usize,
        pending: *mut u64,
        pending_places: usize,
        offsets: *mut u64,
        offsets_places: usize,
    ) -> Answer;

    fn frundavel_moves(list: *const u8, size: usize, spans: *mut u8, room: usize) -> Answer;

    fn frundavel_ladder(list: *const u8, size: usize, steps: *mut u64, places: usize) -> Answer;

    fn frundavel_sheet_to_book(sheet: *const u8, size: usize, book: *mut u8, room: usize)
        -> Answer;

    fn frundavel_book_to_sheet(
        book: *const u8,
        size: usize,
        mark: u8,
        sheet: *mut u8,
        room: usize,
    ) -> Answer;
}

/// Judges a book and writes the report at the front of the lent buffer.
pub fn allot(book: &[u8], report: &mut [u8]) -> Answer {
    // SAFETY: both parts are valid for their lengths, and a mutable one overlaps no other.
    unsafe { frundavel_allot(book.as_ptr(), book.len(), report.as_mut_ptr(), report.len()) }
}

/// The same, worked in rows.
pub fn allot_in_rows(book: &[u8], report: &mut [u8]) -> Answer {
    // SAFETY: as above.
    unsafe { frundavel_allot_in_rows(book.as_ptr(), book.len(), report.as_mut_ptr(), report.len()) }
}

/// Judges a book and fills the front of the lent runs: standings, and lots offered, pending and offset.
pub fn columns(book: &[u8], standings: &mut [u8], lots: [&mut [u64]; 3]) -> Answer {
    let [offered, pending, offsets] = lots;
    // SAFETY: as above.
    unsafe {
        frundavel_columns(
            book.as_ptr(),
            book.len(),
            standings.as_mut_ptr(),
            standings.len(),
            offered.as_mut_ptr(),
            offered.len(),
            pending.as_mut_ptr(),
            pending.len(),
            offsets.as_mut_ptr(),
            offsets.len(),
        )
    }
}

/// Reads a list of days and fills the front of the lent run with the spans of each day.
pub fn moves(list: &[u8], spans: &mut [u8]) -> Answer {
    // SAFETY: as above.
    unsafe { frundavel_moves(list.as_ptr(), list.len(), spans.as_mut_ptr(), spans.len()) }
}

/// Reads a list in the longer form and fills the front of the lent run with the step of each day.
pub fn ladder(list: &[u8], steps: &mut [u64]) -> Answer {
    // SAFETY: as above.
    unsafe { frundavel_ladder(list.as_ptr(), list.len(), steps.as_mut_ptr(), steps.len()) }
}

/// Reads a sheet and writes its book at the front of the lent buffer.
pub fn sheet_to_book(sheet: &[u8], book: &mut [u8]) -> Answer {
    // SAFETY: as above.
    unsafe { frundavel_sheet_to_book(sheet.as_ptr(), sheet.len(), book.as_mut_ptr(), book.len()) }
}

/// Writes a book as a sheet at the front of the lent buffer.
pub fn book_to_sheet(book: &[u8], mark: u8, sheet: &mut [u8]) -> Answer {
    // SAFETY: as above.
    unsafe {
        frundavel_book_to_sheet(
            book.as_ptr(),
            book.len(),
            mark,
            sheet.as_mut_ptr(),
            sheet.len(),
        )
    }
}
