//! What is said of a refusal, for people.

use super::{NO_LINE, NO_MARK, NO_ROOM, OTHER_MARK, TOO_LONG};

/// The words of the sheet tool's own numbers. 20 at place 0 is the call's: a mark that is none.
pub fn words_of_a_sheet(number: u64, place: u64) -> &'static str {
    match (number, place) {
        (TOO_LONG, _) => "more than 60,000 bytes",
        (NO_MARK, 0) => "the mark is neither a comma nor a point",
        (NO_MARK, _) => "the first line is neither mark, nor mark.",
        (OTHER_MARK, _) => "the other mark in a price, a rate or lots",
        (NO_LINE, _) => "a letter that begins no line, another number of parts, or no line feed",
        (NO_ROOM, _) => "no room for the result",
        _ => "no such number",
    }
}

/// The words of a book's own numbers, as the program `allot` says them. The byte at the place names the field.
pub fn words_of_a_book(number: u64, place: u64, book: &[u8]) -> String {
    let at = usize::try_from(place).ok().and_then(|at| book.get(at));
    let of = |named: &str, unnamed: &str| match at.and_then(|&tag| name(tag)) {
        Some(name) => format!("{named} {name}"),
        None => unnamed.to_string(),
    };
    let words = match number {
        2 if at.is_none() => "the book ends where a field is due",
        2 => {
            return of(
                "the book ends before the end of",
                "the book ends before the end of a field",
            )
        }
        3 => {
            return of(
                "a tag that does not belong here:",
                "a byte that is no tag, or that follows Z",
            )
        }
        4 => return of("a comma in", "a comma in a figure"),
        5 => {
            return of(
                "not of its form or range:",
                "a value that is not of its form or range",
            )
        }
        0 => "accepted",
        1 => "more than 60,000 bytes",
        6 => "the tier 1 edge U is not greater than the tier 2 edge V",
        7 => "this customer code was given before",
        8 => "the unfilled lots Q exceed the lots held on the locked side",
        9 => "this customer's opening trades on its net side sum to less than its net position",
        10 => "more than 256 customers",
        11 => "the report is longer than the buffer",
        12 => {
            "this trade's price is above five times the settlement price S or below a fifth of it"
        }
        13 => "this customer has a seat of this code already",
        _ => "no such number",
    };
    words.to_string()
}

/// What a field is called.
fn name(tag: u8) -> Option<&'static str> {
    let name = match tag {
        b'D' => "the limit D",
        b'X' => "the decimals X",
        b'S' => "the settlement price S",
        b'L' => "the loss edge L",
        b'U' => "the tier 1 edge U",
        b'V' => "the tier 2 edge V",
        b'C' => "the customer code C",
        b'I' => "the seat code I",
        b'K' => "the lots held long K",
        b'H' => "the lots held short H",
        b'Q' => "the unfilled lots Q",
        b'B' => "the bought trade B",
        b'A' => "the sold trade A",
        b'Z' => "the end Z",
        _ => return None,
    };
    Some(name)
}
