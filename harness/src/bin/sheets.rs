//! The command: the product beside the second program on generated sheets and books, by its calls and by its program.

use std::env;
use std::process::ExitCode;

use harness::product::{book_to_sheet, sheet_to_book};
use harness::sheets::{command, Calls};

const CALLS: Calls = Calls {
    to_book: sheet_to_book,
    to_sheet: book_to_sheet,
};

fn main() -> ExitCode {
    let words: Vec<String> = env::args().skip(1).collect();
    command(&words, CALLS)
}
