//! The command: the product's calls on books that somebody else has read.

use std::path::PathBuf;
use std::process::ExitCode;

use harness::program::Tried;
use harness::stored::{books, hold};

const USAGE: &str = "\
usage: stored FOLDER [--through FILE]

Holds the product's calls to the books of FOLDER: number, place and length, and every
byte of the lent buffer, by what is stored beside N.book: its listing N.want and, where
it is accepted, its report's bytes N.report. Then all that `compare` holds, with the
second program. --through FILE is that of `compare`.

The last line is 'N passed, M failed', which counts books. Exit status: 0 all passed,
1 something failed or there was no book, 2 wrong words.
";

fn main() -> ExitCode {
    let given: Vec<String> = std::env::args().skip(1).collect();
    let given: Vec<&str> = given.iter().map(String::as_str).collect();
    let (folder, through) = match given[..] {
        ["--help"] => {
            print!("{USAGE}");
            return ExitCode::SUCCESS;
        }
        [folder] => (folder, None),
        [folder, "--through", file] => (folder, Some(PathBuf::from(file))),
        _ => {
            eprint!("{USAGE}");
            return ExitCode::from(2);
        }
    };
    let Some(mut tried) = Tried::of(through.as_deref()) else {
        eprintln!("stored: the product is x86-64 and cannot be linked in here; see --through");
        return ExitCode::from(2);
    };
    let books = match books(folder.as_ref()) {
        Ok(books) => books,
        Err(error) => {
            eprintln!("stored: {folder}: {error}");
            return ExitCode::FAILURE;
        }
    };
    let (mut passed, mut failed) = (0, 0);
    for (book, variety) in books.iter().zip(1..) {
        match hold(&mut tried, book, 8 * variety) {
            Ok(()) => passed += 1,
            Err(told) => {
                failed += 1;
                println!("FAILED: {}: {told}", book.display());
            }
        }
    }
    println!("{passed} passed, {failed} failed");
    ExitCode::from(u8::from(failed > 0 || passed == 0))
}
