//! The program: the listing of a book on standard input, and generated books.

use std::fs::{self, File};
use std::io::{self, Read, Write};
use std::os::fd::AsFd;
use std::path::Path;
use std::process::ExitCode;

use second::{cutback, listing, make};

const USAGE: &str = "\
usage: second                          print the listing of the book on standard input
       second make SEED COUNT FOLDER   write COUNT generated books and their listings
       second show SEED INDEX          write one generated book to standard output
       second cutback                  print the cuts of the seats on standard input
";

/// Document 01: "reads a book from standard input, at most 60,001 bytes". One byte
/// more than a book may have shows that it is too long.
const MOST_READ: u64 = 60_001;

fn main() -> ExitCode {
    let words: Vec<String> = std::env::args().skip(1).collect();
    let words: Vec<&str> = words.iter().map(String::as_str).collect();
    let Some(done) = run(&words) else {
        eprint!("{USAGE}");
        return ExitCode::from(2);
    };
    match done {
        Ok(()) => ExitCode::SUCCESS,
        Err(error) => {
            eprintln!("second: {error}");
            ExitCode::FAILURE
        }
    }
}

/// Does what the words ask for; `None` where they ask for nothing known.
fn run(words: &[&str]) -> Option<io::Result<()>> {
    match *words {
        [] => Some(list()),
        ["cutback"] => Some(list_cuts()),
        ["make", seed, count, folder] => {
            let (seed, count) = (seed.parse().ok()?, count.parse().ok()?);
            Some(make_folder(seed, count, Path::new(folder)))
        }
        ["show", seed, index] => Some(show(seed.parse().ok()?, index.parse().ok()?)),
        _ => None,
    }
}

/// Prints the listing. A read error comes back before anything is printed.
///
/// Standard input is read as a file: the standard library's own handle reads ahead into
/// a buffer, past the most bytes, and takes one kind of read error for an empty input.
fn list() -> io::Result<()> {
    let input = File::from(io::stdin().as_fd().try_clone_to_owned()?);
    let mut book = Vec::new();
    input.take(MOST_READ).read_to_end(&mut book)?;
    print(&listing(&book))
}

/// The same of seats over the position limit (request [13]).
fn list_cuts() -> io::Result<()> {
    let input = File::from(io::stdin().as_fd().try_clone_to_owned()?);
    let mut lines = Vec::new();
    input.take(MOST_READ).read_to_end(&mut lines)?;
    print(&cutback::listing(&lines))
}

fn show(seed: u64, index: u64) -> io::Result<()> {
    print(&make::book(seed, index).bytes)
}

/// Writes FOLDER/00000.book with FOLDER/00000.want and so on.
fn make_folder(seed: u64, count: u64, folder: &Path) -> io::Result<()> {
    fs::create_dir_all(folder)?;
    for index in 0..count {
        let book = make::book(seed, index).bytes;
        fs::write(folder.join(format!("{index:05}.book")), &book)?;
        fs::write(folder.join(format!("{index:05}.want")), listing(&book))?;
    }
    Ok(())
}

fn print(bytes: &[u8]) -> io::Result<()> {
    let mut out = io::stdout().lock();
    out.write_all(bytes)?;
    out.flush()
}
