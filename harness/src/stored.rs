//! Books that somebody else has read: beside N.book stands its listing, N.want, and where it is accepted its report's bytes, N.report.

use std::fs;
use std::io;
use std::path::{Path, PathBuf};

use crate::compare::{answer_of, compare, Counts, LARGE};
use crate::guarded::Lent;
use crate::product::Answer;
use crate::program::{Program, Tried};

/// What must come of a book.
enum Want {
    Report(Vec<u8>),
    Refused { number: u64, place: u64 },
}

/// The books of a folder, in the order of their names.
pub fn books(folder: &Path) -> io::Result<Vec<PathBuf>> {
    let entries = fs::read_dir(folder)?.collect::<Result<Vec<_>, _>>()?;
    let mut books: Vec<PathBuf> = (entries.into_iter().map(|entry| entry.path()))
        .filter(|path| path.extension().is_some_and(|end| end == "book"))
        .collect();
    books.sort();
    Ok(books)
}

/// Holds the calls to one stored book: the report's bytes in a room of just its size, 11 in one that is a byte shorter, a refusal in
/// no room and in a large one, no byte altered; then all that [`compare`] holds, with the second program beside it.
pub fn hold(tried: &mut Tried, path: &Path, variety: u64) -> Result<(), String> {
    let book = fs::read(path).map_err(told)?;
    match want(path)? {
        Want::Report(report) => {
            let length = report.len();
            let program = &mut *tried.program;
            in_room(program, &book, length, variety, (0, 0, length), &report)?;
            let short = (11, length, 0);
            in_room(program, &book, length - 1, variety, short, &[])?;
        }
        Want::Refused { number, place } => {
            let refused = (number, place as usize, 0);
            for room in [0, LARGE] {
                in_room(&mut *tried.program, &book, room, variety, refused, &[])?;
            }
        }
    }
    compare(tried, &book, variety, &mut Counts::default())
        .map_err(|difference| format!("{}: {}", difference.check.name(), difference.told))
}

/// What is stored of a book. The listing says whether it is refused, and a report is there just where it is not.
fn want(path: &Path) -> Result<Want, String> {
    let listing = fs::read_to_string(path.with_extension("want")).map_err(told)?;
    let report = path.with_extension("report");
    let Some(refused) = listing.strip_prefix("refused ") else {
        return fs::read(report).map(Want::Report).map_err(told);
    };
    if report.exists() {
        return Err("a report is stored, and the listing is a refusal".into());
    }
    let words: Vec<&str> = refused.trim_end().split(" at ").collect();
    match words
        .iter()
        .map(|word| word.parse().ok())
        .collect::<Option<Vec<u64>>>()
        .as_deref()
    {
        Some(&[number, place]) => Ok(Want::Refused { number, place }),
        _ => Err(format!("no listing: {listing:?}")),
    }
}

/// One call in a room of this size: the answer, `report` at the front of the room, and every other byte as it was.
fn in_room(
    program: &mut dyn Program,
    book: &[u8],
    room: usize,
    variety: u64,
    (number, place, length): (u64, usize, usize),
    report: &[u8],
) -> Result<(), String> {
    let mut want = Lent::new(room, variety);
    let mut got = [want.clone()];
    want.room_mut()[..report.len()].copy_from_slice(report);
    let answer = program.call(book, &mut got)?[0];
    let right: Answer = answer_of((number, place as u64, length as u64));
    if answer != right {
        return Err(format!("room {room}: wanted {right:?}, got {answer:?}"));
    }
    if got[0] != want {
        return Err(format!(
            "room {room}: other bytes than those that are stored"
        ));
    }
    Ok(())
}

fn told(error: io::Error) -> String {
    error.to_string()
}
