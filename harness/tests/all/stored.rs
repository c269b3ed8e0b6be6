//! Stored books: the right program passes, and what is stored is looked at, each part of it.

use std::fs;
use std::path::{Path, PathBuf};

use crate::common::{report, right, right_view, trades_by_place};
use harness::product::Answer;
use harness::program::Tried;
use harness::stored::{books, hold};
use second::make;

type Call = fn(&[u8], &mut [u8]) -> Answer;

fn tried(call: Call) -> Tried {
    Tried {
        program: Box::new(call),
        viewer: Box::new(right_view),
    }
}

/// So many generated books in a folder of their own, with what the second program makes of them.
fn folder(name: &str, count: u64) -> PathBuf {
    let folder = std::env::temp_dir().join(format!("stored-{name}-{}", std::process::id()));
    fs::create_dir_all(&folder).expect("a folder");
    for index in 0..count {
        let book = make::book(9, index).bytes;
        let file = folder.join(format!("{index:05}.book"));
        fs::write(&file, &book).expect("a book");
        fs::write(file.with_extension("want"), second::listing(&book)).expect("its listing");
        if let Some(report) = report(&book) {
            fs::write(file.with_extension("report"), report).expect("its report");
        }
    }
    folder
}

/// How many of the folder's books the call passes.
fn passed(call: Call, folder: &Path) -> usize {
    let mut tried = tried(call);
    let books = books(folder).expect("the books");
    let held = books.iter().zip(0..);
    held.filter(|(book, variety)| hold(&mut tried, book, *variety).is_ok())
        .count()
}

#[test]
fn the_right_program_passes_and_a_wrong_one_does_not() {
    let folder = folder("right", 400);
    assert_eq!(passed(right, &folder), 400);
    assert!(passed(trades_by_place, &folder) < 390);
    fs::remove_dir_all(&folder).expect("the folder goes");
}

/// Each part that is stored is compared: the report's bytes, the number and the place.
#[test]
fn what_is_stored_decides() {
    let folder = folder("changed", 200);
    let mut all = tried(right);
    let mut changed = [0, 0];
    for book in books(&folder).expect("the books") {
        let (want, report) = (book.with_extension("want"), book.with_extension("report"));
        if report.exists() {
            let mut bytes = fs::read(&report).expect("the report");
            *bytes.last_mut().expect("a byte") ^= 1;
            fs::write(&report, bytes).expect("another report");
            changed[0] += 1;
        } else {
            let listing = fs::read_to_string(&want).expect("the listing");
            fs::write(&want, listing.replace(" at ", " at 1")).expect("another place");
            changed[1] += 1;
        }
        assert!(hold(&mut all, &book, 3).is_err(), "{}", book.display());
    }
    assert!(changed.iter().all(|&count| count > 20), "{changed:?}");
    fs::remove_dir_all(&folder).expect("the folder goes");
}
