//! The listing, and the report's bytes, held to books that somebody else has read. The newest folder alone: books of
//! older ones have other forms.

use std::fs;
use std::path::{Path, PathBuf};

const FOLDER: &str = "../../shared/books/5";

/// The books of the folder.
fn books() -> Vec<PathBuf> {
    let folder = Path::new(env!("CARGO_MANIFEST_DIR")).join(FOLDER);
    let mut books: Vec<PathBuf> = (fs::read_dir(&folder).expect("the folder of books"))
        .map(|entry| entry.expect("a file").path())
        .filter(|path| path.extension().is_some_and(|end| end == "book"))
        .collect();
    books.sort();
    assert!(!books.is_empty(), "the folder holds no book");
    books
}

#[test]
#[ignore = "needs ../shared/books/5 beside the repository"]
fn every_book_has_its_listing() {
    let books = books();
    for path in &books {
        let book = fs::read(path).expect("a book");
        let want = fs::read(path.with_extension("want")).expect("its listing");
        let got = second::listing(&book);
        assert_eq!(
            String::from_utf8_lossy(&got),
            String::from_utf8_lossy(&want),
            "{}",
            path.display()
        );
    }
    println!("{} listings compared", books.len());
}

/// Where a report is stored, the book is accepted and these are its bytes, in a room of just its size; where none is,
/// the book is refused.
#[test]
#[ignore = "needs ../shared/books/5 beside the repository"]
fn every_accepted_book_has_its_report() {
    let mut compared = 0;
    for path in books() {
        let book = fs::read(&path).expect("a book");
        let stored = path.with_extension("report");
        if !stored.exists() {
            assert_ne!(
                second::allot(&book, 100_000).number,
                0,
                "{}",
                path.display()
            );
            continue;
        }
        let want = fs::read(stored).expect("its report");
        let answer = second::allot(&book, want.len());
        assert_eq!(
            (answer.number, answer.place, answer.length),
            (0, 0, want.len() as u64),
            "{}",
            path.display()
        );
        assert_eq!(answer.report, want, "{}", path.display());
        compared += 1;
    }
    println!("{compared} reports compared");
    assert!(compared > 0, "the folder holds no report");
}
