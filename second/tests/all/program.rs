//! The program as it is called: listing, generated books, errors.

use std::fs::{self, File};
use std::io::{Seek, Write};
use std::path::Path;
use std::process::{Command, Output, Stdio};

use crate::common::{book, GOLD};

fn second(words: &[&str], input: Stdio) -> Output {
    Command::new(env!("CARGO_BIN_EXE_second"))
        .args(words)
        .stdin(input)
        .output()
        .expect("the program runs")
}

/// A program with words and these bytes on standard input.
fn fed(program: &str, words: &[&str], input: &[u8]) -> Output {
    let mut child = Command::new(program)
        .args(words)
        .stdin(Stdio::piped())
        .stdout(Stdio::piped())
        .stderr(Stdio::piped())
        .spawn()
        .expect("the program runs");
    // The program may stop reading before the end, so an error here is none.
    let _ = child.stdin.take().expect("a pipe").write_all(input);
    child.wait_with_output().expect("the program ends")
}

fn listed(input: &[u8]) -> Output {
    fed(env!("CARGO_BIN_EXE_second"), &[], input)
}

#[test]
fn the_listing_of_standard_input_is_printed() {
    let output = listed(&book(&format!("{GOLD}CA;I1;K0;H0;Q0;Z")));
    assert_eq!(output.stdout, b"total 0\nleft 0\nA N 0\n");
    assert!(output.status.success() && output.stderr.is_empty());
}

#[test]
fn a_refusal_is_a_listing_too() {
    let output = listed(b"");
    assert_eq!(output.stdout, b"refused 2 at 0\n");
    assert!(output.status.success() && output.stderr.is_empty());
}

#[test]
fn input_of_more_than_60_001_bytes_is_refused_1() {
    for size in [60_001, 60_002, 1_000_000] {
        assert_eq!(listed(&vec![b'D'; size]).stdout, b"refused 1 at 0\n");
    }
    assert_eq!(listed(&vec![0xff; 60_000]).stdout, b"refused 2 at 0\n");
}

#[test]
fn input_past_60_001_bytes_is_not_read() {
    let path = Path::new(env!("CARGO_TARGET_TMPDIR")).join("long-input");
    fs::write(&path, vec![b'D'; 100_000]).unwrap();
    let mut file = File::open(&path).unwrap();
    let output = second(&[], file.try_clone().unwrap().into());
    assert_eq!(output.stdout, b"refused 1 at 0\n");
    // The program shares the place in the file.
    assert_eq!(file.stream_position().unwrap(), 60_001);
}

#[test]
fn a_read_error_prints_no_listing_and_ends_with_status_1() {
    // A directory can be opened, but reading it is an error; so is reading what was
    // opened for writing only.
    let directory = File::open(env!("CARGO_MANIFEST_DIR")).expect("a directory");
    let path = Path::new(env!("CARGO_TARGET_TMPDIR")).join("write-only");
    let write_only = File::create(path).expect("a file");
    for input in [directory, write_only] {
        let output = second(&[], input.into());
        assert_eq!(output.status.code(), Some(1));
        assert!(output.stdout.is_empty());
        assert!(output.stderr.starts_with(b"second: "));
    }
}

#[test]
fn wrong_words_give_the_usage_and_status_2() {
    for words in [
        &["help"] as &[&str],
        &["make"],
        &["make", "1", "2"],
        &["make", "x", "2", "folder"],
        &["show", "1"],
        &["show", "1", "-1"],
        &["show", "1", "2", "3"],
    ] {
        let output = second(words, Stdio::null());
        assert_eq!(output.status.code(), Some(2), "{words:?}");
        assert!(output.stdout.is_empty());
        assert!(output.stderr.starts_with(b"usage: second"));
    }
}

#[test]
fn make_writes_books_with_their_listings_and_show_the_same_bytes() {
    let folder = Path::new(env!("CARGO_TARGET_TMPDIR")).join("made");
    let _ = fs::remove_dir_all(&folder);
    let output = second(
        &["make", "5", "12", folder.to_str().unwrap()],
        Stdio::null(),
    );
    assert!(output.status.success());
    assert_eq!(fs::read_dir(&folder).unwrap().count(), 24);
    for index in 0..12 {
        let book = fs::read(folder.join(format!("{index:05}.book"))).unwrap();
        let want = fs::read(folder.join(format!("{index:05}.want"))).unwrap();
        assert_eq!(book, second::make::book(5, index).bytes);
        assert_eq!(want, second::listing(&book));
        let shown = second(&["show", "5", &index.to_string()], Stdio::null());
        assert_eq!(shown.stdout, book);
    }
}

#[test]
fn make_tells_of_a_folder_that_cannot_be_written() {
    let file = Path::new(env!("CARGO_TARGET_TMPDIR")).join("a-file");
    fs::write(&file, b"").unwrap();
    let output = second(&["make", "5", "1", file.to_str().unwrap()], Stdio::null());
    assert_eq!(output.status.code(), Some(1));
    assert!(output.stderr.starts_with(b"second: "));
}

/// The program of sheets.
fn sheet(words: &[&str], input: &[u8]) -> (Option<i32>, Vec<u8>, String) {
    let output = fed(env!("CARGO_BIN_EXE_second-sheet"), words, input);
    let said = String::from_utf8(output.stderr).expect("text");
    (output.status.code(), output.stdout, said)
}

#[test]
fn sheets_are_read_and_written() {
    let book = book(&format!("{GOLD}Z"));
    let lines = "D;D\nX;2\nS;400.00\nL;8.000\nU;8.000\nV;4.000\n";
    let point = format!("mark.\n{lines}").into_bytes();
    let comma = format!("mark,\n{}", lines.replace('.', ",")).into_bytes();
    let path = Path::new(env!("CARGO_TARGET_TMPDIR")).join("a.csv");
    fs::write(&path, &comma).unwrap();
    let good = |out: &[u8]| (Some(0), out.to_vec(), String::new());
    assert_eq!(sheet(&["read"], &comma), good(&book));
    assert_eq!(sheet(&["read", "-"], &point), good(&book));
    assert_eq!(sheet(&["read", path.to_str().unwrap()], b""), good(&book));
    assert_eq!(sheet(&["write", "comma"], &book), good(&comma));
    assert_eq!(sheet(&["write", "point", "--", "-"], &book), good(&point));
    let said = "sheet: refused 3 at 0: a tag that does not belong here: the end Z\n";
    let left = (Some(1), b"Z\0\0".to_vec(), said.to_string());
    assert_eq!(sheet(&["read"], b"mark,\n"), left);
    let (status, out, said) = sheet(&["write", "comma"], &vec![0; 100_000]);
    assert_eq!((status, out.len()), (Some(1), 0));
    assert!(said.starts_with("sheet: refused 1 at 0: "));
}

#[test]
fn wrong_words_of_sheets_end_with_status_2() {
    for words in [
        &[] as &[&str],
        &["reed"],
        &["write"],
        &["write", "semicolon"],
        &["write", "-"],
        &["read", "-", "b"],
        &["write", "point", "-", "b"],
        &["read", "--none"],
        &["read", "no-such-file"],
        &["read", env!("CARGO_MANIFEST_DIR")],
    ] {
        let (status, out, said) = sheet(words, b"mark,\n");
        assert_eq!((status, out.len()), (Some(2), 0), "{words:?}");
        assert!(said.starts_with("sheet: "), "{words:?}: {said}");
    }
    assert_eq!(sheet(&["--help"], b"").0, Some(0));
    assert_eq!(sheet(&["read", "--version", "x"], b"").0, Some(0));
}
