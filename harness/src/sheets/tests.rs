//! Wrong calls and wrong programs over sheets: each is found by the check that is there for it.

use std::fs;

use second::make;
use second::sheet::{Mark, Work};

use super::{answer_of, reads, runs, stored, writes, Calls, ENOUGH};
use crate::product::Answer;

fn answer((number, place, length): (u64, u64, u64)) -> Answer {
    Answer {
        number,
        place,
        length,
    }
}

fn to_book(sheet: &[u8], book: &mut [u8]) -> Answer {
    answer(second::sheet::to_book(sheet, book))
}

fn to_sheet(book: &[u8], mark: u8, sheet: &mut [u8]) -> Answer {
    answer(second::sheet::to_sheet(book, mark, sheet))
}

const RIGHT: Calls = Calls { to_book, to_sheet };
const INPUTS: u64 = 250;
const SEED: u64 = 5;

/// How many of the first generated sheets, and of the first generated books, find the calls right.
fn found_right(mut calls: Calls) -> [u64; 2] {
    let count =
        |good: &mut dyn FnMut(u64) -> bool| (0..INPUTS).filter(|&index| good(index)).count() as u64;
    [
        count(&mut |index| reads(&mut calls, &make::sheets::sheet(SEED, index).bytes)),
        count(&mut |index| writes(&mut calls, &make::book(SEED, index).bytes)),
    ]
}

/// The sheet as a wrong reader would have it.
fn turned(sheet: &[u8], from: u8, to: u8) -> Vec<u8> {
    let front = sheet.len().min(6);
    let rest = sheet[front..].iter();
    let other = rest.map(|&byte| if byte == from { to } else { byte });
    sheet[..front].iter().copied().chain(other).collect()
}

#[test]
fn right_calls_are_right() {
    assert_eq!(found_right(RIGHT), [INPUTS; 2]);
}

#[test]
fn wrong_readers_are_found() {
    type Reader = fn(&[u8], &mut [u8]) -> Answer;
    let wrong: [(&str, Reader); 11] = [
        ("the other mark is taken", |sheet, book| {
            match sheet.get(4) {
                Some(b',') => to_book(&turned(sheet, b'.', b','), book),
                _ => to_book(&turned(sheet, b',', b'.'), book),
            }
        }),
        ("a refused book is not left", |sheet, book| {
            let before = book.to_vec();
            let got = to_book(sheet, book);
            if got.number == 0 {
                return got;
            }
            book.copy_from_slice(&before);
            Answer { length: 0, ..got }
        }),
        ("a refused book has no length", |sheet, book| {
            let got = to_book(sheet, book);
            let length = if got.number == 0 { got.length } else { 0 };
            Answer { length, ..got }
        }),
        ("the end twice, where there is room", |sheet, book| {
            let got = to_book(sheet, book);
            if let Some(behind) = book
                .get_mut(got.length as usize..)
                .filter(|_| got.length > 0)
            {
                if behind.len() >= 3 {
                    behind[..3].copy_from_slice(b"Z\0\0");
                }
            }
            got
        }),
        ("a refused sheet leaves something", |sheet, book| {
            let got = to_book(sheet, book);
            if let (0, Some(first)) = (got.length, book.first_mut()) {
                *first ^= 1;
            }
            got
        }),
        ("no room leaves what fits", |sheet, book| {
            let got = to_book(sheet, book);
            if got.number == 23 {
                let mut all = vec![0; ENOUGH];
                to_book(sheet, &mut all);
                let room = book.len();
                book.copy_from_slice(&all[..room]);
            }
            got
        }),
        ("a room that is just enough is none", |sheet, book| {
            let mut all = vec![0; ENOUGH];
            match to_book(sheet, &mut all).length as usize {
                length if length > 0 && length == book.len() => answer((23, 0, 0)),
                _ => to_book(sheet, book),
            }
        }),
        ("the place of no room is the length", |sheet, book| {
            let got = to_book(sheet, book);
            let mut all = vec![0; ENOUGH];
            match got.number {
                23 => answer((23, to_book(sheet, &mut all).length, 0)),
                _ => got,
            }
        }),
        ("the book is judged before the room", |sheet, book| {
            let mut all = vec![0; ENOUGH];
            let judged = to_book(sheet, &mut all);
            match to_book(sheet, book) {
                Answer { number: 23, .. } if judged.number != 0 => Answer {
                    length: 0,
                    ..judged
                },
                got => got,
            }
        }),
        ("lines are counted from 0", |sheet, book| {
            let got = to_book(sheet, book);
            match got.number {
                20..=22 => Answer {
                    place: got.place - 1,
                    ..got
                },
                _ => got,
            }
        }),
        ("no room comes first", |sheet, book| match book.len() {
            0..=2 => answer((23, 0, 0)),
            _ => to_book(sheet, book),
        }),
    ];
    for (name, to_book) in wrong {
        let calls = Calls { to_book, ..RIGHT };
        assert!(found_right(calls)[0] < INPUTS, "{name}");
    }
}

#[test]
fn wrong_writers_are_found() {
    type Writer = fn(&[u8], u8, &mut [u8]) -> Answer;
    let wrong: [(&str, Writer); 9] = [
        ("the mark is always a comma", |book, mark, sheet| {
            to_sheet(book, if mark == b'.' { b',' } else { mark }, sheet)
        }),
        ("any mark is taken", |book, mark, sheet| {
            to_sheet(book, if mark == b'.' { b'.' } else { b',' }, sheet)
        }),
        (
            "a mark that is none comes after the book",
            |book, mark, sheet| match to_sheet(book, b',', &mut vec![0; ENOUGH]).number {
                0 => to_sheet(book, mark, sheet),
                _ => to_sheet(book, b',', sheet),
            },
        ),
        (
            "no room comes before the book",
            |book, mark, sheet| match sheet.is_empty() && b",.".contains(&mark) {
                true => answer((23, 0, 0)),
                false => to_sheet(book, mark, sheet),
            },
        ),
        (
            "a refused book leaves its mark line",
            |book, mark, sheet| {
                let got = to_sheet(book, mark, sheet);
                if got.number != 0 && sheet.len() > 5 {
                    sheet[..5].copy_from_slice(b"mark,");
                }
                got
            },
        ),
        ("a byte behind the sheet is written", |book, mark, sheet| {
            let got = to_sheet(book, mark, sheet);
            if let (0, Some(behind)) = (got.number, sheet.get_mut(got.length as usize)) {
                *behind ^= 1;
            }
            got
        }),
        ("the last line feed is left out", |book, mark, sheet| {
            let last = sheet.to_vec();
            let got = to_sheet(book, mark, sheet);
            if got.number != 0 {
                return got;
            }
            let at = got.length as usize - 1;
            sheet[at] = last[at];
            Answer {
                length: got.length - 1,
                ..got
            }
        }),
        ("a comma in every line", |book, mark, sheet| {
            let got = to_sheet(book, mark, sheet);
            let length = got.length as usize;
            if let Some(dot) = sheet[..length].iter().rposition(|&byte| byte == b'.') {
                sheet[dot] = b',';
            }
            got
        }),
        ("a length is one too many", |book, mark, sheet| {
            let got = to_sheet(book, mark, sheet);
            let more = u64::from(got.number == 0);
            Answer {
                length: got.length + more,
                ..got
            }
        }),
    ];
    for (name, to_sheet) in wrong {
        let calls = Calls { to_sheet, ..RIGHT };
        assert!(found_right(calls)[1] < INPUTS, "{name}");
    }
}

/// A shell script as the program.
fn ran(script: &str, work: Work, input: &[u8]) -> bool {
    runs(&["sh".into(), "-c".into(), script.into()], work, input)
}

#[test]
fn wrong_programs_are_found() {
    let end = r"printf 'Z\0\0'";
    let line = "sheet: refused 3 at 0: a tag that does not belong here: the end Z";
    let right = format!("{end}; echo '{line}' >&2; exit 1");
    let read = |script: &str| ran(script, Work::Read, b"mark,\n");
    assert!(read(&right));
    assert!(!read(&right.replace("exit 1", "exit 0")));
    assert!(!read(&right.replace("exit 1", "exit 2")));
    assert!(!read(&right.replace(end, "true")));
    assert!(!read(&right.replace(">&2", "")));
    assert!(!read(&right.replace("the end Z", "the end")));
    assert!(!read(&right.replace("sheet: ", "")));
    let line = "sheet: refused 20 at 1: the first line is neither mark, nor mark.";
    let right = format!("echo '{line}' >&2; exit 1");
    assert!(ran(&right, Work::Read, b"mark;\n"));
    assert!(!ran(&format!("echo; {right}"), Work::Read, b"mark;\n"));
    let words = r#"[ "$0 $1" = "write point" ] || exit 3"#;
    let line = "sheet: refused 2 at 0: the book ends where a field is due";
    let right = format!("{words}; echo '{line}' >&2; exit 1");
    assert!(ran(&right, Work::Write(Mark::Point), b""));
    assert!(!ran(&right, Work::Write(Mark::Comma), b""));
}

#[test]
fn stored_answers_are_held_to() {
    assert_eq!(answer_of("refused 21 at 3\n", 0), answer((21, 3, 0)));
    assert_eq!(answer_of("", 7), answer((0, 0, 7)));
    let folder = std::env::temp_dir().join(format!("stored-sheets-{}", std::process::id()));
    for way in ["read", "comma", "point"] {
        fs::create_dir_all(folder.join(way)).unwrap();
    }
    let write = |name: &str, bytes: &[u8]| fs::write(folder.join(name), bytes).unwrap();
    write("read/0.sheet", b"mark,\n");
    write("read/0.want", b"Z\0\0");
    write("read/0.said", b"refused 3 at 0\n");
    write("comma/0.book", b"");
    write("comma/0.want", b"");
    write("comma/0.said", b"refused 2 at 0\n");
    assert_eq!(stored(&folder, &mut { RIGHT }).unwrap().counts(), (2, 0));
    write("read/0.said", b"refused 3 at 1\n");
    assert_eq!(stored(&folder, &mut { RIGHT }).unwrap().counts(), (1, 1));
    fs::remove_dir_all(folder).unwrap();
}
