//! Sheets of request [8] through both calls, in rooms of every size, and through the program, beside what the second program says of them.

use std::path::Path;
use std::process::ExitCode;
use std::{fs, io};

use second::make;
use second::sheet::{told, Mark, Told, Work};

use crate::command::{asked, fed, held, not_linked, through_and_rest, Count};
use crate::guarded::Lent;
use crate::product::Answer;
use crate::program::Program;
use crate::through::{Call, Through};

/// What is tried: it answers an input once for each lent buffer, by either call.
pub trait Sheets {
    fn call(&mut self, way: Way, input: &[u8], lent: &mut [Lent]) -> Result<Vec<Answer>, String>;
}

/// Plain calls.
#[derive(Clone, Copy)]
pub struct Calls {
    pub to_book: fn(&[u8], &mut [u8]) -> Answer,
    pub to_sheet: fn(&[u8], u8, &mut [u8]) -> Answer,
}

/// Which of them, and with which mark: a byte that is none, too.
#[derive(Clone, Copy, Debug, PartialEq, Eq)]
pub enum Way {
    Read,
    Write(u8),
}

/// Room for every result: a sheet of 60,000 bytes makes a book of at most 119,991.
const ENOUGH: usize = 120_000;
/// Results of so many bytes are tried in rooms of every size.
const SMALL: usize = 160;
/// The number of no room for the result.
const NO_ROOM: u64 = 23;
/// Bytes that are no mark.
const NO_MARKS: [u8; 7] = [0, b';', b'+', b'-', b'/', b'm', 255];

impl Sheets for Calls {
    fn call(&mut self, way: Way, input: &[u8], lent: &mut [Lent]) -> Result<Vec<Answer>, String> {
        let calls = *self;
        let mut call = |input: &[u8], room: &mut [u8]| match way {
            Way::Read => (calls.to_book)(input, room),
            Way::Write(mark) => (calls.to_sheet)(input, mark, room),
        };
        Program::call(&mut call, input, lent)
    }
}

impl Sheets for Through {
    fn call(&mut self, way: Way, input: &[u8], lent: &mut [Lent]) -> Result<Vec<Answer>, String> {
        self.turn_to(match way {
            Way::Read => Call::SheetToBook,
            Way::Write(mark) => Call::BookToSheet(mark),
        });
        Program::call(self, input, lent)
    }
}

/// A sheet through its call, in rooms of every kind of size.
pub fn reads(calls: &mut dyn Sheets, sheet: &[u8]) -> bool {
    holds(calls, Way::Read, sheet)
}

/// A book through its call, with both marks, and with bytes that are none.
pub fn writes(calls: &mut dyn Sheets, book: &[u8]) -> bool {
    let other = NO_MARKS[book.len() % NO_MARKS.len()];
    [b',', b'.', other]
        .into_iter()
        .all(|mark| holds(calls, Way::Write(mark), book))
}

fn holds(calls: &mut dyn Sheets, way: Way, input: &[u8]) -> bool {
    let (answer, bytes) = wanted(way, input);
    comes_to(calls, way, input, (answer, &bytes))
}

/// The call in rooms of every kind of size comes to an answer and to these bytes.
fn comes_to(calls: &mut dyn Sheets, way: Way, input: &[u8], wanted: (Answer, &[u8])) -> bool {
    let rooms = rooms(wanted.1.len());
    let right = |room: &mut [u8]| right(wanted, room);
    held(input, &rooms, |lent| calls.call(way, input, lent), right)
}

/// An answer and its bytes in a room.
fn right((answer, bytes): (Answer, &[u8]), room: &mut [u8]) -> Answer {
    match room.get_mut(..bytes.len()) {
        Some(front) => {
            front.copy_from_slice(bytes);
            answer
        }
        None => Answer {
            number: NO_ROOM,
            place: 0,
            length: 0,
        },
    }
}

/// What the second program answers with room enough, and what it writes: nothing where a sheet is refused as a sheet, or a book to be written; all of
/// a book that was made, refused or not.
fn wanted(way: Way, input: &[u8]) -> (Answer, Vec<u8>) {
    let mut bytes = vec![0; ENOUGH];
    let (number, place, length) = match way {
        Way::Read => second::sheet::to_book(input, &mut bytes),
        Way::Write(mark) => second::sheet::to_sheet(input, mark, &mut bytes),
    };
    bytes.truncate(length as usize);
    let answer = Answer {
        number,
        place,
        length,
    };
    (answer, bytes)
}

/// Rooms for a result of this length: of every size, or none, too few by one, just enough, and more.
fn rooms(length: usize) -> Vec<usize> {
    match length {
        0 => vec![0, 1, 50, 300],
        1..=SMALL => (0..=length + 2).collect(),
        _ => vec![0, 1, length - 1, length, length + 1, length + 999],
    }
}

/// An input through the program: all that it writes, all that it says, and its status.
pub fn runs(program: &[String], work: Work, input: &[u8]) -> bool {
    let words: &[&str] = match work {
        Work::Read => &["read"],
        Work::Write(Mark::Comma) => &["write", "comma"],
        Work::Write(Mark::Point) => &["write", "point"],
    };
    let run = fed(program, words, input);
    let Told { status, out, said } = told(work, input);
    run.stdout == out && run.stderr == said.as_bytes() && run.status.code() == Some(status.into())
}

/// Inputs that somebody else has read, through the calls: FOLDER/read/N.sheet, FOLDER/comma/N.book and FOLDER/point/N.book, each with all that is
/// written, N.want, and where it is refused N.said, which begins `refused 21 at 3`.
pub fn stored(folder: &Path, calls: &mut dyn Sheets) -> io::Result<Count> {
    let mut count = Count::default();
    for (name, suffix, way) in [
        ("read", "sheet", Way::Read),
        ("comma", "book", Way::Write(b',')),
        ("point", "book", Way::Write(b'.')),
    ] {
        for entry in fs::read_dir(folder.join(name))? {
            let path = entry?.path();
            if path.extension().is_some_and(|end| end == suffix) {
                let want = fs::read(path.with_extension("want"))?;
                let said = fs::read_to_string(path.with_extension("said")).unwrap_or_default();
                let answer = answer_of(&said, want.len() as u64);
                let good = comes_to(calls, way, &fs::read(&path)?, (answer, &want));
                count.add(good, || path.display().to_string());
            }
        }
    }
    Ok(count)
}

/// The number and the place that a line says; none where there is no line.
fn answer_of(said: &str, length: u64) -> Answer {
    let mut numbers = said.split(' ').filter_map(|word| word.trim().parse().ok());
    Answer {
        number: numbers.next().unwrap_or(0),
        place: numbers.next().unwrap_or(0),
        length,
    }
}

/// The command: `[--through FILE] stored FOLDER`; or so many generated sheets and books through the calls and through the program. The calls are
/// linked in or behind the file.
pub fn command(words: &[String], linked: Calls) -> ExitCode {
    let (through, words) = through_and_rest(words);
    let mut calls: Option<Box<dyn Sheets>> = match through {
        Some(file) => Some(Box::new(Through::new(file, Call::SheetToBook))),
        None if cfg!(linked) => Some(Box::new(linked)),
        None => None,
    };
    match (words, &mut calls) {
        ([first, folder], Some(calls)) if first == "stored" => {
            all_stored(Path::new(folder), &mut **calls)
        }
        ([first, _], None) if first == "stored" => not_linked("sheets"),
        _ => generated(words, calls),
    }
}

fn all_stored(folder: &Path, calls: &mut dyn Sheets) -> ExitCode {
    match stored(folder, calls) {
        Ok(count) => count.end(),
        Err(error) => {
            eprintln!("sheets: {}: {error}", folder.display());
            ExitCode::FAILURE
        }
    }
}

fn generated(words: &[String], calls: Option<Box<dyn Sheets>>) -> ExitCode {
    let asked = match asked("sheets", words) {
        Ok(asked) => asked,
        Err(status) => return status,
    };
    let mut count = Count::default();
    match calls {
        Some(mut calls) if asked.calls > 0 => {
            called(&mut count, asked.seed, asked.calls, &mut *calls)
        }
        None if asked.calls > 0 => return not_linked("sheets"),
        _ => (),
    }
    for index in 0..asked.runs {
        ran(&mut count, asked.seed, index, asked.program);
    }
    count.end()
}

/// Small sheets byte by byte, then generated sheets and books.
fn called(count: &mut Count, seed: u64, times: u64, calls: &mut dyn Sheets) {
    for sheet in make::sheets::swept().chain(make::sheets::lettered()) {
        count.add(reads(calls, &sheet), || {
            format!("the call on {:?}", String::from_utf8_lossy(&sheet))
        });
    }
    for index in 0..times {
        let sheet = make::sheets::sheet(seed, index);
        count.add(reads(calls, &sheet.bytes), || {
            let size = sheet.bytes.len();
            format!(
                "the call on the sheet of seed {seed}, index {index}: {}, {size} bytes",
                sheet.kind
            )
        });
        let book = make::book(seed, index);
        count.add(writes(calls, &book.bytes), || {
            let size = book.bytes.len();
            format!(
                "the call on the book of seed {seed}, index {index}: {}, {size} bytes",
                book.kind
            )
        });
    }
}

fn ran(count: &mut Count, seed: u64, index: u64, program: &[String]) {
    let sheet = make::sheets::sheet(seed, index).bytes;
    let book = make::book(seed, index).bytes;
    for (work, input) in [
        (Work::Read, &sheet),
        (Work::Write(Mark::Comma), &book),
        (Work::Write(Mark::Point), &book),
    ] {
        count.add(runs(program, work, input), || {
            format!("the program, {work:?}, of seed {seed}, index {index}")
        });
    }
}

#[cfg(test)]
mod tests;
