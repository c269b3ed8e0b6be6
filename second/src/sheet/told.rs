//! What the program `sheet` does with an input: what it writes, what it says, and its status.

use super::words::{words_of_a_book, words_of_a_sheet};
use super::{to_book, to_sheet, Answer, Mark, MOST_BYTES};

/// What the words of the command line ask for.
#[derive(Clone, Copy, Debug, PartialEq, Eq)]
pub enum Work {
    Read,
    Write(Mark),
}

/// What comes of an input.
#[derive(Clone, Debug, PartialEq, Eq)]
pub struct Told {
    pub status: u8,
    /// Standard output.
    pub out: Vec<u8>,
    /// Standard error.
    pub said: String,
}

/// "its buffers are always large enough": no byte of a sheet comes to more than two bytes of a book, `Z` aside.
const ROOM: usize = 2 * MOST_BYTES;

/// Reads a sheet, or writes a book.
pub fn told(work: Work, input: &[u8]) -> Told {
    let mut buffer = vec![0; ROOM];
    match work {
        Work::Read => {
            let (number, place, length) = to_book(input, &mut buffer);
            buffer.truncate(length as usize);
            // A book that was made and refused has its bytes, and the refusal is its own.
            let words = match length {
                0 => words_of_a_sheet(number, place).to_string(),
                _ => words_of_a_book(number, place, &buffer),
            };
            ended((number, place, length), buffer, &words)
        }
        Work::Write(mark) => {
            let (number, place, length) = to_sheet(input, mark.byte(), &mut buffer);
            buffer.truncate(length as usize);
            let words = words_of_a_book(number, place, input);
            ended((number, place, length), buffer, &words)
        }
    }
}

fn ended((number, place, _): Answer, out: Vec<u8>, words: &str) -> Told {
    match number {
        0 => Told {
            status: 0,
            out,
            said: String::new(),
        },
        _ => Told {
            status: 1,
            out,
            said: format!("sheet: refused {number} at {place}: {words}\n"),
        },
    }
}
