//! The call of document 01: "A call on a book and a lent report buffer returns a
//! number, a place and a length."

use crate::cascade::{cascade, Allotment};
use crate::reader;
use crate::refusal::{Refusal, Rule};
use crate::report;

/// What a call answers. Accepted: number 0, place 0 and the report with its length.
/// Refused: length 0 and an empty report.
#[derive(Clone, Debug, PartialEq, Eq)]
pub struct Answer {
    pub number: u64,
    pub place: u64,
    pub length: u64,
    pub report: Vec<u8>,
}

/// Judges a book as if a buffer of `room` bytes were lent, and hands the report back.
pub fn allot(book: &[u8], room: usize) -> Answer {
    let written = fitting(book, room).map(|(allotment, length)| {
        let mut bytes = vec![0; length];
        report::write(&allotment, &mut bytes);
        bytes
    });
    match written {
        Ok(report) => Answer {
            number: 0,
            place: 0,
            length: report.len() as u64,
            report,
        },
        Err(refusal) => Answer {
            number: refusal.number(),
            place: refusal.place as u64,
            length: 0,
            report: Vec::new(),
        },
    }
}

/// Judges a book and writes the report at the front of the lent buffer. The bytes
/// after the report, and on a refusal all bytes, stay as they were. Answers number,
/// place and length.
pub fn allot_into(book: &[u8], report: &mut [u8]) -> (u64, u64, u64) {
    match fitting(book, report.len()) {
        Ok((allotment, length)) => {
            report::write(&allotment, &mut report[..length]);
            (0, 0, length as u64)
        }
        Err(refusal) => (refusal.number(), refusal.place as u64, 0),
    }
}

/// The result of a book, whatever the room: every number but 11.
pub fn judge(book: &[u8]) -> Result<Allotment<'_>, Refusal> {
    reader::read(book).map(cascade)
}

/// The result and its report's length, if the room will do. Number 11 comes last,
/// with the length needed as its place; a room equal to the length is enough.
fn fitting(book: &[u8], room: usize) -> Result<(Allotment<'_>, usize), Refusal> {
    let allotment = judge(book)?;
    let length = report::length(&allotment);
    if length > room {
        return Err(Refusal {
            rule: Rule::NoRoom,
            place: length,
        });
    }
    Ok((allotment, length))
}
