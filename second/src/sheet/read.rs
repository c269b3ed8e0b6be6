//! A sheet read into a book.

use super::mark::Mark;
use super::parts::{parts, Part};
use super::{Answer, MOST_BYTES, NO_LINE, NO_MARK, NO_ROOM, OTHER_MARK, TOO_LONG};
use crate::reader;

/// A part of a line, as it stands in the sheet, and what it comes to.
#[derive(Clone, Copy)]
struct Piece<'a> {
    part: Part,
    text: &'a [u8],
}

/// `Z`, which no sheet has.
const END: &[u8] = b"Z\0\0";
/// The bytes before a field's value.
const HEAD: usize = 3;

/// Reads a sheet and writes its book at the front of the lent buffer, whether or not the book is accepted. Where the sheet itself is refused, or
/// the buffer is too small, nothing is written.
pub fn to_book(sheet: &[u8], book: &mut [u8]) -> Answer {
    let (mark, pieces) = match cut(sheet) {
        Ok(read) => read,
        Err((number, line)) => return (number, line, 0),
    };
    let length = pieces.iter().map(Piece::bytes).sum::<usize>() + END.len();
    let Some(book) = book.get_mut(..length) else {
        return (NO_ROOM, 0, 0);
    };
    put(mark, &pieces, book);
    match reader::read(book) {
        Ok(_) => (0, 0, length as u64),
        Err(refusal) => (refusal.number(), refusal.place as u64, length as u64),
    }
}

/// The mark, and all pieces of all lines; or the number and the line of the first bad one.
fn cut(sheet: &[u8]) -> Result<(Mark, Vec<Piece<'_>>), (u64, u64)> {
    if sheet.len() > MOST_BYTES {
        return Err((TOO_LONG, 0));
    }
    let (mark, lines) = match sheet {
        [b'm', b'a', b'r', b'k', byte, b'\n', lines @ ..] => (Mark::of(*byte), lines),
        _ => (None, sheet),
    };
    let mark = mark.ok_or((NO_MARK, 1u64))?;
    let mut pieces = Vec::with_capacity(lines.len() / 6);
    for (line, number) in lines.split_inclusive(|&byte| byte == b'\n').zip(2..) {
        cut_line(line, mark, &mut pieces).map_err(|refused| (refused, number))?;
    }
    Ok((mark, pieces))
}

/// The pieces of a line behind those of the lines before; or its number, 22 before 21.
fn cut_line<'a>(line: &'a [u8], mark: Mark, pieces: &mut Vec<Piece<'a>>) -> Result<(), u64> {
    let [letter, b';', texts @ .., b'\n'] = line else {
        return Err(NO_LINE);
    };
    let (parts, before) = (parts(*letter), pieces.len());
    let mut texts = texts.split(|&byte| byte == b';');
    for (part, text) in parts.iter().zip(texts.by_ref()) {
        pieces.push(Piece { part: *part, text });
    }
    let own = &pieces[before..];
    if parts.is_empty() || own.len() < parts.len() || texts.next().is_some() {
        return Err(NO_LINE);
    }
    let other = mark.other().byte();
    let wrong = |piece: &Piece| piece.part.figure && piece.text.contains(&other);
    if own.iter().any(wrong) {
        return Err(OTHER_MARK);
    }
    Ok(())
}

impl Piece<'_> {
    /// How many bytes of the book it takes: with its field's head, or with its blank.
    fn bytes(&self) -> usize {
        let before = if self.part.begins.is_some() { HEAD } else { 1 };
        before + self.text.len()
    }
}

/// Writes the fields and `Z` into a buffer of just their length.
fn put(mark: Mark, pieces: &[Piece], book: &mut [u8]) {
    let mut rest = book;
    for field in pieces.chunk_by(|_, next| next.part.begins.is_none()) {
        let size: usize = field.iter().map(Piece::bytes).sum();
        let (head, after) = rest.split_at_mut(size);
        put_field(mark, field, head);
        rest = after;
    }
    rest.copy_from_slice(END);
}

/// A field of one piece or more: tag, length and value.
fn put_field(mark: Mark, field: &[Piece], to: &mut [u8]) {
    let length = (to.len() - HEAD) as u16;
    let mut at = 0;
    for piece in field {
        match piece.part.begins {
            Some(tag) => to[0] = tag,
            None => to[at] = b' ',
        }
        let start = at + piece.bytes() - piece.text.len();
        at += piece.bytes();
        to[start..at].copy_from_slice(piece.text);
        if piece.part.figure && mark == Mark::Comma {
            for byte in &mut to[start..at] {
                if *byte == b',' {
                    *byte = b'.';
                }
            }
        }
    }
    to[1..HEAD].copy_from_slice(&length.to_be_bytes());
}
