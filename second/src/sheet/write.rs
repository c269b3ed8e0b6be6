//! A book written as a sheet.

use super::mark::Mark;
use super::parts::{parts, Part};
use super::{Answer, NO_MARK, NO_ROOM};
use crate::cursor::{Cursor, Field};
use crate::reader;

/// Writes an accepted book as a sheet at the front of the lent buffer. Where the mark is none, the book is refused, or the buffer is too small,
/// nothing is written.
pub fn to_sheet(book: &[u8], mark: u8, sheet: &mut [u8]) -> Answer {
    let Some(mark) = Mark::of(mark) else {
        return (NO_MARK, 0, 0);
    };
    if let Err(refusal) = reader::read(book) {
        return (refusal.number(), refusal.place as u64, 0);
    }
    let text = text(book, mark);
    match sheet.get_mut(..text.len()) {
        Some(sheet) => sheet.copy_from_slice(&text),
        None => return (NO_ROOM, 0, 0),
    }
    (0, 0, text.len() as u64)
}

/// The sheet of an accepted book.
fn text(book: &[u8], mark: Mark) -> Vec<u8> {
    let mut text = Vec::with_capacity(book.len() + 3);
    text.extend_from_slice(b"mark");
    text.push(mark.byte());
    let mut cursor = Cursor::new(book);
    loop {
        text.push(b'\n');
        let field = cursor.field().expect("an accepted book");
        if field.tag == b'Z' {
            return text;
        }
        put_line(&mut text, &field, &mut cursor, mark);
    }
}

/// The line that a field begins, without its line feed. The fields that go on with it are taken off the book.
fn put_line(text: &mut Vec<u8>, first: &Field, cursor: &mut Cursor, mark: Mark) {
    text.push(first.tag);
    for (nth, field) in parts(first.tag)
        .chunk_by(|_, next| next.begins.is_none())
        .enumerate()
    {
        let value = match nth {
            0 => first.value,
            _ => cursor.field().expect("a seat is whole").value,
        };
        put_parts(text, field, value, mark);
    }
}

/// A field's value as its parts. In a figure the point becomes the mark.
fn put_parts(text: &mut Vec<u8>, field: &[Part], value: &[u8], mark: Mark) {
    for (part, part_of) in field.iter().zip(value.split(|&byte| byte == b' ')) {
        text.push(b';');
        let start = text.len();
        text.extend_from_slice(part_of);
        if part.figure {
            for byte in &mut text[start..] {
                if *byte == b'.' {
                    *byte = mark.byte();
                }
            }
        }
    }
}
