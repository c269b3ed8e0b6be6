//! A book and a difference as text.

use std::fmt::Write;

use crate::compare::Difference;
use crate::fields::{fields, value};
use crate::product::Answer;

/// A line for each field: place, tag, length, value; bytes that are no field come last.
pub fn book(bytes: &[u8]) -> String {
    let mut text = String::from("  place  tag  length  value\n");
    let fields = fields(bytes);
    for field in &fields {
        let tag = bytes[field.start].escape_ascii().to_string();
        let value = &bytes[value(field)];
        let (place, length) = (field.start, value.len());
        let _ = writeln!(
            text,
            "  {place:5}  {tag:4} {length:6}  {}",
            value.escape_ascii()
        );
    }
    let end = fields.last().map_or(0, |last| last.end);
    if end < bytes.len() {
        let rest = &bytes[end..];
        let _ = writeln!(
            text,
            "  {end:5}  no field, {} bytes: {}",
            rest.len(),
            rest.escape_ascii()
        );
    }
    text
}

/// Two digits for each byte, 32 bytes to a line.
pub fn hex(bytes: &[u8]) -> String {
    let mut text = String::new();
    for line in bytes.chunks(32) {
        let digits: Vec<String> = line.iter().map(|byte| format!("{byte:02x}")).collect();
        let _ = writeln!(text, "  {}", digits.join(" "));
    }
    text
}

/// What differs, both answers and the book.
pub fn difference(difference: &Difference, bytes: &[u8]) -> String {
    let got = match difference.call.got {
        Some(got) => answer(got),
        None => "none".to_string(),
    };
    format!(
        "check: {}\n{}\nroom {}\nsecond program: {}\ntried program:  {got}\nbook of {} bytes:\n{}in hex:\n{}",
        difference.check.name(),
        difference.told,
        difference.call.room,
        answer(difference.call.want),
        bytes.len(),
        book(bytes),
        hex(bytes)
    )
}

fn answer(answer: Answer) -> String {
    format!(
        "number {}, place {}, length {}",
        answer.number, answer.place, answer.length
    )
}
