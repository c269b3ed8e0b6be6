//! The text that the program prints, document 01 "Report and listing".

use std::io::Write;

use crate::call::judge;
use crate::cascade::Allotment;
use crate::refusal::Refusal;

/// The listing of a book, or its one line of refusal. Number 11 can't occur: "The
/// buffer it lends is always large enough."
pub fn listing(book: &[u8]) -> Vec<u8> {
    match judge(book) {
        Ok(allotment) => accepted(&allotment),
        Err(refusal) => refused(refusal),
    }
}

fn accepted(allotment: &Allotment) -> Vec<u8> {
    let mut text = Vec::new();
    line(&mut text, b"total", &[], allotment.total);
    line(&mut text, b"left", &[], allotment.residue);
    for customer in &allotment.customers {
        let standing = [customer.standing.byte(), b' '];
        line(&mut text, customer.code, &standing, customer.offset);
    }
    text
}

/// `refused 4 at 17`: number, then place.
fn refused(refusal: Refusal) -> Vec<u8> {
    format!("refused {} at {}\n", refusal.number(), refusal.place).into_bytes()
}

/// One line: a word, a blank, what stands between, a number and one line feed.
fn line(text: &mut Vec<u8>, word: &[u8], between: &[u8], number: u64) {
    text.extend_from_slice(word);
    text.push(b' ');
    text.extend_from_slice(between);
    writeln!(text, "{number}").expect("a Vec takes every byte");
}
