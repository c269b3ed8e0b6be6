//! A byte string made small while something stays true of it.
//!
//! Greedy and without chance: whole customers go first, then seats, then fields; customers are made plain; then bytes of values
//! go (with the length set right), then any bytes. It ends when no step makes it smaller, or after so many tries.

use std::ops::Range;

use crate::fields::{fields, groups, seats, value, HEAD};
use crate::plain::plain_books;

/// No more byte strings than this are tried.
pub const MOST_TRIES: u32 = 5_000;

/// What a step may take away.
type Units = fn(&[u8]) -> Vec<Range<usize>>;

/// The smallest that was found. `stays` holds of the bytes handed in.
pub fn shrink(bytes: &[u8], stays: &mut dyn FnMut(&[u8]) -> bool) -> Vec<u8> {
    let mut tries = MOST_TRIES;
    let mut test = |bytes: &[u8]| {
        tries = tries.saturating_sub(1);
        tries > 0 && stays(bytes)
    };
    let mut small = bytes.to_vec();
    loop {
        let size = small.len();
        without_units(&mut small, groups, &mut test);
        without_units(&mut small, seats, &mut test);
        without_units(&mut small, fields, &mut test);
        made_plain(&mut small, &mut test);
        without_value_bytes(&mut small, &mut test);
        without_units(&mut small, each_byte, &mut test);
        if small.len() == size {
            return small;
        }
    }
}

fn each_byte(bytes: &[u8]) -> Vec<Range<usize>> {
    (0..bytes.len()).map(|at| at..at + 1).collect()
}

/// Takes away runs of neighbouring units, half of all at first, then ever fewer.
fn without_units(small: &mut Vec<u8>, units: Units, stays: &mut dyn FnMut(&[u8]) -> bool) {
    let mut run = units(small).len().div_ceil(2);
    while run > 0 {
        without_runs(small, units, run, stays);
        run /= 2;
    }
}

/// From the back, so that units before a run stay where they are.
fn without_runs(
    small: &mut Vec<u8>,
    units: Units,
    run: usize,
    stays: &mut dyn FnMut(&[u8]) -> bool,
) {
    let ranges = units(small);
    for part in ranges.chunks(run).rev() {
        let (start, end) = (part[0].start, part[part.len() - 1].end);
        let shorter = [&small[..start], &small[end..]].concat();
        if stays(&shorter) {
            *small = shorter;
        }
    }
}

/// Makes all customers plain at once, or one of them, where that is shorter.
fn made_plain(small: &mut Vec<u8>, stays: &mut dyn FnMut(&[u8]) -> bool) {
    let found = plain_books(small)
        .filter(|book| book.len() < small.len())
        .find(|book| stays(book));
    if let Some(book) = found {
        *small = book;
    }
}

/// Takes single bytes out of values, with the length bytes set right.
fn without_value_bytes(small: &mut Vec<u8>, stays: &mut dyn FnMut(&[u8]) -> bool) {
    for field in fields(small).into_iter().rev() {
        let mut length = value(&field).len();
        for at in value(&field).rev() {
            let mut shorter = small.clone();
            shorter.remove(at);
            let bytes = ((length - 1) as u16).to_be_bytes();
            shorter[field.start + 1..field.start + HEAD].copy_from_slice(&bytes);
            if stays(&shorter) {
                *small = shorter;
                length -= 1;
            }
        }
    }
}
