//! The shrinker on byte strings of any kind.

use harness::shrink::{shrink, MOST_TRIES};
use second::make;

#[test]
fn what_matters_is_left() {
    let bytes = [b"some bytes ".as_slice(), &[0, 255], b"AB and more"].concat();
    let small = shrink(&bytes, &mut |bytes| {
        bytes.windows(2).any(|two| two == b"AB")
    });
    assert_eq!(small, b"AB");
}

#[test]
fn nothing_is_left_where_nothing_matters() {
    assert!(shrink(&make::book(1, 1).bytes, &mut |_| true).is_empty());
}

#[test]
fn nothing_goes_where_all_matters() {
    let book = make::book(1, 2).bytes;
    let whole = book.clone();
    assert_eq!(shrink(&book, &mut |bytes| bytes == whole), book);
}

#[test]
fn it_ends_after_so_many_tries_and_is_the_same_each_time() {
    let bytes: Vec<u8> = (0..60_001_u32).map(|at| (at % 251) as u8).collect();
    let mut tries = 0;
    let mut half = |bytes: &[u8]| {
        tries += 1;
        bytes.len() > 30_000
    };
    let small = shrink(&bytes, &mut half);
    assert!(tries <= MOST_TRIES, "{tries} tries");
    assert!(small.len() < 60_001);
    assert_eq!(shrink(&bytes, &mut |bytes| bytes.len() > 30_000), small);
}
