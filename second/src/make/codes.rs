//! Customer codes, no two the same within a book.

use std::collections::HashSet;

use super::rng::Rng;

const LETTERS: &[u8] = b"0123456789ABCDEFGHIJKLMNOPQRSTUVWXYZ";
const LONGEST: u32 = 12;

/// Codes of 1 to 12 bytes out of all letters and digits, in no order.
pub fn any(rng: &mut Rng, count: usize) -> Vec<Vec<u8>> {
    distinct(rng, count, LETTERS)
}

/// Codes of 12 bytes.
pub fn longest(rng: &mut Rng, count: usize) -> Vec<Vec<u8>> {
    let mut codes = any(rng, count);
    for (nth, code) in codes.iter_mut().enumerate() {
        // The last two bytes tell them apart.
        code.resize(LONGEST as usize - 2, b'Q');
        code.extend([nth / 36, nth % 36].map(|at| LETTERS[at]));
    }
    codes
}

/// Codes out of few bytes, so that many begin one another: A, AA, A0, AAA.
pub fn nested(rng: &mut Rng, count: usize) -> Vec<Vec<u8>> {
    let alphabet: &[u8] = rng.pick(&[b"A0".as_slice(), b"AZ", b"09A", b"9A"]);
    distinct(rng, count, alphabet)
}

/// One or the other: ties are settled by code, so both kinds belong everywhere.
pub fn mixed(rng: &mut Rng, count: usize) -> Vec<Vec<u8>> {
    if rng.one_in(3) {
        nested(rng, count)
    } else {
        any(rng, count)
    }
}

fn distinct(rng: &mut Rng, count: usize, alphabet: &[u8]) -> Vec<Vec<u8>> {
    let mut seen = HashSet::with_capacity(count);
    let mut codes = Vec::with_capacity(count);
    while codes.len() < count {
        let length = rng.between(1, LONGEST);
        let code: Vec<u8> = (0..length).map(|_| rng.pick(alphabet)).collect();
        if seen.insert(code.clone()) {
            codes.push(code);
        }
    }
    codes
}
