//! Customer codes, and seat codes, which are formed alike. Document 01: "1 to 12 bytes, each `0`-`9` or `A`-`Z`."
//!
//! A code stays a part of the book. Two codes compare as Rust compares byte slices,
//! which is document 01's order: byte by byte, and a code that begins a longer one
//! is smaller.

use std::collections::HashSet;
use std::hash::{BuildHasherDefault, Hasher};

use crate::cursor::Field;
use crate::refusal::{Refusal, Rule};

/// Codes given so far.
pub type Codes<'a> = HashSet<&'a [u8], BuildHasherDefault<CodeHasher>>;

/// The code in this field. Refusal 5 for all that is wrong with it, a comma too:
/// neither C nor I is among the fields of refusal 4.
pub fn code<'a>(field: &Field<'a>) -> Result<&'a [u8], Refusal> {
    let well_formed = matches!(field.value.len(), 1..=12)
        && field
            .value
            .iter()
            .all(|byte| byte.is_ascii_digit() || byte.is_ascii_uppercase());
    if well_formed {
        Ok(field.value)
    } else {
        Err(field.refuse(Rule::Form))
    }
}

/// FNV-1a: quick on a few bytes. Codes chosen to collide cost little, since a book has
/// at most 256 of them; the standard library's hash guards larger tables.
pub struct CodeHasher(u64);

impl Default for CodeHasher {
    fn default() -> Self {
        CodeHasher(0xcbf2_9ce4_8422_2325)
    }
}

impl Hasher for CodeHasher {
    fn write(&mut self, bytes: &[u8]) {
        for &byte in bytes {
            self.0 = (self.0 ^ u64::from(byte)).wrapping_mul(0x0000_0100_0000_01b3);
        }
    }

    /// A slice's length comes this way, as one piece.
    fn write_usize(&mut self, number: usize) {
        self.0 = (self.0 ^ number as u64).wrapping_mul(0x0000_0100_0000_01b3);
    }

    fn finish(&self) -> u64 {
        self.0
    }
}
