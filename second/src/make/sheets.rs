//! Sheets of request [8], generated from a seed: those of whole books, those of damaged books, and damaged ones ([`damage_sheets`]). A sheet is
//! drafted from the fields of a generated book; nothing is taken from what reads or writes sheets.
//!
//! [`damage_sheets`]: super::damage_sheets

use super::damage_bytes::fields;
use super::damage_sheets::damage;
use super::rng::Rng;
use super::{book, Family};

/// A generated sheet, and what it is meant to try.
#[derive(Clone, Debug, PartialEq, Eq)]
pub struct MadeSheet {
    pub kind: &'static str,
    pub bytes: Vec<u8>,
}

/// A letter, or what stands in its place, and the parts behind it.
pub type Line = Vec<Vec<u8>>;

/// A sheet as lines.
#[derive(Clone, Debug)]
pub struct Draft {
    /// The byte that figures have.
    pub mark: u8,
    /// The mark line, if it is there.
    pub first: Option<Vec<u8>>,
    pub lines: Vec<Line>,
    /// What ends each line.
    pub end: &'static [u8],
}

/// Which of a line's parts, counted from 1, are a price, a rate or lots.
pub fn figures(letter: &[u8]) -> &'static [usize] {
    match letter {
        b"S" | b"L" | b"U" | b"V" => &[1],
        b"I" => &[2, 3, 4],
        b"B" | b"A" => &[1, 2],
        _ => &[],
    }
}

/// The sheet of this seed and index. Any index can be made by itself.
pub fn sheet(seed: u64, index: u64) -> MadeSheet {
    let rng = &mut Rng::new(seed ^ 8, index);
    let made = book(seed, index);
    let mark = rng.pick(b",.");
    let mut draft = Draft {
        mark,
        first: Some([b"mark".as_slice(), &[mark]].concat()),
        lines: lines(&made.bytes, mark),
        end: b"\n",
    };
    match made.family {
        Family::Whole | Family::Edge if rng.one_in(3) => MadeSheet {
            kind: "whole",
            bytes: draft.bytes(),
        },
        Family::Damaged if rng.one_in(3) => MadeSheet {
            kind: "of a damaged book",
            bytes: draft.bytes(),
        },
        _ => {
            let (kind, bytes) = damage(rng, &mut draft);
            MadeSheet { kind, bytes }
        }
    }
}

impl Draft {
    pub fn bytes(&self) -> Vec<u8> {
        let mut bytes = Vec::new();
        let lines = self.lines.iter().map(|line| line.join(&b';'));
        for line in self.first.iter().cloned().chain(lines) {
            bytes.extend(line);
            bytes.extend_from_slice(self.end);
        }
        bytes
    }
}

/// The lines of a book as far as it has fields. Of a damaged book some are no lines.
fn lines(book: &[u8], mark: u8) -> Vec<Line> {
    let mut lines: Vec<Line> = Vec::new();
    for field in fields(book) {
        let (tag, value) = (book[field.start], &book[field.start + 3..field.end]);
        let seat = lines
            .last_mut()
            .filter(|line| line[0] == b"I" && line.len() < 5);
        match (tag, seat) {
            (b'K' | b'H' | b'Q', Some(seat)) => seat.push(value.to_vec()),
            (b'B' | b'A', _) => {
                let parts = value.split(|&byte| byte == b' ').map(<[u8]>::to_vec);
                lines.push([vec![tag]].into_iter().chain(parts).collect());
            }
            (b'Z', _) if value.is_empty() => (),
            _ => lines.push(vec![vec![tag], value.to_vec()]),
        }
    }
    lines.iter_mut().for_each(|line| remark(line, mark));
    lines
}

/// Puts the mark in place of the points of figures.
fn remark(line: &mut Line, mark: u8) {
    for &at in figures(&line[0].clone()) {
        for byte in line.get_mut(at).into_iter().flatten() {
            if *byte == b'.' {
                *byte = mark;
            }
        }
    }
}

/// Small sheets in both marks with every byte replaced by every other, left out, and every byte put in before it.
pub fn swept() -> impl Iterator<Item = Vec<u8>> {
    const SMALL: [&[u8]; 2] = [
        b"mark,\nS;1,00\nC;P\nI;M;2;0;1\nB;1,10;2;20250115;1000\n",
        b"mark.\nD;D\nX;0\nI;M1;0;3;0\nA;7;3;20250115;2031\n",
    ];
    SMALL.into_iter().flat_map(|small| {
        (0..small.len()).flat_map(move |at| {
            let with = move |bytes: &[u8], after| [&small[..at], bytes, &small[after..]].concat();
            (0..=255)
                .flat_map(move |byte| [with(&[byte], at + 1), with(&[byte], at)])
                .chain([with(&[], at + 1)])
        })
    })
}

/// Every byte as the letter of a line, with no part to six parts, in both marks.
pub fn lettered() -> impl Iterator<Item = Vec<u8>> {
    (0..=255u8).flat_map(|letter| {
        (0..7).flat_map(move |parts| {
            let line = [&[letter][..], &b";1".repeat(parts), b"\n"].concat();
            [b"mark,\n", b"mark.\n"].map(|first| [first, &line[..]].concat())
        })
    })
}
