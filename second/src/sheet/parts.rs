//! What the parts of a line come to in a book.

/// One part behind a line's letter.
#[derive(Clone, Copy, Debug, PartialEq, Eq)]
pub struct Part {
    /// The field that it begins; none where it goes on with the field before, behind one blank.
    pub begins: Option<u8>,
    /// A price, a rate or lots: the mark is a mark there.
    pub figure: bool,
}

const fn figure(tag: u8) -> Part {
    Part {
        begins: Some(tag),
        figure: true,
    }
}

const fn carried(tag: u8) -> Part {
    Part {
        begins: Some(tag),
        figure: false,
    }
}

const fn joined(figure: bool) -> Part {
    Part {
        begins: None,
        figure,
    }
}

/// The parts of a line with this letter: "one line per term (`S;400,00`), customer (`C;P1`), seat (`I;code;K;H;Q`) or trade
/// (`B;price;lots;day;time`)". No parts: no line has the letter.
pub fn parts(letter: u8) -> &'static [Part] {
    match letter {
        b'D' => const { &[carried(b'D')] },
        b'X' => const { &[carried(b'X')] },
        b'S' => const { &[figure(b'S')] },
        b'L' => const { &[figure(b'L')] },
        b'U' => const { &[figure(b'U')] },
        b'V' => const { &[figure(b'V')] },
        b'C' => const { &[carried(b'C')] },
        b'I' => const { &[carried(b'I'), figure(b'K'), figure(b'H'), figure(b'Q')] },
        b'B' => const { &[figure(b'B'), joined(true), joined(false), joined(false)] },
        b'A' => const { &[figure(b'A'), joined(true), joined(false), joined(false)] },
        _ => &[],
    }
}
