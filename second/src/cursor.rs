//! The book cut into fields. Document 01: "A field is a one-byte tag, a two-byte
//! length (high byte first) and that many bytes of value."

use crate::refusal::{Refusal, Rule};

/// One field of the book. The value is a part of the book, not a copy.
#[derive(Clone, Copy, Debug)]
pub struct Field<'a> {
    pub tag: u8,
    /// Where the tag stands in the book: the place of every refusal of this field.
    pub place: usize,
    pub value: &'a [u8],
}

impl Field<'_> {
    /// A refusal placed at this field's tag.
    pub fn refuse(&self, rule: Rule) -> Refusal {
        Refusal {
            rule,
            place: self.place,
        }
    }
}

/// A place in the book, moved forward one field at a time.
pub struct Cursor<'a> {
    book: &'a [u8],
    at: usize,
}

impl<'a> Cursor<'a> {
    pub fn new(book: &'a [u8]) -> Self {
        Cursor { book, at: 0 }
    }

    /// The field that begins here, whatever its tag; the cursor moves past it.
    /// Refusal 2: fewer than 3 bytes left, or the value runs past the end.
    #[inline]
    pub fn field(&mut self) -> Result<Field<'a>, Refusal> {
        let place = self.at;
        let cut = Refusal {
            rule: Rule::FieldCut,
            place,
        };
        let [tag, high, low, rest @ ..] = &self.book[place..] else {
            return Err(cut);
        };
        let length = usize::from(u16::from_be_bytes([*high, *low]));
        let value = rest.get(..length).ok_or(cut)?;
        self.at = place + 3 + length;
        Ok(Field {
            tag: *tag,
            place,
            value,
        })
    }

    /// The field that begins here, which must have this tag: 2 comes before 3.
    pub fn expect(&mut self, tag: u8) -> Result<Field<'a>, Refusal> {
        let field = self.field()?;
        if field.tag == tag {
            Ok(field)
        } else {
            Err(field.refuse(Rule::WrongTag))
        }
    }

    /// After `Z` nothing follows. Refusal 3, at the first byte after `Z`: even one
    /// or two bytes are 3 and not 2, since no field must begin there.
    pub fn end(&self) -> Result<(), Refusal> {
        if self.at == self.book.len() {
            return Ok(());
        }
        Err(Refusal {
            rule: Rule::WrongTag,
            place: self.at,
        })
    }
}
