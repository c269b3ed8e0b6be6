//! The report, document 01 "Report and listing": `T`, `R`, then for each customer in
//! book order `C`, `E`, `O`; by request [5] `I` and `J` for each of its seats. Report
//! fields are built as the book's are.

use crate::cascade::Allotment;

/// A field's tag and length bytes.
const HEAD: usize = 3;

/// The bytes that [`write`] needs.
pub fn length(allotment: &Allotment) -> usize {
    let sums = 2 * HEAD + digits(allotment.total) + digits(allotment.residue);
    let groups = allotment.customers.iter().map(|customer| {
        let standing = 1;
        3 * HEAD + customer.code.len() + standing + digits(customer.offset)
    });
    let seats = (allotment.seats.iter()).map(|seat| 2 * HEAD + seat.code.len() + digits(seat.lots));
    sums + groups.sum::<usize>() + seats.sum::<usize>()
}

/// Writes the report into `out`, which has exactly [`length`] bytes.
pub fn write(allotment: &Allotment, out: &mut [u8]) {
    let mut pen = Pen { out, at: 0 };
    pen.number(b'T', allotment.total);
    pen.number(b'R', allotment.residue);
    for customer in &allotment.customers {
        pen.field(b'C', customer.code);
        pen.field(b'E', &[customer.standing.byte()]);
        pen.number(b'O', customer.offset);
        for seat in &allotment.seats[customer.seats.clone()] {
            pen.field(b'I', seat.code);
            pen.number(b'J', seat.lots);
        }
    }
    debug_assert_eq!(pen.at, pen.out.len());
}

/// How many digits a number has, written plain; `0` has one.
fn digits(number: u64) -> usize {
    number.checked_ilog10().unwrap_or(0) as usize + 1
}

/// Writes fields one after the other.
struct Pen<'a> {
    out: &'a mut [u8],
    at: usize,
}

impl Pen<'_> {
    fn field(&mut self, tag: u8, value: &[u8]) {
        self.head(tag, value.len()).copy_from_slice(value);
    }

    /// A number in plain digits without leading zeros.
    fn number(&mut self, tag: u8, number: u64) {
        let mut left = number;
        for byte in self.head(tag, digits(number)).iter_mut().rev() {
            *byte = b'0' + (left % 10) as u8;
            left /= 10;
        }
    }

    /// Writes tag and length, moves past the field and answers the value's room. All
    /// values here have at most 20 bytes, so the high length byte is 0.
    fn head(&mut self, tag: u8, length: usize) -> &mut [u8] {
        let start = self.at;
        self.at += HEAD + length;
        let (head, value) = self.out[start..self.at].split_at_mut(HEAD);
        head.copy_from_slice(&[tag, 0, length as u8]);
        value
    }
}
