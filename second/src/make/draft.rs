//! A book as numbers, and how it is written as bytes. Changes of the book's format
//! come here first.

use super::stamps::Stamp;

/// The largest figures of document 01. By request [3] a price in yuan may be as many yuan as
/// one in fen may be fen.
pub const MOST_PRICE: u32 = 9_999_999;
pub const MOST_RATE: u32 = 99_999;
pub const MOST_LOTS: u32 = 1_000_000;

#[derive(Clone, Copy, Debug, PartialEq, Eq)]
pub struct Trade {
    pub bought: bool,
    /// In fen or yuan, as the terms say.
    pub price: u32,
    pub lots: u32,
    pub stamp: Stamp,
}

impl Trade {
    /// A trade that has no stamp of its own yet: all trades get theirs at the end, when the
    /// draft is arranged.
    pub fn new(bought: bool, price: u32, lots: u32) -> Self {
        Trade {
            bought,
            price,
            lots,
            stamp: Stamp::default(),
        }
    }
}

/// A customer. What it holds is drafted as one position, which is then divided over seats; only these are written.
#[derive(Clone, Debug)]
pub struct Group {
    pub code: Vec<u8>,
    /// The sums over all seats.
    pub long: u32,
    pub short: u32,
    pub unfilled: u32,
    /// None until the draft is seated.
    pub seats: Vec<Seat>,
    /// Oldest first, until the draft is arranged; then in the order of the book.
    pub trades: Vec<Trade>,
}

#[derive(Clone, Debug)]
pub struct Seat {
    pub code: Vec<u8>,
    pub long: u32,
    pub short: u32,
    pub unfilled: u32,
}

#[derive(Clone, Debug)]
pub struct Terms {
    /// Locked at the lower limit.
    pub down: bool,
    /// X: 2 where prices are in fen, 0 where they are in yuan.
    pub decimals: u32,
    /// S, in fen or yuan.
    pub settlement: u32,
    /// L, U and V, in thousandths of a percent.
    pub loss_edge: u32,
    pub tier1_edge: u32,
    pub tier2_edge: u32,
}

#[derive(Clone, Debug)]
pub struct Draft {
    pub terms: Terms,
    pub groups: Vec<Group>,
}

impl Draft {
    pub fn bytes(&self) -> Vec<u8> {
        // No trade field has more than 33 bytes, no seat more than 45, no group more than 16 beside them.
        let trades: usize = self.groups.iter().map(|group| group.trades.len()).sum();
        let seats: usize = self.groups.iter().map(|group| group.seats.len()).sum();
        let most = 50 + 16 * self.groups.len() + 45 * seats + 33 * trades;
        let mut book = Book {
            bytes: Vec::with_capacity(most),
        };
        book.terms(&self.terms);
        for group in &self.groups {
            book.group(group, self.terms.decimals);
        }
        book.field(b'Z', |_| ());
        book.bytes
    }
}

/// A book being written.
struct Book {
    bytes: Vec<u8>,
}

impl Book {
    fn terms(&mut self, terms: &Terms) {
        let lock = if terms.down { b'D' } else { b'U' };
        self.field(b'D', |value| value.push(lock));
        self.field(b'X', |value| digits(value, terms.decimals, 1));
        self.field(b'S', |value| point(value, terms.settlement, terms.decimals));
        self.field(b'L', |value| point(value, terms.loss_edge, 3));
        self.field(b'U', |value| point(value, terms.tier1_edge, 3));
        self.field(b'V', |value| point(value, terms.tier2_edge, 3));
    }

    fn group(&mut self, group: &Group, decimals: u32) {
        self.field(b'C', |value| value.extend_from_slice(&group.code));
        for seat in &group.seats {
            self.field(b'I', |value| value.extend_from_slice(&seat.code));
            self.field(b'K', |value| digits(value, seat.long, 1));
            self.field(b'H', |value| digits(value, seat.short, 1));
            self.field(b'Q', |value| digits(value, seat.unfilled, 1));
        }
        for trade in &group.trades {
            let tag = if trade.bought { b'B' } else { b'A' };
            self.field(tag, |value| write_trade(value, trade, decimals));
        }
    }

    /// Writes one field; the length bytes are set once the value is there.
    fn field(&mut self, tag: u8, value: impl FnOnce(&mut Vec<u8>)) {
        self.bytes.extend_from_slice(&[tag, 0, 0]);
        let start = self.bytes.len();
        value(&mut self.bytes);
        let length = (self.bytes.len() - start) as u16;
        self.bytes[start - 2..start].copy_from_slice(&length.to_be_bytes());
    }
}

fn write_trade(value: &mut Vec<u8>, trade: &Trade, decimals: u32) {
    point(value, trade.price, decimals);
    value.push(b' ');
    digits(value, trade.lots, 1);
    value.push(b' ');
    digits(value, trade.stamp.date(), 8);
    value.push(b' ');
    digits(value, trade.stamp.clock(), 4);
}

/// A number with its last `decimals` digits after a point; for none there is no point.
fn point(value: &mut Vec<u8>, number: u32, decimals: u32) {
    let one = 10_u32.pow(decimals);
    digits(value, number / one, 1);
    if decimals > 0 {
        value.push(b'.');
        digits(value, number % one, decimals as usize);
    }
}

/// A number in digits, with leading zeros up to `least` digits.
fn digits(value: &mut Vec<u8>, number: u32, least: usize) {
    let mut digits = [b'0'; 10];
    let mut left = number;
    let mut count = 0;
    while left > 0 || count < least {
        count += 1;
        digits[10 - count] = b'0' + (left % 10) as u8;
        left /= 10;
    }
    value.extend_from_slice(&digits[10 - count..]);
}
