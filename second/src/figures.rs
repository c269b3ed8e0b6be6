//! The figures of document 01: prices, rates and lots, read straight from the value; and
//! the day and time of a trade, which are digits of a fixed number.
//!
//! Everything that says how a figure is written stands in this file. A price is read in the
//! one form that the book's term X leaves it, so other decimals are no figure at all.

use crate::cursor::Field;
use crate::refusal::{Refusal, Rule};
use crate::stamp::Stamp;
use crate::units::{Decimals, Lots, Price, Rate};

/// The largest figure in lots, in holdings and in trades.
const MOST_LOTS: u32 = 1_000_000;

/// An opening trade, without its side: the tag tells that.
#[derive(Clone, Copy, Debug, PartialEq, Eq)]
pub struct Trade {
    pub price: Price,
    pub lots: Lots,
    pub stamp: Stamp,
}

/// The value of S, with the decimals that X says.
pub fn price(field: &Field, decimals: Decimals) -> Result<Price, Refusal> {
    figure(field, |scan| scan.price(decimals))
}

/// The value of L, U or V.
pub fn rate(field: &Field) -> Result<Rate, Refusal> {
    figure(field, Scan::rate)
}

/// The value of K, H or Q: 0 is allowed here.
pub fn held(field: &Field) -> Result<Lots, Refusal> {
    figure(field, Scan::lots)
}

/// The value of B or A: "a price, one blank (0x20), lots", at least 1 lot, then by request
/// [2] "a blank, the trading day as eight digits, a blank and the time as four digits". The
/// price has the decimals that X says.
#[inline]
pub fn trade(field: &Field, decimals: Decimals) -> Result<Trade, Refusal> {
    figure(field, |scan| scan.trade(decimals))
}

/// Reads the whole value by `read`; a value not of the form is 4 or 5.
#[inline]
fn figure<'a, T>(
    field: &Field<'a>,
    read: impl FnOnce(&mut Scan<'a>) -> Option<T>,
) -> Result<T, Refusal> {
    let mut scan = Scan { rest: field.value };
    match read(&mut scan) {
        Some(value) if scan.rest.is_empty() => Ok(value),
        _ => Err(no_figure(field)),
    }
}

/// Refusal 4 where a comma stands anywhere in the value, else 5. No good figure has
/// a comma, so asking only once the form has failed keeps 4 before 5.
#[cold]
fn no_figure(field: &Field) -> Refusal {
    if field.value.contains(&b',') {
        field.refuse(Rule::Comma)
    } else {
        field.refuse(Rule::Form)
    }
}

/// What is left of a value. Each step takes its piece off the front, or answers
/// `None` where the piece isn't there.
struct Scan<'a> {
    rest: &'a [u8],
}

impl Scan<'_> {
    /// With X 2 a price in fen, with X 0 one in yuan; 0 is none.
    #[inline]
    fn price(&mut self, decimals: Decimals) -> Option<Price> {
        let price = match decimals {
            Decimals::Two => self.fen()?,
            Decimals::None => self.yuan()?,
        };
        (price > 0).then_some(Price(price))
    }

    /// 1 to 5 digits, a point, exactly 2 digits; up to 99999.99.
    fn fen(&mut self) -> Option<u32> {
        let yuan = self.whole(5)?;
        self.byte(b'.')?;
        Some(100 * yuan + self.decimals::<2>()?)
    }

    /// Request [3]: "a whole figure from 1 to 9,999,999 without a leading zero". A point
    /// stays in the rest and fails there.
    fn yuan(&mut self) -> Option<u32> {
        self.whole(7)
    }

    /// 1 or 2 digits, a point, exactly 3 digits; 0.001 to 99.999.
    fn rate(&mut self) -> Option<Rate> {
        let percent = self.whole(2)?;
        self.byte(b'.')?;
        let thousandths = 1000 * percent + self.decimals::<3>()?;
        (thousandths > 0).then_some(Rate(thousandths))
    }

    /// 1 to 7 digits; 0 to 1,000,000.
    fn lots(&mut self) -> Option<Lots> {
        let lots = self.whole(7)?;
        (lots <= MOST_LOTS).then_some(Lots(lots))
    }

    fn trade(&mut self, decimals: Decimals) -> Option<Trade> {
        let price = self.price(decimals)?;
        self.byte(b' ')?;
        let lots = self.lots()?;
        self.byte(b' ')?;
        let day = self.decimals::<8>()?;
        self.byte(b' ')?;
        let time = self.decimals::<4>()?;
        let stamp = Stamp::of(day, time)?;
        (lots.0 > 0).then_some(Trade { price, lots, stamp })
    }

    /// The digits at the front, 1 to `most` of them (at most 9, so that they fit); after
    /// a leading zero no more are taken. A digit too many stays in the rest and fails
    /// there: no digit may follow a whole part.
    #[inline]
    fn whole(&mut self, most: usize) -> Option<u32> {
        let (&first, mut rest) = self.rest.split_first()?;
        let mut value = digit(first)?;
        let mut room = if value == 0 { 0 } else { most - 1 };
        while let Some((&next, after)) = rest.split_first() {
            let worth = u32::from(next.wrapping_sub(b'0'));
            if worth > 9 || room == 0 {
                break;
            }
            value = 10 * value + worth;
            room -= 1;
            rest = after;
        }
        self.rest = rest;
        Some(value)
    }

    /// The next `N` bytes as digits. A digit more stays in the rest and fails there.
    #[inline]
    fn decimals<const N: usize>(&mut self) -> Option<u32> {
        let (digits, rest) = self.rest.split_first_chunk::<N>()?;
        self.rest = rest;
        digits
            .iter()
            .try_fold(0, |value, &byte| Some(10 * value + digit(byte)?))
    }

    fn byte(&mut self, wanted: u8) -> Option<()> {
        let (&first, rest) = self.rest.split_first()?;
        self.rest = rest;
        (first == wanted).then_some(())
    }
}

/// The worth of an ASCII digit.
#[inline]
fn digit(byte: u8) -> Option<u32> {
    byte.is_ascii_digit().then(|| u32::from(byte - b'0'))
}
