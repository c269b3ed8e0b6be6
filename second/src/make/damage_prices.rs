//! Damages to the term X and to prices: a price that X does not allow, or one that it does and
//! that changes the gain or lies beyond five times S or a fifth of it.

use std::ops::Range;

use super::damage_bytes::{any_field_of, fields, set_value};
use super::rng::Rng;

/// Values of X: the two good ones, of which the other makes every price a wrong one, and bad ones.
const XS: &[&str] = &[
    "0", "2", "0", "2", "", "1", "1", "1", "3", "9", "00", "02", "20", "22", "0.", "2.", ".2", ",",
    "2,", "+2", "-0", " 2", "2 ", "O", "\0", "\u{2}",
];

/// Prices at the ends of both forms and just outside them.
const PRICES: &[&str] = &[
    "1",
    "2",
    "9999998",
    "9999999",
    "10000000",
    "0",
    "00",
    "01",
    "0000001",
    "09999999",
    "99999999",
    "0.01",
    "0.02",
    "99999.98",
    "99999.99",
    "100000.00",
    "0.00",
    "00.01",
    "01.00",
    "1.00",
    ".01",
    "1.",
    "1.0",
    "1.000",
    "",
    "1,00",
    "1,000",
    "4294967297",
];

/// Another value of X, or the same.
pub fn x_replaced(rng: &mut Rng, bytes: &mut Vec<u8>) {
    if let Some(field) = any_field_of(rng, bytes, b"X") {
        set_value(bytes, field, rng.pick(XS).as_bytes());
    }
}

/// X left out, given twice with the same value or the other, after S, before D, or anywhere.
pub fn x_elsewhere(rng: &mut Rng, bytes: &mut Vec<u8>) {
    let Some(x) = any_field_of(rng, bytes, b"X") else {
        return;
    };
    let field = bytes[x.clone()].to_vec();
    match rng.below(6) {
        0 => {
            bytes.drain(x);
        }
        1 => {
            bytes.splice(x.end..x.end, field);
        }
        2 => {
            let again = [b"X\0\x01", rng.pick(&[b"0", b"2", b"1"]).as_slice()].concat();
            bytes.splice(x.end..x.end, again);
        }
        way => {
            bytes.drain(x);
            let starts: Vec<usize> = fields(bytes).iter().map(|field| field.start).collect();
            let place = match way {
                3 => starts.get(2).copied(),
                4 => Some(0),
                _ if starts.is_empty() => None,
                _ => Some(rng.pick(&starts)),
            };
            let place = place.unwrap_or(bytes.len());
            bytes.splice(place..place, field);
        }
    }
}

/// S or the price of a trade with other decimals than it had, more or fewer.
pub fn other_decimals(rng: &mut Rng, bytes: &mut Vec<u8>) {
    change_price(rng, bytes, |rng, price| match price.find('.') {
        Some(point) => match rng.below(5) {
            0 | 1 => price.truncate(point),
            2 => {
                price.pop();
            }
            3 => price.push(rng.pick(&['0', '5'])),
            _ => {
                price.remove(point);
            }
        },
        None => price.push_str(rng.pick(&[".00", ".00", ".50", ".0", ".", ".000", ",00"])),
    });
}

/// S or the price of a trade from the list.
pub fn price_replaced(rng: &mut Rng, bytes: &mut Vec<u8>) {
    change_price(rng, bytes, |rng, price| *price = rng.pick(PRICES).into());
}

/// The point of a price one place or two further on or back, as a clerk types 40000.00 for 400.00; a whole figure gets zeros or
/// loses digits. Where S itself is so changed, the first trade is far from it.
pub fn point_moved(rng: &mut Rng, bytes: &mut Vec<u8>) {
    let way = rng.below(4);
    change_price(rng, bytes, |_, price| {
        let Ok(number) = price.replace('.', "").parse::<u32>() else {
            return;
        };
        let other = match way {
            0 => number.saturating_mul(10),
            1 => number.saturating_mul(100),
            2 => number / 10,
            _ => number / 100,
        };
        *price = written(other, price.contains('.'));
    });
}

/// The price of a trade at a bound of the book's S, or up to two fen or yuan beside it.
pub fn about_a_bound(rng: &mut Rng, bytes: &mut Vec<u8>) {
    let Some(settlement) = settlement(bytes) else {
        return;
    };
    let bound = rng.pick(&[5 * settlement, settlement / 5, settlement.div_ceil(5)]);
    let beside = i64::from(bound) + rng.pick(&[0, 0, 1, -1, 2, -2]);
    let Some(field) = any_field_of(rng, bytes, b"AB") else {
        return;
    };
    change_first_word(bytes, field, |price| {
        *price = written(beside.max(0) as u32, price.contains('.'));
    });
}

/// S in fen or yuan, as long as it can be read.
fn settlement(bytes: &[u8]) -> Option<u32> {
    let s = fields(bytes)
        .into_iter()
        .find(|field| bytes[field.start] == b'S')?;
    let text = std::str::from_utf8(&bytes[s.start + 3..s.end]).ok()?;
    let number: u32 = text.replace('.', "").parse().ok()?;
    (number < 10_000_000).then_some(number)
}

/// A number of fen with its point, or one of yuan.
fn written(number: u32, with_point: bool) -> String {
    if with_point {
        format!("{}.{:02}", number / 100, number % 100)
    } else {
        number.to_string()
    }
}

/// Changes the first word of S or of any trade. S is one field and trades are many, so it is
/// taken once in three times.
fn change_price(rng: &mut Rng, bytes: &mut Vec<u8>, change: impl FnOnce(&mut Rng, &mut String)) {
    let tags: &[u8] = if rng.one_in(3) { b"S" } else { b"AB" };
    if let Some(field) = any_field_of(rng, bytes, tags) {
        change_first_word(bytes, field, |price| change(rng, price));
    }
}

/// Changes what stands before the first blank of a value, or all of it.
fn change_first_word(bytes: &mut Vec<u8>, field: Range<usize>, change: impl FnOnce(&mut String)) {
    let Ok(text) = std::str::from_utf8(&bytes[field.start + 3..field.end]) else {
        return;
    };
    let (word, rest) = text.split_at(text.find(' ').unwrap_or(text.len()));
    let (mut word, rest) = (word.to_string(), rest.to_string());
    change(&mut word);
    set_value(bytes, field, (word + &rest).as_bytes());
}
