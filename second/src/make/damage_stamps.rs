//! Damages to the day and time of a trade, the form of its value kept or not. A day or time
//! that is good all the same changes the order of the trades.

use super::damage_bytes::{any_field_of, set_value};
use super::rng::Rng;

/// Days on both sides of the calendar's edges; about as many good ones as bad ones.
const DAYS: &[&str] = &[
    "20000101", "20000229", "20000301", "20010228", "20240229", "20250131", "20250228", "20250430",
    "20250630", "20250930", "20251130", "20251231", "20960229", "20991231", "19991231", "21000101",
    "21000229", "20000230", "20010229", "20230229", "20250229", "20990229", "20250431", "20250631",
    "20250931", "20251131", "20250132", "20251232", "20250100", "20250015", "20251301", "20259912",
    "00000000", "00010101", "12312025", "15012025", "99999999",
];

/// Times on both sides of the clock's edges.
const TIMES: &[&str] = &[
    "0000", "0001", "0059", "0230", "0900", "1500", "1949", "1950", "1959", "2000", "2300", "2359",
    "0060", "0099", "1160", "1960", "2360", "2399", "2400", "2401", "2459", "3000", "9959", "9999",
];

/// What may stand in place of a day of eight digits or a time of four.
const NO_DIGITS: &[&str] = &[
    "",
    "0",
    "900",
    "09:00",
    "9:00",
    "+900",
    "-100",
    "09000",
    "09.0",
    "1e03",
    "2025115",
    "202501150",
    "2025-1-5",
    "2025/115",
    "+2025115",
    "2025.115",
    "2025O115",
    "20 50115",
    "2,250115",
    "1,00",
];

/// What may stand in place of a blank.
const NO_BLANKS: &[&str] = &["", "  ", "\t", "\n", "\0", "_", "T", "0", ",", ";"];

/// A day, good or bad, of eight digits: from the list, or about the end of any month of any
/// year.
pub fn day_replaced(rng: &mut Rng, bytes: &mut Vec<u8>) {
    change_words(rng, bytes, |rng, words| {
        words[2] = if rng.one_in(2) {
            rng.pick(DAYS).into()
        } else {
            let (year, month) = (rng.between(1_998, 2_101), rng.between(0, 13));
            format!("{year:04}{month:02}{:02}", rng.between(27, 32))
        };
    });
}

/// A time, good or bad, of four digits: from the list, or about the end of any hour.
pub fn time_replaced(rng: &mut Rng, bytes: &mut Vec<u8>) {
    change_words(rng, bytes, |rng, words| {
        words[3] = if rng.one_in(2) {
            rng.pick(TIMES).into()
        } else {
            format!("{:02}{:02}", rng.between(0, 25), rng.between(56, 61))
        };
    });
}

/// A day or a time that is not of its digits.
pub fn stamp_misspelt(rng: &mut Rng, bytes: &mut Vec<u8>) {
    change_words(rng, bytes, |rng, words| {
        words[rng.pick(&[2, 3])] = rng.pick(NO_DIGITS).into();
    });
}

/// The old form, or another number of parts, or parts in another order.
pub fn stamp_parts(rng: &mut Rng, bytes: &mut Vec<u8>) {
    change_words(rng, bytes, |rng, words| match rng.below(9) {
        0..=2 => words.truncate(2),
        3 => words.truncate(3),
        4 => words.swap(2, 3),
        5 => {
            words.remove(2);
        }
        6 => words.push(rng.pick(&["0", "0900", "20250115", ""]).into()),
        7 => words.insert(0, String::new()),
        _ => {
            words.remove(1);
        }
    });
}

/// Something else in place of one of the three blanks.
pub fn stamp_blanks(rng: &mut Rng, bytes: &mut Vec<u8>) {
    change_words(rng, bytes, |rng, words| {
        let first = rng.place(words.len() - 1);
        let next = words.remove(first + 1);
        words[first].push_str(rng.pick(NO_BLANKS));
        words[first].push_str(&next);
    });
}

/// Changes the words of any trade that has four of them.
fn change_words(
    rng: &mut Rng,
    bytes: &mut Vec<u8>,
    change: impl FnOnce(&mut Rng, &mut Vec<String>),
) {
    let Some(field) = any_field_of(rng, bytes, b"AB") else {
        return;
    };
    let Ok(text) = std::str::from_utf8(&bytes[field.start + 3..field.end]) else {
        return;
    };
    let mut words: Vec<String> = text.split(' ').map(str::to_string).collect();
    if words.len() == 4 {
        change(rng, &mut words);
        set_value(bytes, field, words.join(" ").as_bytes());
    }
}
