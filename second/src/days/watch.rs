//! Request [11]: the spans and the listing.

use super::lines::{interest, price, read, Refusal, NO_FORM, ZERO};

/// Days counted, percent for gold, for silver, and for open interest.
const SPANS: [(usize, i128, i128, i128); 3] = [(3, 10, 12, 30), (4, 12, 15, 35), (5, 14, 17, 40)];

const NAMES: [&str; 6] = ["price3", "price4", "price5", "open3", "open4", "open5"];

/// A byte for each day, a bit for each span from the lowest: prices first.
pub fn moves(list: &[u8]) -> Result<Vec<u8>, Refusal> {
    let (silver, days) = read(list, day)?;
    Ok((0..days.len()).map(|at| byte(&days, at, silver)).collect())
}

/// A price in fen and open interest.
fn day(words: &[&[u8]]) -> Result<(i128, i128), u64> {
    let &[first, second] = words else {
        return Err(NO_FORM);
    };
    match (price(first), interest(second)) {
        (None, _) | (_, None) => Err(NO_FORM),
        (Some(0), _) | (_, Some(0)) => Err(ZERO),
        (Some(price), Some(interest)) => Ok((price, interest)),
    }
}

fn byte(days: &[(i128, i128)], at: usize, silver: bool) -> u8 {
    let mut byte = 0;
    for (bit, (counted, gold, other, open)) in SPANS.into_iter().enumerate() {
        // the first counted day is at + 1 - counted; the day before it must be there
        let Some(first) = (at + 1).checked_sub(counted).filter(|&first| first > 0) else {
            continue;
        };
        let (before, now) = (days[first - 1], days[at]);
        let percent = if silver { other } else { gold };
        let price = 100 * (now.0 - before.0);
        if price >= percent * before.0 || price <= -percent * before.0 {
            byte |= 1 << bit;
        }
        if 100 * now.1 >= (100 + open) * before.1 {
            byte |= 8 << bit;
        }
    }
    byte
}

/// What the program prints.
pub fn listing(list: &[u8]) -> String {
    let bytes = match moves(list) {
        Ok(bytes) => bytes,
        Err((number, place)) => return format!("refused {number} at {place}\n"),
    };
    let mut text = format!("days {}\n", bytes.len());
    for (day, byte) in (1..).zip(bytes) {
        let met: Vec<&str> = (0..6)
            .filter(|bit| byte >> bit & 1 == 1)
            .map(|bit| NAMES[bit])
            .collect();
        if !met.is_empty() {
            text += &format!("{day} {}\n", met.join(" "));
        }
    }
    text
}
