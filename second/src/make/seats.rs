//! Positions divided over seats.
//!
//! A draft's customers hold one position each; here it is divided over one to four seats, so that the sums stay. Each seat's
//! unfilled lots stay within its own holding on the locked side.

use super::codes;
use super::draft::{Draft, Group, Seat, Terms, MOST_LOTS};
use super::rng::Rng;

const MOST_SEATS: usize = 4;

/// How a number is divided over seats.
#[derive(Clone, Copy)]
enum Split {
    /// Alike, up to one lot.
    Even,
    /// All at one seat, nothing at the others.
    One,
    /// All in any parts.
    Any,
}

const SPLITS: [(u64, Split); 3] = [(4, Split::Even), (2, Split::One), (4, Split::Any)];

/// Gives seats to all customers that have none yet. In books of many customers most have one, so that they stay short enough.
pub fn seat(rng: &mut Rng, draft: &mut Draft) {
    let counts: &[(u64, usize)] = if draft.groups.len() > 60 {
        &[(12, 1), (2, 2), (1, 4)]
    } else {
        &[(4, 1), (4, 2), (2, 3), (4, 4)]
    };
    // The same few codes for many customers, or any for each.
    let few = codes(rng, MOST_SEATS);
    let same = rng.one_in(2);
    for group in draft
        .groups
        .iter_mut()
        .filter(|group| group.seats.is_empty())
    {
        let count = rng.weighted(counts).max(fewest(group));
        let mut codes = if same { few.clone() } else { codes(rng, count) };
        rng.shuffle(&mut codes);
        if rng.one_in(12) && !codes[..count].contains(&group.code) {
            codes[0] = group.code.clone();
        }
        codes.truncate(count);
        let ways = [rng.weighted(&SPLITS), rng.weighted(&SPLITS)];
        divided(rng, draft.terms.down, group, codes, ways);
    }
}

/// Seats whose lots are alike on both sides.
pub fn alike(rng: &mut Rng, terms: &Terms, group: &mut Group) {
    let count = (rng.between(2, 4) as usize).max(fewest(group));
    let codes = codes(rng, count);
    with_codes(rng, terms, group, codes);
}

/// Seats with these codes, whose lots are alike on both sides.
pub fn with_codes(rng: &mut Rng, terms: &Terms, group: &mut Group, codes: Vec<Vec<u8>>) {
    divided(rng, terms.down, group, codes, [Split::Even; 2]);
}

/// Four seats with codes of one byte.
pub fn full(rng: &mut Rng, terms: &Terms, group: &mut Group) {
    let mut codes: Vec<Vec<u8>> = [b"0", b"9", b"A", b"Z"].map(|code| code.to_vec()).into();
    rng.shuffle(&mut codes);
    with_codes(rng, terms, group, codes);
}

/// Seat codes for one customer, in no order: often such that begin one another.
pub fn codes(rng: &mut Rng, count: usize) -> Vec<Vec<u8>> {
    if rng.one_in(2) {
        codes::nested(rng, count)
    } else {
        codes::any(rng, count)
    }
}

/// No seat holds more than a figure may say.
fn fewest(group: &Group) -> usize {
    group.long.max(group.short).div_ceil(MOST_LOTS).max(1) as usize
}

fn divided(
    rng: &mut Rng,
    down: bool,
    group: &mut Group,
    codes: Vec<Vec<u8>>,
    [long, short]: [Split; 2],
) {
    let count = codes.len();
    let long = parts(rng, group.long, count, long);
    let short = parts(rng, group.short, count, short);
    let unfilled = within(rng, group.unfilled, if down { &long } else { &short });
    group.seats = (codes.into_iter().enumerate())
        .map(|(nth, code)| Seat {
            code,
            long: long[nth],
            short: short[nth],
            unfilled: unfilled[nth],
        })
        .collect();
}

/// A number in so many parts, none above the most lots of a figure.
fn parts(rng: &mut Rng, number: u32, count: usize, split: Split) -> Vec<u32> {
    let mut parts = vec![0; count];
    match split {
        Split::Even => {
            let (each, more) = (number / count as u32, number as usize % count);
            parts.fill(each);
            parts[..more].iter_mut().for_each(|part| *part += 1);
        }
        Split::One => parts[0] = number,
        Split::Any => {
            let mut left = number;
            for part in &mut parts[1..] {
                *part = rng.between(0, left);
                left -= *part;
            }
            parts[0] = left;
        }
    }
    rng.shuffle(&mut parts);
    // What is above the most goes to the next seats that have room.
    let mut over = 0;
    for _ in 0..2 {
        for part in &mut parts {
            over += part.saturating_sub(MOST_LOTS);
            let room = MOST_LOTS - (*part).min(MOST_LOTS);
            *part = (*part).min(MOST_LOTS) + over.min(room);
            over -= over.min(room);
        }
    }
    parts
}

/// A number, at most their sum, in parts that are each at most what is held: as much as goes from one seat after the other, or
/// any part of it first.
fn within(rng: &mut Rng, number: u32, held: &[u32]) -> Vec<u32> {
    let mut parts = vec![0; held.len()];
    let mut order: Vec<usize> = (0..held.len()).collect();
    rng.shuffle(&mut order);
    let mut left = number;
    if rng.one_in(2) {
        for &seat in &order {
            parts[seat] = rng.between(0, held[seat].min(left));
            left -= parts[seat];
        }
    }
    for &seat in &order {
        let more = left.min(held[seat] - parts[seat]);
        parts[seat] += more;
        left -= more;
    }
    parts
}
