//! Trades made to give a wanted total gain.

use super::draft::{Terms, Trade, MOST_LOTS};
use super::rng::Rng;

/// A net position and the gain that its trades are to give.
#[derive(Clone, Copy)]
pub struct Wanted<'a> {
    pub long: bool,
    /// Above 0.
    pub net: u32,
    /// In fen or yuan, signed.
    pub total: i64,
    /// Whose S the gain is measured from, and holds prices between its bounds.
    pub terms: &'a Terms,
}

/// How many trades a customer gets, at the most, of each sort.
#[derive(Clone, Copy)]
pub struct Depth {
    /// Times that a counted trade is split in two or three.
    pub splits: u32,
    /// Older trades on the net side that don't count.
    pub older: u32,
    /// Trades on the other side.
    pub other: u32,
}

/// A part of the net position: lots, and their gain in fen or yuan for each lot.
type Part = (u32, i64);

/// A customer's trades, oldest first. Those that count gain exactly the wanted total,
/// unless a price would leave its bounds and is cut to them; they always reach the net
/// position.
pub fn trades(rng: &mut Rng, wanted: Wanted, depth: Depth) -> Vec<Trade> {
    let mut parts = even_parts(wanted);
    for _ in 0..rng.between(0, depth.splits) {
        split(rng, wanted, &mut parts);
    }
    rng.shuffle(&mut parts);
    let mut newest_first: Vec<Trade> = parts
        .into_iter()
        .flat_map(no_larger_than_a_trade)
        .map(|part| trade(wanted, part))
        .collect();
    lengthen_oldest(rng, &mut newest_first);
    for _ in 0..rng.between(0, depth.older) {
        newest_first.push(loose(rng, wanted, wanted.long));
    }
    newest_first.reverse();
    let mut trades = newest_first;
    for _ in 0..rng.between(0, depth.other) {
        let place = rng.place(trades.len() + 1);
        trades.insert(place, loose(rng, wanted, !wanted.long));
    }
    trades
}

/// Trades of a customer without a net position, on any side.
pub fn loose_trades(rng: &mut Rng, wanted: Wanted, depth: Depth) -> Vec<Trade> {
    let count = rng.between(0, depth.older + depth.other);
    (0..count)
        .map(|_| {
            let bought = rng.one_in(2);
            loose(rng, wanted, bought)
        })
        .collect()
}

/// One or two parts with the wanted total: the whole part of total / net for each
/// lot, and one more for as many lots as the division leaves over.
fn even_parts(wanted: Wanted) -> Vec<Part> {
    let each = wanted.total.div_euclid(i64::from(wanted.net));
    let more = wanted.total.rem_euclid(i64::from(wanted.net)) as u32;
    let mut parts = vec![(wanted.net - more, each), (more, each + 1)];
    parts.retain(|&(lots, _)| lots > 0);
    parts
}

/// The sums of several seats can be more lots than one trade may have.
fn no_larger_than_a_trade((lots, gain): Part) -> Vec<Part> {
    let mut parts = vec![(MOST_LOTS, gain); (lots / MOST_LOTS) as usize];
    parts.push((lots % MOST_LOTS, gain));
    parts.retain(|&(lots, _)| lots > 0);
    parts
}

/// Moves as many lots up as down, so that the total stays.
fn split(rng: &mut Rng, wanted: Wanted, parts: &mut Vec<Part>) {
    let at = rng.place(parts.len());
    let (lots, gain) = parts[at];
    let spread = i64::from(rng.between(1, wanted.terms.settlement / 50 + 2));
    if lots < 2 || !fits(wanted, gain + spread) || !fits(wanted, gain - spread) {
        return;
    }
    let moved = rng.between(1, lots / 2);
    parts[at] = (moved, gain + spread);
    parts.push((moved, gain - spread));
    if lots > 2 * moved {
        parts.push((lots - 2 * moved, gain));
    }
}

/// "Only the needed part of the last one counts": gives the oldest counted trade more
/// lots than are needed, half the time.
fn lengthen_oldest(rng: &mut Rng, newest_first: &mut [Trade]) {
    if let Some(oldest) = newest_first.last_mut() {
        if rng.one_in(2) {
            oldest.lots += rng.between(0, (MOST_LOTS - oldest.lots).min(50));
        }
    }
}

/// A trade that isn't to count, at any good price: near S, anywhere or at a bound.
fn loose(rng: &mut Rng, wanted: Wanted, bought: bool) -> Trade {
    let (terms, settlement) = (wanted.terms, wanted.terms.settlement);
    let price = match rng.below(8) {
        0 => terms.any_price(rng),
        1 => terms.bound_price(rng),
        _ => settlement / 2 + rng.between(0, settlement),
    };
    let price = price.clamp(terms.least_price(), terms.most_price());
    Trade::new(bought, price, lots(rng))
}

/// Lots of a trade or a position: mostly few, sometimes many.
pub fn lots(rng: &mut Rng) -> u32 {
    let most = rng.weighted(&[(4, 10), (3, 100), (2, 5_000), (1, MOST_LOTS)]);
    rng.between(1, most)
}

fn fits(wanted: Wanted, gain: i64) -> bool {
    let bounds = i64::from(wanted.terms.least_price())..=i64::from(wanted.terms.most_price());
    bounds.contains(&price(wanted, gain))
}

/// The price at which a lot has this gain: below S for a long position.
fn price(wanted: Wanted, gain: i64) -> i64 {
    let settlement = i64::from(wanted.terms.settlement);
    if wanted.long {
        settlement - gain
    } else {
        settlement + gain
    }
}

fn trade(wanted: Wanted, (lots, gain): Part) -> Trade {
    let (least, most) = (wanted.terms.least_price(), wanted.terms.most_price());
    let price = price(wanted, gain).clamp(least.into(), most.into()) as u32;
    Trade::new(wanted.long, price, lots)
}
