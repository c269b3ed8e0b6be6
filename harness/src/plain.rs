//! Books made plain: every customer holds a few lots on one side, at its first seat or at each of them, by its newest trade there
//! alone or by trades of as many lots each. Ties and tiers often outlive this, where lots taken from one customer alone would end them; with
//! all its trades, so does a wrong order of them. Or customers hold nothing, so that their trades can go one by one. Where that
//! ends what is looked for, one customer alone is made plain.

use std::ops::Range;

use crate::fields::{groups, value};
use crate::statement::held_in;
use crate::trades::{cut, stamp, words};

/// The lots that a customer of a plain book holds: few, or two digits, which change a report's length.
const LOTS: [u32; 4] = [1, 2, 3, 10];

/// What is made of a customer.
#[derive(Clone, Copy)]
enum Way {
    /// So many lots at each seat, held long or short.
    Holds([u32; 2], Seats, Kept),
    /// Nothing, with all its trades.
    Flat,
}

/// Which seats a plain customer keeps.
#[derive(Clone, Copy)]
enum Seats {
    First,
    All,
}

/// Which trades of the net side a plain customer keeps.
#[derive(Clone, Copy)]
enum Kept {
    Newest,
    All,
}

/// Every way: a pair of a few lots, with one seat or all, and one trade or all; and none.
fn ways() -> Vec<Way> {
    let mut ways = Vec::new();
    for seats in [Seats::First, Seats::All] {
        for kept in [Kept::Newest, Kept::All] {
            let pairs = LOTS
                .iter()
                .flat_map(|&long| LOTS.map(|short| [long, short]));
            ways.extend(pairs.map(|lots| Way::Holds(lots, seats, kept)));
        }
    }
    ways.push(Way::Flat);
    ways
}

/// The book with all its customers made plain in every way, then with each one of them alone.
pub fn plain_books(book: &[u8]) -> impl Iterator<Item = Vec<u8>> + '_ {
    let groups = groups(book);
    let count = groups.len();
    let whom = std::iter::once(0..count).chain((0..count).map(|who| who..who + 1));
    let tries = whom.flat_map(|whom| ways().into_iter().map(move |way| (whom.clone(), way)));
    tries.filter_map(move |(whom, way)| plain(book, &groups, whom, way))
}

fn plain(book: &[u8], groups: &[Range<usize>], whom: Range<usize>, way: Way) -> Option<Vec<u8>> {
    let (first, last) = (groups.get(whom.start)?, groups.get(whom.end - 1)?);
    let locked_long = book.get(3) == Some(&b'D');
    let mut bytes = book[..first.start].to_vec();
    for group in &groups[whom] {
        bytes.extend(plain_group(&book[group.clone()], locked_long, way)?);
    }
    bytes.extend_from_slice(&book[last.end..]);
    Some(bytes)
}

/// One customer: its code, lots at each seat on the side of its net position, and trades there with as many lots as it needs; or no
/// lots, and all trades.
fn plain_group(group: &[u8], locked_long: bool, way: Way) -> Option<Vec<u8>> {
    let (head, trades) = cut(group);
    let mut held = held_in(&group[head]).ok()?;
    let is_long = held.is_long();
    let each = match way {
        Way::Holds([long, _], ..) if is_long => long,
        Way::Holds([_, short], ..) => short,
        Way::Flat => 0,
    };
    if let Way::Holds(_, Seats::First, _) = way {
        // Pending where any seat was.
        let most = held.seats.iter().map(|seat| seat.unfilled).max()?;
        held.seats.truncate(1);
        held.seats[0].unfilled = most;
    }
    let figure = |given: bool| if given { each } else { 0 }.to_string().into_bytes();
    let mut plain = vec![(b'C', held.code.clone())];
    for seat in &held.seats {
        let pending = is_long == locked_long && seat.unfilled > 0;
        plain.push((b'I', seat.code.clone()));
        plain.push((b'K', figure(is_long)));
        plain.push((b'H', figure(!is_long)));
        plain.push((b'Q', figure(pending)));
    }
    let trades = trades
        .iter()
        .map(|field| (group[field.start], &group[value(field)]));
    match way {
        Way::Holds(_, _, kept) => {
            let tag = if is_long { b'B' } else { b'A' };
            let side = trades.filter(|(side, _)| *side == tag);
            let lots = (each * held.seats.len() as u32).to_string().into_bytes();
            for trade in kept.of(side.map(|(_, trade)| trade).collect())? {
                let [price, _, day, time] = words(trade)?;
                plain.push((tag, [price, &lots, day, time].join(&b' ')));
            }
        }
        Way::Flat => plain.extend(trades.map(|(tag, trade)| (tag, trade.to_vec()))),
    }
    Some(plain.into_iter().flat_map(written).collect())
}

impl Kept {
    /// Those that are kept of a side's trades, of which there must be one. Of equal stamps the last is the newest.
    fn of(self, side: Vec<&[u8]>) -> Option<Vec<&[u8]>> {
        let newest = side.iter().copied().max_by_key(|trade| stamp(trade))?;
        Some(match self {
            Kept::Newest => vec![newest],
            Kept::All => side,
        })
    }
}

fn written((tag, value): (u8, Vec<u8>)) -> Vec<u8> {
    let [high, low] = (value.len() as u16).to_be_bytes();
    [&[tag, high, low], value.as_slice()].concat()
}
