//! Books at the edges of the rules. Edge prices and exact sizes have their own files.

use super::at_price;
use super::bounds;
use super::codes;
use super::draft::{Draft, Group, Seat, Terms, Trade, MOST_LOTS, MOST_PRICE, MOST_RATE};
use super::groups::{group, Position};
use super::rng::Rng;
use super::seats;
use super::sizes;
use super::trades::{lots, Depth};
use super::whole;

type Make = fn(&mut Rng) -> Draft;

/// The kinds with their weights: books of tens of thousands of bytes are rare, so
/// that millions of books are made quickly.
const KINDS: [(u64, (&str, Make)); 15] = [
    (27, ("edge price", at_price::draft)),
    (10, ("price bound", bounds::draft)),
    (3, ("about a hundred trades", sizes::about_a_hundred)),
    (19, ("ties", ties)),
    (6, ("tied seats", tied_seats)),
    (10, ("nested codes", nested_codes)),
    (8, ("no net position", no_net)),
    (8, ("pending above net", pending_above_net)),
    (6, ("largest figures", largest_figures)),
    (1, ("largest totals", largest_totals)),
    (1, ("largest sums", largest_sums)),
    (1, ("longest reports", longest_reports)),
    (2, ("customer count", customer_count)),
    (1, ("exact size", sizes::exact)),
    (1, ("many trades", sizes::many_trades)),
];

/// An edge book and the name of its kind. Only books with 257 customers, with 60,001 bytes
/// or with a price beyond its bounds aren't accepted.
pub fn draft(rng: &mut Rng) -> (&'static str, Draft) {
    let (kind, make) = rng.weighted(&KINDS);
    (kind, make(rng))
}

/// Few trades: the point of these books is elsewhere.
const SHALLOW: Depth = Depth {
    splits: 1,
    older: 1,
    other: 1,
};

/// Equal remainders: one or two weights for all, and codes that decide.
fn ties(rng: &mut Rng) -> Draft {
    let terms = whole::terms(rng);
    let most = rng.pick(&[3, 10, 1_000, MOST_LOTS]);
    let weights = [rng.between(1, most), rng.between(1, most)];
    let kinds = rng.between(1, 2) as usize;
    let count = rng.between(2, 30) as usize;
    let codes = codes::mixed(rng, count);
    let groups = codes
        .into_iter()
        .map(|code| {
            let weight = rng.pick(&weights[..kinds]);
            let on_locked_side = rng.one_in(2);
            sharing(rng, &terms, code, on_locked_side, weight)
        })
        .collect();
    Draft { terms, groups }
}

/// Equal remainders between the seats of a customer: few customers with two to four seats that are much alike, so that what
/// each of them gives or gets is rarely a multiple of its seats.
fn tied_seats(rng: &mut Rng) -> Draft {
    let terms = whole::terms(rng);
    let count = rng.between(2, 6) as usize;
    let most = rng.pick(&[3, 12, 1_000, 4 * MOST_LOTS]);
    let codes = codes::mixed(rng, count);
    let groups = codes
        .into_iter()
        .map(|code| {
            let on_locked_side = rng.one_in(2);
            let net = rng.between(1, most);
            let mut group = sharing(rng, &terms, code, on_locked_side, net);
            seats::alike(rng, &terms, &mut group);
            group
        })
        .collect();
    Draft { terms, groups }
}

/// A customer that shares in a division with this weight, pending or in any tier.
fn sharing(rng: &mut Rng, terms: &Terms, code: Vec<u8>, on_locked_side: bool, net: u32) -> Group {
    let total = if on_locked_side {
        -terms.reaching(terms.loss_edge, net)
    } else {
        let rate = rng.pick(&[terms.tier1_edge, terms.tier2_edge, 0]);
        terms.reaching(rate, net).max(1)
    };
    let at = Position {
        on_locked_side,
        net,
        total,
    };
    let mut group = group(rng, terms, code, at, SHALLOW);
    if on_locked_side {
        group.unfilled = net;
    }
    group
}

/// Up to 256 customers with a million lots each: total or residue have nine digits.
fn largest_totals(rng: &mut Rng) -> Draft {
    let terms = whole::terms(rng);
    let count = rng.between(200, 256);
    let pending = rng.between(0, count);
    let codes = codes::mixed(rng, count as usize);
    let groups = codes
        .into_iter()
        .map(|code| {
            let on_locked_side = rng.between(1, count) <= pending;
            let net = MOST_LOTS - rng.between(0, 1);
            sharing(rng, &terms, code, on_locked_side, net)
        })
        .collect();
    Draft { terms, groups }
}

/// Up to 256 customers with up to 4,000,000 lots each at four seats, mostly pending: the residue has ten digits. Prices are one
/// digit, so that four trades of a million lots for each have room.
fn largest_sums(rng: &mut Rng) -> Draft {
    let terms = Terms {
        down: rng.one_in(2),
        decimals: 0,
        settlement: 5,
        loss_edge: rng.pick(&[8_000, 80_000]),
        tier1_edge: rng.pick(&[8_000, 80_001]),
        tier2_edge: 4_000,
    };
    let count = rng.between(240, 256);
    let others = rng.pick(&[0, 0, 1, count / 2, count]);
    let codes = codes::any(rng, count as usize);
    let groups = codes
        .into_iter()
        .map(|code| {
            let on_locked_side = rng.between(1, count) > others;
            let net = 4 * MOST_LOTS - rng.pick(&[0, 0, 0, 1]);
            // 80 percent of S: a whole price above or below it.
            let total = if on_locked_side { -4 } else { 4 } * i64::from(net);
            let at = Position {
                on_locked_side,
                net,
                total,
            };
            let mut group = exact(rng, &terms, code, at);
            seats::full(rng, &terms, &mut group);
            group
        })
        .collect();
    Draft { terms, groups }
}

/// Up to 256 customers with codes of twelve bytes, each with four such seats and about a million lots: reports of some 32,000
/// bytes.
fn longest_reports(rng: &mut Rng) -> Draft {
    let terms = whole::terms(rng);
    let count = rng.between(250, 256) as usize;
    let codes = codes::longest(rng, count);
    let groups = codes
        .into_iter()
        .map(|code| {
            let on_locked_side = rng.one_in(2);
            let net = MOST_LOTS - rng.between(0, 3);
            let total = if on_locked_side {
                -terms.reaching(terms.loss_edge, net)
            } else {
                terms.reaching(terms.tier1_edge, net)
            };
            let at = Position {
                on_locked_side,
                net,
                total,
            };
            let mut group = exact(rng, &terms, code, at);
            let codes = codes::longest(rng, 4);
            seats::with_codes(rng, &terms, &mut group, codes);
            group
        })
        .collect();
    Draft { terms, groups }
}

/// A customer that holds its net position alone, by the trades that count and no others; all of it is pending on the locked side.
fn exact(rng: &mut Rng, terms: &Terms, code: Vec<u8>, at: Position) -> Group {
    let none = Depth {
        splits: 0,
        older: 0,
        other: 0,
    };
    let mut group = group(rng, terms, code, at, none);
    let both = group.long.min(group.short);
    group.long -= both;
    group.short -= both;
    group.unfilled = if at.on_locked_side { at.net } else { 0 };
    group
}

/// A whole book whose codes begin one another: A, AA, A0, AAA.
fn nested_codes(rng: &mut Rng) -> Draft {
    let mut draft = whole::draft(rng);
    let codes = codes::nested(rng, draft.groups.len());
    for (group, code) in draft.groups.iter_mut().zip(codes) {
        group.code = code;
    }
    draft
}

/// Customers with equal holdings, with and without unfilled lots and trades.
fn no_net(rng: &mut Rng) -> Draft {
    let mut draft = whole::draft(rng);
    for group in &mut draft.groups {
        if rng.one_in(2) {
            let both = rng.pick(&[0, 1, group.long.max(group.short), MOST_LOTS]);
            (group.long, group.short) = (both, both);
            group.unfilled = rng.pick(&[0, both.min(1), both / 2, both]);
        }
        if group.net() == 0 && rng.one_in(4) {
            group.trades.clear();
        }
    }
    draft
}

/// Q above the net position, up to all that is held on the locked side.
fn pending_above_net(rng: &mut Rng) -> Draft {
    let mut draft = whole::draft(rng);
    for group in &mut draft.groups {
        let more = lots(rng).min(4 * MOST_LOTS - group.long.max(group.short));
        group.long += more;
        group.short += more;
        let held = group.locked_held(&draft.terms);
        let just_above = (group.net() + 1).min(held);
        group.unfilled = rng.pick(&[just_above, held, group.net().min(held)]);
    }
    draft
}

/// 0, 255, 256 and 257 customers.
fn customer_count(rng: &mut Rng) -> Draft {
    let count = rng.pick(&[0, 255, 256, 257]);
    whole::of_count(rng, count)
}

/// Every figure at an end of its range.
fn largest_figures(rng: &mut Rng) -> Draft {
    let rates = [1, 2, MOST_RATE - 1, MOST_RATE];
    let tier1_edge = rng.pick(&rates[1..]);
    let lower: Vec<u32> = rates
        .into_iter()
        .filter(|&rate| rate < tier1_edge)
        .collect();
    let terms = Terms {
        down: rng.one_in(2),
        decimals: rng.pick(&[0, 2]),
        settlement: rng.pick(&[1, 2, MOST_PRICE / 2, MOST_PRICE - 1, MOST_PRICE]),
        loss_edge: rng.pick(&rates),
        tier1_edge,
        tier2_edge: rng.pick(&lower),
    };
    let count = if rng.one_in(30) {
        256
    } else {
        rng.between(1, 8)
    };
    let codes = codes::mixed(rng, count as usize);
    let groups = codes
        .into_iter()
        .map(|code| largest_group(rng, &terms, code, if count == 256 { 1 } else { 4 }))
        .collect();
    Draft { terms, groups }
}

/// Every seat's figures at an end of their range, so that the sums are too.
fn largest_group(rng: &mut Rng, terms: &Terms, code: Vec<u8>, most_seats: u32) -> Group {
    let held = [0, 1, MOST_LOTS - 1, MOST_LOTS];
    let count = rng.between(1, most_seats);
    // The oldest trades on either side reach every position.
    let mut trades: Vec<Trade> = (0..2 * count)
        .map(|nth| Trade {
            lots: MOST_LOTS,
            ..largest_trade(rng, terms, nth % 2 == 0)
        })
        .collect();
    for _ in 0..rng.between(0, 3) {
        let bought = rng.one_in(2);
        trades.push(largest_trade(rng, terms, bought));
    }
    let seats = seats::codes(rng, count as usize)
        .into_iter()
        .map(|code| {
            let (long, short) = (rng.pick(&held), rng.pick(&held));
            let most = if terms.down { long } else { short };
            Seat {
                code,
                long,
                short,
                unfilled: rng.pick(&[0, most.min(1), most, most]),
            }
        })
        .collect();
    Group::of_seats(code, seats, trades)
}

fn largest_trade(rng: &mut Rng, terms: &Terms, bought: bool) -> Trade {
    let price = terms.bound_price(rng);
    let lots = rng.pick(&[1, MOST_LOTS - 1, MOST_LOTS]);
    Trade::new(bought, price, lots)
}
