//! Customers at each edge of the unit gain, and one fen or yuan beside it.

use super::codes;
use super::draft::{Draft, Terms, MOST_LOTS};
use super::groups::{group, Position};
use super::rng::Rng;
use super::trades::{lots, Depth};
use super::whole;

/// A few customers, each at an edge of its own.
pub fn draft(rng: &mut Rng) -> Draft {
    let terms = whole::terms(rng);
    let count = rng.between(1, 8) as usize;
    let depth = Depth {
        splits: 2,
        older: 2,
        other: 1,
    };
    let codes = codes::mixed(rng, count);
    let groups = codes
        .into_iter()
        .map(|code| {
            let at = edge(rng, &terms);
            let mut group = group(rng, &terms, code, at, depth);
            if at.on_locked_side && !rng.one_in(8) {
                group.unfilled = group.unfilled.max(1);
            }
            group
        })
        .collect();
    Draft { terms, groups }
}

/// A position at the loss edge, at U, at V or at no gain, or beside it.
fn edge(rng: &mut Rng, terms: &Terms) -> Position {
    let (on_locked_side, rate) = rng.pick(&[
        (true, terms.loss_edge),
        (false, terms.tier1_edge),
        (false, terms.tier2_edge),
        (false, 0),
    ]);
    let net = if rng.one_in(2) {
        exact_net(rng, terms, rate)
    } else {
        lots(rng)
    };
    // Beside the edge: one fen or yuan of the total, or one of every price.
    let each = i64::from(net);
    let gain = terms.reaching(rate, net) + rng.pick(&[0, 0, 0, -1, -1, 1, -each, each]);
    Position {
        on_locked_side,
        net,
        total: if on_locked_side { -gain } else { gain },
    }
}

/// A net position for which some total meets the edge exactly: rate x S x net is a
/// multiple of 100,000.
fn exact_net(rng: &mut Rng, terms: &Terms, rate: u32) -> u32 {
    let each = u64::from(rate) * u64::from(terms.settlement);
    let step = 100_000 / common_divisor(100_000, each) as u32;
    step * rng.between(1, (MOST_LOTS / step).min(20))
}

/// Euclid's greatest common divisor.
fn common_divisor(one: u64, other: u64) -> u64 {
    if other == 0 {
        one
    } else {
        common_divisor(other, one % other)
    }
}
