//! Whole books: accepted by construction.

use super::codes;
use super::draft::{Draft, Group, Terms, MOST_PRICE, MOST_RATE};
use super::groups::{group, Position};
use super::rng::Rng;
use super::trades::{lots, Depth};

/// A standing, or a way to have none, that a customer is made for. Prices cut to
/// their range can lead elsewhere.
#[derive(Clone, Copy)]
enum Wish {
    Pending,
    Tier1,
    Tier2,
    Tier3,
    LossShortOfEdge,
    NothingPending,
    LockedSideGain,
    OtherSideLoss,
    NoNet,
}

const WISHES: [(u64, Wish); 9] = [
    (8, Wish::Pending),
    (4, Wish::Tier1),
    (4, Wish::Tier2),
    (4, Wish::Tier3),
    (1, Wish::LossShortOfEdge),
    (1, Wish::NothingPending),
    (1, Wish::LockedSideGain),
    (1, Wish::OtherSideLoss),
    (1, Wish::NoNet),
];

/// A whole book with 0 to 256 customers, mostly few.
pub fn draft(rng: &mut Rng) -> Draft {
    let (least, most) =
        rng.weighted(&[(75, (0, 8)), (19, (9, 40)), (5, (41, 120)), (1, (121, 256))]);
    let count = rng.between(least, most) as usize;
    of_count(rng, count)
}

/// A whole book with this many customers (more than 256 make it one too many).
pub fn of_count(rng: &mut Rng, count: usize) -> Draft {
    let terms = terms(rng);
    with_terms(rng, terms, count)
}

/// The same with these terms.
pub fn with_terms(rng: &mut Rng, terms: Terms, count: usize) -> Draft {
    let codes = codes::mixed(rng, count);
    // The largest books must stay below 60,000 bytes.
    let depth = if count > 120 {
        Depth {
            splits: 1,
            older: 1,
            other: 1,
        }
    } else {
        Depth {
            splits: 3,
            older: 3,
            other: 3,
        }
    };
    let groups = codes
        .into_iter()
        .map(|code| wished(rng, &terms, code, depth))
        .collect();
    Draft { terms, groups }
}

/// Terms of gold, with prices in fen; of silver, mostly in whole yuan per kilogram; or any.
pub fn terms(rng: &mut Rng) -> Terms {
    let down = rng.one_in(2);
    let (decimals, (settlement, loss_edge, tier1_edge, tier2_edge)) = match rng.below(8) {
        0..=2 => (2, (rng.between(30_000, 60_000), 8_000, 8_000, 4_000)),
        3 | 4 => (0, (rng.between(3_000, 12_000), 10_000, 10_000, 5_000)),
        5 => (2, (rng.between(300_000, 1_200_000), 10_000, 10_000, 5_000)),
        _ => (rng.pick(&[0, 2]), any_terms(rng)),
    };
    Terms {
        down,
        decimals,
        settlement,
        loss_edge,
        tier1_edge,
        tier2_edge,
    }
}

/// S, L, U and V of any size, U above V.
fn any_terms(rng: &mut Rng) -> (u32, u32, u32, u32) {
    let tier1_edge = rng.between(2, MOST_RATE);
    let tier2_edge = rng.between(1, tier1_edge - 1);
    let most_price = rng.pick(&[100, 10_000, 1_000_000, MOST_PRICE]);
    (
        rng.between(1, most_price),
        rng.between(1, MOST_RATE),
        tier1_edge,
        tier2_edge,
    )
}

fn wished(rng: &mut Rng, terms: &Terms, code: Vec<u8>, depth: Depth) -> Group {
    let wish = rng.weighted(&WISHES);
    let at = position(rng, terms, wish);
    let mut group = group(rng, terms, code, at, depth);
    match wish {
        Wish::NothingPending => group.unfilled = 0,
        Wish::Pending => group.unfilled = group.unfilled.max(1),
        _ => (),
    }
    group
}

/// A position that leads to the wish.
fn position(rng: &mut Rng, terms: &Terms, wish: Wish) -> Position {
    let (l, u, v) = (terms.loss_edge, terms.tier1_edge, terms.tier2_edge);
    let net = lots(rng);
    let mut amount = |low, high| terms.reaching(rng.between(low, high), net);
    let (on_locked_side, total) = match wish {
        Wish::Pending | Wish::NothingPending => (true, -amount(l, l + l / 2)),
        Wish::LossShortOfEdge => (true, 1 - amount(1, l)),
        Wish::LockedSideGain => (true, amount(0, 2 * u)),
        Wish::Tier1 => (false, amount(u, u + u / 2)),
        Wish::Tier2 => (false, amount(v, u - 1)),
        Wish::Tier3 => (false, amount(1, v) - 1),
        Wish::OtherSideLoss => (false, -amount(0, l + l / 2)),
        Wish::NoNet => {
            return Position {
                on_locked_side: true,
                net: 0,
                total: 0,
            }
        }
    };
    Position {
        on_locked_side,
        net,
        total,
    }
}
