//! Customer groups made for a wanted position.

use super::draft::{Group, Seat, Terms, Trade, MOST_LOTS};
use super::rng::Rng;
use super::trades::{loose_trades, lots, trades, Depth, Wanted};

/// A net position and its gain, told by the side that is locked.
#[derive(Clone, Copy)]
pub struct Position {
    pub on_locked_side: bool,
    /// 0 for none.
    pub net: u32,
    /// In fen or yuan, signed.
    pub total: i64,
}

/// A group with this position. Its unfilled lots are any number that refusal 8 allows,
/// so for half of the groups with lots on both sides they can pass the net position.
pub fn group(rng: &mut Rng, terms: &Terms, code: Vec<u8>, at: Position, depth: Depth) -> Group {
    let is_long = at.on_locked_side == terms.down;
    let both = both_sides(rng, at.net);
    let (long, short) = if is_long {
        (both + at.net, both)
    } else {
        (both, both + at.net)
    };
    let wanted = Wanted {
        long: is_long,
        net: at.net,
        total: at.total,
        terms,
    };
    let trades = if at.net == 0 {
        loose_trades(rng, wanted, depth)
    } else {
        trades(rng, wanted, depth)
    };
    let unfilled = rng.between(0, if terms.down { long } else { short });
    Group {
        code,
        long,
        short,
        unfilled,
        seats: Vec::new(),
        trades,
    }
}

/// The lots held on both sides alike, beside the net position.
fn both_sides(rng: &mut Rng, net: u32) -> u32 {
    if rng.one_in(2) {
        0
    } else {
        lots(rng).min(4 * MOST_LOTS - net)
    }
}

impl Group {
    /// A customer that holds what its seats hold.
    pub fn of_seats(code: Vec<u8>, seats: Vec<Seat>, trades: Vec<Trade>) -> Self {
        let sum = |lots: fn(&Seat) -> u32| seats.iter().map(lots).sum();
        Group {
            code,
            long: sum(|seat| seat.long),
            short: sum(|seat| seat.short),
            unfilled: sum(|seat| seat.unfilled),
            seats,
            trades,
        }
    }

    /// The net position in lots.
    pub fn net(&self) -> u32 {
        self.long.abs_diff(self.short)
    }

    /// The most unfilled lots that refusal 8 allows.
    pub fn locked_held(&self, terms: &Terms) -> u32 {
        if terms.down {
            self.long
        } else {
            self.short
        }
    }
}

impl Terms {
    /// The gain that reaches this rate of S for this many lots, in the unit of S: the smallest
    /// total with total x 100,000 at least rate x S x net.
    pub fn reaching(&self, rate: u32, net: u32) -> i64 {
        let edge = i64::from(rate) * i64::from(self.settlement) * i64::from(net);
        (edge + 99_999) / 100_000
    }
}
