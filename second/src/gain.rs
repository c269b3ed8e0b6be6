//! Net position and total gain, document 01 "Unit gain and standing".

use std::cmp::Ordering;

use crate::figures::Trade;
use crate::units::{Lots, Price, Side};

/// A net position, above 0 lots.
#[derive(Clone, Copy, Debug, PartialEq, Eq)]
pub struct Net {
    pub side: Side,
    pub lots: Lots,
}

impl Net {
    /// "The larger of K and H less the smaller, on the larger's side." `None` where
    /// they are equal: no net position, and so no side.
    pub fn of(long: Lots, short: Lots) -> Option<Net> {
        let (side, lots) = match long.cmp(&short) {
            Ordering::Greater => (Side::Long, long.0 - short.0),
            Ordering::Less => (Side::Short, short.0 - long.0),
            Ordering::Equal => return None,
        };
        let lots = Lots(lots);
        Some(Net { side, lots })
    }
}

/// The signed total gain, in the unit of the book's prices, over the newest trades that make
/// up the net position; only the needed part of the last one counts. `trades` are those of the net side,
/// oldest first as their stamps say. `None` where they sum to less than the position (refusal 9).
pub fn total_gain(trades: &[Trade], net: Net, settlement: Price) -> Option<i128> {
    let mut missing = net.lots.0;
    let mut rise = 0_i128;
    for trade in trades.iter().rev() {
        let counted = missing.min(trade.lots.0);
        rise += (i128::from(settlement.0) - i128::from(trade.price.0)) * i128::from(counted);
        missing -= counted;
        if missing == 0 {
            // (S - price) x lots for a long position, (price - S) x lots for a short one.
            return Some(match net.side {
                Side::Long => rise,
                Side::Short => -rise,
            });
        }
    }
    None
}
