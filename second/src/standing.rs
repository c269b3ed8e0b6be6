//! Who takes part, document 01 "Unit gain and standing".

use crate::gain::Net;
use crate::terms::Terms;
use crate::units::{Lots, Rate};

/// A customer's standing.
#[derive(Clone, Copy, Debug, PartialEq, Eq)]
pub enum Standing {
    Pending,
    Tier1,
    Tier2,
    Tier3,
    /// Everyone else.
    Neither,
}

impl Standing {
    /// The tiers in the order of the cascade.
    pub const TIERS: [Standing; 3] = [Standing::Tier1, Standing::Tier2, Standing::Tier3];

    /// The standing as the report and the listing write it.
    pub fn byte(self) -> u8 {
        match self {
            Standing::Pending => b'P',
            Standing::Tier1 => b'1',
            Standing::Tier2 => b'2',
            Standing::Tier3 => b'3',
            Standing::Neither => b'N',
        }
    }
}

/// The standing of a net position with this total gain, and the lots it brings in:
/// the counted pending of a P customer, the offered lots of a tier customer, else 0.
/// `unfilled` is Q.
pub fn standing(terms: &Terms, net: Net, total: i128, unfilled: Lots) -> (Standing, Lots) {
    let nothing = (Standing::Neither, Lots(0));
    if net.side == terms.locked {
        let counted = unfilled.min(net.lots);
        let loss_at_edge = reaches(-total, terms.loss_edge, terms, net);
        if loss_at_edge && counted > Lots(0) {
            (Standing::Pending, counted)
        } else {
            nothing
        }
    } else if total <= 0 {
        nothing
    } else if reaches(total, terms.tier1_edge, terms, net) {
        (Standing::Tier1, net.lots)
    } else if reaches(total, terms.tier2_edge, terms, net) {
        (Standing::Tier2, net.lots)
    } else {
        (Standing::Tier3, net.lots)
    }
}

/// Whether amount / net lots is at least this rate of S, compared without division:
/// amount x 100,000 against rate x S x net.
fn reaches(amount: i128, rate: Rate, terms: &Terms, net: Net) -> bool {
    let edge = i128::from(rate.0) * i128::from(terms.settlement.0) * i128::from(net.lots.0);
    amount * 100_000 >= edge
}
