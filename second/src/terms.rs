//! The terms at the front of a book: `D`, `X`, `S`, `L`, `U`, `V`, each once, in this order.

use crate::cursor::{Cursor, Field};
use crate::figures;
use crate::refusal::{Refusal, Rule};
use crate::units::{Decimals, Lots, Price, Rate, Side};

/// The book's terms; the calculation knows no others.
#[derive(Clone, Copy, Debug, PartialEq, Eq)]
pub struct Terms {
    /// The side that can't get out: long at the lower limit, short at the upper.
    pub locked: Side,
    /// X, the decimals of S and of every trade's price.
    pub decimals: Decimals,
    /// S, the settlement price of the base date.
    pub settlement: Price,
    /// L, the loss edge.
    pub loss_edge: Rate,
    /// U, the lower edge of tier 1.
    pub tier1_edge: Rate,
    /// V, the lower edge of tier 2.
    pub tier2_edge: Rate,
}

impl Terms {
    /// Of the lots held long and short, those on the locked side: K when locked down,
    /// H when locked up.
    pub fn locked_of(&self, long: Lots, short: Lots) -> Lots {
        match self.locked {
            Side::Long => long,
            Side::Short => short,
        }
    }

    /// Request [4]: a trade's price is neither "above five times S" nor "below a fifth of S", both ends allowed. The
    /// least price is the fifth rounded up, since a price is a whole number of its unit.
    pub fn is_near(&self, price: Price) -> bool {
        let Price(settlement) = self.settlement;
        (settlement.div_ceil(5)..=5 * settlement).contains(&price.0)
    }
}

/// Reads the terms. Every later test may rely on U being greater than V.
pub fn terms(cursor: &mut Cursor) -> Result<Terms, Refusal> {
    let locked = locked_side(&cursor.expect(b'D')?)?;
    let decimals = decimals(&cursor.expect(b'X')?)?;
    let settlement = figures::price(&cursor.expect(b'S')?, decimals)?;
    let loss_edge = figures::rate(&cursor.expect(b'L')?)?;
    let tier1_edge = figures::rate(&cursor.expect(b'U')?)?;
    let v = cursor.expect(b'V')?;
    let tier2_edge = figures::rate(&v)?;
    // Document 01, Refusal numbers: 6, after 4 and 5 of V itself.
    if tier1_edge <= tier2_edge {
        return Err(v.refuse(Rule::EdgesOrder));
    }
    Ok(Terms {
        locked,
        decimals,
        settlement,
        loss_edge,
        tier1_edge,
        tier2_edge,
    })
}

/// D: one byte, `D` locked at the lower limit, `U` at the upper. Else 5, a comma too.
fn locked_side(field: &Field) -> Result<Side, Refusal> {
    match field.value {
        b"D" => Ok(Side::Long),
        b"U" => Ok(Side::Short),
        _ => Err(field.refuse(Rule::Form)),
    }
}

/// X: one byte, `0` or `2`. Else 5, a comma too: X isn't among the fields of refusal 4.
fn decimals(field: &Field) -> Result<Decimals, Refusal> {
    match field.value {
        b"0" => Ok(Decimals::None),
        b"2" => Ok(Decimals::Two),
        _ => Err(field.refuse(Rule::Form)),
    }
}
