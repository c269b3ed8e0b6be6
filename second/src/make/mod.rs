//! Books generated from a seed, for tests that compare two programs.
//!
//! A book is drafted as numbers ([`draft`]), in one of three families: whole books
//! ([`whole`]), books at the edges of the rules ([`edges`]) and damaged books
//! ([`damage`]). Then the customers' positions are divided over seats ([`seats`]), and
//! the trades get their stamps and the order of an export ([`stamps`]). The generator knows how a book is written but takes no code from
//! the reader, so a mistake there isn't hidden here. The same seed and index make
//! the same bytes on every machine.

mod at_price;
mod bounds;
mod codes;
mod damage;
mod damage_bytes;
mod damage_draft;
mod damage_prices;
mod damage_seats;
mod damage_sheets;
mod damage_stamps;
mod draft;
mod edges;
mod groups;
pub mod rng;
mod seats;
pub mod sheets;
mod sizes;
mod stamps;
mod trades;
mod whole;

use rng::Rng;
use seats::seat;
use stamps::arrange;

/// What a generated book is meant to try.
#[derive(Clone, Copy, Debug, PartialEq, Eq, Hash)]
pub enum Family {
    /// Accepted by construction, of varied size and content.
    Whole,
    /// At an edge of a rule: prices, ties, counts, sizes, largest figures.
    Edge,
    /// Of the other families, then damaged in one to three ways.
    Damaged,
}

/// A generated book.
#[derive(Clone, Debug, PartialEq, Eq)]
pub struct Made {
    pub family: Family,
    /// What within the family: the edge, or the first damage.
    pub kind: &'static str,
    pub bytes: Vec<u8>,
}

/// The book of this seed and index. Any index can be made by itself.
pub fn book(seed: u64, index: u64) -> Made {
    let rng = &mut Rng::new(seed, index);
    let (family, kind, mut draft) = match rng.below(20) {
        0..=6 => (Family::Whole, "whole", whole::draft(rng)),
        7..=11 => {
            let (kind, draft) = edges::draft(rng);
            (Family::Edge, kind, draft)
        }
        _ => {
            let (kind, bytes) = damage::book(rng);
            return Made {
                family: Family::Damaged,
                kind,
                bytes,
            };
        }
    };
    seat(rng, &mut draft);
    arrange(rng, &mut draft);
    Made {
        family,
        kind,
        bytes: draft.bytes(),
    }
}
