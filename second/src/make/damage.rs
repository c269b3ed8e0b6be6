//! Damaged books: a whole or edge book with one to three damages.

use super::damage_bytes as bytes;
use super::damage_draft as drafts;
use super::damage_prices as priced;
use super::damage_seats as seated;
use super::damage_stamps as stamped;
use super::draft::Draft;
use super::edges;
use super::rng::Rng;
use super::seats::seat;
use super::stamps::arrange;
use super::whole;

/// A damage is done to the numbers, before the book is written, or to its bytes.
#[derive(Clone, Copy)]
enum Damage {
    Draft(fn(&mut Rng, &mut Draft)),
    Bytes(fn(&mut Rng, &mut Vec<u8>)),
}
use Damage::{Bytes, Draft as Numbers};

const DAMAGES: [(u64, (&str, Damage)); 43] = [
    (
        7,
        ("edges out of order", Numbers(drafts::edges_out_of_order)),
    ),
    (11, ("code twice", Numbers(drafts::code_twice))),
    (6, ("code malformed", Numbers(drafts::code_malformed))),
    (
        11,
        ("pending over held", Numbers(drafts::pending_over_held)),
    ),
    (10, ("trades short", Numbers(drafts::trades_short))),
    (
        10,
        (
            "trades short, closing broken",
            Numbers(drafts::closing_broken),
        ),
    ),
    (2, ("one customer too many", Numbers(drafts::one_too_many))),
    (8, ("price beyond", Numbers(drafts::price_beyond))),
    (8, ("seat code twice", Numbers(seated::code_twice))),
    (6, ("seat code malformed", Numbers(seated::code_malformed))),
    (6, ("fifth seat", Numbers(seated::fifth_seat))),
    (2, ("no seat", Numbers(seated::no_seat))),
    (5, ("no seat code", Bytes(seated::no_seat_code))),
    (5, ("seat after a trade", Bytes(seated::seat_after_a_trade))),
    (4, ("parts of a seat", Bytes(seated::seat_parts))),
    (8, ("byte changed", Bytes(bytes::byte_changed))),
    (5, ("length changed", Bytes(bytes::length_changed))),
    (6, ("field dropped", Bytes(bytes::field_dropped))),
    (4, ("field doubled", Bytes(bytes::field_doubled))),
    (4, ("fields swapped", Bytes(bytes::fields_swapped))),
    (8, ("tag changed", Bytes(bytes::tag_changed))),
    (6, ("point to comma", Bytes(bytes::point_to_comma))),
    (6, ("comma in value", Bytes(bytes::comma_in_value))),
    (8, ("value replaced", Bytes(bytes::value_replaced))),
    (5, ("value lengthened", Bytes(bytes::value_lengthened))),
    (5, ("value shortened", Bytes(bytes::value_shortened))),
    (5, ("leading zero", Bytes(bytes::leading_zero))),
    (4, ("wrong case", Bytes(bytes::wrong_case))),
    (7, ("cut", Bytes(bytes::cut))),
    (5, ("bytes after Z", Bytes(bytes::bytes_after_z))),
    (2, ("value in Z", Bytes(bytes::value_in_z))),
    (8, ("day replaced", Bytes(stamped::day_replaced))),
    (8, ("time replaced", Bytes(stamped::time_replaced))),
    (5, ("stamp misspelt", Bytes(stamped::stamp_misspelt))),
    (6, ("parts of a trade", Bytes(stamped::stamp_parts))),
    (5, ("blanks of a trade", Bytes(stamped::stamp_blanks))),
    (8, ("X replaced", Bytes(priced::x_replaced))),
    (5, ("X elsewhere", Bytes(priced::x_elsewhere))),
    (8, ("other decimals", Bytes(priced::other_decimals))),
    (6, ("price replaced", Bytes(priced::price_replaced))),
    (8, ("point moved", Bytes(priced::point_moved))),
    (6, ("price about a bound", Bytes(priced::about_a_bound))),
    (
        1,
        ("past the most bytes", Bytes(bytes::past_the_most_bytes)),
    ),
];

/// A damaged book and the name of its first damage. Some damages change nothing that
/// matters, or find nothing to damage: such a book is accepted still.
pub fn book(rng: &mut Rng) -> (&'static str, Vec<u8>) {
    let mut draft = if rng.one_in(3) {
        edges::draft(rng).1
    } else {
        whole::draft(rng)
    };
    seat(rng, &mut draft);
    let count = rng.weighted(&[(6, 1), (3, 2), (1, 3)]);
    let damages: Vec<_> = (0..count).map(|_| rng.weighted(&DAMAGES)).collect();
    for (_, damage) in &damages {
        if let Numbers(damage) = damage {
            damage(rng, &mut draft);
        }
    }
    arrange(rng, &mut draft);
    let mut bytes = draft.bytes();
    for (_, damage) in &damages {
        if let Bytes(damage) = damage {
            damage(rng, &mut bytes);
        }
    }
    (damages[0].0, bytes)
}
