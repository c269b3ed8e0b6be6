//! The three tiers in turn, document 01 "Cascade and whole lots".

use crate::division::{divide, weights, Member};
use crate::reader::{Customer, Read, Seat, MOST_SEATS};
use crate::standing::Standing;

/// An accepted book's result.
#[derive(Clone, Debug, PartialEq, Eq)]
pub struct Allotment<'a> {
    /// The sum of the three tiers' quantities.
    pub total: u64,
    /// The counted pending of all P customers less the total.
    pub residue: u64,
    /// In book order, with their offset lots.
    pub customers: Vec<Customer<'a>>,
    /// Of all customers, in book order, with their part of these lots.
    pub seats: Vec<Seat<'a>>,
}

/// Works the tiers 1, 2, 3 against the pending lots, then divides each customer's offset over its seats.
pub fn cascade(read: Read) -> Allotment {
    let Read {
        mut customers,
        mut seats,
    } = read;
    let mut pending = members(&customers, Standing::Pending);
    let counted = weights(&pending);
    let mut total = 0;
    for tier in Standing::TIERS {
        let mut offered = members(&customers, tier);
        let quantity = weights(&offered).min(counted - total);
        divide(quantity, &mut offered);
        divide(quantity, &mut pending);
        add_offsets(&offered, &mut customers);
        add_offsets(&pending, &mut customers);
        // The next tier's weights: "what each still has pending".
        for member in &mut pending {
            member.weight -= member.lots;
        }
        total += quantity;
    }
    give_seats(&customers, &mut seats);
    Allotment {
        total,
        residue: counted - total,
        customers,
        seats,
    }
}

/// Request [5]: "The customer's offset is divided over its seats", by the division of the tiers.
fn give_seats(customers: &[Customer], seats: &mut [Seat]) {
    let mut members = Vec::with_capacity(MOST_SEATS);
    for customer in customers {
        let own = &mut seats[customer.seats.clone()];
        members.clear();
        let weighted = own.iter().enumerate();
        members.extend(weighted.map(|(who, seat)| Member::new(who, seat.code, seat.weight)));
        divide(customer.offset, &mut members);
        for member in &members {
            own[member.who].lots = member.lots;
        }
    }
}

/// The customers of one standing, each weighted by its pending or offered lots.
fn members<'a>(customers: &[Customer<'a>], standing: Standing) -> Vec<Member<'a>> {
    customers
        .iter()
        .enumerate()
        .filter(|(_, customer)| customer.standing == standing)
        .map(|(who, customer)| Member::new(who, customer.code, customer.stake.0.into()))
        .collect()
}

/// "A P customer's offset is the sum over the tiers"; a tier customer has one tier.
fn add_offsets(members: &[Member], customers: &mut [Customer]) {
    for member in members {
        customers[member.who].offset += member.lots;
    }
}
