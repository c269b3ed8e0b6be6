//! Whole lots divided by weight, document 01 "Cascade and whole lots".

use std::cmp::Ordering;

/// One who shares in a division. The division sets `lots` and `remainder` and may
/// put the members in another order; `who` tells the caller whose they are.
#[derive(Clone, Copy, Debug, PartialEq, Eq)]
pub struct Member<'a> {
    pub who: usize,
    pub code: &'a [u8],
    pub weight: u64,
    pub lots: u64,
    pub remainder: u64,
}

impl<'a> Member<'a> {
    pub fn new(who: usize, code: &'a [u8], weight: u64) -> Self {
        Member {
            who,
            code,
            weight,
            lots: 0,
            remainder: 0,
        }
    }
}

/// The sum of the weights.
pub fn weights(members: &[Member]) -> u64 {
    members.iter().map(|member| member.weight).sum()
}

/// Divides `quantity` lots, at most the sum of the weights, over members with
/// different codes: each gets the whole part of quantity x weight / sum, and the lots
/// left over go one each to the largest remainders, equal ones to the smaller code.
pub fn divide(quantity: u64, members: &mut [Member]) {
    let sum = weights(members);
    debug_assert!(quantity <= sum);
    let spare = if quantity == 0 || sum == 0 {
        // "X = 0 or W = 0 gives nothing."
        members.iter_mut().for_each(|member| member.lots = 0);
        0
    } else {
        quantity - give_whole_parts(quantity, sum, members)
    };
    give_spare_lots(spare, members);
}

/// Gives the whole parts and notes the remainders; answers the lots given.
fn give_whole_parts(quantity: u64, sum: u64, members: &mut [Member]) -> u64 {
    let mut given = 0;
    for member in members {
        // 256 customers of 4,000,000 lots make a sum of 1.024e9 and a product of 4.1e15.
        let product = quantity * member.weight;
        member.lots = product / sum;
        member.remainder = product % sum;
        given += member.lots;
    }
    given
}

/// One lot more for each of the first `spare` members. The remainders sum to
/// spare x sum and each is below the sum, so there are more members than spare lots,
/// and none with remainder 0 comes first.
fn give_spare_lots(spare: u64, members: &mut [Member]) {
    let spare = spare as usize;
    if spare == 0 {
        return;
    }
    // Only who is among the first matters, not their order: select, don't sort.
    members.select_nth_unstable_by(spare - 1, spare_order);
    for member in &mut members[..spare] {
        member.lots += 1;
    }
}

/// Largest remainder first, of equal remainders the smaller code.
fn spare_order(one: &Member, other: &Member) -> Ordering {
    let by_remainder = other.remainder.cmp(&one.remainder);
    by_remainder.then_with(|| one.code.cmp(other.code))
}
