//! Request [10]: "Our viewer reads column by column." A book's customers in four runs, in book order: standings as
//! bytes, lots offered, lots pending as counted before the cascade, and lots offset.

use crate::call::judge;
use crate::cascade::Allotment;
use crate::refusal::{Refusal, Rule};
use crate::standing::Standing;

/// The four runs that a viewer lends.
pub struct Runs<'a> {
    pub standings: &'a mut [u8],
    pub offered: &'a mut [u64],
    pub pending: &'a mut [u64],
    pub offsets: &'a mut [u64],
}

/// Judges a book and fills the front of the lent runs. The places behind, and on a refusal all places, stay as they
/// were. Answers number, place and length, which is the number of customers.
pub fn columns_into(book: &[u8], runs: Runs) -> (u64, u64, u64) {
    filled(&judge(book), runs)
}

/// The same of a book that is judged already.
pub fn filled(judged: &Result<Allotment, Refusal>, runs: Runs) -> (u64, u64, u64) {
    match judged
        .as_ref()
        .map_err(|refusal| *refusal)
        .and_then(|allotment| fitting(allotment, &runs))
    {
        Ok(allotment) => {
            fill(allotment, runs);
            (0, 0, allotment.customers.len() as u64)
        }
        Err(refusal) => (refusal.number(), refusal.place as u64, 0),
    }
}

/// "A run with fewer places than customers is 11, with the number of places needed as place."
fn fitting<'a, 'b>(
    allotment: &'a Allotment<'b>,
    runs: &Runs,
) -> Result<&'a Allotment<'b>, Refusal> {
    let needed = allotment.customers.len();
    let places = [
        runs.standings.len(),
        runs.offered.len(),
        runs.pending.len(),
        runs.offsets.len(),
    ];
    if places.iter().any(|&places| places < needed) {
        return Err(Refusal {
            rule: Rule::NoRoom,
            place: needed,
        });
    }
    Ok(allotment)
}

/// Run by run, each with its own question to a customer.
fn fill(allotment: &Allotment, runs: Runs) {
    let customers = || allotment.customers.iter();
    let stake = |wanted: bool, lots: u32| if wanted { u64::from(lots) } else { 0 };
    for (place, one) in runs.standings.iter_mut().zip(customers()) {
        *place = one.standing.byte();
    }
    for (place, one) in runs.offered.iter_mut().zip(customers()) {
        *place = stake(Standing::TIERS.contains(&one.standing), one.stake.0);
    }
    for (place, one) in runs.pending.iter_mut().zip(customers()) {
        *place = stake(one.standing == Standing::Pending, one.stake.0);
    }
    for (place, one) in runs.offsets.iter_mut().zip(customers()) {
        *place = one.offset;
    }
}
