//! One book in columns, through the program that is tried and through the second program.

use std::fmt::LowerHex;

use second::call::judge;
use second::columns::{self, filled};

use crate::compare::{
    answer_of, same_answer, same_guards, same_places, Call, Check, Counts, Difference,
};
use crate::draw::Draw;
use crate::guarded::{Lent, Place};
use crate::program::Viewer;
use crate::rearrange::Arrangement;
use crate::runs::{Places, Runs};
use crate::statement::Statement;

/// The most customers that a book may have, and more places than any book needs.
const MOST: usize = 256;
const MORE: usize = 300;

/// Compares the columns of one book in runs of all sizes that matter. `variety` decides what the runs are filled with.
pub fn compare(
    viewer: &mut dyn Viewer,
    book: &[u8],
    variety: u64,
    counts: &mut Counts,
) -> Result<(), Difference> {
    let judged = judge(book);
    let customers = judged.as_ref().ok().map(|all| all.customers.len());
    let sizes = sizes(customers, variety).into_iter();
    let mut want: Vec<Runs> = (sizes.zip(variety..))
        .map(|(places, variety)| Runs::new(places, variety))
        .collect();
    let mut got = want.clone();
    let answers = viewer.view(book, &mut got);
    for (nth, (want, got)) in want.iter_mut().zip(&got).enumerate() {
        let (standings, [offered, pending, offsets]) = want.rooms_mut();
        let runs = columns::Runs {
            standings,
            offered,
            pending,
            offsets,
        };
        let right = answer_of(filled(&judged, runs));
        let answer = answers.as_ref().map(|answers| answers[nth]);
        let call = Call {
            room: smallest(want),
            want: right,
            got: answer.ok(),
        };
        let told = |told: String| format!("runs of {:?} places: {told}", want.places());
        counts.hold(
            Check::Columns,
            same_answer(right, answer).map_err(told),
            call,
        )?;
        let same = same_runs(want, got, Part::Room).map_err(told);
        counts.hold(Check::Runs, same, call)?;
        let same = same_runs(want, got, Part::Guards).map_err(told);
        counts.hold(Check::RunGuards, same, call)?;
    }
    Ok(())
}

/// Runs that matter: none, and for an accepted book just enough places, one more, as many as any book needs, more, and one
/// run that is a place short; for a refused one as many as any book needs, and runs of any size.
fn sizes(customers: Option<usize>, variety: u64) -> Vec<Places> {
    let mut draw = Draw::new(variety);
    let mut sizes = vec![[0; 4], [MOST; 4]];
    match customers {
        Some(count) => {
            sizes.extend([[count; 4], [count + 1; 4], [MORE; 4]]);
            let mut short = [0; 4].map(|_| count + draw.below(3));
            short[draw.below(4)] = count.saturating_sub(1);
            sizes.push(short);
        }
        None => sizes.push([0; 4].map(|_| draw.below(MORE))),
    }
    sizes
}

fn smallest(runs: &Runs) -> usize {
    runs.places().into_iter().min().expect("four runs")
}

/// The rooms of the four runs, or the guards around them, are the same.
fn same_runs(want: &Runs, got: &Runs, part: Part) -> Result<(), String> {
    same_run("standings", &want.standings, &got.standings, part)?;
    let lots = want.lots.iter().zip(&got.lots);
    for (name, (one, other)) in ["offered", "pending", "offsets"].into_iter().zip(lots) {
        same_run(name, one, other, part)?;
    }
    Ok(())
}

#[derive(Clone, Copy)]
enum Part {
    Room,
    Guards,
}

fn same_run<T: Place + PartialEq + LowerHex>(
    name: &str,
    want: &Lent<T>,
    got: &Lent<T>,
    part: Part,
) -> Result<(), String> {
    let same = match part {
        Part::Room => same_places(want.room(), got.room()),
        Part::Guards => same_guards(want, got),
    };
    same.map_err(|told| format!("{name}, {told}"))
}

/// Tries one rearrangement of an accepted book, with just enough places: everybody still in it has the same values, at its new place.
pub fn values_stay(
    viewer: &mut dyn Viewer,
    book: &[u8],
    report: &Statement,
    variety: u64,
) -> Result<(), String> {
    let arrangement = Arrangement::drawn(book, report, &mut Draw::new(variety));
    let other = arrangement.of(book);
    let order = &arrangement.customers;
    let before = accepted(viewer, book, report.lines.len(), variety)?;
    let after = accepted(viewer, &other, order.len(), variety)?;
    for (place, &who) in order.iter().enumerate() {
        let (was, is) = (before.at(who), after.at(place));
        if was != is {
            return Err(format!(
                "{arrangement:?}: {was:?} at {who}, then {is:?} at {place}"
            ));
        }
    }
    Ok(())
}

/// The runs of a book that must be accepted with so many places.
fn accepted(
    viewer: &mut dyn Viewer,
    book: &[u8],
    places: usize,
    variety: u64,
) -> Result<Runs, String> {
    let mut lent = [Runs::new([places; 4], variety)];
    let answer = viewer.view(book, &mut lent)?[0];
    let [runs] = lent;
    if answer != answer_of((0, 0, places as u64)) {
        return Err(format!("{answer:?} with {places} places"));
    }
    Ok(runs)
}
