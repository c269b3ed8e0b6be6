//! One book through the program that is tried and through the second program.

use std::fmt::LowerHex;

use second::call::judge;
use second::report;

use crate::columns;
use crate::guarded::{Lent, Place};
use crate::product::Answer;
use crate::program::{Program, Tried};
use crate::rearrange::everything_stays;
use crate::statement::{Stated, Statement};

/// A room that is enough for every report: more than the 33,050 bytes of the header.
pub const LARGE: usize = 34_000;

/// The kinds of checks, in the order in which a book meets them.
#[derive(Clone, Copy, Debug, PartialEq, Eq)]
pub enum Check {
    Answer,
    Buffer,
    Guards,
    Form,
    BothSides,
    Residue,
    NoneExceeds,
    TiersInTurn,
    ResidueAfterAll,
    SeatsWithin,
    SeatsAddUp,
    SeatsOfNobody,
    Rearranged,
    Columns,
    Runs,
    RunGuards,
    MovedColumns,
}

impl Check {
    pub const ALL: [(Check, &'static str); 17] = [
        (Check::Answer, "number, place and length"),
        (Check::Buffer, "every byte of the buffer"),
        (Check::Guards, "guard bytes"),
        (
            Check::Form,
            "the report's form, and the book's customers and seats",
        ),
        (
            Check::BothSides,
            "1: both sides are offset for the same lots, the total",
        ),
        (
            Check::Residue,
            "1: total and residue are all that is pending",
        ),
        (Check::NoneExceeds, "2: none exceeds its own lots"),
        (
            Check::TiersInTurn,
            "3: a tier gives when the earlier ones have given all",
        ),
        (
            Check::ResidueAfterAll,
            "4: a residue when all tiers have given all",
        ),
        (
            Check::SeatsWithin,
            "5: no seat exceeds its own lots, unfilled or held on the net side",
        ),
        (
            Check::SeatsAddUp,
            "5: a customer's seats add up to its offset lots",
        ),
        (
            Check::SeatsOfNobody,
            "5: a customer that takes no part has 0 at each seat",
        ),
        (
            Check::Rearranged,
            "another order of customers and of trades, and fewer bystanders, change nothing",
        ),
        (Check::Columns, "columns: number, place and length"),
        (Check::Runs, "columns: every place of the four runs"),
        (Check::RunGuards, "columns: guard places around each run"),
        (
            Check::MovedColumns,
            "columns: another order moves the values with their customers",
        ),
    ];

    pub fn name(self) -> &'static str {
        Check::ALL[self as usize].1
    }
}

/// What was done, over any number of books.
#[derive(Clone, Debug, Default, PartialEq, Eq)]
pub struct Counts {
    pub books: u64,
    /// Books by the number answered in a large room; at 11 the calls that were answered so.
    pub numbers: [u64; 14],
    pub rooms: u64,
    /// How often each check was made.
    pub checks: [u64; Check::ALL.len()],
}

impl Counts {
    pub fn add(&mut self, other: &Counts) {
        self.books += other.books;
        self.rooms += other.rooms;
        add_each(&mut self.numbers, &other.numbers);
        add_each(&mut self.checks, &other.checks);
    }

    pub fn times(&self, check: Check) -> u64 {
        self.checks[check as usize]
    }

    /// Counts a check, and makes a difference of what it found.
    pub fn hold<T>(
        &mut self,
        check: Check,
        found: Result<T, String>,
        call: Call,
    ) -> Result<T, Difference> {
        self.checks[check as usize] += 1;
        found.map_err(|told| Difference { check, told, call })
    }
}

fn add_each(sums: &mut [u64], more: &[u64]) {
    for (sum, count) in sums.iter_mut().zip(more) {
        *sum += count;
    }
}

/// A difference between the two programs, or a fact that does not hold.
#[derive(Clone, Debug, PartialEq, Eq)]
pub struct Difference {
    pub check: Check,
    /// What differs, in words.
    pub told: String,
    pub call: Call,
}

/// One room of a book with both answers.
#[derive(Clone, Copy, Debug, PartialEq, Eq)]
pub struct Call {
    pub room: usize,
    /// The second program's.
    pub want: Answer,
    /// That of the program that is tried, unless it gave none.
    pub got: Option<Answer>,
}

/// Compares one book in all its rooms, then holds its report to the facts and to demand 3; then the same of its columns.
/// `variety` decides what the buffers are filled with and how the customers and their trades are rearranged.
pub fn compare(
    tried: &mut Tried,
    book: &[u8],
    variety: u64,
    counts: &mut Counts,
) -> Result<(), Difference> {
    let report = compare_report(&mut *tried.program, book, variety, counts)?;
    columns::compare(&mut *tried.viewer, book, variety, counts)?;
    let Some((report, call)) = report else {
        return Ok(());
    };
    let stay = columns::values_stay(&mut *tried.viewer, book, &report, variety);
    counts.hold(Check::MovedColumns, stay, call)
}

/// One book in all its rooms. Answers what the report of an accepted one states, and its call.
fn compare_report(
    program: &mut dyn Program,
    book: &[u8],
    variety: u64,
    counts: &mut Counts,
) -> Result<Option<(Statement, Call)>, Difference> {
    let accepted = accepted(book);
    let rooms = rooms(accepted, variety).into_iter();
    let mut want: Vec<Lent> = (rooms.zip(variety..))
        .map(|(room, variety)| Lent::new(room, variety))
        .collect();
    let mut got = want.clone();
    let answers = program.call(book, &mut got);
    counts.books += 1;
    for (nth, (want, got)) in want.iter_mut().zip(&got).enumerate() {
        let answer = answers.as_ref().map(|answers| answers[nth]);
        same_call(book, want, got, answer, counts)?;
    }
    let Some(length) = accepted else {
        return Ok(None);
    };
    let call = exact_call(length);
    let statement = facts(book, got[EXACT].room(), call, counts)?;
    let stays = everything_stays(program, book, &statement, length, variety);
    counts.hold(Check::Rearranged, stays, call)?;
    Ok(Some((statement, call)))
}

/// One call: the second program is called with a buffer of the same bytes, and all must be the same after it.
fn same_call(
    book: &[u8],
    want: &mut Lent,
    got: &Lent,
    answer: Result<Answer, &String>,
    counts: &mut Counts,
) -> Result<(), Difference> {
    let right = answer_of(second::allot_into(book, want.room_mut()));
    let call = Call {
        room: want.size(),
        want: right,
        got: answer.ok(),
    };
    counts.rooms += 1;
    counts.hold(Check::Answer, same_answer(right, answer), call)?;
    counts.hold(Check::Buffer, same_places(want.room(), got.room()), call)?;
    counts.hold(Check::Guards, same_guards(want, got), call)?;
    count_number(counts, right, want.size());
    Ok(())
}

/// Which of an accepted book's rooms is its report's size.
const EXACT: usize = 2;

/// Rooms that matter: for an accepted book none, one byte less than its report, as many, one more, and many; for
/// a refused one none, some and many.
fn rooms(accepted: Option<usize>, variety: u64) -> Vec<usize> {
    match accepted {
        Some(length) => vec![0, length - 1, length, length + 1, LARGE],
        None => vec![0, 1 + (variety % 300) as usize, LARGE],
    }
}

/// The report's length, where the second program accepts the book.
fn accepted(book: &[u8]) -> Option<usize> {
    judge(book).ok().map(|allotment| report::length(&allotment))
}

/// The call of an accepted book in a room of its report's size, whose answer is known to be right.
fn exact_call(length: usize) -> Call {
    let answer = answer_of((0, 0, length as u64));
    Call {
        room: length,
        want: answer,
        got: Some(answer),
    }
}

/// What the second program answers, in the product's form.
pub fn answer_of((number, place, length): (u64, u64, u64)) -> Answer {
    Answer {
        number,
        place,
        length,
    }
}

fn count_number(counts: &mut Counts, want: Answer, room: usize) {
    if want.number == 11 || room == LARGE {
        counts.numbers[want.number as usize] += 1;
    }
}

pub fn same_answer(want: Answer, got: Result<Answer, &String>) -> Result<(), String> {
    match got {
        Ok(got) if got == want => Ok(()),
        Ok(_) => Err("the answers differ".to_string()),
        Err(told) => Err(told.clone()),
    }
}

pub fn same_places<T: PartialEq + LowerHex>(want: &[T], got: &[T]) -> Result<(), String> {
    if want == got {
        return Ok(());
    }
    let mut both = want.iter().zip(got).enumerate();
    let first = both.find(|(_, (one, other))| one != other);
    let told = first.map(|(place, (one, other))| {
        format!("first difference at {place}: wanted {one:#04x}, got {other:#04x}")
    });
    Err(told.unwrap_or_else(|| format!("{} places, not {}", got.len(), want.len())))
}

pub fn same_guards<T: Place + PartialEq + LowerHex>(
    want: &Lent<T>,
    got: &Lent<T>,
) -> Result<(), String> {
    let ((before, after), (got_before, got_after)) = (want.guards(), got.guards());
    same_places(before, got_before).map_err(|told| format!("before the buffer, {told}"))?;
    same_places(after, got_after).map_err(|told| format!("after the buffer, {told}"))
}

/// The form of an accepted book's report and the statement's five sentences. Answers what the report states.
fn facts(
    book: &[u8],
    report: &[u8],
    call: Call,
    counts: &mut Counts,
) -> Result<Statement, Difference> {
    let stated = counts.hold(Check::Form, Stated::read(report, book), call)?;
    counts.hold(Check::BothSides, stated.both_sides(), call)?;
    counts.hold(Check::Residue, stated.the_residue(), call)?;
    counts.hold(Check::NoneExceeds, stated.none_exceeds(), call)?;
    counts.hold(Check::TiersInTurn, stated.tiers_in_turn(), call)?;
    counts.hold(Check::ResidueAfterAll, stated.residue_after_all(), call)?;
    counts.hold(Check::SeatsWithin, stated.seats_within(), call)?;
    counts.hold(Check::SeatsAddUp, stated.seats_add_up(), call)?;
    counts.hold(Check::SeatsOfNobody, stated.seats_of_nobody(), call)?;
    Ok(stated.report)
}
