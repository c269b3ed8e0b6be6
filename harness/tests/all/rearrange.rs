//! Demand 3 as it is run, and programs that break it.

use crate::common::{
    answered_with, report, right, ties_by_row_order, trades_by_clock, trades_by_place, with_values,
};
use harness::draw::Draw;
use harness::fields::groups;
use harness::product::Answer;
use harness::rearrange::{everything_stays, Arrangement};
use harness::statement::read;
use harness::trades::stamps;
use second::make;

type Call = fn(&[u8], &mut [u8]) -> Answer;

/// How many of the accepted books among so many show that a program breaks demand 3, by its own reports alone.
fn broken(mut call: Call, books: u64) -> usize {
    let shown = (0..books).filter(|&index| {
        let book = make::book(5, index).bytes;
        let mut room = vec![0; harness::compare::LARGE];
        let answer = call(&book, &mut room);
        let length = answer.length as usize;
        answer.number == 0
            && everything_stays(
                &mut call,
                &book,
                &read(&room[..length]).unwrap(),
                length,
                index,
            )
            .is_err()
    });
    shown.count()
}

#[test]
fn everything_stays_with_the_right_program() {
    assert_eq!(broken(right, 3_000), 0);
}

#[test]
fn ties_by_row_order_break_it() {
    assert!(broken(ties_by_row_order, 3_000) > 100);
}

#[test]
fn bystanders_that_count_break_it() {
    fn wrong(book: &[u8], room: &mut [u8]) -> Answer {
        answered_with(book, room, |own| {
            let bystanders = crate::common::values(&own, b'E')
                .iter()
                .filter(|value| *value == b"N")
                .count();
            with_values(&own, b'R', |_, _| {
                format!("{}", bystanders % 10).into_bytes()
            })
        })
    }
    assert!(broken(wrong, 3_000) > 100);
}

#[test]
fn trades_by_their_place_break_it() {
    assert!(broken(trades_by_place, 3_000) > 100);
}

/// Any fixed order of stamps passes demand 3; that it is the right one is for the comparison to say.
#[test]
fn trades_by_the_clock_do_not_break_it() {
    assert_eq!(broken(trades_by_clock, 3_000), 0);
}

#[test]
fn a_rearranged_book_has_its_groups_and_no_others() {
    let (mut moved, mut left_out) = (0, 0);
    for index in 0..2_000 {
        let book = make::book(6, index).bytes;
        let Some(report) = report(&book) else {
            continue;
        };
        let statement = read(&report).unwrap();
        let all: Vec<usize> = (0..statement.lines.len()).collect();
        assert_eq!(Arrangement::of_customers(&book, &all).of(&book), book);
        let order = Arrangement::drawn(&book, &statement, &mut Draw::new(index)).customers;
        let stay = |who: &usize| statement.lines[*who].standing != b'N';
        assert!(all
            .iter()
            .filter(|who| stay(who))
            .all(|who| order.contains(who)));
        moved += usize::from(!order.is_sorted());
        left_out += all.len() - order.len();
    }
    assert!(
        moved > 500 && left_out > 500,
        "{moved} moved, {left_out} left out"
    );
}

/// Each trade once, those of equal stamps in their order, all else in any: moved far and wide, back into the order of time,
/// and newest first.
#[test]
fn trades_of_equal_stamps_keep_their_order_and_others_move() {
    let (mut moved, mut in_time, mut newest_first, mut kept) = (0, 0, 0, 0);
    for index in 0..2_000 {
        let book = make::book(7, index).bytes;
        let Some(report) = report(&book) else {
            continue;
        };
        let arrangement = Arrangement::drawn(&book, &read(&report).unwrap(), &mut Draw::new(index));
        let other = arrangement.of(&book);
        let (before, after) = (groups(&book), groups(&other));
        assert_eq!(after.len(), arrangement.customers.len());
        for (place, &who) in arrangement.customers.iter().enumerate() {
            let stamps_before = stamps(&book[before[who].clone()]);
            let stamps_after = stamps(&other[after[place].clone()]);
            let order = &arrangement.trades[place];
            let mut sorted = order.clone();
            sorted.sort();
            assert!(sorted.into_iter().eq(0..stamps_before.len()));
            for (at, &trade) in order.iter().enumerate() {
                assert_eq!(stamps_after[at], stamps_before[trade]);
                let equal = |&&later: &&usize| stamps_before[later] == stamps_before[trade];
                let later: Vec<&usize> = order[at + 1..].iter().filter(equal).collect();
                assert!(later.iter().all(|&&later| later > trade));
                kept += later.len();
            }
            if order.len() > 2 {
                moved += usize::from(!order.is_sorted());
                in_time += usize::from(stamps_after.is_sorted());
                newest_first += usize::from(stamps_after.is_sorted_by(|one, next| one >= next));
            }
        }
    }
    println!("{moved} moved, {in_time} in time, {newest_first} newest first, {kept} pairs of equal stamps");
    assert!(moved > 2_000 && in_time > 1_000 && newest_first > 1_000 && kept > 10_000);
}
