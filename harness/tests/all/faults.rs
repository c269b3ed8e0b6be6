//! Wrong programs: each is found among generated books, by the check that is there for it, and its book is shrunk.

use std::path::Path;

use crate::common::{
    a_fifth_rounded_down, a_fifth_seat_taken, a_seat_twice_taken, answered_with, bounds_refused,
    decimals_not_compared, eight_on_the_sum, leading_zeros_taken, net_side_judged_alone, right,
    right_view, s_always_in_fen, seat_codes_of_the_whole_book, seat_ties_by_place, seats_alike,
    seats_by_lots_held, seats_by_net, six_times_s, ties_by_row_order, ties_by_the_earlier_place,
    trades_by_clock, trades_by_minute, trades_by_place, trades_from_20_00, twelve_before_five,
    values, with_values, x_after_s, x_of_1_taken,
};
use harness::compare::{Check, Counts, Difference};
use harness::fields::{fields, groups, value};
use harness::product::Answer;
use harness::program::Tried;
use harness::run::{run, shrunk, Outcome, Plan};
use harness::through::{self, Through};

type Call = fn(&[u8], &mut [u8]) -> Answer;
type View = fn(&[u8], &mut [u8], [&mut [u64]; 3]) -> Answer;

const PLAN: Plan = Plan {
    count: 20_000,
    seed: 3,
    from: 0,
    threads: 2,
};

fn tried(call: Call, view: View) -> Tried {
    Tried {
        program: Box::new(call),
        viewer: Box::new(view),
    }
}

fn compared(plan: Plan, call: Call, view: View) -> Outcome {
    run(plan, &move || tried(call, view), &mut |_| ())
}

/// Finds a wrong program and answers the small book with its difference.
fn found(call: Call, check: Check, most_bytes: usize) -> (Vec<u8>, Difference) {
    found_in(call, right_view, check, most_bytes)
}

fn found_view(view: View, check: Check, most_bytes: usize) -> (Vec<u8>, Difference) {
    found_in(right, view, check, most_bytes)
}

fn found_in(call: Call, view: View, check: Check, most_bytes: usize) -> (Vec<u8>, Difference) {
    let first = compared(PLAN, call, view).first.expect("a difference");
    assert_eq!(first.difference.check, check, "{}", first.difference.told);
    let (small, difference) = shrunk(&first, &mut tried(call, view));
    let text = harness::text::difference(&difference, &small);
    println!(
        "index {}, of {} bytes\n{text}",
        first.index,
        first.made.bytes.len()
    );
    assert_eq!(difference.check, check);
    assert!(small.len() <= most_bytes, "{} bytes left", small.len());
    (small, difference)
}

#[test]
fn the_right_program_has_no_difference_and_meets_every_check() {
    let outcome = compared(PLAN, right, right_view);
    assert!(outcome.first.is_none());
    let Counts {
        books,
        numbers,
        checks,
        ..
    } = outcome.counts;
    assert_eq!(books, PLAN.count);
    assert!(numbers.iter().all(|&count| count > 0), "{numbers:?}");
    assert!(checks.iter().all(|&count| count > 5_000), "{checks:?}");
}

#[test]
fn ties_by_row_order_are_found() {
    let (small, difference) = found(ties_by_row_order, Check::Buffer, 256);
    // Two or three that tie, and one or two to be offset against.
    assert!(matches!(groups(&small).len(), 3..=5));
    assert_eq!(difference.call.got.map(|got| got.number), Some(0));
}

/// Wrong orders of trades, each shown by one customer or two with a few trades.
#[test]
fn wrong_orders_of_trades_are_found() {
    let wrong: [Call; 5] = [
        trades_by_place,
        trades_by_minute,
        trades_by_clock,
        trades_from_20_00,
        ties_by_the_earlier_place,
    ];
    for call in wrong {
        let first = compared(PLAN, call, right_view)
            .first
            .expect("a difference");
        // Other standings are other bytes, or a report of another length.
        let check = first.difference.check;
        assert!(matches!(check, Check::Buffer | Check::Answer));
        let (small, difference) = shrunk(&first, &mut tried(call, right_view));
        println!("{}", harness::text::difference(&difference, &small));
        let trades = values(&small, b'B').len() + values(&small, b'A').len();
        assert!(
            trades >= 2 && small.len() <= 256,
            "{} bytes left",
            small.len()
        );
        assert!(groups(&small).len() <= 2);
    }
}

/// Wrong readings of X and of prices by it: what is refused is answered otherwise.
#[test]
fn wrong_readings_of_decimals_are_found() {
    // Up to X, and up to a customer's first trade.
    let wrong: [(Call, usize); 3] = [
        (x_of_1_taken, 8),
        (decimals_not_compared, 88),
        (leading_zeros_taken, 84),
    ];
    for (call, most_bytes) in wrong {
        let (_, difference) = found(call, Check::Answer, most_bytes);
        assert_eq!(difference.call.want.number, 5);
    }
    found(x_after_s, Check::Answer, 12);
}

/// Wrong bounds of a trade's price: what is right in their place, and that one customer shows it. A book that is accepted is first
/// seen in no room, where it is 11.
#[test]
fn wrong_bounds_of_prices_are_found() {
    let wrong: [(Call, u64); 5] = [
        (bounds_refused, 11),
        (six_times_s, 12),
        (a_fifth_rounded_down, 12),
        (net_side_judged_alone, 12),
        (twelve_before_five, 5),
    ];
    for (call, number) in wrong {
        let (small, difference) = found(call, Check::Answer, 92);
        assert_eq!(difference.call.want.number, number);
        assert_eq!(groups(&small).len(), 1);
    }
}

/// Wrong divisions over seats: the report has other lots at them, or is longer or shorter by a digit.
#[test]
fn wrong_divisions_over_seats_are_found() {
    let wrong: [Call; 4] = [
        seat_ties_by_place,
        seats_by_net,
        seats_by_lots_held,
        seats_alike,
    ];
    for call in wrong {
        let first = compared(PLAN, call, right_view)
            .first
            .expect("a difference");
        let check = first.difference.check;
        assert!(matches!(check, Check::Buffer | Check::Answer));
        let (small, difference) = shrunk(&first, &mut tried(call, right_view));
        println!("{}", harness::text::difference(&difference, &small));
        // One with seats, and one to be offset against.
        assert_eq!(groups(&small).len(), 2);
        assert!(values(&small, b'I').len() >= 3);
        assert!(small.len() <= 256, "{} bytes left", small.len());
    }
}

/// Wrong readings of seats: what is refused is answered otherwise, or the other way round. One customer shows it, or two.
#[test]
fn wrong_readings_of_seats_are_found() {
    let wrong: [(Call, u64); 4] = [
        (eight_on_the_sum, 8),
        (a_fifth_seat_taken, 3),
        (a_seat_twice_taken, 13),
        (seat_codes_of_the_whole_book, 11),
    ];
    for (call, number) in wrong {
        let (small, difference) = found(call, Check::Answer, 160);
        assert_eq!(difference.call.want.number, number);
        assert!(groups(&small).len() <= 2);
    }
}

#[test]
fn a_settlement_price_in_another_unit_is_found() {
    let first = compared(PLAN, s_always_in_fen, right_view)
        .first
        .expect("a difference");
    let (small, difference) = shrunk(&first, &mut tried(s_always_in_fen, right_view));
    println!("{}", harness::text::difference(&difference, &small));
    assert_eq!(values(&small, b'X'), [b"0"]);
    assert_eq!(groups(&small).len(), 1, "one customer shows it");
    assert!(small.len() <= 94, "{} bytes left", small.len());
}

#[test]
fn a_byte_written_after_the_report_is_found() {
    fn wrong(book: &[u8], report: &mut [u8]) -> Answer {
        let answer = right(book, report);
        if let (0, Some(after)) = (answer.number, report.get_mut(answer.length as usize)) {
            *after = b'Z';
        }
        answer
    }
    let (small, difference) = found(wrong, Check::Buffer, 44);
    assert!(groups(&small).is_empty(), "terms and Z show it");
    assert!(
        difference.told.contains("first difference at 8:"),
        "{}",
        difference.told
    );
}

#[test]
fn a_buffer_altered_on_refusal_is_found() {
    fn wrong(book: &[u8], report: &mut [u8]) -> Answer {
        let answer = right(book, report);
        if let (1.., Some(first)) = (answer.number, report.first_mut()) {
            *first = b'T';
        }
        answer
    }
    let (small, _) = found(wrong, Check::Buffer, 0);
    assert!(small.is_empty(), "the empty book is refused");
}

#[test]
fn a_comma_read_as_a_point_is_found() {
    fn wrong(book: &[u8], report: &mut [u8]) -> Answer {
        let mut read = book.to_vec();
        let figures = fields(book)
            .into_iter()
            .filter(|field| b"SLUVKHQBA".contains(&book[field.start]));
        for at in figures
            .flat_map(|field| value(&field))
            .filter(|&at| book[at] == b',')
        {
            read[at] = b'.';
        }
        right(&read, report)
    }
    let (_, difference) = found(wrong, Check::Answer, 60);
    assert_eq!(difference.call.want.number, 4);
}

#[test]
fn an_invented_residue_is_found() {
    fn wrong(book: &[u8], report: &mut [u8]) -> Answer {
        answered_with(book, report, |own| {
            with_values(&own, b'R', |_, value| match value {
                b"0" => b"0".to_vec(),
                _ => b"1".to_vec(),
            })
        })
    }
    let first = compared(PLAN, wrong, right_view)
        .first
        .expect("a difference");
    let (small, _) = shrunk(&first, &mut tried(wrong, right_view));
    assert_eq!(groups(&small).len(), 1, "one pending customer shows it");
    assert!(small.len() <= 94, "{} bytes left", small.len());
}

#[test]
fn bytes_written_around_the_buffer_are_found() {
    fn after(book: &[u8], report: &mut [u8]) -> Answer {
        let end = report.as_mut_ptr_range().end;
        // SAFETY: none in Rust's sense. It is what a wrong C program does; a guard byte stands there.
        unsafe { *end = b'Z' };
        right(book, report)
    }
    fn before(book: &[u8], report: &mut [u8]) -> Answer {
        let start = report.as_mut_ptr();
        // SAFETY: as above.
        unsafe { *start.sub(1) = b'Z' };
        right(book, report)
    }
    let (_, difference) = found(after, Check::Guards, 0);
    assert!(difference.told.starts_with("after"), "{}", difference.told);
    let (_, difference) = found(before, Check::Guards, 0);
    assert!(difference.told.starts_with("before"), "{}", difference.told);
}

#[test]
fn a_place_that_is_one_off_is_found() {
    fn wrong(book: &[u8], report: &mut [u8]) -> Answer {
        let mut answer = right(book, report);
        answer.place += u64::from(answer.number == 9);
        answer
    }
    let (small, difference) = found(wrong, Check::Answer, 80);
    assert_eq!(difference.call.want.number, 9);
    assert_eq!(values(&small, b'K').len(), 1, "one customer shows it");
}

/// The difference of the lowest index comes first, whatever the threads do.
#[test]
fn the_first_difference_is_the_same_with_any_number_of_threads() {
    let index = |threads| {
        let plan = Plan { threads, ..PLAN };
        compared(plan, ties_by_row_order, right_view)
            .first
            .expect("a difference")
            .index
    };
    let alone = index(1);
    assert!([2, 3, 8].iter().all(|&threads| index(threads) == alone));
}

#[test]
fn a_program_that_dies_is_a_difference_and_no_end_of_the_run() {
    let dead = |call| Through::new(Path::new("false"), call);
    let start = || Tried {
        program: Box::new(dead(through::Call::Allot)),
        viewer: Box::new(dead(through::Call::Columns)),
    };
    let first = run(Plan { count: 5, ..PLAN }, &start, &mut |_| ())
        .first
        .expect("a difference");
    assert_eq!((first.index, first.difference.check), (0, Check::Answer));
    assert_eq!(first.difference.call.got, None);
    let (small, _) = shrunk(&first, &mut start());
    assert!(small.is_empty());
}

#[test]
fn offsets_in_place_of_pending_are_found() {
    fn wrong(book: &[u8], standings: &mut [u8], lots: [&mut [u64]; 3]) -> Answer {
        let [offered, pending, offsets] = lots;
        let answer = right_view(book, standings, [offered, pending, offsets]);
        let count = answer.length as usize;
        pending[..count].copy_from_slice(&offsets[..count]);
        answer
    }
    let (small, difference) = found_view(wrong, Check::Runs, 90);
    assert_eq!(groups(&small).len(), 1, "one pending customer shows it");
    assert!(difference.told.contains("pending, first difference at 0"));
}

#[test]
fn a_place_too_far_is_found() {
    fn wrong(book: &[u8], standings: &mut [u8], lots: [&mut [u64]; 3]) -> Answer {
        let [offered, pending, offsets] = lots;
        let answer = right_view(book, standings, [offered, pending, offsets]);
        if let (0, Some(place)) = (answer.number, offsets.get_mut(answer.length as usize)) {
            *place = 0;
        }
        answer
    }
    let (small, difference) = found_view(wrong, Check::Runs, 44);
    assert!(groups(&small).is_empty(), "terms and Z show it");
    assert!(difference.told.contains("offsets, first difference at 0"));
}

#[test]
fn a_run_altered_on_refusal_is_found() {
    fn wrong(book: &[u8], standings: &mut [u8], lots: [&mut [u64]; 3]) -> Answer {
        if let Some(first) = standings.first_mut() {
            *first = b'N';
        }
        right_view(book, standings, lots)
    }
    let (small, _) = found_view(wrong, Check::Runs, 0);
    assert!(small.is_empty(), "the empty book is refused");
}

#[test]
fn another_order_than_the_books_is_found() {
    fn wrong(book: &[u8], standings: &mut [u8], lots: [&mut [u64]; 3]) -> Answer {
        let [offered, pending, offsets] = lots;
        let answer = right_view(book, standings, [offered, pending, offsets]);
        let count = answer.length as usize;
        offered[..count].reverse();
        answer
    }
    let (small, _) = found_view(wrong, Check::Runs, 172);
    assert_eq!(groups(&small).len(), 2);
}

#[test]
fn a_run_whose_places_are_not_counted_is_found() {
    fn wrong(book: &[u8], standings: &mut [u8], lots: [&mut [u64]; 3]) -> Answer {
        let [offered, pending, offsets] = lots;
        let mut more = vec![0; 300];
        let answer = right_view(book, standings, [&mut more, pending, offsets]);
        if let (0, Some(room)) = (answer.number, offered.get_mut(..answer.length as usize)) {
            room.copy_from_slice(&more[..answer.length as usize]);
        }
        answer
    }
    let (_, difference) = found_view(wrong, Check::Columns, 90);
    assert_eq!(difference.call.want.number, 11);
}

#[test]
fn places_written_around_a_run_are_found() {
    fn wrong(book: &[u8], standings: &mut [u8], lots: [&mut [u64]; 3]) -> Answer {
        let end = lots[1].as_mut_ptr_range().end;
        // SAFETY: none in Rust's sense. It is what a wrong C program does; a guard place stands there.
        unsafe { *end = 7 };
        right_view(book, standings, lots)
    }
    let (_, difference) = found_view(wrong, Check::RunGuards, 0);
    assert!(
        difference.told.contains("pending, after"),
        "{}",
        difference.told
    );
}
