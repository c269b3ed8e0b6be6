//! What must hold for every accepted book, held to generated books.

use crate::common::{cut, field, fields, join, naive, parts, report, Line, Numbers, Report};
use second::{allot, listing, make};

const ROOM: usize = 40_000;

/// The accepted books among the first so many of a seed.
fn accepted(seed: u64, books: u64) -> impl Iterator<Item = (Vec<u8>, Report)> {
    (0..books).filter_map(move |index| {
        let book = make::book(seed, index).bytes;
        let answer = allot(&book, ROOM);
        (answer.number == 0).then(|| (book, report(&answer.report)))
    })
}

/// What a report says without the order of the customers.
fn by_code(report: &Report) -> (u64, u64, Vec<Line>) {
    let mut lines = report.lines.clone();
    lines.sort();
    (report.total, report.residue, lines)
}

#[test]
fn every_report_agrees_with_the_naive_one() {
    let mut compared = 0;
    for (book, got) in accepted(11, 20_000) {
        assert_eq!(got, naive::work(&book).report);
        compared += 1;
    }
    assert!(compared > 10_000, "only {compared} compared");
}

#[test]
fn the_listing_says_what_the_report_says() {
    for (book, report) in accepted(12, 5_000) {
        let mut want = format!("total {}\nleft {}\n", report.total, report.residue);
        for line in &report.lines {
            let code = String::from_utf8_lossy(&line.code);
            want.push_str(&format!("{code} {} {}\n", line.standing, line.offset));
        }
        assert_eq!(String::from_utf8(listing(&book)).unwrap(), want);
    }
}

#[test]
fn demand_3_the_order_of_customers_changes_nothing() {
    let mut numbers = Numbers::new(3);
    let mut compared = 0;
    for (book, before) in accepted(13, 10_000) {
        let (terms, mut groups) = parts(&book);
        assert_eq!(join(&terms, &groups), book);
        numbers.shuffle(&mut groups);
        let answer = allot(&join(&terms, &groups), ROOM);
        assert_eq!(answer.number, 0);
        assert_eq!(by_code(&report(&answer.report)), by_code(&before));
        compared += 1;
    }
    assert!(compared > 5_000, "only {compared} compared");
}

/// A group with its trades in another order in which those of equal stamps keep theirs. Answers whether the order is
/// another.
fn trades_moved(group: &mut Vec<u8>, numbers: &mut Numbers) -> bool {
    let before = group.clone();
    let fields = fields(&before);
    let (head, trades) = cut(&fields);
    let mut order: Vec<usize> = (0..trades.len()).collect();
    numbers.shuffle(&mut order);
    let stamp = |at: usize| &trades[at].1[trades[at].1.len() - 13..];
    // Those of one stamp take the places that they were dealt, in their own order.
    for place in 0..order.len() {
        for later in place + 1..order.len() {
            if order[later] < order[place] && stamp(order[later]) == stamp(order[place]) {
                order.swap(place, later);
            }
        }
    }
    let trades = order.iter().map(|&at| &trades[at]);
    *group = (head.iter().chain(trades))
        .flat_map(|(tag, value)| field(*tag, value))
        .collect();
    !order.is_sorted()
}

#[test]
fn demand_3_the_order_of_a_customers_trades_changes_nothing() {
    let mut numbers = Numbers::new(5);
    let (mut moved, mut customers) = (0, 0);
    for (book, before) in accepted(17, 6_000) {
        let (terms, mut groups) = parts(&book);
        for group in &mut groups {
            moved += u64::from(trades_moved(group, &mut numbers));
            customers += 1;
        }
        let answer = allot(&join(&terms, &groups), ROOM);
        assert_eq!(answer.number, 0);
        assert_eq!(report(&answer.report), before);
    }
    println!("{moved} of {customers} customers with trades in another order");
    assert!(moved > 10_000, "only {moved} moved");
}

#[test]
fn demand_3_all_three_freedoms_together() {
    let mut numbers = Numbers::new(6);
    let mut compared = 0;
    for (book, before) in accepted(18, 6_000) {
        let (terms, groups) = parts(&book);
        let mut kept: Vec<(Vec<u8>, Line)> = (groups.into_iter().zip(before.lines))
            .filter(|(_, line)| line.standing != 'N' || numbers.below(3) == 0)
            .collect();
        numbers.shuffle(&mut kept);
        for (group, _) in &mut kept {
            trades_moved(group, &mut numbers);
        }
        let (groups, lines): (Vec<_>, Vec<_>) = kept.into_iter().unzip();
        let answer = allot(&join(&terms, &groups), ROOM);
        let want = Report { lines, ..before };
        assert_eq!(report(&answer.report), want);
        compared += 1;
    }
    assert!(compared > 3_000, "only {compared} compared");
}

#[test]
fn demand_3_customers_with_standing_n_may_be_left_out() {
    let mut numbers = Numbers::new(4);
    let mut left_out = 0;
    for (book, before) in accepted(14, 10_000) {
        let (terms, groups) = parts(&book);
        let keep: Vec<bool> = (before.lines.iter())
            .map(|line| line.standing != 'N' || numbers.below(3) == 0)
            .collect();
        let mut kept = keep.iter();
        let groups: Vec<Vec<u8>> = (groups.into_iter())
            .filter(|_| *kept.next().unwrap())
            .collect();
        let mut kept = keep.iter();
        let mut want = before.clone();
        want.lines.retain(|_| *kept.next().unwrap());
        let answer = allot(&join(&terms, &groups), ROOM);
        assert_eq!(report(&answer.report), want);
        left_out += before.lines.len() - want.lines.len();
    }
    assert!(left_out > 5_000, "only {left_out} left out");
}

#[test]
fn both_sides_give_the_same_lots_and_nobody_more_than_its_own() {
    for (book, report) in accepted(15, 10_000) {
        let people = naive::work(&book).people;
        let lots = |wanted: fn(char) -> bool| -> u64 {
            let lines = report.lines.iter().filter(|line| wanted(line.standing));
            lines.map(|line| line.offset).sum()
        };
        assert_eq!(lots(|standing| standing == 'P'), report.total);
        assert_eq!(lots(|standing| "123".contains(standing)), report.total);
        assert_eq!(lots(|standing| standing == 'N'), 0);
        for (line, person) in report.lines.iter().zip(&people) {
            assert!(line.offset <= person.stake);
        }
    }
}

#[test]
fn a_tier_gives_only_when_every_earlier_one_has_given_all() {
    for (book, report) in accepted(16, 10_000) {
        let people = naive::work(&book).people;
        let of = |tier: char| -> (u64, u64) {
            let both = report.lines.iter().zip(&people);
            both.filter(|(line, _)| line.standing == tier)
                .fold((0, 0), |(given, offered), (line, person)| {
                    (given + line.offset, offered + person.stake)
                })
        };
        let [first, second, third] = ['1', '2', '3'].map(of);
        assert!(second.0 == 0 || first.0 == first.1);
        assert!(third.0 == 0 || (first.0 == first.1 && second.0 == second.1));
        let all_given = [first, second, third]
            .iter()
            .all(|(given, offered)| given == offered);
        assert!(report.residue == 0 || all_given);
    }
}
