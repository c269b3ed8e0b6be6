//! The library's division against one that gives single lots to the best remaining.

use crate::common::naive;
use crate::common::Numbers;
use second::division::{divide, Member};

/// The library's shares, in the order of the members given.
fn shares(quantity: u64, members: &[(Vec<u8>, u64)]) -> Vec<u64> {
    let mut list: Vec<Member> = members
        .iter()
        .enumerate()
        .map(|(who, (code, weight))| Member::new(who, code, *weight))
        .collect();
    divide(quantity, &mut list);
    list.sort_by_key(|member| member.who);
    list.iter().map(|member| member.lots).collect()
}

/// Members with codes in no order; few different weights make equal remainders.
fn members(numbers: &mut Numbers, count: u64, most: u64) -> Vec<(Vec<u8>, u64)> {
    let first = numbers.below(1_000);
    (0..count)
        .map(|n| {
            let code = format!("{:X}", (first + n * 7) % 1_009);
            (code.into_bytes(), numbers.below(most + 1))
        })
        .collect()
}

#[test]
fn the_division_agrees_with_the_naive_one() {
    let mut numbers = Numbers::new(1);
    let mut settled_by_code = 0;
    for round in 0..30_000_u64 {
        let count = numbers.below(if round % 100 == 0 { 257 } else { 12 });
        let most = [1, 3, 10, 1_000, 1_000_000][numbers.below(5) as usize];
        let members = members(&mut numbers, count, most);
        let sum: u64 = members.iter().map(|(_, weight)| weight).sum();
        let quantity = numbers.below(sum + 1);
        let (want, settled) = naive::divide(quantity, &members);
        settled_by_code += u64::from(settled);
        assert_eq!(
            shares(quantity, &members),
            want,
            "{quantity} over {members:?}"
        );
    }
    assert!(settled_by_code > 3_000, "too few ties: {settled_by_code}");
}

#[test]
fn the_largest_division_does_not_overflow() {
    let members: Vec<(Vec<u8>, u64)> = (0..256)
        .map(|n| (format!("X{n}").into_bytes(), 1_000_000))
        .collect();
    for quantity in [255_999_999, 256_000_000, 128_000_001] {
        let got = shares(quantity, &members);
        assert_eq!(got, naive::divide(quantity, &members).0);
        assert_eq!(got.iter().sum::<u64>(), quantity);
    }
}

#[test]
fn nothing_to_divide_gives_nothing() {
    let some = [(b"A".to_vec(), 5), (b"B".to_vec(), 0)];
    let zero = [(b"A".to_vec(), 0), (b"B".to_vec(), 0)];
    assert_eq!(shares(0, &some), [0, 0]);
    assert_eq!(shares(0, &zero), [0, 0]);
    assert_eq!(shares(0, &[]), []);
}

#[test]
fn a_code_that_begins_a_longer_one_is_smaller() {
    let members = ["AA", "A0", "A", "B", "0", "00"].map(|code| (code.as_bytes().to_vec(), 1));
    assert_eq!(shares(1, &members), [0, 0, 0, 0, 1, 0]);
    assert_eq!(shares(2, &members), [0, 0, 0, 0, 1, 1]);
    assert_eq!(shares(3, &members), [0, 0, 1, 0, 1, 1]);
    assert_eq!(shares(4, &members), [0, 1, 1, 0, 1, 1]);
    assert_eq!(shares(5, &members), [1, 1, 1, 0, 1, 1]);
}
