//! The lock ladder: every step and every outcome of the raise at its edges, each refusal, and what generated lists are like.

use std::collections::BTreeMap;

use second::days::{ladder, ladder_listing, longer, swept, Kind, Raise, Step};

/// A list of days with these marks and limits.
fn list(days: &[(char, &str)]) -> String {
    let line = |(mark, limit): &(char, &str)| format!("400.00 7 {mark} {limit}\n");
    format!("gold\n{}", days.iter().map(line).collect::<String>())
}

/// The steps of days with these marks, with every limit missing, as the listing has them.
fn steps(marks: &str) -> Vec<String> {
    let days: Vec<(char, &str)> = marks.chars().map(|mark| (mark, "-")).collect();
    let text = ladder_listing(list(&days).as_bytes());
    let lines = text.lines().skip(1);
    lines
        .map(|line| line.split_once(' ').expect("a blank").1.to_string())
        .collect()
}

#[test]
fn runs_and_reverses() {
    assert_eq!(
        steps("UUU"),
        ["first no-limit", "same 2", "same 3"],
        "a run from day 1"
    );
    assert_eq!(
        steps("-DD-D"),
        ["none", "first no-limit", "same 2", "none", "first no-day"],
        "no run over a day that is not locked"
    );
    assert_eq!(
        steps("UDDUD"),
        ["first no-limit", "reverse", "same 2", "reverse", "reverse"],
        "the reverse of a reverse"
    );
    assert_eq!(
        steps("U-D"),
        ["first no-limit", "none", "first no-day"],
        "no reverse over a day that is not locked"
    );
    assert_eq!(steps(""), [""; 0]);
}

#[test]
fn the_raise_at_its_ends() {
    for (limit, next, wanted) in [
        ("7.000", "10.000", Raise::Holds),
        ("7.000", "9.999", Raise::Fails),
        ("7.000", "13.000", Raise::Holds),
        ("7.000", "13.001", Raise::Fails),
        ("7.000", "7.000", Raise::Fails),
        ("10.000", "7.000", Raise::Fails),
        ("0.001", "3.001", Raise::Holds),
        ("93.999", "99.999", Raise::Holds),
        ("-", "10.000", Raise::NoLimit),
        ("7.000", "-", Raise::NoNextLimit),
        ("-", "-", Raise::NoLimit),
    ] {
        for mark in ['U', 'D'] {
            for (after, step) in [
                ('-', Step::None),
                (mark, Step::Same(2)),
                (if mark == 'U' { 'D' } else { 'U' }, Step::Reverse),
            ] {
                let list = list(&[(mark, limit), (after, next)]);
                let wanted = vec![Step::First(wanted), step];
                assert_eq!(ladder(list.as_bytes()), Ok(wanted), "{list}");
            }
        }
    }
    let last = list(&[('-', "7.000"), ('U', "-")]);
    let wanted = vec![Step::None, Step::First(Raise::NoDay)];
    assert_eq!(ladder(last.as_bytes()), Ok(wanted));
}

#[test]
fn refusals() {
    for (text, refusal) in [
        ("", (33, 0)),
        ("gold", (33, 0)),
        ("copper\n1.00 1 - -\n", (33, 0)),
        ("gold\n1.00 1\n", (33, 1)),
        ("gold\n1.00 1 -\n", (33, 1)),
        ("gold\n1.00 1 - -", (33, 1)),
        ("gold\n1.00 1 - - \n", (33, 1)),
        ("gold\n1.00 1  -\n", (33, 1)),
        ("gold\n1.00 1 ? -\n", (33, 1)),
        ("gold\n1.00 1 UU -\n", (33, 1)),
        ("gold\n1.00 1 X --\n", (33, 1)),
        ("gold\n1.00 1 U 0.000\n", (33, 1)),
        ("gold\n1.00 1 U 100.000\n", (33, 1)),
        ("gold\n1.00 1 U 7.00\n", (33, 1)),
        ("gold\n1.00 1 U 07.000\n", (33, 1)),
        ("gold\n0.00 1 X 7.00\n", (33, 1)),
        ("gold\n0.00 1 X 7.000\n", (31, 1)),
        ("gold\n1.00 0 x -\n", (31, 1)),
        ("gold\n1.00 1 u -\n", (32, 1)),
        ("gold\n1.00 1 U -\n1.00 1 Z 7.000\n0.00 1 U -\n", (32, 2)),
    ] {
        assert_eq!(ladder(text.as_bytes()), Err(refusal), "{text:?}");
    }
    assert_eq!(ladder("\n".repeat(2_002).as_bytes()), Err((30, 0)));
    assert_eq!(ladder("\n".repeat(2_001).as_bytes()), Err((33, 0)));
}

/// Every byte that can stand in a mark's place: three marks, 50 other letters, and bytes that are no letter.
#[test]
fn every_byte_as_the_mark() {
    let mut numbers = BTreeMap::new();
    for byte in 0..=255 {
        let list = [b"gold\n1.00 1 ", &[byte][..], b" 5.000\n"].concat();
        let number = ladder(&list).map_or_else(|(number, _)| number, |_| 0);
        *numbers.entry(number).or_insert(0) += 1;
    }
    assert_eq!(numbers, BTreeMap::from([(0, 3), (32, 50), (33, 203)]));
}

/// Whole lists and those at the edges are accepted, every number and every outcome occurs, and the steps are those of a
/// walk from day to day.
#[test]
fn generated_lists_reach_everything() {
    let (mut numbers, mut outcomes) = ([0; 34], BTreeMap::new());
    for index in 0..1_500 {
        let (bytes, kind) = longer(7, index);
        match ladder(&bytes) {
            Ok(steps) => {
                assert_eq!(steps, walked(&bytes), "index {index}");
                for step in steps {
                    let name = match step {
                        Step::Same(running) => format!("same {}", running.min(20)),
                        other => format!("{other:?}"),
                    };
                    *outcomes.entry(name).or_insert(0) += 1;
                }
            }
            Err((number, _)) => {
                assert_eq!(kind, Kind::Damaged, "index {index}");
                numbers[number as usize] += 1;
            }
        }
    }
    assert!(
        [30, 31, 32, 33].iter().all(|&number| numbers[number] > 5),
        "{numbers:?}"
    );
    assert_eq!(outcomes.len(), 7 + 19, "{outcomes:?}");
    assert!(outcomes.values().all(|&count| count > 20), "{outcomes:?}");
}

/// The steps of an accepted list by what the day before came to.
fn walked(list: &[u8]) -> Vec<Step> {
    walked_wrongly(list, Wrong::Nothing)
}

/// Easy ways to get it wrong.
#[derive(Clone, Copy, Debug, PartialEq)]
enum Wrong {
    Nothing,
    ReverseIsChecked,
    ThreePointsAreTooFew,
    SixPointsAreTooMany,
    RunGoesOverAnUnlockedDay,
    ReverseCountsOn,
    ReverseOfAReverseIsFirst,
    FirstDayIsNoLock,
    RaiseOfLockedDaysAlone,
    NextLimitIsLookedAtFirst,
    LimitIsLookedAtBeforeTheDay,
    LastDayIsHeldAgainstItself,
}

/// The same with one thing wrong.
fn walked_wrongly(list: &[u8], wrong: Wrong) -> Vec<Step> {
    let text = std::str::from_utf8(list).expect("an accepted list is ASCII");
    let rows: Vec<Vec<&str>> = text
        .lines()
        .skip(1)
        .map(|line| line.split(' ').collect())
        .collect();
    let (mut before, mut running, mut reversed) = ("-", 0, false);
    let mut steps = Vec::new();
    for (at, row) in rows.iter().enumerate() {
        let mark = row[2];
        let first = || Step::First(raised(&rows, at, wrong));
        let counted = mark == before || wrong == Wrong::ReverseCountsOn && before != "-";
        running = if counted { running + 1 } else { 1 };
        let step = match (before, mark) {
            (_, "-") => Step::None,
            ("-", _) if at == 0 && wrong == Wrong::FirstDayIsNoLock => Step::None,
            ("-", _) => first(),
            (before, now) if before == now => Step::Same(running),
            _ if wrong == Wrong::ReverseIsChecked => first(),
            _ if wrong == Wrong::ReverseOfAReverseIsFirst && reversed => first(),
            _ => Step::Reverse,
        };
        reversed = step == Step::Reverse;
        if mark != "-" || wrong != Wrong::RunGoesOverAnUnlockedDay {
            before = mark;
        }
        steps.push(step);
    }
    steps
}

fn raised(rows: &[Vec<&str>], at: usize, wrong: Wrong) -> Raise {
    let rate = |at: usize| rows[at][3].replace('.', "").parse::<i64>().ok();
    if wrong == Wrong::LimitIsLookedAtBeforeTheDay && rate(at).is_none() {
        return Raise::NoLimit;
    }
    if at + 1 == rows.len() {
        return match wrong {
            Wrong::LastDayIsHeldAgainstItself => Raise::Fails,
            _ => Raise::NoDay,
        };
    }
    if wrong == Wrong::NextLimitIsLookedAtFirst && rate(at + 1).is_none() {
        return Raise::NoNextLimit;
    }
    let (Some(now), Some(next)) = (rate(at), rate(at + 1)) else {
        return match rate(at) {
            None => Raise::NoLimit,
            Some(_) => Raise::NoNextLimit,
        };
    };
    let raise = next - now;
    let good = match wrong {
        Wrong::ThreePointsAreTooFew => 3_000 < raise && raise <= 6_000,
        Wrong::SixPointsAreTooMany => 3_000 <= raise && raise < 6_000,
        Wrong::RaiseOfLockedDaysAlone if rows[at + 1][2] == "-" => false,
        _ => 3_000 <= raise && raise <= 6_000,
    };
    if good {
        Raise::Holds
    } else {
        Raise::Fails
    }
}

/// Each wrong way is seen in generated lists, and more than five times in a thousand.
#[test]
fn wrong_ways_are_seen() {
    let accepted: Vec<(Vec<u8>, Vec<Step>)> = (0..1_000)
        .map(|index| longer(11, index).0)
        .filter_map(|list| ladder(&list).ok().map(|steps| (list, steps)))
        .collect();
    for wrong in [
        Wrong::ReverseIsChecked,
        Wrong::ThreePointsAreTooFew,
        Wrong::SixPointsAreTooMany,
        Wrong::RunGoesOverAnUnlockedDay,
        Wrong::ReverseCountsOn,
        Wrong::ReverseOfAReverseIsFirst,
        Wrong::FirstDayIsNoLock,
        Wrong::RaiseOfLockedDaysAlone,
        Wrong::NextLimitIsLookedAtFirst,
        Wrong::LimitIsLookedAtBeforeTheDay,
        Wrong::LastDayIsHeldAgainstItself,
    ] {
        let seen = accepted
            .iter()
            .filter(|(list, steps)| walked_wrongly(list, wrong) != *steps)
            .count();
        assert!(seen > 5, "{wrong:?}: {seen} of {}", accepted.len());
    }
}

/// 32 before 31, and either before 33, are seen too: a line that has two of them is refused in generated lists.
#[test]
fn lines_with_two_reasons_are_seen() {
    let (mut zero_and_letter, mut letter_and_form, mut zero_and_form) = (0, 0, 0);
    for index in 0..3_000 {
        let (list, _) = longer(11, index);
        let Err((number, place)) = ladder(&list) else {
            continue;
        };
        let line = list.split(|&byte| byte == b'\n').nth(place as usize);
        let words: Vec<&[u8]> = line
            .unwrap_or_default()
            .split(|&byte| byte == b' ')
            .collect();
        let letter = matches!(
            words.get(2),
            Some([b'A'..=b'C' | b'E'..=b'T' | b'V'..=b'Z' | b'a'..=b'z'])
        );
        let zero = words.first() == Some(&&b"0.00"[..]) || words.get(1) == Some(&&b"0"[..]);
        zero_and_letter += i32::from(number == 31 && letter);
        letter_and_form += i32::from(number == 33 && letter);
        zero_and_form += i32::from(number == 33 && zero);
    }
    assert!(
        zero_and_letter > 5 && letter_and_form > 5 && zero_and_form > 5,
        "{zero_and_letter} {letter_and_form} {zero_and_form}"
    );
}

#[test]
fn the_swept_list_has_every_refusal_but_30() {
    let mut numbers = [0; 34];
    for list in swept() {
        let number = ladder(&list).map_or_else(|(number, _)| number, |_| 0);
        numbers[number as usize] += 1;
    }
    assert!(
        [0, 31, 32, 33].iter().all(|&number| numbers[number] > 0),
        "{numbers:?}"
    );
}
