//! Lists in the longer form, generated from a seed: whole ones, ones at the edges of the raise, and damaged ones. Nothing
//! is taken from the reader.

use super::make::{count, drift, figures, within, Dice, Kind};

/// The list of a seed and an index, and what it is meant to try.
pub fn longer(seed: u64, index: u64) -> (Vec<u8>, Kind) {
    let mut dice = Dice::new(seed, index);
    let kind = [Kind::Whole, Kind::Edge, Kind::Edge, Kind::Damaged][dice.roll(4) as usize];
    let edge = kind == Kind::Edge || dice.roll(2) == 0;
    let mut list = written(&mut dice, edge);
    if kind == Kind::Damaged {
        for _ in 0..=dice.roll(3) {
            damage(&mut dice, &mut list);
        }
    }
    (list, kind)
}

/// A small list with every byte replaced by every other, left out, and every byte put in before it.
pub fn swept() -> impl Iterator<Item = Vec<u8>> {
    const SMALL: &[u8] = b"gold\n400.00 7 U 7.000\n0.07 12 D -\n1.00 1 - 10.000\n";
    (0..SMALL.len()).flat_map(|at| {
        let with = move |bytes: &[u8], after| [&SMALL[..at], bytes, &SMALL[after..]].concat();
        (0..=255)
            .flat_map(move |byte| [with(&[byte], at + 1), with(&[byte], at)])
            .chain([with(&[], at + 1)])
    })
}

fn written(dice: &mut Dice, edge: bool) -> Vec<u8> {
    let count = count(dice);
    let marks = marks(dice, count);
    let mut list = [&b"silver\n"[..], b"gold\n"][dice.roll(2) as usize].to_vec();
    let (mut day, mut limit) = (None, [7_000, 1, 93_999, 99_999][dice.roll(4) as usize]);
    for mark in marks {
        let next = within(drift(dice, day));
        let given = match dice.roll(6) {
            0 => "-".to_string(),
            _ => format!("{}.{:03}", limit / 1000, limit % 1000),
        };
        list.extend(format!("{} {} {given}\n", figures(next), char::from(mark)).bytes());
        day = Some(next);
        limit = if edge {
            beside(dice, limit)
        } else {
            dice.roll(99_999) + 1
        };
    }
    list
}

/// A mark for each day: any, long runs, one direction after the other, single locks, or all locked.
fn marks(dice: &mut Dice, count: usize) -> Vec<u8> {
    let manner = dice.roll(6);
    let mut last = b"-UD"[dice.roll(3) as usize];
    let mut marks = Vec::with_capacity(count);
    for at in 0..count {
        last = match (manner, last) {
            (0, _) => b"-UD"[dice.roll(3) as usize],
            (1, _) if dice.roll(8) > 0 => last,
            (1, _) => b"-UD"[dice.roll(3) as usize],
            (2, b'U') => b"DDDD-U"[dice.roll(6) as usize],
            (2, _) => b"UUUU-D"[dice.roll(6) as usize],
            (3, _) if at % 2 == 0 => b'-',
            (3, _) => b"UD"[dice.roll(2) as usize],
            (4, _) => b"UD"[dice.roll(2) as usize],
            _ => last,
        };
        marks.push(last);
    }
    marks
}

/// A limit whose raise reaches an end exactly, or misses it by a thousandth; or none at all, or a lower one.
fn beside(dice: &mut Dice, limit: u64) -> u64 {
    let raise = [3_000, 2_999, 3_001, 6_000, 5_999, 6_001, 4_500, 0, 1][dice.roll(9) as usize];
    match dice.roll(6) {
        0 => limit.saturating_sub(raise).max(1),
        _ if limit + raise <= 99_999 => limit + raise,
        _ => 1 + dice.roll(10_000),
    }
}

/// Lines that are no day, or none with these marks: of several refusals in one line the first decides.
const LINES: &[&str] = &[
    "0.00 5 U 5.000",
    "5.00 0 - -",
    "0.00 0 D 5.000",
    "0.00 5 X 5.000",
    "0.00 5 a -",
    "0.00 5 D -",
    "5.00 0 Z 99.999",
    "5.00 0 x -",
    "0.00 5 U 5.00",
    "0.00 5 UU 5.000",
    "0.00 5 + 5.000",
    "5.00 5 X 5.000",
    "5.00 5 u -",
    "5.00 5 d 5.000",
    "5.00 5 A 5.000",
    "5.00 5 Z 5.000",
    "5.00 5 a -",
    "5.00 5 z -",
    "5.00 5 X 5.00",
    "5.00 5 x 0.000",
    "5.00 5 Q",
    "5.00 5 @ 5.000",
    "5.00 5 [ 5.000",
    "5.00 5 ` 5.000",
    "5.00 5 { 5.000",
    "5.00 5 UD 5.000",
    "5.00 5 -- 5.000",
    "5.00 5 U 0.000",
    "5.00 5 U 100.000",
    "5.00 5 U 05.000",
    "5.00 5 U 5,000",
    "5.00 5 U 5.0000",
    "5.00 5 U .500",
    "5.00 5 U --",
    "5.00 5 U -5.000",
    "5.00 5 U",
    "5.00 5",
];

/// A wrong byte, a byte too many or too few, another mark or limit in a line, a line that is no day, another metal, an
/// end without its line feed, too many lines, or very many bytes.
fn damage(dice: &mut Dice, list: &mut Vec<u8>) {
    let at = dice.roll(list.len().max(1) as u64) as usize;
    match dice.roll(17) {
        0 if !list.is_empty() => list[at] = dice.roll(256) as u8,
        1 if !list.is_empty() => list[at] = b"0123456789., \n-UDud+X"[dice.roll(21) as usize],
        2 => list.insert(at.min(list.len()), b"0., \n9-UDX"[dice.roll(10) as usize]),
        3 if !list.is_empty() => {
            list.remove(at);
        }
        4 => list.truncate(at),
        5 => {
            list.pop();
        }
        6 | 7 => put_mark(dice, list),
        8..=10 => {
            let line = LINES[dice.roll(LINES.len() as u64) as usize];
            list.extend(format!("{line}\n").bytes());
        }
        11..=13 => put_line(dice, list, at),
        14 => list.extend(
            "1.00 1 U 5.000\n"
                .repeat(2_001 - dice.roll(3) as usize)
                .bytes(),
        ),
        15 => {
            let front = [&b"Gold\n"[..], b" ", b"silver\n"][dice.roll(3) as usize];
            list.splice(0..0, front.iter().copied()).for_each(drop);
        }
        _ => {
            list.extend(vec![b"1 \0U"[dice.roll(4) as usize]; 61_000]);
            let feeds = [0, 1, 1_990, 2_001][dice.roll(4) as usize];
            list.extend("\n".repeat(feeds).bytes());
        }
    }
}

/// Another byte or two in place of a mark.
fn put_mark(dice: &mut Dice, list: &mut Vec<u8>) {
    let marks: Vec<usize> = (1..list.len().saturating_sub(1))
        .filter(|&at| list[at - 1] == b' ' && list[at + 1] == b' ')
        .collect();
    if marks.is_empty() {
        return;
    }
    let at = marks[dice.roll(marks.len() as u64) as usize];
    match dice.roll(3) {
        0 => list[at] = dice.roll(256) as u8,
        1 => list[at] = b"ABCTVWXYZabcdtuvwxyz"[dice.roll(20) as usize],
        _ => list.insert(at, b"UD-X"[dice.roll(4) as usize]),
    }
}

/// A line that is no day behind any line feed.
fn put_line(dice: &mut Dice, list: &mut Vec<u8>, at: usize) {
    if let Some(feed) = list.iter().skip(at).position(|&byte| byte == b'\n') {
        let line = format!("{}\n", LINES[dice.roll(LINES.len() as u64) as usize]);
        let behind = at + feed + 1;
        list.splice(behind..behind, line.bytes()).for_each(drop);
    }
}
