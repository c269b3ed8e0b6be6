//! Demand 3 on bytes: the customers in another order, some of standing N left out, each one's trades in another order, and
//! everything stays, each seat's lots too. A customer's seats keep their order.

use std::cmp::Reverse;
use std::collections::{HashMap, VecDeque};

use crate::draw::Draw;
use crate::fields::groups;
use crate::guarded::Lent;
use crate::program::Program;
use crate::statement::{read, Line, Statement};
use crate::trades::{cut, stamps, Stamp};

/// Another arrangement of an accepted book.
#[derive(Clone, Debug, PartialEq, Eq)]
pub struct Arrangement {
    /// Who stays, in the new order.
    pub customers: Vec<usize>,
    /// For each of those, its trades in their new order. `B` and `A` are counted together.
    pub trades: Vec<Vec<usize>>,
}

impl Arrangement {
    /// All customers that take part and half of the others, in any order, and each one's trades in any order in which
    /// those of equal day and minute keep theirs.
    pub fn drawn(book: &[u8], statement: &Statement, draw: &mut Draw) -> Self {
        let mut customers: Vec<usize> = (0..statement.lines.len())
            .filter(|&who| statement.lines[who].standing != b'N' || draw.below(2) == 0)
            .collect();
        draw.shuffle(&mut customers);
        let groups = groups(book);
        let trades = customers
            .iter()
            .map(|&who| any_order(&stamps(&book[groups[who].clone()]), draw))
            .collect();
        Arrangement { customers, trades }
    }

    /// These customers in this order, with their trades as they are.
    pub fn of_customers(book: &[u8], customers: &[usize]) -> Self {
        let groups = groups(book);
        let as_it_is = |&who: &usize| (0..cut(&book[groups[who].clone()]).1.len()).collect();
        Arrangement {
            customers: customers.to_vec(),
            trades: customers.iter().map(as_it_is).collect(),
        }
    }

    /// The book so arranged: the terms, the groups and `Z`.
    pub fn of(&self, book: &[u8]) -> Vec<u8> {
        let groups = groups(book);
        let end = book.len() - b"Z\0\0".len();
        let terms = groups.first().map_or(end, |first| first.start);
        let mut bytes = book[..terms].to_vec();
        for (&who, order) in self.customers.iter().zip(&self.trades) {
            let group = &book[groups[who].clone()];
            let (head, trades) = cut(group);
            bytes.extend_from_slice(&group[head]);
            for &trade in order {
                bytes.extend_from_slice(&group[trades[trade].clone()]);
            }
        }
        bytes.extend_from_slice(b"Z\0\0");
        bytes
    }
}

/// An order in which trades of equal stamps keep theirs: half the time any, otherwise oldest or newest first.
fn any_order(stamps: &[Stamp], draw: &mut Draw) -> Vec<usize> {
    let mut order: Vec<usize> = (0..stamps.len()).collect();
    match draw.below(4) {
        0 => order.sort_by_key(|&trade| stamps[trade]),
        1 => order.sort_by_key(|&trade| Reverse(stamps[trade])),
        _ => {
            draw.shuffle(&mut order);
            order = dealt(&order, stamps);
        }
    }
    order
}

/// Each place keeps the stamp that it was dealt, and those of one stamp take its places in their own order.
fn dealt(order: &[usize], stamps: &[Stamp]) -> Vec<usize> {
    let mut waiting: HashMap<Stamp, VecDeque<usize>> = HashMap::new();
    for (trade, stamp) in stamps.iter().enumerate() {
        waiting.entry(*stamp).or_default().push_back(trade);
    }
    let next = |&trade: &usize| waiting.get_mut(&stamps[trade])?.pop_front();
    let order: Option<Vec<usize>> = order.iter().map(next).collect();
    order.expect("as many places of a stamp as trades")
}

/// Tries one rearrangement of an accepted book, in a room of its report's size: accepted, the same total and
/// residue, and every customer still in it has the same standing and lots, seat by seat.
pub fn everything_stays(
    program: &mut dyn Program,
    book: &[u8],
    before: &Statement,
    room: usize,
    variety: u64,
) -> Result<(), String> {
    let arrangement = Arrangement::drawn(book, before, &mut Draw::new(variety));
    let other = arrangement.of(book);
    let told = |what: String| format!("{arrangement:?}: {what}");
    let mut lent = [Lent::new(room, variety)];
    let answers = program.call(&other, &mut lent).map_err(told)?;
    let answer = answers[0];
    if answer.number != 0 || answer.place != 0 {
        return Err(told(format!("{answer:?}")));
    }
    let report = lent[0].room().get(..answer.length as usize);
    let after = read(report.ok_or_else(|| told(format!("{answer:?} in a room of {room}")))?);
    let after = after.map_err(told)?;
    let lines: Vec<Line> = (arrangement.customers.iter())
        .map(|&who| before.lines[who].clone())
        .collect();
    let want = Statement {
        lines,
        ..before.clone()
    };
    if after == want {
        return Ok(());
    }
    Err(told(first_change(&want, &after)))
}

fn first_change(want: &Statement, after: &Statement) -> String {
    let sums = |one: &Statement| format!("total {}, residue {}", one.total, one.residue);
    if sums(want) != sums(after) {
        return format!("{}, then {}", sums(want), sums(after));
    }
    let mut both = want.lines.iter().zip(&after.lines);
    match both.find(|(one, other)| one != other) {
        Some((one, other)) => format!("{}, then {}", said(one), said(other)),
        None => format!("{} customers, then {}", want.lines.len(), after.lines.len()),
    }
}

fn said(line: &Line) -> String {
    let code = line.code.escape_ascii();
    let seats: Vec<String> = (line.seats.iter())
        .map(|(code, lots)| format!("{} {lots}", code.escape_ascii()))
        .collect();
    format!(
        "{code} {} {} ({})",
        line.standing.escape_ascii(),
        line.offset,
        seats.join(", ")
    )
}
