//! An accepted book worked out again in the slowest and most direct way: figures read
//! as text, every trade held against every other for which is newer, its counted part by a
//! formula, spare lots given one at a time by looking at everybody.

use super::{cut, fields, sum, Line, Report};

/// A customer with the numbers that its standing rests on.
#[derive(Clone, Debug)]
pub struct Person {
    pub code: Vec<u8>,
    pub standing: char,
    /// Counted pending or offered lots.
    pub stake: u64,
    pub offset: u64,
    /// The code of each seat, what the offset is divided by there, and its lots.
    pub seats: Vec<(Vec<u8>, u64, u64)>,
    /// For each edge, `L`, `U`, `V` or `0`, that the customer's side is tested by: the
    /// gain or loss less the edge, times 100,000.
    pub distances: Vec<(char, i128)>,
}

/// A book worked out.
pub struct Worked {
    pub report: Report,
    pub people: Vec<Person>,
    /// Divisions in which equal remainders had to be settled by the code.
    pub settled_by_code: u64,
    /// The same between the seats of a customer.
    pub seats_settled_by_code: u64,
}

struct Terms {
    locked_long: bool,
    settlement: i128,
    edges: [i128; 3],
    newer: Newer,
}

/// A trade on the net side: its figures, its stamp's two words and its turn among them.
pub struct Traded<'a> {
    price: i128,
    lots: i128,
    day: &'a str,
    time: &'a str,
    turn: usize,
}

/// Which of two trades is newer: the first one?
pub type Newer = fn(&Traded, &Traded) -> bool;

/// Request [2] in words of the clock: a later day; on one day a time before 19:50 after one from 19:50 on; then the
/// later time; then the later place.
pub fn by_stamp(one: &Traded, other: &Traded) -> bool {
    let of_evening = |trade: &Traded| trade.time >= "1950";
    if one.day != other.day {
        one.day > other.day
    } else if of_evening(one) != of_evening(other) {
        of_evening(other)
    } else if one.time != other.time {
        one.time > other.time
    } else {
        one.turn > other.turn
    }
}

/// Three wrong orders: that of the book, which document 01 had; that of the clock within a day; and of equal stamps the
/// earlier place newer.
pub fn by_place(one: &Traded, other: &Traded) -> bool {
    one.turn > other.turn
}

pub fn by_clock(one: &Traded, other: &Traded) -> bool {
    (one.day, one.time, one.turn) > (other.day, other.time, other.turn)
}

pub fn by_stamp_turned(one: &Traded, other: &Traded) -> bool {
    if (one.day, one.time) == (other.day, other.time) {
        one.turn < other.turn
    } else {
        by_stamp(one, other)
    }
}

/// A figure with its point left out. All prices of a book have as many decimals, so that each is as many of one unit.
fn figure(value: &[u8]) -> i128 {
    let text = String::from_utf8(value.to_vec()).expect("a figure");
    text.replace('.', "").parse().expect("a figure")
}

pub fn work(book: &[u8]) -> Worked {
    work_by(by_stamp, book)
}

/// The same with the trades in this order.
pub fn work_by(newer: Newer, book: &[u8]) -> Worked {
    let all = fields(book);
    let terms = Terms {
        locked_long: all[0].1 == b"D",
        settlement: figure(all[2].1),
        edges: [figure(all[3].1), figure(all[4].1), figure(all[5].1)],
        newer,
    };
    let starts: Vec<usize> = (0..all.len()).filter(|&at| all[at].0 == b'C').collect();
    let mut people = Vec::new();
    for (nth, &start) in starts.iter().enumerate() {
        let end = starts.get(nth + 1).copied().unwrap_or(all.len() - 1);
        people.push(person(&terms, &all[start..end]));
    }
    cascade(people)
}

/// The standing of a group's fields: C, then I, K, H and Q of each seat, and trades.
fn person(terms: &Terms, group: &[(u8, &[u8])]) -> Person {
    let (head, trades) = cut(group);
    let [long, short, unfilled] = [b'K', b'H', b'Q'].map(|tag| i128::from(sum(head, tag)));
    let net = (long - short).abs();
    let gain = gain(terms, long > short, net, trades);
    let on_locked_side = net > 0 && (long > short) == terms.locked_long;
    let on_other_side = net > 0 && !on_locked_side;
    let [l, u, v] = terms.edges.map(|rate| rate * terms.settlement * net);
    let pending = unfilled.min(net);
    let (standing, stake) = if on_locked_side && -gain * 100_000 >= l && pending > 0 {
        ('P', pending)
    } else if !on_other_side || gain <= 0 {
        ('N', 0)
    } else if gain * 100_000 >= u {
        ('1', net)
    } else if gain * 100_000 >= v {
        ('2', net)
    } else {
        ('3', net)
    };
    let mut distances = Vec::new();
    if on_locked_side {
        distances.push(('L', -gain * 100_000 - l));
    }
    if on_other_side {
        let edges = [('U', u), ('V', v), ('0', 0)];
        distances.extend(edges.map(|(name, edge)| (name, gain * 100_000 - edge)));
    }
    let weighed_by = match standing {
        'P' => b'Q',
        'N' => b'C',
        _ if long > short => b'K',
        _ => b'H',
    };
    let seats = head[1..].chunks(4).map(|seat| {
        let weight = sum(seat, weighed_by);
        (seat[0].1.to_vec(), weight, 0)
    });
    Person {
        code: group[0].1.to_vec(),
        standing,
        stake: stake as u64,
        offset: 0,
        seats: seats.collect(),
        distances,
    }
}

/// Divides a person's offset over its seats, and tells whether the code had to settle it.
fn give_seats(person: &mut Person) -> bool {
    let members: Vec<(Vec<u8>, u64)> = (person.seats.iter())
        .map(|(code, weight, _)| (code.clone(), *weight))
        .collect();
    let (shares, settled) = divide(person.offset, &members);
    for ((_, _, lots), share) in person.seats.iter_mut().zip(shares) {
        *lots = share;
    }
    settled
}

/// A trade's counted part: the net position less all newer lots, at most its own lots
/// and at least 0.
fn gain(terms: &Terms, is_long: bool, net: i128, trades: &[(u8, &[u8])]) -> i128 {
    let tag = if is_long { b'B' } else { b'A' };
    let of_side = trades.iter().filter(|(name, _)| *name == tag);
    let side: Vec<Traded> = (of_side.enumerate())
        .map(|(turn, (_, value))| traded(turn, value))
        .collect();
    let all_lots: i128 = side.iter().map(|trade| trade.lots).sum();
    assert!(all_lots >= net, "an accepted book has enough trades");
    let mut total = 0;
    for trade in &side {
        let newer = side.iter().filter(|other| (terms.newer)(other, trade));
        let newer: i128 = newer.map(|other| other.lots).sum();
        let counted = (net - newer).clamp(0, trade.lots);
        let each = terms.settlement - trade.price;
        total += if is_long {
            each * counted
        } else {
            -each * counted
        };
    }
    total
}

/// The value of a trade, cut at its three blanks.
fn traded(turn: usize, value: &[u8]) -> Traded<'_> {
    let text = std::str::from_utf8(value).expect("a trade is ASCII");
    let words: Vec<&str> = text.split(' ').collect();
    let [price, lots, day, time] = words[..] else {
        panic!("a trade has four words");
    };
    Traded {
        price: figure(price.as_bytes()),
        lots: figure(lots.as_bytes()),
        day,
        time,
        turn,
    }
}

fn cascade(mut people: Vec<Person>) -> Worked {
    let counted = stakes(&people, 'P');
    let mut settled_by_code = 0;
    let mut total = 0;
    for tier in ['1', '2', '3'] {
        let quantity = stakes(&people, tier).min(counted - total);
        for standing in [tier, 'P'] {
            settled_by_code += u64::from(share_out(quantity, standing, &mut people));
        }
        total += quantity;
    }
    let seats_settled_by_code = people
        .iter_mut()
        .filter_map(|one| give_seats(one).then_some(1));
    let seats_settled_by_code = seats_settled_by_code.sum();
    let lines = people.iter().map(|person| Line {
        code: person.code.clone(),
        standing: person.standing,
        offset: person.offset,
        seats: (person.seats.iter())
            .map(|(code, _, lots)| (code.clone(), *lots))
            .collect(),
    });
    let report = Report {
        total,
        residue: counted - total,
        lines: lines.collect(),
    };
    Worked {
        report,
        people,
        settled_by_code,
        seats_settled_by_code,
    }
}

fn stakes(people: &[Person], standing: char) -> u64 {
    let them = people.iter().filter(|one| one.standing == standing);
    them.map(|one| one.stake).sum()
}

/// Divides over the people of one standing by what each has left, and tells whether
/// the code had to settle it.
fn share_out(quantity: u64, standing: char, people: &mut [Person]) -> bool {
    let mut them: Vec<&mut Person> = people
        .iter_mut()
        .filter(|one| one.standing == standing)
        .collect();
    let members: Vec<(Vec<u8>, u64)> = them
        .iter()
        .map(|one| (one.code.clone(), one.stake - one.offset))
        .collect();
    let (shares, settled) = divide(quantity, &members);
    for (one, lots) in them.iter_mut().zip(shares) {
        one.offset += lots;
    }
    settled
}

/// Divides by giving one lot at a time to the best remaining member, and tells whether
/// the code had to settle who came last.
pub fn divide(quantity: u64, members: &[(Vec<u8>, u64)]) -> (Vec<u64>, bool) {
    let sum: i128 = members.iter().map(|(_, weight)| i128::from(*weight)).sum();
    if quantity == 0 || sum == 0 {
        return (vec![0; members.len()], false);
    }
    let products: Vec<i128> = members
        .iter()
        .map(|(_, weight)| i128::from(quantity) * i128::from(*weight))
        .collect();
    let mut lots: Vec<u64> = products
        .iter()
        .map(|product| (product / sum) as u64)
        .collect();
    let mut waiting: Vec<usize> = (0..members.len()).collect();
    let mut last = None;
    while lots.iter().sum::<u64>() < quantity {
        let mut best = 0;
        for at in 1..waiting.len() {
            let (one, other) = (waiting[at], waiting[best]);
            let (mine, theirs) = (products[one] % sum, products[other] % sum);
            if mine > theirs || (mine == theirs && members[one].0 < members[other].0) {
                best = at;
            }
        }
        let winner = waiting.remove(best);
        lots[winner] += 1;
        last = Some(products[winner] % sum);
    }
    let settled = waiting.iter().any(|&who| Some(products[who] % sum) == last);
    (lots, settled)
}
