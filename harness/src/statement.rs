//! What a report states, read from its bytes alone, and the statement's five sentences (docs/STATEMENT.md), which hold of every
//! accepted book. They need no more than the report's bytes and the book's own `C`, `I`, `K`, `H` and `Q`.

use crate::fields::{fields, groups, value};
use crate::trades::cut;

/// A report taken apart.
#[derive(Clone, Debug, PartialEq, Eq)]
pub struct Statement {
    pub total: u64,
    pub residue: u64,
    /// In book order.
    pub lines: Vec<Line>,
}

/// What a report says of one customer.
#[derive(Clone, Debug, PartialEq, Eq)]
pub struct Line {
    pub code: Vec<u8>,
    /// `P`, `1`, `2`, `3` or `N`.
    pub standing: u8,
    pub offset: u64,
    /// In the customer's order: code and lots.
    pub seats: Vec<(Vec<u8>, u64)>,
}

/// Reads a report and insists on its form.
pub fn read(report: &[u8]) -> Result<Statement, String> {
    let ranges = fields(report);
    let covered = ranges.last().map_or(0, |last| last.end);
    if covered != report.len() {
        return Err(format!("bytes from {covered} on are no field"));
    }
    let parts: Vec<(u8, &[u8])> = (ranges.iter())
        .map(|field| (report[field.start], &report[value(field)]))
        .collect();
    let [(b'T', total), (b'R', residue), customers @ ..] = parts.as_slice() else {
        return Err("a report begins with T and R".to_string());
    };
    Ok(Statement {
        total: number(total)?,
        residue: number(residue)?,
        lines: (customers.chunk_by(|_, (tag, _)| *tag != b'C'))
            .map(line)
            .collect::<Result<_, _>>()?,
    })
}

fn line(fields: &[(u8, &[u8])]) -> Result<Line, String> {
    let [(b'C', code), (b'E', [standing]), (b'O', offset), seats @ ..] = fields else {
        return Err("a customer is C, E of one byte and O, and then its seats".to_string());
    };
    if !b"P123N".contains(standing) {
        return Err(format!("{} is no standing", standing.escape_ascii()));
    }
    if !matches!(seats.len(), 2 | 4 | 6 | 8) {
        return Err("a customer has one to four seats of I and J".to_string());
    }
    Ok(Line {
        code: good_code(code)?,
        standing: *standing,
        offset: number(offset)?,
        seats: seats.chunks(2).map(seat).collect::<Result<_, _>>()?,
    })
}

fn seat(fields: &[(u8, &[u8])]) -> Result<(Vec<u8>, u64), String> {
    let [(b'I', code), (b'J', lots)] = fields else {
        return Err("a seat is I and J".to_string());
    };
    Ok((good_code(code)?, number(lots)?))
}

/// 1 to 12 digits and capital letters.
fn good_code(code: &[u8]) -> Result<Vec<u8>, String> {
    let of_code = |byte: &u8| byte.is_ascii_digit() || byte.is_ascii_uppercase();
    if matches!(code.len(), 1..=12) && code.iter().all(of_code) {
        return Ok(code.to_vec());
    }
    Err(format!("{} is no code", code.escape_ascii()))
}

/// Plain digits without leading zeros, `0` for none.
fn number(value: &[u8]) -> Result<u64, String> {
    let bad = || format!("{} is no plain number", value.escape_ascii());
    let text = std::str::from_utf8(value).map_err(|_| bad())?;
    let number: u64 = text.parse().map_err(|_| bad())?;
    if number.to_string() == text {
        Ok(number)
    } else {
        Err(bad())
    }
}

/// What an accepted book says of one customer.
#[derive(Clone, Debug, PartialEq, Eq)]
pub struct Held {
    pub code: Vec<u8>,
    /// One to four, in its order.
    pub seats: Vec<Seat>,
}

/// One seat: its `I`, `K`, `H` and `Q`.
#[derive(Clone, Debug, PartialEq, Eq)]
pub struct Seat {
    pub code: Vec<u8>,
    pub long: u64,
    pub short: u64,
    pub unfilled: u64,
}

impl Held {
    fn sum(&self, lots: fn(&Seat) -> u64) -> u64 {
        self.seats.iter().map(lots).sum()
    }

    pub fn is_long(&self) -> bool {
        self.sum(|seat| seat.long) > self.sum(|seat| seat.short)
    }

    pub fn net(&self) -> u64 {
        self.sum(|seat| seat.long)
            .abs_diff(self.sum(|seat| seat.short))
    }

    /// The most that may be offset: counted pending of a customer that is `P`, the whole net position of one in a tier, and
    /// nothing of anybody else.
    pub fn stake(&self, standing: u8) -> u64 {
        match standing {
            b'P' => self.sum(|seat| seat.unfilled).min(self.net()),
            b'1' | b'2' | b'3' => self.net(),
            _ => 0,
        }
    }

    /// The most that may be offset at each seat: its Q where the customer is `P`, what it holds on the net side where it is in a
    /// tier, and else nothing.
    pub fn weights(&self, standing: u8) -> Vec<u64> {
        let is_long = self.is_long();
        let weight = |seat: &Seat| match standing {
            b'P' => seat.unfilled,
            b'1' | b'2' | b'3' if is_long => seat.long,
            b'1' | b'2' | b'3' => seat.short,
            _ => 0,
        };
        self.seats.iter().map(weight).collect()
    }
}

/// The customers of an accepted book, in its order.
pub fn held(book: &[u8]) -> Result<Vec<Held>, String> {
    groups(book)
        .into_iter()
        .map(|group| held_in(&book[group]))
        .collect()
}

/// A group's `C` and its seats, up to its first trade.
pub fn held_in(group: &[u8]) -> Result<Held, String> {
    let head = &group[cut(group).0];
    let parts: Vec<(u8, &[u8])> = (fields(head).iter())
        .map(|field| (head[field.start], &head[value(field)]))
        .collect();
    let [(b'C', code), seats @ ..] = parts.as_slice() else {
        return Err("a group begins with C".to_string());
    };
    Ok(Held {
        code: code.to_vec(),
        seats: seats.chunks(4).map(seat_in).collect::<Result<_, _>>()?,
    })
}

fn seat_in(fields: &[(u8, &[u8])]) -> Result<Seat, String> {
    let [(b'I', code), (b'K', long), (b'H', short), (b'Q', unfilled)] = fields else {
        return Err("a seat is I, K, H and Q".to_string());
    };
    Ok(Seat {
        code: code.to_vec(),
        long: number(long)?,
        short: number(short)?,
        unfilled: number(unfilled)?,
    })
}

/// A report, and the customers of its book.
#[derive(Clone, Debug)]
pub struct Stated {
    pub report: Statement,
    pub book: Vec<Held>,
}

impl Stated {
    /// Reads both, and insists that the report names the book's customers and their seats, each in its place.
    pub fn read(report: &[u8], book: &[u8]) -> Result<Stated, String> {
        let (report, book) = (read(report)?, held(book)?);
        if !(report.lines.iter().map(|line| &line.code)).eq(book.iter().map(|held| &held.code)) {
            return Err("the report's customers are not the book's".to_string());
        }
        let stated = Stated { report, book };
        let same = |(line, held): (&Line, &Held)| {
            let codes = held.seats.iter().map(|seat| &seat.code);
            line.seats.iter().map(|(code, _)| code).eq(codes)
        };
        if stated.customers().all(same) {
            return Ok(stated);
        }
        Err("the report's seats are not the book's".to_string())
    }

    /// 1: the lots offset on the pending side equal those on the gaining side, and each side's are the total.
    pub fn both_sides(&self) -> Result<(), String> {
        let (pending, gaining) = (self.lots(b"P"), self.lots(b"123"));
        let total = self.report.total;
        if pending == gaining && pending == total {
            return Ok(());
        }
        Err(format!(
            "pending side {pending}, gaining side {gaining}, total {total}"
        ))
    }

    /// 1: total and residue together are what the pending side has counted.
    pub fn the_residue(&self) -> Result<(), String> {
        let pending = self.customers().filter(|(line, _)| line.standing == b'P');
        let counted: u64 = pending.map(|(line, held)| held.stake(line.standing)).sum();
        let (total, residue) = (self.report.total, self.report.residue);
        if total + residue == counted {
            return Ok(());
        }
        Err(format!(
            "total {total}, residue {residue}, counted pending {counted}"
        ))
    }

    /// 2: none exceeds its counted pending or its offered position.
    pub fn none_exceeds(&self) -> Result<(), String> {
        match self
            .customers()
            .find(|(line, held)| line.offset > held.stake(line.standing))
        {
            None => Ok(()),
            Some((line, held)) => Err(format!(
                "{} is offset for {} lots and has {}",
                line.code.escape_ascii(),
                line.offset,
                held.stake(line.standing)
            )),
        }
    }

    /// 3: a tier gives a lot only when every earlier tier has given all.
    pub fn tiers_in_turn(&self) -> Result<(), String> {
        let second_after_first = self.lots(b"2") == 0 || self.gave_all(b"1");
        let third_after_both = self.lots(b"3") == 0 || self.gave_all(b"12");
        if second_after_first && third_after_both {
            return Ok(());
        }
        Err(format!(
            "tiers give {:?}",
            [b"1", b"2", b"3"].map(|tier| self.lots(tier))
        ))
    }

    /// 4: residue above 0 remains only when all three tiers have given all.
    pub fn residue_after_all(&self) -> Result<(), String> {
        if self.report.residue == 0 || self.gave_all(b"123") {
            return Ok(());
        }
        Err(format!(
            "residue {}, and a tier has lots left",
            self.report.residue
        ))
    }

    /// 5: each seat's lots never exceed its weight.
    pub fn seats_within(&self) -> Result<(), String> {
        for (line, held) in self.customers() {
            let weights = held.weights(line.standing);
            for ((code, lots), weight) in line.seats.iter().zip(weights) {
                if *lots > weight {
                    return Err(format!(
                        "{} is offset for {lots} lots at {} and has {weight} there",
                        line.code.escape_ascii(),
                        code.escape_ascii()
                    ));
                }
            }
        }
        Ok(())
    }

    /// 5: the lots of a customer's seats add up to its own.
    pub fn seats_add_up(&self) -> Result<(), String> {
        let at_seats = |line: &Line| line.seats.iter().map(|(_, lots)| lots).sum::<u64>();
        match (self.report.lines.iter()).find(|line| at_seats(line) != line.offset) {
            None => Ok(()),
            Some(line) => Err(format!(
                "{} is offset for {} lots, and for {} at its seats",
                line.code.escape_ascii(),
                line.offset,
                at_seats(line)
            )),
        }
    }

    /// 5: a customer that takes no part has 0 lots, and 0 at each seat.
    pub fn seats_of_nobody(&self) -> Result<(), String> {
        let none = |line: &&Line| line.standing == b'N';
        let given = |line: &&Line| line.offset > 0 || line.seats.iter().any(|(_, lots)| *lots > 0);
        match self.report.lines.iter().filter(none).find(given) {
            None => Ok(()),
            Some(line) => Err(format!(
                "{} takes no part and is offset",
                line.code.escape_ascii()
            )),
        }
    }

    fn customers(&self) -> impl Iterator<Item = (&Line, &Held)> {
        self.report.lines.iter().zip(&self.book)
    }

    /// The lots of all customers with one of these standings.
    fn lots(&self, standings: &[u8]) -> u64 {
        let lines = self.report.lines.iter();
        let members = lines.filter(|line| standings.contains(&line.standing));
        members.map(|line| line.offset).sum()
    }

    /// Each customer of these tiers is offset for its whole net position.
    fn gave_all(&self, tiers: &[u8]) -> bool {
        self.customers()
            .filter(|(line, _)| tiers.contains(&line.standing))
            .all(|(line, held)| line.offset == held.net())
    }
}
