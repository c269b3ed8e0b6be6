//! The book read from the front by recursive descent: a book is terms, customer
//! groups and `Z`; a group is `C`, one to four seats and trades; a seat is `I`, `K`, `H` and `Q`.
//!
//! Document 01: "fields are judged from the front, and the first that breaks a rule
//! decides. For one field: 2, 3, then (at `C` or `Z` after a customer) 9 for that
//! customer, then 10, 4, 5, then 6 at V, 7 at C, 8 at Q." Here a group is read up to
//! its closing field, which is handed back once it has passed 2 and 3 and the
//! customer has passed 9; only then is the closing field itself judged further.
//! In the same way the seats hand back the field that ends them.

use std::ops::Range;

use crate::code::{code, Codes};
use crate::cursor::{Cursor, Field};
use crate::figures::{self, Trade};
use crate::gain::{total_gain, Net};
use crate::refusal::{Refusal, Rule};
use crate::standing::{standing, Standing};
use crate::terms::{terms, Terms};
use crate::units::{Lots, Side};

/// Document 01, Refusal numbers: 1.
pub const MOST_BYTES: usize = 60_000;
/// Document 01, Refusal numbers: 10.
pub const MOST_CUSTOMERS: usize = 256;
/// Request [5]: "1 to 4 seats".
pub const MOST_SEATS: usize = 4;
/// The bytes of a customer with two or three trades. It is a guess that spares most
/// books the growing of their tables; nothing else depends on it.
const USUAL_GROUP: usize = 110;

/// A customer as the cascade needs it.
#[derive(Clone, Debug, PartialEq, Eq)]
pub struct Customer<'a> {
    pub code: &'a [u8],
    pub standing: Standing,
    /// Counted pending lots of a P customer, offered lots of a tier customer, else 0.
    pub stake: Lots,
    /// Lots offset; 0 until the cascade has run.
    pub offset: u64,
    /// Which of the book's seats are its own.
    pub seats: Range<usize>,
}

/// One seat of a customer.
#[derive(Clone, Copy, Debug, PartialEq, Eq)]
pub struct Seat<'a> {
    pub code: &'a [u8],
    /// What its customer's offset is divided by: Q of a P customer, the lots held on the net side of a tier customer,
    /// else 0.
    pub weight: u64,
    /// Lots offset here; 0 until the cascade has run.
    pub lots: u64,
    held: Held,
}

/// What K, H and Q say: of one seat, or summed up.
#[derive(Clone, Copy, Debug, Default, PartialEq, Eq)]
struct Held {
    long: u32,
    short: u32,
    unfilled: u32,
}

/// A book read.
#[derive(Clone, Debug, PartialEq, Eq)]
pub struct Read<'a> {
    /// In book order.
    pub customers: Vec<Customer<'a>>,
    /// Of all customers, in book order.
    pub seats: Vec<Seat<'a>>,
}

struct Reader<'a> {
    cursor: Cursor<'a>,
    terms: Terms,
    codes: Codes<'a>,
    customers: Vec<Customer<'a>>,
    seats: Vec<Seat<'a>>,
    /// The trades of one customer on its net side; the room is used again for the next.
    trades: Vec<Trade>,
}

/// The customers and seats of a book, or its refusal (all but 11).
pub fn read(book: &[u8]) -> Result<Read<'_>, Refusal> {
    if book.len() > MOST_BYTES {
        return Err(Refusal {
            rule: Rule::BookTooLong,
            place: 0,
        });
    }
    let mut cursor = Cursor::new(book);
    let terms = terms(&mut cursor)?;
    let customers = (book.len() / USUAL_GROUP).min(MOST_CUSTOMERS);
    let mut reader = Reader {
        cursor,
        terms,
        codes: Codes::with_capacity_and_hasher(customers, Default::default()),
        customers: Vec::with_capacity(customers),
        seats: Vec::with_capacity(customers),
        trades: Vec::new(),
    };
    reader.groups()?;
    Ok(Read {
        customers: reader.customers,
        seats: reader.seats,
    })
}

impl Held {
    fn add(&mut self, seat: Held) {
        self.long += seat.long;
        self.short += seat.short;
        self.unfilled += seat.unfilled;
    }

    /// The net position, if there is one.
    fn net(self) -> Option<Net> {
        Net::of(Lots(self.long), Lots(self.short))
    }

    /// Request [5]: "by Q for a P customer and by lots held on the net side for a tier customer".
    fn weight(self, standing: Standing, side: Side) -> u64 {
        let lots = match (standing, side) {
            (Standing::Neither, _) => 0,
            (Standing::Pending, _) => self.unfilled,
            (_, Side::Long) => self.long,
            (_, Side::Short) => self.short,
        };
        lots.into()
    }
}

impl<'a> Reader<'a> {
    /// 0 to 256 groups, then `Z`.
    fn groups(&mut self) -> Result<(), Refusal> {
        let mut opening = self.cursor.field()?;
        loop {
            match opening.tag {
                b'C' => opening = self.group(&opening)?,
                b'Z' => return self.close(&opening),
                _ => return Err(opening.refuse(Rule::WrongTag)),
            }
        }
    }

    /// `Z` has length 0 (another is 5), and then nothing follows.
    fn close(&self, z: &Field) -> Result<(), Refusal> {
        if !z.value.is_empty() {
            return Err(z.refuse(Rule::Form));
        }
        self.cursor.end()
    }

    /// One customer from its `C`. Answers the closing field.
    fn group(&mut self, c: &Field<'a>) -> Result<Field<'a>, Refusal> {
        let code = self.new_code(c)?;
        let first = self.seats.len();
        let (held, after) = self.seats()?;
        let net = held.net();
        let closing = self.trades(after, net.map(|net| net.side))?;
        let (standing, stake) = match net {
            None => (Standing::Neither, Lots(0)),
            Some(net) => {
                let total = total_gain(&self.trades, net, self.terms.settlement)
                    .ok_or(c.refuse(Rule::TradesShort))?;
                standing(&self.terms, net, total, Lots(held.unfilled))
            }
        };
        let seats = first..self.seats.len();
        if let Some(net) = net {
            for seat in &mut self.seats[seats.clone()] {
                seat.weight = seat.held.weight(standing, net.side);
            }
        }
        self.customers.push(Customer {
            code,
            standing,
            stake,
            offset: 0,
            seats,
        });
        Ok(closing)
    }

    /// The code of a further customer: 10, then 5, then 7.
    fn new_code(&mut self, c: &Field<'a>) -> Result<&'a [u8], Refusal> {
        if self.customers.len() == MOST_CUSTOMERS {
            return Err(c.refuse(Rule::TooManyCustomers));
        }
        let code = code(c)?;
        if !self.codes.insert(code) {
            return Err(c.refuse(Rule::CodeTwice));
        }
        Ok(code)
    }

    /// One to four seats. Answers what they hold together, and the field after them.
    fn seats(&mut self) -> Result<(Held, Field<'a>), Refusal> {
        let mut together = Held::default();
        let first = self.seats.len();
        let mut opening = self.cursor.expect(b'I')?;
        loop {
            let seat = self.seat(&opening, first)?;
            together.add(seat.held);
            self.seats.push(seat);
            opening = self.cursor.field()?;
            if opening.tag != b'I' {
                return Ok((together, opening));
            }
            if self.seats.len() - first == MOST_SEATS {
                return Err(opening.refuse(Rule::WrongTag));
            }
        }
    }

    /// A seat from its `I`: 5, then 13 against this customer's own seats, then `K`, `H` and `Q`.
    fn seat(&mut self, i: &Field<'a>, first: usize) -> Result<Seat<'a>, Refusal> {
        let code = code(i)?;
        if self.seats[first..].iter().any(|seat| seat.code == code) {
            return Err(i.refuse(Rule::SeatTwice));
        }
        Ok(Seat {
            code,
            weight: 0,
            lots: 0,
            held: self.held()?,
        })
    }

    fn held(&mut self) -> Result<Held, Refusal> {
        let long = figures::held(&self.cursor.expect(b'K')?)?;
        let short = figures::held(&self.cursor.expect(b'H')?)?;
        let q = self.cursor.expect(b'Q')?;
        let unfilled = figures::held(&q)?;
        // Document 01, Refusal numbers: 8, by request [5] for each seat. The close-out orders are on the locked side.
        if unfilled > self.terms.locked_of(long, short) {
            return Err(q.refuse(Rule::PendingOverHeld));
        }
        Ok(Held {
            long: long.0,
            short: short.0,
            unfilled: unfilled.0,
        })
    }

    /// Trades from the field after the seats up to the closing `C` or `Z`, which is handed back. Those on the net
    /// side are kept, oldest first; the others are judged all the same.
    fn trades(&mut self, after: Field<'a>, net_side: Option<Side>) -> Result<Field<'a>, Refusal> {
        let closing = self.trades_as_written(after, net_side)?;
        // A stable sort: of equal stamps the later place in the book stays the newer.
        self.trades.sort_by_key(|trade| trade.stamp);
        Ok(closing)
    }

    /// The same with the kept trades in the order of the book.
    fn trades_as_written(
        &mut self,
        after: Field<'a>,
        net_side: Option<Side>,
    ) -> Result<Field<'a>, Refusal> {
        self.trades.clear();
        let mut field = after;
        loop {
            let side = match field.tag {
                b'B' => Side::Long,
                b'A' => Side::Short,
                b'C' | b'Z' => return Ok(field),
                _ => return Err(field.refuse(Rule::WrongTag)),
            };
            let trade = figures::trade(&field, self.terms.decimals)?;
            // Request [4]: 12, "after 4 and 5 for that field", whoever's trade it is and whether it counts or not.
            if !self.terms.is_near(trade.price) {
                return Err(field.refuse(Rule::PriceFar));
            }
            if net_side == Some(side) {
                self.trades.push(trade);
            }
            field = self.cursor.field()?;
        }
    }
}
