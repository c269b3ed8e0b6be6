//! The books that are timed. Each is made from a fixed formula, so that two runs time the same bytes.

/// A book and the name it has in the tables.
#[derive(Clone)]
pub struct Book {
    pub name: &'static str,
    pub bytes: Vec<u8>,
}

/// An opening trade: its tag, price in fen or yuan and lots, and how many minutes after the first minute of the first trading day.
#[derive(Clone, Copy)]
struct Trade {
    side: u8,
    price: u64,
    lots: u64,
    minute: u64,
}

/// In which order the trades of a customer stand.
#[derive(Clone, Copy)]
enum Order {
    InTime,
    /// By day and then by the clock: the night after the day.
    ByClock,
    NewestFirst,
    Shuffled,
}

/// What a customer's trades make of it.
#[derive(Clone, Copy)]
enum Kind {
    Pending,
    /// Pending with a hundred times the lots of others.
    LargePending,
    Tier(u64),
    /// On the locked side, with a loss below the edge.
    SmallLoss,
    /// On the other side, without a gain.
    NoGain,
    /// As much held long as short.
    Flat,
}

/// Whose prices and edges a book has.
#[derive(Clone, Copy)]
enum Metal {
    /// Prices in fen, X 2.
    Gold,
    /// Prices in whole yuan, X 0.
    Silver,
}

/// Customers of one shape: how many, how many bytes in all (with one seat for each; further ones come on top), the kind of each, how
/// many different lots its trades have, and how many seats.
struct Shape {
    metal: Metal,
    customers: u64,
    bytes: u64,
    kind: fn(u64) -> Kind,
    lots: u64,
    order: Order,
    seats: u64,
}

/// S 400.00 with gold's edges, locked at the lower limit.
const TERMS: [(u8, &str); 6] = [
    (b'D', "D"),
    (b'X', "2"),
    (b'S', "400.00"),
    (b'L', "8.000"),
    (b'U', "8.000"),
    (b'V', "4.000"),
];
/// S 8000 with silver's edges, locked at the lower limit.
const SILVER_TERMS: [(u8, &str); 6] = [
    (b'D', "D"),
    (b'X', "0"),
    (b'S', "8000"),
    (b'L', "10.000"),
    (b'U', "10.000"),
    (b'V', "5.000"),
];
const LONGEST: u64 = 60_000;
const LETTERS: &[u8; 36] = b"0123456789ABCDEFGHIJKLMNOPQRSTUVWXYZ";

/// All books of the tables of times, stack and instructions.
pub fn all() -> Vec<Book> {
    vec![
        named("small", listing()),
        named("small, one customer", one_trade()),
        named("typical", typical(Order::InTime)),
        named("typical, by clock", typical(Order::ByClock)),
        named("typical, shuffled", typical(Order::Shuffled)),
        named("typical, silver", typical_silver()),
        named("typical, four seats", typical_of(Order::InTime, 4)),
        named("dense", dense(Order::InTime)),
        named("dense, shuffled", dense(Order::Shuffled)),
        named("one tier", one_tier(Order::InTime)),
        named("one tier, shuffled", one_tier(Order::Shuffled)),
        named("one customer", one_customer(1, Order::InTime)),
        named("all count, shuffled", one_customer(1, Order::Shuffled)),
        named("one customer, half old", one_customer(2, Order::InTime)),
        named("half old, shuffled", one_customer(2, Order::Shuffled)),
        named("half old, reversed", one_customer(2, Order::NewestFirst)),
        named("most trades", most_trades(Order::InTime)),
        named("most trades, shuffled", most_trades(Order::Shuffled)),
        named("most trades, reversed", most_trades(Order::NewestFirst)),
        named("128 trades each, shuffled", full_stores(Order::Shuffled)),
        named("128 trades each, reversed", full_stores(Order::NewestFirst)),
        named("refused at the last byte", refused()),
    ]
}

/// Books of the typical shape, 234 bytes a customer, that differ in size alone.
pub fn growing() -> Vec<Book> {
    let sizes = [
        ("6 KB", 6_000),
        ("12 KB", 12_000),
        ("24 KB", 24_000),
        ("48 KB", 48_000),
        ("60 KB", 59_900),
    ];
    let book = |(name, bytes)| {
        named(
            name,
            shaped(&Shape {
                metal: Metal::Gold,
                customers: bytes / 234,
                bytes,
                kind: typical_kind,
                lots: 30,
                order: Order::InTime,
                seats: 1,
            }),
        )
    };
    sizes.into_iter().map(book).collect()
}

/// Books of one customer whose trades are shuffled, half of its lots old, that differ in size alone.
pub fn growing_shuffled() -> Vec<Book> {
    let names = [
        "shuffled, 6 KB",
        "shuffled, 12 KB",
        "shuffled, 24 KB",
        "shuffled, 48 KB",
        "shuffled, 60 KB",
    ];
    growing_customer(names, Order::Shuffled)
}

/// The same with the newest trade first.
pub fn growing_reversed() -> Vec<Book> {
    let names = [
        "reversed, 6 KB",
        "reversed, 12 KB",
        "reversed, 24 KB",
        "reversed, 48 KB",
        "reversed, 60 KB",
    ];
    growing_customer(names, Order::NewestFirst)
}

fn growing_customer(names: [&'static str; 5], order: Order) -> Vec<Book> {
    let sizes = [6_000, 12_000, 24_000, 48_000, LONGEST];
    let book = |(name, bytes)| named(name, one_customer_of(bytes, 2, order));
    names.into_iter().zip(sizes).map(book).collect()
}

fn named(name: &'static str, bytes: Vec<u8>) -> Book {
    Book { name, bytes }
}

/// Document 01's listing: its trades have one day and time.
fn listing() -> Vec<u8> {
    let mut book = terms();
    let [w3, p2, w1] = [sold(41_000, 1), bought(44_000, 4), sold(44_000, 3)];
    let [p1, other, w2] = [bought(44_000, 8), sold(44_000, 2), sold(42_000, 5)];
    put_customer(&mut book, "W3", [0, 1, 0], &[w3]);
    put_customer(&mut book, "P2", [4, 0, 4], &[p2]);
    put_customer(&mut book, "W1", [0, 3, 0], &[w1]);
    put_customer(&mut book, "P1", [8, 2, 6], &[p1, other]);
    put_customer(&mut book, "W2", [0, 5, 0], &[w2]);
    closed(book)
}

/// One customer with one trade, who is pending: the least that a call can be asked to work out.
fn one_trade() -> Vec<u8> {
    let mut book = terms();
    put_customer(&mut book, "P1", [4, 0, 4], &[bought(44_000, 4)]);
    closed(book)
}

/// At 10:00 of 2025-01-15, as in examples/listing.book.
fn bought(price: u64, lots: u64) -> Trade {
    Trade {
        side: b'B',
        price,
        lots,
        minute: (15 * 336 + 14) * 1_440 + 850,
    }
}

fn sold(price: u64, lots: u64) -> Trade {
    Trade {
        side: b'A',
        ..bought(price, lots)
    }
}

fn typical(order: Order) -> Vec<u8> {
    typical_of(order, 1)
}

/// The typical book with so many seats for each customer: the same customers, positions and trades.
fn typical_of(order: Order, seats: u64) -> Vec<u8> {
    shaped(&Shape {
        metal: Metal::Gold,
        customers: 256,
        bytes: 40_000,
        kind: typical_kind,
        lots: 30,
        order,
        seats,
    })
}

/// The typical book of silver: as many bytes, prices in whole yuan.
fn typical_silver() -> Vec<u8> {
    shaped(&Shape {
        metal: Metal::Silver,
        customers: 256,
        bytes: 40_000,
        kind: typical_kind,
        lots: 30,
        order: Order::InTime,
        seats: 1,
    })
}

/// Every customer pending or in a tier. Trades of the same lots make equal weights, and so equal remainders.
fn dense(order: Order) -> Vec<u8> {
    shaped(&Shape {
        metal: Metal::Gold,
        customers: 256,
        bytes: 59_900,
        kind: dense_kind,
        lots: 1,
        order,
        seats: 1,
    })
}

/// 255 customers in tier 1, against one who is pending.
fn one_tier(order: Order) -> Vec<u8> {
    shaped(&Shape {
        metal: Metal::Gold,
        customers: 256,
        bytes: 30_000,
        kind: |who| match who {
            128 => Kind::LargePending,
            _ => Kind::Tier(1),
        },
        lots: 4,
        order,
        seats: 1,
    })
}

/// One customer whose trades fill the book to its last byte. One lot in `part` is held; the others are old and do not count.
fn one_customer(part: u64, order: Order) -> Vec<u8> {
    one_customer_of(LONGEST, part, order)
}

/// The same of a book of about so many bytes.
fn one_customer_of(bytes: u64, part: u64, order: Order) -> Vec<u8> {
    let head = terms().len() as u64 + 3 * 5 + 8 + 2 + 6 + 1 + 6;
    let room = bytes - head - 3;
    // A trade of 3 digits of lots takes 27 bytes; those of 4 digits take up what is left.
    let (count, long) = (room / 27, room % 27);
    let mut trades: Vec<_> = (0..count)
        .map(|n| Trade {
            side: b'B',
            price: 43_300 + mixed(n) % 2_000,
            lots: if n < long {
                1_000
            } else {
                100 + mixed(n) % 100
            },
            minute: minute(n),
        })
        .collect();
    let net = trades.iter().map(|trade| trade.lots).sum::<u64>() / part;
    put_in_order(order, &mut trades, 0);
    let mut book = terms();
    put_customer(&mut book, "GOLD0001", [net, 0, net], &trades);
    closed(book)
}

/// One customer with as many trades as a book can have: the shortest, of 23 bytes, and S is 4.00. Half of its lots are
/// old and do not count.
fn most_trades(order: Order) -> Vec<u8> {
    let mut book = Vec::new();
    for (tag, value) in TERMS {
        put(&mut book, tag, if tag == b'S' { "4.00" } else { value });
    }
    // Code, seat, K, H and Q take up to 31 bytes, and Z takes 3.
    let count = (LONGEST - book.len() as u64 - 31 - 3) / 23;
    let mut trades: Vec<_> = (0..count)
        .map(|n| Trade {
            side: b'B',
            price: 433 + mixed(n) % 200,
            lots: 1 + mixed(n) % 9,
            minute: minute(n),
        })
        .collect();
    let net = trades.iter().map(|trade| trade.lots).sum::<u64>() / 2;
    put_in_order(order, &mut trades, 0);
    put_customer(&mut book, "GOLD", [net, 0, net], &trades);
    closed(book)
}

/// Customers with as many trades on the net side as the product stores, and as many customers as fit with trades of 27
/// bytes. Half of the lots are old and do not count.
fn full_stores(order: Order) -> Vec<u8> {
    let mut book = terms();
    for who in 0..17 {
        let kind = dense_kind(who);
        let mut trades: Vec<_> = (0..128)
            .map(|n| Trade {
                // Three digits.
                lots: 100 + mixed(1_000 * who + n) % 900,
                minute: minute(n),
                ..trade(Metal::Gold, kind, mixed(1_000 * who + n), 1)
            })
            .collect();
        put_in_order(order, &mut trades, who);
        let held = trades.iter().map(|trade| trade.lots).sum::<u64>() / 2;
        put_customer(&mut book, &code(who), position(kind, held, who), &trades);
    }
    closed(book)
}

/// The minute of a customer's n-th trade, some of them equal: about 40 trades a trading day.
fn minute(n: u64) -> u64 {
    36 * n + mixed(n) % 37
}

/// Puts a customer's trades, which are oldest first, in another order.
fn put_in_order(order: Order, trades: &mut [Trade], who: u64) {
    match order {
        Order::InTime => (),
        Order::ByClock => trades.sort_by_key(|trade| stamp(trade.minute)),
        Order::NewestFirst => trades.reverse(),
        Order::Shuffled => {
            for last in (1..trades.len()).rev() {
                let drawn = mixed(3_000 * who + last as u64);
                trades.swap(last, drawn as usize % (last + 1));
            }
        }
    }
}

/// The typical book with one byte after its `Z`.
fn refused() -> Vec<u8> {
    let mut book = typical(Order::InTime);
    book.push(b'Z');
    book
}

/// Four in ten take no part.
fn typical_kind(who: u64) -> Kind {
    match mixed(who) % 20 {
        0..=4 => Kind::Pending,
        5..=6 => Kind::Tier(1),
        7..=8 => Kind::Tier(2),
        9..=11 => Kind::Tier(3),
        12..=15 => Kind::SmallLoss,
        16..=18 => Kind::NoGain,
        _ => Kind::Flat,
    }
}

/// Half are pending and a sixth in each tier, so that all three tiers work.
fn dense_kind(who: u64) -> Kind {
    match who % 6 {
        0 | 2 | 4 => Kind::Pending,
        1 => Kind::Tier(1),
        3 => Kind::Tier(2),
        _ => Kind::Tier(3),
    }
}

fn shaped(shape: &Shape) -> Vec<u8> {
    let mut book = terms_of(shape.metal);
    let start = book.len() as u64;
    // What the further seats have taken so far.
    let mut further = 0;
    for who in 0..shape.customers {
        // Each customer has trades up to its part of the bytes; the last leaves room for Z.
        let end = start + (shape.bytes - start - 3) * (who + 1) / shape.customers;
        further += put_shaped(&mut book, shape, who, end + further);
    }
    closed(book)
}

/// One customer of a shape, with trades as long as the book stays within `end`, but for its further seats. Answers what these take.
fn put_shaped(book: &mut Vec<u8>, shape: &Shape, who: u64, end: u64) -> u64 {
    let kind = (shape.kind)(who);
    let bytes = end.saturating_sub(book.len() as u64 + 3 * 5 + 12 + 2 + 8);
    let mut trades: Vec<_> = (0..(bytes / shape.metal.trade_bytes()).max(2))
        .map(|n| Trade {
            // A trade every three or four hours: by the clock most customers have a night after a day.
            minute: 8_000 * who + 217 * n + mixed(n) % 60,
            ..trade(shape.metal, kind, mixed(1_000 * who + n), shape.lots)
        })
        .collect();
    put_in_order(shape.order, &mut trades, who);
    let opened: u64 = trades.iter().map(|trade| trade.lots).sum();
    // Some of the oldest lots are closed again, a different number for each.
    let held = opened - mixed(who) % opened.min(9);
    let held = position(kind, held, who);
    let (code, before) = (code(who), book.len());
    put_customer_of(shape.metal, book, &code, &split(held, 1), &trades);
    let alone = book.len() - before;
    book.truncate(before);
    put_customer_of(shape.metal, book, &code, &split(held, shape.seats), &trades);
    (book.len() - before - alone) as u64
}

/// K, H and Q divided over so many seats, as evenly as whole lots allow.
fn split(held: [u64; 3], seats: u64) -> Vec<[u64; 3]> {
    let part = |seat: u64| held.map(|lots| lots / seats + u64::from(seat < lots % seats));
    (0..seats).map(part).collect()
}

impl Metal {
    /// What a trade with two digits of lots takes: `433.00 12` and `8830 12` with the rest.
    fn trade_bytes(self) -> u64 {
        match self {
            Metal::Gold => 27,
            Metal::Silver => 24,
        }
    }

    /// A price in fen as it is written, or one in yuan.
    fn written(self, price: u64) -> String {
        match self {
            Metal::Gold => format!("{}.{:02}", price / 100, price % 100),
            Metal::Silver => price.to_string(),
        }
    }

    /// The prices that leave no doubt of a customer's kind: the lowest, and how many.
    fn prices(self, kind: Kind) -> (u64, u64) {
        match (self, kind) {
            (Metal::Gold, Kind::SmallLoss) => (40_100, 2_000),
            (Metal::Gold, Kind::Tier(2)) => (41_700, 1_400),
            (Metal::Gold, Kind::Tier(3)) => (40_100, 1_400),
            (Metal::Gold, Kind::NoGain) => (38_000, 1_900),
            (Metal::Gold, _) => (43_300, 2_000),
            (Metal::Silver, Kind::SmallLoss) => (8_020, 400),
            (Metal::Silver, Kind::Tier(2)) => (8_420, 360),
            (Metal::Silver, Kind::Tier(3)) => (8_020, 360),
            (Metal::Silver, Kind::NoGain) => (7_600, 380),
            (Metal::Silver, _) => (8_830, 400),
        }
    }
}

/// A trade that leaves no doubt of the customer's kind, in the first minute.
fn trade(metal: Metal, kind: Kind, n: u64, lots: u64) -> Trade {
    let side = match kind {
        Kind::Pending | Kind::LargePending | Kind::Flat | Kind::SmallLoss => b'B',
        Kind::Tier(_) | Kind::NoGain => b'A',
    };
    let (lowest, many) = metal.prices(kind);
    let price = lowest + n % many;
    let size = match kind {
        Kind::LargePending => 100,
        _ => 1,
    };
    Trade {
        side,
        price,
        lots: size * (5 + (n >> 20) % lots),
        minute: 0,
    }
}

/// K, H and Q.
fn position(kind: Kind, held: u64, who: u64) -> [u64; 3] {
    match kind {
        Kind::Pending | Kind::LargePending => [held, 0, held - mixed(who) % held.min(5)],
        Kind::SmallLoss => [held, 0, held],
        Kind::Flat => [held, held, 0],
        Kind::Tier(_) | Kind::NoGain => [0, held, 0],
    }
}

/// A code of 8 to 12 bytes; its last two tell customers apart.
fn code(who: u64) -> String {
    let mut code = String::new();
    let front = 6 + who % 5;
    for n in 0..front {
        code.push(letter(mixed(7_000 * who + n)));
    }
    code.push(letter(who / 36));
    code.push(letter(who));
    code
}

fn letter(n: u64) -> char {
    char::from(LETTERS[(n % 36) as usize])
}

/// A number from a number, spread evenly: the formula that stands for chance.
fn mixed(n: u64) -> u64 {
    let product = (n + 1).wrapping_mul(0x9e37_79b9_7f4a_7c15);
    (product ^ (product >> 29)).wrapping_mul(0xbf58_476d_1ce4_e5b9) >> 16
}

fn terms() -> Vec<u8> {
    terms_of(Metal::Gold)
}

fn terms_of(metal: Metal) -> Vec<u8> {
    let mut book = Vec::new();
    let terms = match metal {
        Metal::Gold => TERMS,
        Metal::Silver => SILVER_TERMS,
    };
    for (tag, value) in terms {
        put(&mut book, tag, value);
    }
    book
}

/// A customer of gold with one seat.
fn put_customer(book: &mut Vec<u8>, code: &str, held: [u64; 3], trades: &[Trade]) {
    put_customer_of(Metal::Gold, book, code, &[held], trades);
}

fn put_customer_of(
    metal: Metal,
    book: &mut Vec<u8>,
    code: &str,
    seats: &[[u64; 3]],
    trades: &[Trade],
) {
    put(book, b'C', code);
    // The seat with the largest code first: equal remainders go to the last.
    for (nth, held) in seats.iter().enumerate() {
        put(book, b'I', &format!("M{}", seats.len() - nth));
        put(book, b'K', &held[0].to_string());
        put(book, b'H', &held[1].to_string());
        put(book, b'Q', &held[2].to_string());
    }
    for trade in trades {
        let price = metal.written(trade.price);
        let (day, time) = stamp(trade.minute);
        let value = format!("{price} {} {day:08} {time:04}", trade.lots);
        put(book, trade.side, &value);
    }
}

/// The trading day and the time of a minute counted from the first minute, 19:50, of 2010-01-01 on. Months have 28 days here,
/// and years 336, so that all of them are days of the calendar.
fn stamp(minute: u64) -> (u64, u64) {
    let (days, since) = (minute / 1_440, minute % 1_440);
    let (year, month, day) = (2010 + days / 336, 1 + days / 28 % 12, 1 + days % 28);
    let clock = (19 * 60 + 50 + since) % 1_440;
    (
        10_000 * year + 100 * month + day,
        100 * (clock / 60) + clock % 60,
    )
}

fn closed(mut book: Vec<u8>) -> Vec<u8> {
    put(&mut book, b'Z', "");
    book
}

fn put(book: &mut Vec<u8>, tag: u8, value: &str) {
    book.push(tag);
    book.extend_from_slice(&(value.len() as u16).to_be_bytes());
    book.extend_from_slice(value.as_bytes());
}
