//! What several test files need. Books are written here by hand, field by field, and
//! reports are taken apart, without code of the library.

pub mod naive;

/// Terms of document 01's cases: gold edges, S 400.00, locked down. 41 bytes.
pub const GOLD: &str = "DD;X2;S400.00;L8.000;U8.000;V4.000;";
/// The same, locked up.
pub const GOLD_UP: &str = "DU;X2;S400.00;L8.000;U8.000;V4.000;";
/// Silver edges, S 8000 in whole yuan, locked down. 41 bytes.
pub const SILVER: &str = "DD;X0;S8000;L10.000;U10.000;V5.000;";
/// The same, locked up.
pub const SILVER_UP: &str = "DU;X0;S8000;L10.000;U10.000;V5.000;";

/// The day and time that `@` stands for in a trade: one for all, so that the order is the
/// book's. With the two blanks they are 14 bytes.
pub const STAMP: &str = " 20250115 1000";

/// A book from text: fields are parted by semicolons, the first byte is the tag. In a
/// trade `@` stands for [`STAMP`].
pub fn book(text: &str) -> Vec<u8> {
    text.split(';')
        .filter(|part| !part.is_empty())
        .flat_map(|part| {
            let (tag, value) = part.split_at(1);
            let stamp = if "BA".contains(tag) { STAMP } else { "@" };
            field(tag.as_bytes()[0], value.replace('@', stamp).as_bytes())
        })
        .collect()
}

/// One field.
pub fn field(tag: u8, value: &[u8]) -> Vec<u8> {
    let length = value.len() as u16;
    let mut bytes = vec![tag];
    bytes.extend_from_slice(&length.to_be_bytes());
    bytes.extend_from_slice(value);
    bytes
}

/// The listing of a book in text form, as text.
pub fn listed(text: &str) -> String {
    listed_bytes(&book(text))
}

pub fn listed_bytes(book: &[u8]) -> String {
    String::from_utf8(second::listing(book)).expect("a listing is ASCII")
}

/// The fields of bytes that are known to be whole.
pub fn fields(mut bytes: &[u8]) -> Vec<(u8, &[u8])> {
    let mut fields = Vec::new();
    while let [tag, high, low, rest @ ..] = bytes {
        let (value, rest) = rest.split_at(usize::from(*high) * 256 + usize::from(*low));
        fields.push((*tag, value));
        bytes = rest;
    }
    assert!(bytes.is_empty(), "bytes left over");
    fields
}

/// The fields from the front, as far as the bytes can be taken for fields.
pub fn fields_of_front(mut bytes: &[u8]) -> Vec<(u8, &[u8])> {
    let mut fields = Vec::new();
    while let [tag, high, low, rest @ ..] = bytes {
        let length = usize::from(*high) * 256 + usize::from(*low);
        if length > rest.len() {
            break;
        }
        fields.push((*tag, &rest[..length]));
        bytes = &rest[length..];
    }
    fields
}

/// A report taken apart.
#[derive(Clone, Debug, PartialEq, Eq)]
pub struct Report {
    pub total: u64,
    pub residue: u64,
    pub lines: Vec<Line>,
}

/// What a report says of one customer.
#[derive(Clone, Debug, PartialEq, Eq, PartialOrd, Ord)]
pub struct Line {
    pub code: Vec<u8>,
    pub standing: char,
    pub offset: u64,
    /// Codes and lots, in the customer's order.
    pub seats: Vec<(Vec<u8>, u64)>,
}

/// Reads a report and insists on its form.
pub fn report(bytes: &[u8]) -> Report {
    let fields = fields(bytes);
    let [(b'T', total), (b'R', residue), customers @ ..] = fields.as_slice() else {
        panic!("a report begins with T and R");
    };
    let lines = customers
        .chunk_by(|_, (tag, _)| *tag != b'C')
        .map(line)
        .collect();
    Report {
        total: number(total),
        residue: number(residue),
        lines,
    }
}

/// One customer: C, E, O, and I and J for each of one to four seats.
fn line(fields: &[(u8, &[u8])]) -> Line {
    let [(b'C', code), (b'E', [standing]), (b'O', offset), seats @ ..] = fields else {
        panic!("a customer begins with C, E and O");
    };
    assert!(matches!(seats.len(), 2 | 4 | 6 | 8), "one to four seats");
    let seats = seats.chunks(2).map(|seat| match seat {
        [(b'I', code), (b'J', lots)] => (code.to_vec(), number(lots)),
        _ => panic!("a seat is I and J"),
    });
    Line {
        code: code.to_vec(),
        standing: char::from(*standing),
        offset: number(offset),
        seats: seats.collect(),
    }
}

/// A number in plain digits without leading zeros.
fn number(value: &[u8]) -> u64 {
    let text = std::str::from_utf8(value).expect("digits");
    let number: u64 = text.parse().expect("digits");
    assert_eq!(number.to_string(), text, "plain digits");
    number
}

/// The parts of an accepted book: the terms' bytes and each customer's bytes.
pub fn parts(book: &[u8]) -> (Vec<u8>, Vec<Vec<u8>>) {
    let mut terms = Vec::new();
    let mut groups: Vec<Vec<u8>> = Vec::new();
    for (tag, value) in fields(book) {
        match tag {
            b'Z' => break,
            b'C' => groups.push(field(tag, value)),
            _ => groups
                .last_mut()
                .unwrap_or(&mut terms)
                .extend(field(tag, value)),
        }
    }
    (terms, groups)
}

/// Tags and values.
pub type Fields<'a> = [(u8, &'a [u8])];

/// A customer's fields up to its last seat, and its trades.
pub fn cut<'a, 'b>(group: &'a Fields<'b>) -> (&'a Fields<'b>, &'a Fields<'b>) {
    let is_trade = |(tag, _): &(u8, &[u8])| b"BA".contains(tag);
    group.split_at(group.iter().position(is_trade).unwrap_or(group.len()))
}

/// The sum of the figures with this tag.
pub fn sum(group: &[(u8, &[u8])], tag: u8) -> u64 {
    let of_tag = group.iter().filter(|(name, _)| *name == tag);
    of_tag.map(|(_, value)| number(value)).sum()
}

/// The parts put together again, with `Z`.
pub fn join(terms: &[u8], groups: &[Vec<u8>]) -> Vec<u8> {
    [terms, &groups.concat(), b"Z\0\0"].concat()
}

/// Numbers for tests, drawn by xorshift64: not the generator's own.
pub struct Numbers {
    state: u64,
}

impl Numbers {
    pub fn new(seed: u64) -> Self {
        Numbers {
            state: seed.wrapping_mul(0x2545_f491_4f6c_dd1d) | 1,
        }
    }

    /// A number from 0 to `count` - 1.
    pub fn below(&mut self, count: u64) -> u64 {
        self.state ^= self.state << 13;
        self.state ^= self.state >> 7;
        self.state ^= self.state << 17;
        (self.state >> 16) % count
    }

    pub fn shuffle<T>(&mut self, items: &mut [T]) {
        for last in (1..items.len()).rev() {
            items.swap(last, self.below(last as u64 + 1) as usize);
        }
    }
}
