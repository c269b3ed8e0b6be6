//! Damages to a book's bytes.
#![allow(
    clippy::ptr_arg,
    reason = "all damages have one type, so that they stand in one table"
)]

use std::ops::Range;

use super::rng::Rng;

/// All tags of a book and some that are none.
const TAGS: &[u8] = b"DSLUVCKHQBAZXITREOJcizb \0\xff";

/// Values at the ends of a form and just outside it; some break 4 and 5 at once.
const VALUES: &[&[u8]] = &[
    b"",
    b"0",
    b"00",
    b"07",
    b"+5",
    b"-1",
    b".50",
    b"5.",
    b"1000000",
    b"1000001",
    b"9999999",
    b"10000000",
    b"0.00",
    b"0.01",
    b"00.01",
    b"0.1",
    b"0.001",
    b"99999.99",
    b"100000.00",
    b"0.000",
    b"8.00",
    b"8.000",
    b"8.0000",
    b"99.999",
    b"100.000",
    b"08.000",
    b"8,000",
    b",",
    b"07,",
    b"400,00 1 20250115 1000",
    b"400.00 1,000 20250115 1000",
    b"400.00 1 20250115,1000",
    b"400.00 0 20250115 1000",
    b"400.00 1 20250115 1000",
    b"400.00  1 20250115 1000",
    b"400.00\t1 20250115 1000",
    b"400.00 01 20250115 1000",
    b"400.00 ",
    b" 400.00 1 20250115 1000",
    b"400.00 1 20250115 1000 ",
    b"400.00 1 20250115 1000\n",
    b"400.00 1000000 20250115 1000",
    b"400.00 1000001 20250115 1000",
    b"400.00",
    b"400.00 1",
    b"400,00 1",
    b"0.00 1 20250115 1000",
    b"99999.99 1 20250115 1000",
    b"20250115 1000",
    b"1",
    b"2",
    b"400",
    b"8000",
    b"8,000",
    b"8000 1 20250115 1000",
    b"8,000 1 20250115 1000",
    b"08000 1 20250115 1000",
    b"8000. 1 20250115 1000",
    b"0 1 20250115 1000",
    b"9999999 1 20250115 1000",
    b"10000000 1 20250115 1000",
    b"D",
    b"U",
    b"d",
    b"DD",
    b"A",
    b"ABCDEFGHIJKL",
    b"ABCDEFGHIJKLM",
];

/// Any byte changed to any other value, or to one that means something elsewhere.
pub fn byte_changed(rng: &mut Rng, bytes: &mut Vec<u8>) {
    if !bytes.is_empty() {
        let place = rng.place(bytes.len());
        bytes[place] = if rng.one_in(2) {
            rng.draw() as u8
        } else {
            rng.pick(b",.09 AZCB\0\x01\xff")
        };
    }
}

/// A length one off, or any.
pub fn length_changed(rng: &mut Rng, bytes: &mut Vec<u8>) {
    if let Some(field) = any_field(rng, bytes) {
        let length = (field.len() - 3) as u16;
        let any = rng.draw() as u16;
        let other = rng.pick(&[
            length.wrapping_sub(1),
            length.wrapping_add(1),
            any & 0xff,
            any,
        ]);
        bytes[field.start + 1..field.start + 3].copy_from_slice(&other.to_be_bytes());
    }
}

pub fn field_dropped(rng: &mut Rng, bytes: &mut Vec<u8>) {
    if let Some(field) = any_field(rng, bytes) {
        bytes.drain(field);
    }
}

/// The same field twice in a row.
pub fn field_doubled(rng: &mut Rng, bytes: &mut Vec<u8>) {
    if let Some(field) = any_field(rng, bytes) {
        let copy = bytes[field.clone()].to_vec();
        bytes.splice(field.end..field.end, copy);
    }
}

/// A field and any later one, half the time its neighbour, change places.
pub fn fields_swapped(rng: &mut Rng, bytes: &mut Vec<u8>) {
    let fields = fields(bytes);
    if fields.len() < 2 {
        return;
    }
    let first = rng.place(fields.len() - 1);
    let reach = if rng.one_in(2) {
        1
    } else {
        fields.len() - 1 - first
    };
    let later = first + 1 + rng.place(reach);
    let (one, other) = (fields[first].clone(), fields[later].clone());
    let mut swapped = bytes[other.clone()].to_vec();
    swapped.extend_from_slice(&bytes[one.end..other.start]);
    swapped.extend_from_slice(&bytes[one.clone()]);
    bytes.splice(one.start..other.end, swapped);
}

pub fn tag_changed(rng: &mut Rng, bytes: &mut Vec<u8>) {
    if let Some(field) = any_field(rng, bytes) {
        bytes[field.start] = rng.pick(TAGS);
    }
}

/// A comma in place of a point, as some sheets write figures.
pub fn point_to_comma(rng: &mut Rng, bytes: &mut Vec<u8>) {
    let point = |field: &Range<usize>| bytes[field.clone()].iter().skip(3).position(|&b| b == b'.');
    let points: Vec<usize> = fields(bytes)
        .iter()
        .filter_map(|field| Some(field.start + 3 + point(field)?))
        .collect();
    if !points.is_empty() {
        bytes[rng.pick(&points)] = b',';
    }
}

/// A comma put into any value, D, X, C, I and Z too, in place of a byte or between two.
pub fn comma_in_value(rng: &mut Rng, bytes: &mut Vec<u8>) {
    change_value(rng, bytes, |rng, value| {
        let place = rng.place(value.len() + 1);
        if place < value.len() && rng.one_in(2) {
            value[place] = b',';
        } else {
            value.insert(place, b',');
        }
    });
}

/// A value from the list, or rarely a long one: a length of 44 bytes or of 44 x 256
/// has a length byte that looks like a comma.
pub fn value_replaced(rng: &mut Rng, bytes: &mut Vec<u8>) {
    change_value(rng, bytes, |rng, value| {
        let long = rng.weighted(&[(300, 0), (20, 44), (1, 44 * 256)]);
        if long == 0 {
            value.clear();
            value.extend_from_slice(rng.pick(VALUES));
        } else {
            value.resize(long, b'1');
        }
    });
}

/// A byte more, with the length bytes right.
pub fn value_lengthened(rng: &mut Rng, bytes: &mut Vec<u8>) {
    change_value(rng, bytes, |rng, value| {
        let place = rng.place(value.len() + 1);
        value.insert(place, rng.pick(b"0019.. +A\n"));
    });
}

/// A byte less, with the length bytes right.
pub fn value_shortened(rng: &mut Rng, bytes: &mut Vec<u8>) {
    change_value(rng, bytes, |rng, value| {
        if !value.is_empty() {
            value.remove(rng.place(value.len()));
        }
    });
}

/// A zero before the value, or before the lots of a trade.
pub fn leading_zero(rng: &mut Rng, bytes: &mut Vec<u8>) {
    change_value(rng, bytes, |rng, value| {
        let blank = value.iter().position(|&byte| byte == b' ');
        let lots = blank.map_or(0, |blank| blank + 1);
        value.insert(rng.pick(&[0, lots]), b'0');
    });
}

/// One letter or any byte of a value in the other case.
pub fn wrong_case(rng: &mut Rng, bytes: &mut Vec<u8>) {
    change_value(rng, bytes, |rng, value| {
        if !value.is_empty() {
            let place = rng.place(value.len());
            value[place] ^= 0x20;
        }
    });
}

/// The end of the book is missing, from anywhere.
pub fn cut(rng: &mut Rng, bytes: &mut Vec<u8>) {
    let length = if rng.one_in(3) {
        bytes.len().saturating_sub(1 + rng.place(6))
    } else {
        rng.place(bytes.len() + 1)
    };
    bytes.truncate(length);
}

/// One byte, two, a field or more after `Z`.
pub fn bytes_after_z(rng: &mut Rng, bytes: &mut Vec<u8>) {
    let more: &[u8] = rng.pick(&[
        b"Z".as_slice(),
        b"\0",
        b"\n",
        b"Z\0",
        b"Z\0\0",
        b"C\0\x01A",
        b"more",
    ]);
    bytes.extend_from_slice(more);
}

/// A value in the last field, sometimes with bytes after it: 5 comes before 3. Or the
/// last customer's trades are gone too: 9 comes before 5.
pub fn value_in_z(rng: &mut Rng, bytes: &mut Vec<u8>) {
    let mut fields = fields(bytes);
    if let Some(last) = fields.pop() {
        set_value(bytes, last, rng.pick(&[b"0".as_slice(), b",", b"Z\0\0"]));
        match rng.below(3) {
            0 => bytes_after_z(rng, bytes),
            1 => drop_last_trades(bytes, &fields),
            _ => (),
        }
    }
}

/// Drops the trades at the end of these fields.
fn drop_last_trades(bytes: &mut Vec<u8>, fields: &[Range<usize>]) {
    for field in fields.iter().rev() {
        if !matches!(bytes[field.start], b'A' | b'B') {
            return;
        }
        bytes.drain(field.clone());
    }
}

/// Bytes after `Z` until the book has about 60,001 bytes: 1 comes before all others.
pub fn past_the_most_bytes(rng: &mut Rng, bytes: &mut Vec<u8>) {
    let size = rng.pick(&[60_000, 60_001, 60_002, 66_000]);
    bytes.resize(size.max(bytes.len()), rng.pick(b"Z\0,"));
}

/// The fields from the front, as far as the bytes can be taken for fields.
pub fn fields(bytes: &[u8]) -> Vec<Range<usize>> {
    let mut fields = Vec::new();
    let mut at = 0;
    while at + 3 <= bytes.len() {
        let length = usize::from(bytes[at + 1]) << 8 | usize::from(bytes[at + 2]);
        let end = at + 3 + length;
        if end > bytes.len() {
            break;
        }
        fields.push(at..end);
        at = end;
    }
    fields
}

fn any_field(rng: &mut Rng, bytes: &[u8]) -> Option<Range<usize>> {
    one_of(rng, fields(bytes))
}

/// Any field with one of these tags.
pub fn any_field_of(rng: &mut Rng, bytes: &[u8], tags: &[u8]) -> Option<Range<usize>> {
    let mut fields = fields(bytes);
    fields.retain(|field| tags.contains(&bytes[field.start]));
    one_of(rng, fields)
}

fn one_of(rng: &mut Rng, mut fields: Vec<Range<usize>>) -> Option<Range<usize>> {
    if fields.is_empty() {
        return None;
    }
    Some(fields.swap_remove(rng.place(fields.len())))
}

/// Changes the value of any field and sets its length bytes right.
fn change_value(rng: &mut Rng, bytes: &mut Vec<u8>, change: impl FnOnce(&mut Rng, &mut Vec<u8>)) {
    if let Some(field) = any_field(rng, bytes) {
        let mut value = bytes[field.start + 3..field.end].to_vec();
        change(rng, &mut value);
        set_value(bytes, field, &value);
    }
}

pub fn set_value(bytes: &mut Vec<u8>, field: Range<usize>, value: &[u8]) {
    // Damaged length bytes can make a field of 65,535 bytes: one more can't be told.
    let Ok(length) = u16::try_from(value.len()) else {
        return;
    };
    let after_tag = length
        .to_be_bytes()
        .into_iter()
        .chain(value.iter().copied());
    bytes.splice(field.start + 1..field.end, after_tag);
}
