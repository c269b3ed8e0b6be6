//! Damaged sheets: a drafted sheet with one to three damages, of its lines or of its bytes.

use super::rng::Rng;
use super::sheets::{figures, Draft, Line};

/// A damage is done to the lines, before the sheet is written, or to its bytes.
#[derive(Clone, Copy)]
enum Damage {
    Lines(fn(&mut Rng, &mut Draft)),
    Bytes(fn(&mut Rng, &mut Vec<u8>)),
}
use Damage::{Bytes, Lines};

const DAMAGES: [(u64, (&str, Damage)); 25] = [
    (14, ("other mark in a figure", Lines(other_mark))),
    (8, ("own mark in lots", Lines(own_mark_in_lots))),
    (5, ("own mark again", Lines(own_mark_again))),
    (9, ("mark that is none", Lines(mark_carried))),
    (9, ("letter replaced", Lines(letter_replaced))),
    (7, ("part missing", Lines(part_missing))),
    (7, ("part too many", Lines(part_too_many))),
    (7, ("part empty", Lines(part_empty))),
    (5, ("part replaced", Lines(part_replaced))),
    (4, ("blank in a part", Lines(blank_in_part))),
    (4, ("part quoted", Lines(part_quoted))),
    (4, ("both in one line", Lines(both_in_one_line))),
    (5, ("line dropped", Lines(line_dropped))),
    (4, ("line doubled", Lines(line_doubled))),
    (5, ("lines swapped", Lines(lines_swapped))),
    (4, ("empty line", Lines(empty_line))),
    (4, ("second mark line", Lines(second_mark_line))),
    (4, ("Z line", Lines(z_line))),
    (6, ("bad mark line", Lines(bad_mark_line))),
    (4, ("carriage returns", Lines(carriage_returns))),
    (4, ("filled up", Lines(filled_up))),
    (5, ("carriage return", Bytes(carriage_return))),
    (6, ("byte changed", Bytes(byte_changed))),
    (6, ("cut", Bytes(cut))),
    (5, ("no last line feed", Bytes(no_last_feed))),
];

/// A damaged sheet and the name of its first damage. Some find nothing to damage.
pub fn damage(rng: &mut Rng, draft: &mut Draft) -> (&'static str, Vec<u8>) {
    let count = rng.weighted(&[(6, 1), (3, 2), (1, 3)]);
    let damages: Vec<_> = (0..count).map(|_| rng.weighted(&DAMAGES)).collect();
    for (_, damage) in &damages {
        if let Lines(damage) = damage {
            damage(rng, draft);
        }
    }
    let mut bytes = draft.bytes();
    for (_, damage) in &damages {
        if let Bytes(damage) = damage {
            damage(rng, &mut bytes);
        }
    }
    (damages[0].0, bytes)
}

fn any_line<'a>(rng: &mut Rng, draft: &'a mut Draft) -> Option<&'a mut Line> {
    let count = draft.lines.len();
    (count > 0).then(|| &mut draft.lines[rng.place(count)])
}

/// Any line with one of these letters, and how many parts it has.
fn line_of<'a>(rng: &mut Rng, draft: &'a mut Draft, letters: &[u8]) -> Option<&'a mut Line> {
    let mut lines: Vec<&mut Line> = draft
        .lines
        .iter_mut()
        .filter(|line| line[0].len() == 1 && letters.contains(&line[0][0]))
        .collect();
    if lines.is_empty() {
        return None;
    }
    Some(lines.swap_remove(rng.place(lines.len())))
}

/// Puts a byte in place of another of a part, or before it.
fn put_byte(rng: &mut Rng, part: &mut Vec<u8>, byte: u8) {
    let at = rng.place(part.len() + 1);
    if at < part.len() && rng.one_in(2) {
        part[at] = byte;
    } else {
        part.insert(at, byte);
    }
}

fn other(mark: u8) -> u8 {
    match mark {
        b',' => b'.',
        _ => b',',
    }
}

/// The other mark in a figure: in place of its own, or beside it.
fn other_mark(rng: &mut Rng, draft: &mut Draft) {
    let (mark, letter) = (draft.mark, rng.pick(b"SLUVIIIBBBAAA"));
    if let Some(line) = line_of(rng, draft, &[letter]) {
        let at = rng.pick(figures(&line[0].clone()));
        let Some(part) = line.get_mut(at) else { return };
        match part.iter().position(|&byte| byte == mark) {
            Some(own) if rng.one_in(2) => part[own] = other(mark),
            _ => put_byte(rng, part, other(mark)),
        }
    }
}

/// `8,000` lots: a whole figure as a spreadsheet may group it.
fn own_mark_in_lots(rng: &mut Rng, draft: &mut Draft) {
    let mark = draft.mark;
    if let Some(line) = line_of(rng, draft, b"IBA") {
        let at = if line[0] == b"I" { 2 + rng.place(3) } else { 2 };
        if let Some(part) = line.get_mut(at) {
            put_byte(rng, part, mark);
        }
    }
}

/// A second mark in a price or a rate: every one becomes a point.
fn own_mark_again(rng: &mut Rng, draft: &mut Draft) {
    let mark = draft.mark;
    if let Some(line) = line_of(rng, draft, b"SLUVBBAA") {
        if let Some(part) = line.get_mut(1) {
            part.insert(rng.place(part.len() + 1), mark);
        }
    }
}

/// A comma or a point where it is no mark: in D, X, a code, a day or a time.
fn mark_carried(rng: &mut Rng, draft: &mut Draft) {
    let letter = rng.pick(b"DXCCIIBBAA");
    if let Some(line) = line_of(rng, draft, &[letter]) {
        let at = if b"BA".contains(&letter) {
            3 + rng.place(2)
        } else {
            1
        };
        let byte = rng.pick(b",,.");
        if let Some(part) = line.get_mut(at) {
            put_byte(rng, part, byte);
        }
    }
}

/// A letter that begins no line, or another than the line's own.
fn letter_replaced(rng: &mut Rng, draft: &mut Draft) {
    let letters: [&[u8]; 22] = [
        b"K",
        b"H",
        b"Q",
        b"Z",
        b"",
        b"s",
        b"SS",
        b"BA",
        b" B",
        b"B ",
        b"0",
        b"\xff",
        b"\0",
        b"mark,",
        b"\xef\xbb\xbfS",
        b"D",
        b"X",
        b"C",
        b"I",
        b"B",
        b"A",
        b"V",
    ];
    let letter = rng.pick(&letters);
    if let Some(line) = any_line(rng, draft) {
        line[0] = letter.to_vec();
    }
}

fn part_missing(rng: &mut Rng, draft: &mut Draft) {
    if let Some(line) = any_line(rng, draft) {
        line.remove(rng.place(line.len()));
    }
}

/// A part more, mostly an empty one at the end, as a spreadsheet adds them.
fn part_too_many(rng: &mut Rng, draft: &mut Draft) {
    if let Some(line) = any_line(rng, draft) {
        let at = if rng.one_in(2) {
            line.len()
        } else {
            1 + rng.place(line.len())
        };
        let part: &[u8] = rng.pick(&[b"".as_slice(), b"", b"0", b"1,00"]);
        line.insert(at.min(line.len()), part.to_vec());
    }
}

fn part_empty(rng: &mut Rng, draft: &mut Draft) {
    if let Some(line) = any_line(rng, draft) {
        let all = rng.one_in(4);
        let at = rng.place(line.len());
        for (nth, part) in line.iter_mut().enumerate().skip(1) {
            if all || nth == at {
                part.clear();
            }
        }
    }
}

/// A value of no use, or a long one: lengths about 256, and one whose high byte looks like a comma.
fn part_replaced(rng: &mut Rng, draft: &mut Draft) {
    let values: [&[u8]; 10] = [
        b"0", b"-5", b"+5", b"1e3", b"400", b"8,000", b"8.000", b"1 000", b"#N/A", b"\t",
    ];
    let value = match rng.weighted(&[(60, 0), (4, 44), (4, 255), (4, 256), (1, 44 * 256)]) {
        0 => rng.pick(&values).to_vec(),
        length => vec![rng.pick(b"1A,."); length],
    };
    if let Some(line) = any_line(rng, draft) {
        let at = rng.place(line.len());
        line[at] = value;
    }
}

fn blank_in_part(rng: &mut Rng, draft: &mut Draft) {
    if let Some(line) = any_line(rng, draft) {
        let at = rng.place(line.len());
        put_byte(rng, &mut line[at], b' ');
    }
}

/// As an export does that puts text between quotes.
fn part_quoted(rng: &mut Rng, draft: &mut Draft) {
    if let Some(line) = any_line(rng, draft) {
        let at = rng.place(line.len());
        line[at] = [b"\"", &line[at][..], b"\""].concat();
    }
}

/// The other mark and another number of parts: 22 comes before 21.
fn both_in_one_line(rng: &mut Rng, draft: &mut Draft) {
    let mark = other(draft.mark);
    if let Some(line) = line_of(rng, draft, b"SIBA") {
        if let Some(part) = line.last_mut() {
            part.push(mark);
        }
        match rng.one_in(2) {
            true => line.push(Vec::new()),
            false => line[0] = b"K".to_vec(),
        }
    }
}

fn line_dropped(rng: &mut Rng, draft: &mut Draft) {
    if !draft.lines.is_empty() {
        draft.lines.remove(rng.place(draft.lines.len()));
    }
}

fn line_doubled(rng: &mut Rng, draft: &mut Draft) {
    if !draft.lines.is_empty() {
        let at = rng.place(draft.lines.len());
        draft.lines.insert(at, draft.lines[at].clone());
    }
}

/// Good letters out of their places.
fn lines_swapped(rng: &mut Rng, draft: &mut Draft) {
    let count = draft.lines.len();
    if count > 1 {
        let one = rng.place(count);
        let next = if rng.one_in(2) {
            (one + 1) % count
        } else {
            rng.place(count)
        };
        draft.lines.swap(one, next);
    }
}

/// A line anywhere, the end included.
fn put_line(rng: &mut Rng, draft: &mut Draft, line: &[u8]) {
    let at = match rng.one_in(3) {
        true => draft.lines.len(),
        false => rng.place(draft.lines.len() + 1),
    };
    draft.lines.insert(at, vec![line.to_vec()]);
}

fn empty_line(rng: &mut Rng, draft: &mut Draft) {
    let line: &[u8] = rng.pick(&[b"".as_slice(), b"", b" ", b";", b";;;;", b"\r"]);
    put_line(rng, draft, line);
}

fn second_mark_line(rng: &mut Rng, draft: &mut Draft) {
    let line: &[u8] = rng.pick(&[b"mark,".as_slice(), b"mark.", b"mark;", b"mark"]);
    put_line(rng, draft, line);
}

fn z_line(rng: &mut Rng, draft: &mut Draft) {
    let line: &[u8] = rng.pick(&[b"Z".as_slice(), b"Z;", b"Z;0", b"Z;;;;"]);
    put_line(rng, draft, line);
}

fn bad_mark_line(rng: &mut Rng, draft: &mut Draft) {
    let lines: [&[u8]; 14] = [
        b"",
        b"mark",
        b"mark;",
        b"mark,,",
        b"mark,.",
        b"mark.;",
        b"Mark,",
        b" mark,",
        b"mark, ",
        b"mark,\r",
        b"mark ,",
        b"\xef\xbb\xbfmark,",
        b"marked,",
        b",",
    ];
    draft.first = match rng.one_in(4) {
        true => None,
        false => Some(rng.pick(&lines).to_vec()),
    };
}

/// Lines ended as some systems end them.
fn carriage_returns(rng: &mut Rng, draft: &mut Draft) {
    draft.end = rng.pick(&[b"\r\n".as_slice(), b"\r\n", b"\n\n", b"\r"]);
}

/// Lines until the sheet has about 60,000 bytes: seats without a byte of value, which make the longest book, seats, or trades; the last line
/// is as long as it must be.
fn filled_up(rng: &mut Rng, draft: &mut Draft) {
    let size = rng.pick(&[59_997, 59_999, 60_000, 60_000, 60_001, 60_001, 66_000]);
    let line: &[u8] = rng.pick(&[
        b"I;;;;".as_slice(),
        b"I;;;;",
        b"I;M1;0;0;0",
        b"A;1;1;20250115;1000",
        b"C;A",
        b";",
    ]);
    let parts: Line = line
        .split(|&byte| byte == b';')
        .map(<[u8]>::to_vec)
        .collect();
    let mut left = usize::saturating_sub(size, draft.bytes().len());
    while left >= line.len() + 4 {
        draft.lines.push(parts.clone());
        left -= line.len() + 1;
    }
    if left >= 3 {
        draft.lines.push(vec![b"C".to_vec(), vec![b'A'; left - 3]]);
    }
}

fn carriage_return(rng: &mut Rng, bytes: &mut Vec<u8>) {
    let feeds: Vec<usize> = (0..bytes.len()).filter(|&at| bytes[at] == b'\n').collect();
    if !feeds.is_empty() {
        bytes.insert(rng.pick(&feeds), b'\r');
    }
}

/// A byte that means something, or any, in place of another or before it; or a byte is gone.
fn byte_changed(rng: &mut Rng, bytes: &mut Vec<u8>) {
    let byte = match rng.one_in(4) {
        true => rng.below(256) as u8,
        false => rng.pick(b";;;,.\n\n0 SIBAKZ\""),
    };
    if !bytes.is_empty() && rng.one_in(3) {
        bytes.remove(rng.place(bytes.len()));
    } else {
        put_byte(rng, bytes, byte);
    }
}

fn cut(rng: &mut Rng, bytes: &mut Vec<u8>) {
    let most = if rng.one_in(3) { 12 } else { bytes.len() + 1 };
    let length = rng.place(most);
    bytes.truncate(length);
}

fn no_last_feed(_: &mut Rng, bytes: &mut Vec<u8>) {
    bytes.pop();
}
