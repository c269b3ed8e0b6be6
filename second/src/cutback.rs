//! Request [13]: cutting back over the position limit (Articles 34 and 52 (2) 3). The seats are sorted, the
//! largest first and equal ones by code, and lots are taken off the front until few enough are left.

/// A seat as it is given: its code, and its lots where they are a figure at all.
#[derive(Clone, Debug, PartialEq, Eq)]
pub struct Seat {
    pub code: Vec<u8>,
    pub lots: Option<u64>,
}

/// The most grams in one lot, and the most lots at one seat.
const MOST: u64 = 1_000_000;

/// The lots cut at each seat in the order given, or the number of the refusal.
pub fn cut(kind: &[u8], metal: &[u8], grams: Option<u64>, seats: &[Seat]) -> Result<Vec<u64>, u64> {
    let tons: u64 = match (kind, metal) {
        (b"corporate", b"gold") => 2,
        (b"corporate", b"silver") => 80,
        (b"individual", b"gold") => 1,
        (b"individual", b"silver") => 20,
        _ => return Err(40),
    };
    let grams = grams
        .filter(|grams| (1..=MOST).contains(grams))
        .ok_or(41u64)?;
    let mut codes: Vec<&[u8]> = seats.iter().map(|seat| seat.code.as_slice()).collect();
    if !codes.iter().all(|code| well_formed(code)) {
        return Err(42);
    }
    codes.sort_unstable();
    if codes.windows(2).any(|pair| pair[0] == pair[1]) {
        return Err(42);
    }
    if !(1..=4).contains(&seats.len()) {
        return Err(43);
    }
    let lots: Option<Vec<u64>> = seats
        .iter()
        .map(|seat| seat.lots.filter(|&lots| lots <= MOST))
        .collect();
    let lots = lots.ok_or(44u64)?;
    let mut order: Vec<usize> = (0..seats.len()).collect();
    order.sort_by(|&a, &b| {
        lots[b]
            .cmp(&lots[a])
            .then(seats[a].code.cmp(&seats[b].code))
    });
    let held: u64 = lots.iter().sum();
    let mut left = (held * grams)
        .saturating_sub(tons * 1_000_000)
        .div_ceil(grams);
    let mut cuts = vec![0; seats.len()];
    for seat in order {
        cuts[seat] = left.min(lots[seat]);
        left -= cuts[seat];
    }
    Ok(cuts)
}

fn well_formed(code: &[u8]) -> bool {
    (1..=12).contains(&code.len())
        && code
            .iter()
            .all(|byte| byte.is_ascii_digit() || byte.is_ascii_uppercase())
}

/// 1 to 7 digits without a leading zero.
fn figure(text: &[u8]) -> Option<u64> {
    let plain = (1..=7).contains(&text.len())
        && text.iter().all(u8::is_ascii_digit)
        && (text.len() == 1 || text[0] != b'0');
    plain.then(|| {
        text.iter()
            .fold(0, |number, digit| number * 10 + u64::from(digit - b'0'))
    })
}

/// What the program prints of an input.
pub fn listing(input: &[u8]) -> Vec<u8> {
    match read(input) {
        Ok(rows) => rows
            .into_iter()
            .flat_map(|(code, cut)| [code, format!(" {cut}\n").into_bytes()].concat())
            .collect(),
        Err(number) => format!("refused {number} at 0\n").into_bytes(),
    }
}

fn read(input: &[u8]) -> Result<Vec<(Vec<u8>, u64)>, u64> {
    if input.len() > 60_000 {
        return Err(1);
    }
    let mut lines: Vec<&[u8]> = input.split(|&byte| byte == b'\n').collect();
    if lines.last().is_some_and(|last| last.is_empty()) {
        lines.pop();
    }
    let line = |at: usize| lines.get(at).copied().unwrap_or_default();
    let seats: Vec<Seat> = lines.iter().skip(3).map(|line| seat(line)).collect();
    let cuts = cut(line(0), line(1), figure(line(2)), &seats)?;
    Ok(seats.into_iter().map(|seat| seat.code).zip(cuts).collect())
}

fn seat(line: &[u8]) -> Seat {
    let blank = line.iter().position(|&byte| byte == b' ');
    Seat {
        code: line[..blank.unwrap_or(line.len())].to_vec(),
        lots: blank.and_then(|blank| figure(&line[blank + 1..])),
    }
}
