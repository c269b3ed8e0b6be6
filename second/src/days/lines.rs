//! The lines of a list, and the words that both forms of a day begin with.

/// Why a list is refused: its number and its place.
pub type Refusal = (u64, u64);

const MOST_FEEDS: usize = 2_001;

pub const NO_FORM: u64 = 33;
pub const ZERO: u64 = 31;

/// Whether the metal is silver, and each day as `day` reads its words: the number of a refusal, or the day.
pub fn read<D>(
    list: &[u8],
    day: impl Fn(&[&[u8]]) -> Result<D, u64>,
) -> Result<(bool, Vec<D>), Refusal> {
    if list.iter().filter(|&&byte| byte == b'\n').count() > MOST_FEEDS {
        return Err((30, 0));
    }
    // What follows the last line feed is the last part: nothing, or bytes that no line feed ends.
    let mut lines: Vec<&[u8]> = list.split(|&byte| byte == b'\n').collect();
    let unended = lines.pop().expect("a split has a part");
    let silver = match lines.first() {
        Some(&b"gold") => false,
        Some(&b"silver") => true,
        _ => return Err((NO_FORM, 0)),
    };
    let days = (1..).zip(&lines[1..]).map(|(place, line)| {
        let words: Vec<&[u8]> = line.split(|&byte| byte == b' ').collect();
        day(&words).map_err(|number| (number, place))
    });
    let days = days.collect::<Result<Vec<D>, Refusal>>()?;
    if !unended.is_empty() {
        return Err((NO_FORM, lines.len() as u64));
    }
    Ok((silver, days))
}

/// A price in fen, zero too, where the word is of its form.
pub fn price(word: &[u8]) -> Option<i128> {
    decimal(word, 5, 2)
}

/// At most so many digits, a point, and exactly so many behind it, taken as one number.
pub fn decimal(word: &[u8], most: usize, behind: usize) -> Option<i128> {
    let point = word.len().checked_sub(behind + 1)?;
    let (whole, rest) = (&word[..point], &word[point + 1..]);
    let good = word[point] == b'.' && number(whole, most) && rest.iter().all(u8::is_ascii_digit);
    good.then(|| parsed(&[whole, rest].concat()))
}

/// Open interest, zero too, where the word is of its form.
pub fn interest(word: &[u8]) -> Option<i128> {
    number(word, 10).then(|| parsed(word))
}

/// Digits, at most so many, with no zero in front of others.
fn number(word: &[u8], most: usize) -> bool {
    match word {
        [] => false,
        [b'0', _, ..] => false,
        _ => word.len() <= most && word.iter().all(u8::is_ascii_digit),
    }
}

fn parsed(digits: &[u8]) -> i128 {
    std::str::from_utf8(digits)
        .expect("digits")
        .parse()
        .expect("digits")
}
