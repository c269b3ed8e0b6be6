//! Lists generated from a seed: whole ones, ones at the edges of the percentages and of the sizes, and damaged ones. Nothing is taken from the
//! reader.

/// What a generated list is meant to try.
#[derive(Clone, Copy, Debug, PartialEq, Eq)]
pub enum Kind {
    Whole,
    Edge,
    Damaged,
}

/// xorshift64*, over a seed that is mixed first.
pub struct Dice(u64);

impl Dice {
    /// Those of a seed and an index.
    pub fn new(seed: u64, index: u64) -> Dice {
        let mixed = (seed.wrapping_mul(0x9e37_79b9_7f4a_7c15) ^ index)
            .wrapping_mul(0xbf58_476d_1ce4_e5b9)
            | 1;
        let mut dice = Dice(mixed ^ (mixed >> 31));
        for _ in 0..4 {
            dice.roll(2);
        }
        dice
    }

    pub fn roll(&mut self, sides: u64) -> u64 {
        self.0 ^= self.0 >> 12;
        self.0 ^= self.0 << 25;
        self.0 ^= self.0 >> 27;
        (self.0.wrapping_mul(0x2545_f491_4f6c_dd1d) >> 16) % sides
    }
}

/// The list of a seed and an index, and what it is meant to try.
pub fn list(seed: u64, index: u64) -> (Vec<u8>, Kind) {
    let mut dice = Dice::new(seed, index);
    match dice.roll(4) {
        0 => (written(&mut dice, false), Kind::Whole),
        1 | 2 => (written(&mut dice, true), Kind::Edge),
        _ => {
            let edge = dice.roll(2) == 0;
            let mut list = written(&mut dice, edge);
            for _ in 0..=dice.roll(3) {
                damage(&mut dice, &mut list);
            }
            (list, Kind::Damaged)
        }
    }
}

/// How many days: most lists are short, and some are as long as a list can be.
pub fn count(dice: &mut Dice) -> usize {
    let count = match dice.roll(40) {
        0 => 2_000,
        1 => 1_999,
        2..=5 => dice.roll(300),
        _ => dice.roll(14),
    };
    count as usize
}

/// A day's price and open interest as both forms of a list have them.
pub fn figures((price, interest): (u64, u64)) -> String {
    format!("{}.{:02} {interest}", price / 100, price % 100)
}

/// Within the range of prices and of open interest.
pub fn within((price, interest): (u64, u64)) -> (u64, u64) {
    (price.clamp(1, 9_999_999), interest.clamp(1, 9_999_999_999))
}

fn written(dice: &mut Dice, edge: bool) -> Vec<u8> {
    let count = count(dice);
    let silver = dice.roll(2) == 0;
    let mut days: Vec<(u64, u64)> = Vec::new();
    for at in 0..count {
        let day = if edge && at > 2 && dice.roll(3) > 0 {
            beside(dice, &days, silver)
        } else {
            drift(dice, days.last().copied())
        };
        days.push(within(day));
    }
    let mut list = if silver {
        b"silver\n".to_vec()
    } else {
        b"gold\n".to_vec()
    };
    for day in days {
        list.extend(format!("{}\n", figures(day)).bytes());
    }
    list
}

/// A day that reaches a figure of a span exactly, or misses it by one.
fn beside(dice: &mut Dice, days: &[(u64, u64)], silver: bool) -> (u64, u64) {
    let span = dice.roll(3) as usize;
    let Some(base) = days.len().checked_sub(3 + span).map(|at| days[at]) else {
        return drift(dice, days.last().copied());
    };
    let percent = if silver { [12, 15, 17] } else { [10, 12, 14] }[span];
    let open = [30, 35, 40][span];
    let near = |dice: &mut Dice, exact: u64| (exact + dice.roll(4)).saturating_sub(dice.roll(4));
    let price = if dice.roll(2) == 0 {
        base.0 * (100 + percent) / 100
    } else {
        base.0 * (100 - percent) / 100
    };
    let up = base.1 * (100 + open) / 100;
    let down = base.1 * (100 - open) / 100;
    let interest = if dice.roll(3) > 0 { up } else { down };
    (near(dice, price), near(dice, interest))
}

/// A day that follows another, or the first.
pub fn drift(dice: &mut Dice, last: Option<(u64, u64)>) -> (u64, u64) {
    let Some((price, interest)) = last else {
        let price =
            [40_000, 560_000, 1, 9_999_999, 100 * (1 + dice.roll(9_000))][dice.roll(5) as usize];
        let interest = [
            1,
            9_999_999_999,
            100 * (1 + dice.roll(1_000)),
            dice.roll(10_000_000_000),
        ][dice.roll(4) as usize];
        return (price, interest);
    };
    match dice.roll(4) {
        0 => (price, interest),
        1 => (
            price * (95 + dice.roll(11)) / 100,
            interest * (90 + dice.roll(21)) / 100,
        ),
        2 => (
            price * (80 + dice.roll(41)) / 100,
            interest * (70 + dice.roll(61)) / 100,
        ),
        _ => (price, interest * (95 + dice.roll(11)) / 100),
    }
}

/// A wrong byte, a byte too many or too few, a line too many, a zero, another metal, an end without its line feed, or very many bytes.
fn damage(dice: &mut Dice, list: &mut Vec<u8>) {
    let at = dice.roll(list.len().max(1) as u64) as usize;
    match dice.roll(14) {
        0 if !list.is_empty() => list[at] = dice.roll(256) as u8,
        1 if !list.is_empty() => list[at] = b"0123456789., \n-+gold"[dice.roll(19) as usize],
        2 => list.insert(at.min(list.len()), b"0., \n9"[dice.roll(6) as usize]),
        3 if !list.is_empty() => {
            list.remove(at);
        }
        4 => list.truncate(at),
        5 => {
            list.pop();
        }
        6 => list.extend(b"0.00 5\n"),
        7 => list.extend(b"5.00 0\n"),
        8 => list.extend(b"400.00 12345678901\n"),
        9 => list.extend(b"100000.00 1\n"),
        10 => list.extend(b"7,00 1\n"),
        11 => list.extend("1.00 1\n".repeat(2_001 - dice.roll(3) as usize).bytes()),
        12 => list
            .splice(
                0..0,
                [b"Gold\n".to_vec(), b" ".to_vec(), b"silver\n".to_vec()][dice.roll(3) as usize]
                    .clone(),
            )
            .for_each(drop),
        _ => {
            list.extend(vec![b"1 \0"[dice.roll(3) as usize]; 61_000]);
            list.extend(
                "\n".repeat([0, 1, 1_990, 2_001][dice.roll(4) as usize])
                    .bytes(),
            );
        }
    }
}
