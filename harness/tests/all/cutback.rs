//! Request [13] through the C symbol beside the second program: generated seats, whole and damaged, with guards around the lent places, and
//! numbers of any size. Where the archive cannot be linked it is asked under the emulator.

use crate::common::top;
use harness::guarded::Lent;
use harness::product::Answer;
use second::cutback::{cut, Seat};
use second::make::rng::Rng;

struct Case {
    kind: Vec<u8>,
    metal: Vec<u8>,
    grams: u64,
    seats: Vec<Seat>,
    places: usize,
}

/// What a call is given beside the lent places.
struct Given<'a> {
    kind: &'a [u8],
    metal: &'a [u8],
    grams: u64,
    codes: &'a [u8],
    sizes: &'a [u64],
    lots: &'a [u64],
}

#[cfg(linked)]
mod product {
    use super::{Answer, Given, Lent};

    extern "C" {
        fn frundavel_cutback(
            kind: *const u8,
            kind_size: usize,
            metal: *const u8,
            metal_size: usize,
            grams: u64,
            codes: *const u8,
            codes_size: usize,
            sizes: *const u64,
            sizes_count: usize,
            lots: *const u64,
            lots_count: usize,
            cuts: *mut u64,
            places: usize,
        ) -> Answer;
    }

    pub struct Product;

    impl Product {
        pub fn new() -> Self {
            Product
        }

        pub fn call(&mut self, given: &Given, lent: &mut Lent<u64>) -> Answer {
            let cuts = lent.room_mut();
            // SAFETY: all parts are valid for their lengths, and the mutable one overlaps no other.
            let answer = unsafe {
                frundavel_cutback(
                    given.kind.as_ptr(),
                    given.kind.len(),
                    given.metal.as_ptr(),
                    given.metal.len(),
                    given.grams,
                    given.codes.as_ptr(),
                    given.codes.len(),
                    given.sizes.as_ptr(),
                    given.sizes.len(),
                    given.lots.as_ptr(),
                    given.lots.len(),
                    cuts.as_mut_ptr(),
                    cuts.len(),
                )
            };
            // A wrong call writes where the compiler takes it that nothing is written.
            std::hint::black_box(lent);
            answer
        }
    }
}

#[cfg(not(linked))]
mod product {
    use super::{Answer, Given, Lent};
    use crate::common::emulated;
    use harness::program::Program;
    use harness::through::{Call, Through};

    pub struct Product(Through);

    impl Product {
        pub fn new() -> Self {
            let file = emulated().expect("it is not linked in");
            Product(Through::new(&file, Call::Cutback))
        }

        pub fn call(&mut self, given: &Given, lent: &mut Lent<u64>) -> Answer {
            let lent = std::slice::from_mut(lent);
            let answers = self.0.call(&input(given), lent);
            answers.expect("the product answers")[0]
        }
    }

    /// As `emulated/lend.c` has it.
    fn input(given: &Given) -> Vec<u8> {
        let sizes = [given.kind.len(), given.metal.len()].map(|size| size as u64);
        let counts = [given.codes.len(), given.sizes.len(), given.lots.len()].map(|n| n as u64);
        let numbers = [&sizes, &[given.grams][..], &counts, given.sizes, given.lots].concat();
        let numbers: Vec<u8> = numbers.into_iter().flat_map(u64::to_le_bytes).collect();
        [&numbers, given.kind, given.metal, given.codes].concat()
    }
}

use product::Product;

/// So many runs of the program: fewer under the emulator.
const RUNS: u64 = if cfg!(linked) { 1_000 } else { 300 };

/// Places with guards around them, filled by their number.
fn lent(case: &Case) -> Lent<u64> {
    Lent::new(case.places, case.grams.wrapping_add(case.places as u64))
}

fn call(product: &mut Product, case: &Case) -> (Answer, Lent<u64>) {
    let codes: Vec<u8> = case
        .seats
        .iter()
        .flat_map(|seat| seat.code.clone())
        .collect();
    let sizes: Vec<u64> = case
        .seats
        .iter()
        .map(|seat| seat.code.len() as u64)
        .collect();
    let lots: Vec<u64> = case
        .seats
        .iter()
        .map(|seat| seat.lots.unwrap_or(u64::MAX))
        .collect();
    called(product, case, &codes, &sizes, &lots)
}

fn called(
    product: &mut Product,
    case: &Case,
    codes: &[u8],
    sizes: &[u64],
    lots: &[u64],
) -> (Answer, Lent<u64>) {
    let given = Given {
        kind: &case.kind,
        metal: &case.metal,
        grams: case.grams,
        codes,
        sizes,
        lots,
    };
    let mut lent = lent(case);
    (product.call(&given, &mut lent), lent)
}

/// What the second program says of it, as a call answers.
fn wanted(case: &Case) -> (Answer, Lent<u64>) {
    let mut lent = lent(case);
    let answer = |number, place, length| Answer {
        number,
        place,
        length,
    };
    match cut(&case.kind, &case.metal, Some(case.grams), &case.seats) {
        Err(number) => (answer(number, 0, 0), lent),
        Ok(cuts) if cuts.len() > case.places => (answer(11, cuts.len() as u64, 0), lent),
        Ok(cuts) => {
            lent.room_mut()[..cuts.len()].copy_from_slice(&cuts);
            (answer(0, 0, cuts.len() as u64), lent)
        }
    }
}

fn code(rng: &mut Rng) -> Vec<u8> {
    let size = rng.weighted(&[(6, 1), (4, 2), (2, 3), (1, 12)]);
    (0..size).map(|_| rng.pick(b"AB1Z09")).collect()
}

fn case(rng: &mut Rng) -> Case {
    let grams = rng.pick(&[1, 3, 7, 100, 999, 1000, 15_000, 400_000, 999_999, 1_000_000]);
    let kind = rng.pick(&["corporate", "individual"]);
    let metal = rng.pick(&["gold", "silver"]);
    let tons: u64 = match (kind, metal) {
        ("corporate", "gold") => 2,
        ("corporate", _) => 80,
        (_, "gold") => 1,
        _ => 20,
    };
    let most = tons * 1_000_000 / grams;
    let count = rng.weighted(&[(2, 1), (3, 2), (3, 3), (6, 4), (1, 5), (1, 0)]);
    // lots near what may stay, equal ones among them
    let near = most / (count as u64).max(1);
    let mut seats: Vec<Seat> = (0..count)
        .map(|_| {
            let lots = rng.pick(&[
                near,
                near + 1,
                near.saturating_sub(1),
                most,
                most + 1,
                0,
                1,
                1_000_000,
                999_999,
            ]);
            Seat {
                code: code(rng),
                lots: Some(lots.min(1_000_000)),
            }
        })
        .collect();
    let mut made = Case {
        kind: kind.into(),
        metal: metal.into(),
        grams,
        seats: vec![],
        places: rng.pick(&[4, 4, 4, 5, 3, 1, 0]),
    };
    if rng.one_in(3) {
        damage(rng, &mut made, &mut seats);
    }
    made.seats = seats;
    made
}

fn damage(rng: &mut Rng, made: &mut Case, seats: &mut Vec<Seat>) {
    let at = if seats.is_empty() {
        0
    } else {
        rng.place(seats.len())
    };
    match rng.below(9) {
        0 => {
            made.kind = rng
                .pick(&["Corporate", "", "corporat", "gold", "corporate "])
                .into()
        }
        1 => {
            made.metal = rng
                .pick(&["Silver", "", "silve", "copper", "gold\n"])
                .into()
        }
        2 => made.grams = rng.pick(&[0, 1_000_001, u64::MAX]),
        3 if !seats.is_empty() => {
            seats[at].code = rng
                .pick(&["", "a", "A ", "ABCDEFGHIJKLM", "\n", "\u{e9}"])
                .into()
        }
        4 if !seats.is_empty() => seats[at].lots = Some(rng.pick(&[1_000_001, u64::MAX, 1 << 63])),
        5 if !seats.is_empty() => {
            let again = seats[at].clone();
            seats.push(again);
        }
        6 => seats.clear(),
        7 => seats.extend((0..3).map(|_| Seat {
            code: code(rng),
            lots: Some(5),
        })),
        _ => seats.extend((0..40).map(|n| Seat {
            code: format!("S{n}").into(),
            lots: Some(u64::MAX),
        })),
    }
}

#[test]
fn generated_seats() {
    let mut product = Product::new();
    let mut numbers = std::collections::BTreeMap::new();
    for index in 0..300_000 {
        let made = case(&mut Rng::new(13, index));
        let (answer, lent) = call(&mut product, &made);
        assert_eq!(
            (answer, lent),
            wanted(&made),
            "case {index}: {:?} {:?} {} {:?}",
            made.kind,
            made.metal,
            made.grams,
            made.seats
        );
        *numbers.entry(answer.number).or_insert(0) += 1;
    }
    println!("{numbers:?}");
    assert_eq!(
        numbers.keys().copied().collect::<Vec<u64>>(),
        [0, 11, 40, 41, 42, 43, 44]
    );
}

/// Parts that do not fit each other: a seat without a code is 42, one without lots 44, a code that runs past the end 42.
#[test]
fn uneven_parts() {
    let made = Case {
        kind: "corporate".into(),
        metal: "gold".into(),
        grams: 1000,
        seats: vec![],
        places: 4,
    };
    let mut product = Product::new();
    let mut number = |codes: &[u8], sizes: &[u64], lots: &[u64]| {
        let (answer, after) = called(&mut product, &made, codes, sizes, lots);
        assert!(answer.number == 0 || after == lent(&made));
        answer.number
    };
    assert_eq!(number(b"AB", &[1, 1], &[1500, 1500]), 0);
    assert_eq!(number(b"AB", &[1], &[1500, 1500]), 42);
    assert_eq!(number(b"AB", &[1, 1], &[1500]), 44);
    assert_eq!(number(b"AB", &[1, 2], &[1500, 1500]), 42);
    assert_eq!(number(b"AB", &[1, u64::MAX], &[1500, 1500]), 42);
    assert_eq!(number(b"AB", &[], &[]), 43);
    assert_eq!(number(b"AB", &[1, 1, 0], &[1, 1, 1]), 42);
}

/// The program on generated lines, whole and with damaged bytes, beside the second program's listing.
#[test]
fn generated_lines() {
    let (run, program) = (top().join(".ci/x86-64"), top().join("target/bin/cutback"));
    assert!(program.exists(), "run `make all` first");
    for index in 0..RUNS {
        let mut rng = Rng::new(1313, index);
        let made = case(&mut rng);
        let mut lines = [&made.kind[..], b"\n", &made.metal, b"\n"].concat();
        lines.extend(format!("{}\n", made.grams).bytes());
        for seat in &made.seats {
            lines.extend(
                [
                    &seat.code[..],
                    format!(" {}\n", seat.lots.unwrap_or(0)).as_bytes(),
                ]
                .concat(),
            );
        }
        if rng.one_in(2) {
            let at = rng.place(lines.len());
            match rng.below(4) {
                0 => lines.truncate(at),
                1 => lines[at] = rng.pick(b"\n 0,.+\0A"),
                2 => lines.insert(at, rng.pick(b"\n 0,.+\0A")),
                _ => drop(lines.remove(at)),
            }
        }
        let file = std::env::temp_dir().join(format!("cutback-{}.case", std::process::id()));
        std::fs::write(&file, &lines).expect("a file for the lines");
        let out = std::process::Command::new(&run)
            .arg(&program)
            .arg(&file)
            .output()
            .expect("the program");
        std::fs::remove_file(&file).expect("the file");
        let listing = second::cutback::listing(&lines);
        assert_eq!(
            out.stdout,
            listing,
            "case {index}: {:?}",
            String::from_utf8_lossy(&lines)
        );
        let refused = listing.starts_with(b"refused ");
        assert_eq!(
            (out.status.code(), out.stderr.is_empty()),
            (Some(i32::from(refused)), !refused),
            "case {index}"
        );
    }
}
