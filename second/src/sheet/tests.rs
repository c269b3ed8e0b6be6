//! Sheets by hand and generated ones: each refusal and its order, both ways there and back, rooms, and a third reading with its mistakes.

use std::collections::BTreeMap;

use super::{to_book, to_sheet, told, words_of_a_book, Answer, Mark, Work};
use crate::make;
use crate::make::sheets::{lettered, sheet, swept};
use crate::reader;

/// A sheet in lines, parted by blanks.
fn lined(text: &str) -> Vec<u8> {
    text.split(' ')
        .flat_map(|line| [line, "\n"])
        .collect::<String>()
        .into_bytes()
}

const GOLD: &str = "D;D X;2 S;400,00 L;8,000 U;8,000 V;4,000";
/// Document 01's listing.
const LISTED: &str = "C;W3 I;M1;0;1;0 A;410,00;1;20250115;1000 C;P2 I;M1;4;0;4 B;440,00;4;20250115;1000 C;W1 I;M1;0;3;0 \
    A;440,00;3;20250115;1000 C;P1 I;M1;8;2;6 B;440,00;8;20250115;1000 A;440,00;2;20250115;1000 C;W2 I;M1;0;5;0 A;420,00;5;20250115;1000";

fn comma(lines: &str) -> Vec<u8> {
    lined(&format!("mark, {lines}"))
}

/// The same figures in the other mark.
fn point(lines: &str) -> Vec<u8> {
    lined(&format!("mark. {}", lines.replace(',', ".")))
}

/// The answer, and the bytes written.
fn read(sheet: &[u8]) -> (Answer, Vec<u8>) {
    let mut book = vec![0; 120_000];
    let answer = to_book(sheet, &mut book);
    book.truncate(answer.2 as usize);
    (answer, book)
}

fn written(book: &[u8], mark: u8) -> (Answer, Vec<u8>) {
    let mut sheet = vec![0; 60_000];
    let answer = to_sheet(book, mark, &mut sheet);
    sheet.truncate(answer.2 as usize);
    (answer, sheet)
}

fn field(tag: u8, value: &str) -> Vec<u8> {
    [&[tag, 0, value.len() as u8], value.as_bytes()].concat()
}

#[test]
fn the_listing_in_both_marks() {
    let lines = format!("{GOLD} {LISTED}");
    let (answer, book) = read(&comma(&lines));
    assert_eq!((answer.0, answer.1), (0, 0));
    assert_eq!(read(&point(&lines)), (answer, book.clone()));
    let want = "total 9\nleft 1\nW3 3 1\nP2 P 3\nW1 1 3\nP1 P 6\nW2 2 5\n";
    assert_eq!(crate::listing(&book), want.as_bytes());
    assert_eq!(written(&book, b',').1, comma(&lines));
    assert_eq!(written(&book, b'.').1, point(&lines));
}

#[test]
fn fields_byte_by_byte() {
    let sheet = comma("D;U X;0 S;8,000 C;P,1 I;M1;1,0;2;3 B;4,40;,5;2025,115;1.0");
    let fields = [
        field(b'D', "U"),
        field(b'X', "0"),
        field(b'S', "8.000"),
        field(b'C', "P,1"),
        field(b'I', "M1"),
        field(b'K', "1.0"),
        field(b'H', "2"),
        field(b'Q', "3"),
        field(b'B', "4.40 .5 2025,115 1.0"),
        field(b'Z', ""),
    ];
    let book = fields.concat();
    assert_eq!(read(&sheet), ((5, 8, book.len() as u64), book));
}

/// Refusals of a sheet in either mark; the mark line and gold's terms are seven lines.
#[test]
fn refusals_of_a_line() {
    for (lines, refusal) in [
        ("K;1", (22, 8)),
        ("H;1", (22, 8)),
        ("Q;1", (22, 8)),
        ("Z", (22, 8)),
        ("Z;", (22, 8)),
        ("", (22, 8)),
        ("c;P1", (22, 8)),
        ("CC;P1", (22, 8)),
        ("mark,", (22, 8)),
        ("mark.", (22, 8)),
        ("C", (22, 8)),
        ("C;P1;", (22, 8)),
        (";C;P1", (22, 8)),
        ("C;P1 I;M1;0;0", (22, 9)),
        ("C;P1 I;M1;0;0;0;", (22, 9)),
        ("C;P1 I;M1;0;0;0 B;1;1;20250115", (22, 10)),
        ("C;P1 I;M1;0;0;0 B;1;1;20250115;1000;", (22, 10)),
        ("C;P1 I;M1;0;0;0\r B;1;1;20250115;1000;1", (22, 10)),
        ("I;M1;0;OTHER;0", (21, 8)),
        ("I;M1;OTHER;0;0", (21, 8)),
        ("I;M1;0;0;OTHER", (21, 8)),
        ("I;M1;0;0;0OTHER;", (22, 8)),
        ("S;4OTHER0", (21, 8)),
        ("L;OTHER", (21, 8)),
        ("U;4OWN0OTHER0", (21, 8)),
        ("V;4OTHER0OWN0", (21, 8)),
        ("B;4OTHER0;1;20250115;1000", (21, 8)),
        ("A;4OWN0;1OTHER0;20250115;1000", (21, 8)),
        ("A;4OTHER0;1;20250115", (22, 8)),
        ("S;4OTHER0 K;1", (21, 8)),
        ("K;1 S;4OTHER0", (22, 8)),
    ] {
        for (own, other, first) in [(",", ".", comma(GOLD)), (".", ",", point(GOLD))] {
            let more = lined(&lines.replace("OWN", own).replace("OTHER", other));
            let (answer, book) = read(&[first, more].concat());
            assert_eq!(
                (answer, book),
                ((refusal.0, refusal.1, 0), Vec::new()),
                "{lines} {own}"
            );
        }
    }
}

#[test]
fn refusals_of_the_mark_line_and_of_the_end() {
    for bytes in [
        "",
        "m",
        "mark",
        "mark,",
        "mark.",
        "mark;\n",
        "mark,,\n",
        "Mark,\n",
        "mark,\r\n",
        " mark,\n",
        "\nmark,\n",
        "S;400,00\n",
        "mark\n",
    ] {
        assert_eq!(read(bytes.as_bytes()).0, (20, 1, 0), "{bytes:?}");
    }
    for bytes in [
        "mark,\nC;P1",
        "mark,\n ",
        "mark,\nS",
        "mark,\n;",
        "mark,\nS;4.0",
    ] {
        assert_eq!(read(bytes.as_bytes()).0, (22, 2, 0), "{bytes:?}");
    }
    assert_eq!(read(b"mark,\nC;P1\nC;P2").0, (22, 3, 0));
    assert_eq!(read(b"mark.\n"), ((3, 0, 3), b"Z\0\0".to_vec()));
}

/// The book's own numbers, with the book left: 4 by a comma in a day, which is no figure of a sheet.
#[test]
fn refusals_of_the_book_made() {
    for (lines, number, place) in [
        (GOLD.replace("D;D ", ""), 3, 0),
        (GOLD.replace("X;2", "X;,"), 5, 4),
        (GOLD.replace("400,00", "400"), 5, 8),
        (GOLD.replace("V;4", "V;8"), 6, 33),
        (format!("{GOLD} C;A,B"), 5, 41),
        (format!("{GOLD} C;A I;M,1;0;0;0"), 5, 45),
        (format!("{GOLD} C;A I;M1;8,000;0;0"), 5, 50),
        (
            format!("{GOLD} C;A I;M1;0;0;0 B;400,00;1,0;20250115;1000"),
            5,
            62,
        ),
        (
            format!("{GOLD} C;A I;M1;0;0;0 B;400,00;1;2025,115;1000"),
            4,
            62,
        ),
        (
            format!("{GOLD} C;A I;M1;0;0;0 B;400,00;1;20250115;10,0"),
            4,
            62,
        ),
        (
            format!("{GOLD} C;A I;M1;0;0;0 B;400,00;1;20250115;1000\r"),
            5,
            62,
        ),
        (format!("{GOLD} C;A I;M1;0;0;0 B;;;;"), 5, 62),
        (format!("{GOLD} C;A I;M1;0;0;0 S;400,00"), 3, 62),
        (format!("{GOLD} C;A I;M1;0;0;0 C;A"), 7, 62),
        (format!("{GOLD} C;A I;M1;0;0;1"), 8, 58),
        (format!("{GOLD} C;A I;M1;1;0;0"), 9, 41),
        (
            format!("{GOLD} C;A I;M1;0;0;0 B;4000,00;1;20250115;1000"),
            12,
            62,
        ),
        (format!("{GOLD} C;A I;M1;0;0;0 I;M1;0;0;0"), 13, 62),
    ] {
        let (answer, book) = read(&comma(&lines));
        assert_eq!((answer.0, answer.1), (number, place), "{lines}");
        assert!(book.ends_with(b"Z\0\0") && book.len() as u64 == answer.2);
        assert_eq!(
            crate::listing(&book),
            format!("refused {number} at {place}\n").as_bytes()
        );
    }
}

/// 60,000 bytes are read and 60,001 are not; the longest book that a sheet can make.
#[test]
fn sizes() {
    let filled = |size: usize| {
        let mut sheet = b"mark,\n".to_vec();
        while size - sheet.len() >= 12 {
            sheet.extend(b"I;;;;\n");
        }
        let last = size - sheet.len();
        sheet.extend(b"I;".iter().chain(&vec![b'A'; last - 6]).chain(b";;;\n"));
        sheet
    };
    let (answer, book) = read(&filled(60_000));
    assert_eq!((answer, book.len()), ((1, 0, 119_991), 119_991));
    assert_eq!(read(&filled(60_001)), ((1, 0, 0), Vec::new()));
    assert_eq!(read(&vec![b'x'; 60_000]).0, (20, 1, 0));
    assert_eq!(read(&vec![b'x'; 60_001]).0, (1, 0, 0));
    let mut short = vec![7; 119_990];
    assert_eq!(to_book(&filled(60_000), &mut short), (23, 0, 0));
    assert_eq!(short, vec![7; 119_990]);
}

/// Rooms of every size: too small, and nothing is written; else the rest is as it was.
#[test]
fn rooms() {
    let sheet = comma(&format!("{GOLD} C;A I;M1;0;0;0"));
    let (answer, book) = read(&sheet);
    for room in 0..book.len() + 3 {
        let mut lent = vec![0xa5; room];
        let (wanted, front) = match room >= book.len() {
            true => (answer, &book[..]),
            false => ((23, 0, 0), &[][..]),
        };
        assert_eq!(to_book(&sheet, &mut lent), wanted);
        assert_eq!(lent, [front, &vec![0xa5; room - front.len()]].concat());
        let mut lent = vec![0xa5; room];
        let (wanted, front) = match room >= sheet.len() {
            true => ((0, 0, sheet.len() as u64), &sheet[..]),
            false => ((23, 0, 0), &[][..]),
        };
        assert_eq!(to_sheet(&book, b',', &mut lent), wanted);
        assert_eq!(lent, [front, &vec![0xa5; room - front.len()]].concat());
    }
}

/// Of a book to be written: a mark that is none, then the book's own numbers, then no room.
#[test]
fn refusals_of_writing() {
    let (_, book) = read(&comma(GOLD));
    for mark in (0..=255).filter(|mark| !b",.".contains(mark)) {
        assert_eq!(to_sheet(b"", mark, &mut []), (20, 0, 0));
    }
    for mark in *b",." {
        assert_eq!(to_sheet(b"", mark, &mut []), (2, 0, 0));
        assert_eq!(to_sheet(&book[..41], mark, &mut []), (2, 41, 0));
        assert_eq!(to_sheet(&book, mark, &mut []), (23, 0, 0));
        assert_eq!(to_sheet(&[0; 60_001], mark, &mut []), (1, 0, 0));
    }
}

#[test]
fn what_the_program_says() {
    let said = |work, input: &[u8]| told(work, input).said;
    let read = |input: &[u8]| said(Work::Read, input);
    assert_eq!(
        read(&comma("S;4.0")),
        "sheet: refused 21 at 2: the other mark in a price, a rate or lots\n"
    );
    assert_eq!(
        read(b""),
        "sheet: refused 20 at 1: the first line is neither mark, nor mark.\n"
    );
    assert_eq!(
        read(&[0; 60_001]),
        "sheet: refused 1 at 0: more than 60,000 bytes\n"
    );
    let form = "sheet: refused 22 at 2: a letter that begins no line, another number of parts, or no line feed\n";
    assert_eq!(read(&comma("K;4")), form);
    assert_eq!(
        read(&comma("S;4")),
        "sheet: refused 3 at 0: a tag that does not belong here: the settlement price S\n"
    );
    let long = [&b"mark,\n"[..], &b"I;;;;\n".repeat(9_000)].concat();
    assert_eq!(
        read(&long),
        "sheet: refused 1 at 0: more than 60,000 bytes\n"
    );
    let point = Work::Write(Mark::Point);
    assert_eq!(
        said(point, b""),
        "sheet: refused 2 at 0: the book ends where a field is due\n"
    );
    assert_eq!(
        said(point, b"Xyz"),
        "sheet: refused 2 at 0: the book ends before the end of the decimals X\n"
    );
    assert_eq!(
        said(point, b"\0\0\0"),
        "sheet: refused 3 at 0: a byte that is no tag, or that follows Z\n"
    );
    let good = told(Work::Read, &comma(GOLD));
    assert_eq!((good.status, &*good.said, good.out.len()), (0, "", 44));
    let refused = told(Work::Read, &comma("S;4"));
    assert_eq!(
        (refused.status, refused.out),
        (1, [field(b'S', "4"), field(b'Z', "")].concat())
    );
}

/// The words of a book's refusals are those of docs/RULES.md, section 16, number by number.
#[test]
fn words_of_each_number() {
    let page = include_str!("../../../docs/RULES.md");
    let section = page.split("## 16.").nth(1).expect("section 16");
    let section = section.split("## 17.").next().expect("a part");
    for number in [0, 1, 6, 7, 8, 9, 10, 11, 12, 13] {
        let row = format!("| {number} | {} |\n", words_of_a_book(number, 0, b"D"));
        assert!(section.contains(&row), "{row}");
    }
    let one_line = section.split_whitespace().collect::<Vec<_>>().join(" ");
    for tag in b"DXSLUVCIKHQBAZ" {
        let words = words_of_a_book(4, 0, &[*tag]);
        assert!(
            one_line.contains(words.strip_prefix("a comma in ").expect("words")),
            "{words}"
        );
    }
    for number in 2..=5 {
        let (named, unnamed) = (
            words_of_a_book(number, 0, b"D"),
            words_of_a_book(number, 0, b"?"),
        );
        let row = format!(
            "| {number} | {} | {unnamed} |\n",
            named.replace("the limit D", "FIELD")
        );
        assert!(section.contains(&row), "{row}");
    }
    assert!(one_line.contains(&format!("number 2 says: {}.", words_of_a_book(2, 1, b"D"))));
}

const SEED: u64 = 7;

/// An accepted book, there and back in both marks; and what the maker drafted of it is its sheet.
#[test]
fn accepted_books_there_and_back() {
    let (mut accepted, mut drafted) = (0, 0);
    for index in 0..1_500 {
        let book = make::book(SEED, index).bytes;
        let judged = reader::read(&book).map(|_| ());
        for mark in *b",." {
            let (answer, text) = written(&book, mark);
            match judged {
                Ok(()) => assert_eq!(
                    read(&text),
                    ((0, 0, book.len() as u64), book.clone()),
                    "index {index}"
                ),
                Err(refusal) => {
                    assert_eq!(
                        answer,
                        (refusal.number(), refusal.place as u64, 0),
                        "index {index}"
                    );
                }
            }
            let made = sheet(SEED, index);
            if made.kind == "whole" && made.bytes[4] == mark && judged.is_ok() {
                assert_eq!(made.bytes, text, "index {index}");
                drafted += 1;
            }
        }
        accepted += u64::from(judged.is_ok());
    }
    assert!(accepted > 700 && drafted > 100, "{accepted} {drafted}");
}

/// A sheet whose book is accepted, there and back in its own mark; and with every mark of its figures replaced it makes the same book.
#[test]
fn sheets_of_accepted_books_there_and_back() {
    let mut accepted = 0;
    for index in 0..3_000 {
        let text = sheet(SEED, index).bytes;
        let (answer, book) = read(&text);
        if answer.0 == 0 {
            assert_eq!(written(&book, text[4]).1, text, "index {index}");
            let other = if text[4] == b',' { b'.' } else { b',' };
            let turned: Vec<u8> = text
                .iter()
                .map(|&byte| if byte == text[4] { other } else { byte })
                .collect();
            assert_eq!(read(&turned), (answer, book), "index {index}");
            accepted += 1;
        }
    }
    assert!(accepted > 300, "{accepted}");
}

/// Easy ways to get it wrong.
#[derive(Clone, Copy, Debug, PartialEq, Eq, PartialOrd, Ord)]
enum Wrong {
    Nothing,
    OtherMarkTaken,
    OtherMarkTurned,
    OwnMarkDropped,
    FirstMarkAlone,
    MarkTurnedInCodes,
    MarkTurnedInDays,
    LotsAreNoFigures,
    SeatsAreNoFigures,
    TwentyOneFirst,
    EveryFormFirst,
    LinesFromZero,
    RefusedBookNotLeft,
    EndTwice,
    EndIsALine,
    LastFeedNotWanted,
    EmptyLinesSkipped,
    ReturnsDropped,
    LastEmptyPartsDropped,
    FirstByteOfTheLetter,
    SeatsInLinesOfTheirOwn,
    SixtyThousandTooLong,
    LongBookIsTheSheets,
    SecondMarkLineTaken,
    EmptyPartsAreNone,
}

const WRONG: [Wrong; 24] = [
    Wrong::OtherMarkTaken,
    Wrong::OtherMarkTurned,
    Wrong::OwnMarkDropped,
    Wrong::FirstMarkAlone,
    Wrong::MarkTurnedInCodes,
    Wrong::MarkTurnedInDays,
    Wrong::LotsAreNoFigures,
    Wrong::SeatsAreNoFigures,
    Wrong::TwentyOneFirst,
    Wrong::EveryFormFirst,
    Wrong::LinesFromZero,
    Wrong::RefusedBookNotLeft,
    Wrong::EndTwice,
    Wrong::EndIsALine,
    Wrong::LastFeedNotWanted,
    Wrong::EmptyLinesSkipped,
    Wrong::ReturnsDropped,
    Wrong::LastEmptyPartsDropped,
    Wrong::FirstByteOfTheLetter,
    Wrong::SeatsInLinesOfTheirOwn,
    Wrong::SixtyThousandTooLong,
    Wrong::LongBookIsTheSheets,
    Wrong::SecondMarkLineTaken,
    Wrong::EmptyPartsAreNone,
];

/// Whether a part, counted from 1, of a line with this letter is a price, a rate or lots.
fn is_figure(letter: &str, part: usize, wrong: Wrong) -> bool {
    match letter {
        "S" | "L" | "U" | "V" => true,
        "I" => part > 1 && wrong != Wrong::SeatsAreNoFigures,
        "K" | "H" | "Q" => true,
        "B" | "A" => part == 1 || part == 2 && wrong != Wrong::LotsAreNoFigures,
        _ => false,
    }
}

/// A sheet read in the most direct way, line by line as text: a character for each byte.
fn walked(sheet: &[u8], wrong: Wrong) -> (Answer, Vec<u8>) {
    let text: String = sheet.iter().map(|&byte| char::from(byte)).collect();
    let refused = |number: u64, line: usize| ((number, line as u64, 0), Vec::new());
    let most = if wrong == Wrong::SixtyThousandTooLong {
        59_999
    } else {
        60_000
    };
    if sheet.len() > most {
        return refused(1, 0);
    }
    let (own, other) = match text.get(..6) {
        Some("mark,\n") => (',', '.'),
        Some("mark.\n") => ('.', ','),
        _ => return refused(20, 1),
    };
    let mut book = Vec::new();
    let (mut rest, mut number, mut later) = (&text[6..], 1, None);
    if wrong == Wrong::LinesFromZero {
        number = 0;
    }
    while !rest.is_empty() {
        number += 1;
        let feed = match rest.find('\n') {
            Some(feed) => feed,
            None if wrong == Wrong::LastFeedNotWanted => rest.len(),
            None => return refused(22, number),
        };
        let mut line = &rest[..feed];
        rest = rest.get(feed + 1..).unwrap_or("");
        if wrong == Wrong::ReturnsDropped {
            line = line.trim_end_matches('\r');
        }
        if line.is_empty() && wrong == Wrong::EmptyLinesSkipped
            || line.starts_with("mark") && wrong == Wrong::SecondMarkLineTaken
            || line == "Z" && wrong == Wrong::EndIsALine
        {
            continue;
        }
        let mut words: Vec<&str> = line.split(';').collect();
        while wrong == Wrong::LastEmptyPartsDropped && words.last() == Some(&"") {
            words.pop();
        }
        let letter = match words.first().copied().unwrap_or("") {
            long if long.is_ascii() && long.len() > 1 && wrong == Wrong::FirstByteOfTheLetter => {
                &long[..1]
            }
            letter => letter,
        };
        let parts = &words[words.len().min(1)..];
        let good = match (letter, parts.len()) {
            ("D" | "X" | "S" | "L" | "U" | "V" | "C", 1) => true,
            ("I" | "B" | "A", 4) => true,
            ("I", 1) | ("K" | "H" | "Q", 1) => wrong == Wrong::SeatsInLinesOfTheirOwn,
            _ => false,
        };
        let good = good && !(wrong == Wrong::EmptyPartsAreNone && parts.contains(&""));
        let mut crossed = false;
        for (nth, part) in (1..).zip(parts) {
            crossed |= is_figure(letter, nth, wrong) && part.contains(other);
        }
        crossed &= !matches!(wrong, Wrong::OtherMarkTaken | Wrong::OtherMarkTurned);
        if !good && !(wrong == Wrong::TwentyOneFirst && crossed) {
            return refused(22, number);
        }
        if crossed && wrong == Wrong::EveryFormFirst {
            later = later.or(Some(number));
        } else if crossed {
            return refused(21, number);
        }
        let mut values = Vec::new();
        for (nth, part) in (1..).zip(parts) {
            let turned = part.replace(own, ".");
            let carried = match (letter, nth) {
                ("C", _) | ("I", 1) => wrong == Wrong::MarkTurnedInCodes,
                ("B" | "A", 3 | 4) => wrong == Wrong::MarkTurnedInDays,
                _ => false,
            };
            values.push(match (is_figure(letter, nth, wrong), wrong) {
                (true, Wrong::OwnMarkDropped) => part.replace(own, ""),
                (true, Wrong::FirstMarkAlone) => part.replacen(own, ".", 1),
                (true, Wrong::OtherMarkTurned) => turned.replace(other, "."),
                (true, _) => turned,
                (false, _) if carried => turned,
                (false, _) => part.to_string(),
            });
        }
        let fields = match letter {
            "I" if parts.len() == 4 => "IKHQ".chars().zip(values).collect(),
            _ => vec![(letter.chars().next().expect("a letter"), values.join(" "))],
        };
        for (tag, value) in fields {
            let length = value.chars().count();
            let bytes = [
                tag,
                char::from((length / 256) as u8),
                char::from((length % 256) as u8),
            ];
            book.extend(
                bytes
                    .into_iter()
                    .chain(value.chars())
                    .map(|byte| byte as u8),
            );
        }
    }
    if let Some(line) = later {
        return refused(21, line);
    }
    book.extend(b"Z\0\0".repeat(if wrong == Wrong::EndTwice { 2 } else { 1 }));
    let Err(refusal) = reader::read(&book) else {
        return ((0, 0, book.len() as u64), book);
    };
    let (number, place) = (refusal.number(), refusal.place);
    if wrong == Wrong::RefusedBookNotLeft || wrong == Wrong::LongBookIsTheSheets && number == 1 {
        return refused(number, place);
    }
    ((number, place as u64, book.len() as u64), book)
}

/// Generated sheets come to what the direct reading says, and each of its mistakes is seen by several of them; every number occurs.
#[test]
fn a_third_reading_and_its_mistakes() {
    let mut numbers: BTreeMap<(u64, bool), u64> = BTreeMap::new();
    let mut kinds: BTreeMap<&str, u64> = BTreeMap::new();
    let mut seen: BTreeMap<Wrong, u64> = BTreeMap::new();
    for index in 0..2_500 {
        let made = sheet(SEED, index);
        let right = read(&made.bytes);
        assert_eq!(right, walked(&made.bytes, Wrong::Nothing), "index {index}");
        *numbers.entry((right.0 .0, right.0 .2 > 0)).or_default() += 1;
        *kinds.entry(made.kind).or_default() += 1;
        // Mistakes about sizes are tried on long sheets, and the others on short ones: the direct reading takes its time.
        let long = made.bytes.len() > 50_000;
        let tried = |wrong: &Wrong| match wrong {
            Wrong::SixtyThousandTooLong | Wrong::LongBookIsTheSheets => long,
            _ => made.bytes.len() < 3_000,
        };
        for wrong in WRONG.into_iter().filter(tried) {
            if seen.get(&wrong).is_none_or(|&times| times < 20) {
                *seen.entry(wrong).or_default() += u64::from(walked(&made.bytes, wrong) != right);
            }
        }
    }
    assert!(
        seen.values().all(|&times| times >= 5) && seen.len() == WRONG.len(),
        "{seen:?}"
    );
    for number in [
        (0, true),
        (1, true),
        (1, false),
        (20, false),
        (21, false),
        (22, false),
    ] {
        assert!(
            numbers.get(&number).is_some_and(|&times| times >= 5),
            "{number:?} of {numbers:?}"
        );
    }
    for number in [3, 4, 5, 6, 7, 8, 9, 10, 12, 13] {
        assert!(
            numbers
                .get(&(number, true))
                .is_some_and(|&times| times >= 2),
            "{number} of {numbers:?}"
        );
    }
    assert!(
        kinds.len() == 27 && kinds.values().all(|&times| times >= 10),
        "{kinds:?}"
    );
}

/// Every byte replaced, left out and put in, and every byte as the letter.
#[test]
fn small_sheets_byte_by_byte() {
    for text in swept().chain(lettered()) {
        assert_eq!(
            read(&text),
            walked(&text, Wrong::Nothing),
            "{:?}",
            String::from_utf8_lossy(&text)
        );
    }
}
