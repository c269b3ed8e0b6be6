#!/usr/bin/env python3
"""Writes the sample sheets of request [8] into the working folder: each NAME.sheet with the book that is made of it, NAME.book, and a refused one
with the line on standard error, NAME.said. Where the sheet itself is refused there is no book. Sheets and books are written out here by hand, from
the request, and the lines from section 16 of docs/RULES.md; none is taken from a program."""

OWN_WORDS = {
    1: "more than 60,000 bytes",
    20: "the first line is neither mark, nor mark.",
    21: "the other mark in a price, a rate or lots",
    22: "a letter that begins no line, another number of parts, or no line feed",
}


def book(text):
    """A line for each field: its tag, a blank and its value."""
    fields = [(line[0].encode(), line[2:].encode()) for line in text.split("\n") if line]
    return b"".join(tag + bytes(divmod(len(value), 256)) + value for tag, value in [*fields, (b"Z", b"")])


GOLD_SHEET = "mark,\nD;D\nX;2\nS;400,00\nL;8,000\nU;8,000\nV;4,000\n"
GOLD = "D D\nX 2\nS 400.00\nL 8.000\nU 8.000\nV 4.000\n"  # 41 bytes

# document 01's listing
LISTING_SHEET = (
    GOLD_SHEET
    + """C;W3
I;M1;0;1;0
A;410,00;1;20250115;1000
C;P2
I;M1;4;0;4
B;440,00;4;20250115;1000
C;W1
I;M1;0;3;0
A;440,00;3;20250115;1000
C;P1
I;M1;8;2;6
B;440,00;8;20250115;1000
A;440,00;2;20250115;1000
C;W2
I;M1;0;5;0
A;420,00;5;20250115;1000
"""
)
LISTING = (
    GOLD
    + """C W3
I M1
K 0
H 1
Q 0
A 410.00 1 20250115 1000
C P2
I M1
K 4
H 0
Q 4
B 440.00 4 20250115 1000
C W1
I M1
K 0
H 3
Q 0
A 440.00 3 20250115 1000
C P1
I M1
K 8
H 2
Q 6
B 440.00 8 20250115 1000
A 440.00 2 20250115 1000
C W2
I M1
K 0
H 5
Q 0
A 420.00 5 20250115 1000
"""
)

# silver in whole yuan: the rates alone have a mark
SILVER_SHEET = """mark,
D;D
X;0
S;8000
L;10,000
U;10,000
V;5,000
C;P1
I;M1;10;0;10
B;8800;10;20250115;1000
C;W1
I;M2;0;3;0
A;8800;3;20250115;1000
C;W2
I;M2;0;4;0
A;8400;4;20250115;2031
"""
SILVER = """D D
X 0
S 8000
L 10.000
U 10.000
V 5.000
C P1
I M1
K 10
H 0
Q 10
B 8800 10 20250115 1000
C W1
I M2
K 0
H 3
Q 0
A 8800 3 20250115 1000
C W2
I M2
K 0
H 4
Q 0
A 8400 4 20250115 2031
"""

# a customer with four seats, and one with one
SEATS_SHEET = (
    GOLD_SHEET
    + """C;P1
I;M4;4;0;4
I;M3;3;0;2
I;M2;0;2;0
I;M1;1;0;1
B;440,00;5;20250114;2359
B;450,50;3;20250115;0105
A;400,00;2;20250115;1455
C;W1
I;M1;0;7;0
A;440,00;7;20250115;1000
"""
)
SEATS = (
    GOLD
    + """C P1
I M4
K 4
H 0
Q 4
I M3
K 3
H 0
Q 2
I M2
K 0
H 2
Q 0
I M1
K 1
H 0
Q 1
B 440.00 5 20250114 2359
B 450.50 3 20250115 0105
A 400.00 2 20250115 1455
C W1
I M1
K 0
H 7
Q 0
A 440.00 7 20250115 1000
"""
)

ACCEPTED = {
    "listing-comma": (LISTING_SHEET, LISTING),
    "listing-point": (LISTING_SHEET.replace(",", "."), LISTING),
    "silver": (SILVER_SHEET, SILVER),
    "four-seats": (SEATS_SHEET, SEATS),
    "no-customers": (GOLD_SHEET, GOLD),
}

# The sheet itself is refused: the sheet, the number, and the line.
REFUSED = {
    "refused-1-too-long": (GOLD_SHEET + "C;P1\n" * 11_990 + "C;P\n", 1, 0),
    "refused-20-empty": ("", 20, 1),
    "refused-20-no-mark-line": (LISTING_SHEET.removeprefix("mark,\n"), 20, 1),
    "refused-20-no-line-feed": ("mark,", 20, 1),
    "refused-20-semicolon": (LISTING_SHEET.replace("mark,", "mark;"), 20, 1),
    "refused-20-carriage-returns": (LISTING_SHEET.replace("\n", "\r\n"), 20, 1),
    "refused-21-rate": (LISTING_SHEET.replace("L;8,000", "L;8.000"), 21, 5),
    "refused-21-rate-of-a-point-sheet": (LISTING_SHEET.replace(",", ".").replace("L;8.000", "L;8,000"), 21, 5),
    "refused-21-grouped-price": (LISTING_SHEET.replace("S;400,00", "S;1.400,00"), 21, 4),
    "refused-21-grouped-lots": (GOLD_SHEET + "C;P1\nI;M1;0;1.000;0\nA;410,00;1000;20250115;1000\n", 21, 9),
    "refused-21-before-22-below": (LISTING_SHEET.replace("L;8,000", "L;8.000") + "Z\n", 21, 5),
    "refused-22-before-21": (LISTING_SHEET.replace("L;8,000", "L;8.000;"), 22, 5),
    "refused-22-before-21-below": (LISTING_SHEET.replace("S;400,00", "S").replace("L;8,000", "L;8.000"), 22, 4),
    "refused-22-empty-line": (LISTING_SHEET + "\n", 22, 24),
    "refused-22-end": (LISTING_SHEET + "Z;\n", 22, 24),
    "refused-22-field": (GOLD_SHEET + "C;P1\nI;M1\nK;0\nH;0\nQ;0\n", 22, 9),
    "refused-22-letter": (GOLD_SHEET + "C;P1\nK;1\n", 22, 9),
    "refused-22-mark-line": (LISTING_SHEET + "mark,\n", 22, 24),
    "refused-22-parts": (LISTING_SHEET.replace("C;W3", "C;W3;;;"), 22, 8),
    "refused-22-time-missing": (LISTING_SHEET.replace("410,00;1;20250115;1000", "410,00;1;20250115"), 22, 10),
    "refused-22-two-letters": (LISTING_SHEET.replace("D;D\n", "DD;D\n"), 22, 2),
    "refused-22-unended": (LISTING_SHEET[:-1], 22, 23),
}

# A customer A with one seat; the book is refused: the sheet, the book, the number, the place in the book, and its words.
SEATED_SHEET = GOLD_SHEET + "C;A\nI;M1;0;0;0\n"
SEATED = GOLD + "C A\nI M1\nK 0\nH 0\nQ 0\n"  # the customer at 41, K at 50, H at 54, Q at 58, and what follows at 62
FORM = "not of its form or range: "
MADE = {
    "refused-1-book-too-long": ("mark.\n" + "I;;;;\n" * 5_000, "I \nK \nH \nQ \n" * 5_000, 1, 0, "more than 60,000 bytes"),
    "refused-3-no-terms": ("mark,\nC;A\n", "C A\n", 3, 0, "a tag that does not belong here: the customer code C"),
    "refused-3-order": (
        GOLD_SHEET.replace("X;2\nS;400,00\n", "S;400,00\nX;2\n"),
        GOLD.replace("X 2\nS 400.00\n", "S 400.00\nX 2\n"),
        3,
        4,
        "a tag that does not belong here: the settlement price S",
    ),
    "refused-4-day": (SEATED_SHEET + "B;400,00;1;2025,115;1000\n", SEATED + "B 400.00 1 2025,115 1000\n", 4, 62, "a comma in the bought trade B"),
    "refused-5-code": (GOLD_SHEET + "C;A,1\nI;M1;0;0;0\n", GOLD + "C A,1\nI M1\nK 0\nH 0\nQ 0\n", 5, 41, FORM + "the customer code C"),
    "refused-5-carriage-returns": (
        GOLD_SHEET.replace("\n", "\r\n").replace("mark,\r", "mark,"),
        GOLD.replace("\n", "\r\n"),
        5,
        0,
        FORM + "the limit D",
    ),
    "refused-5-empty-part": (GOLD_SHEET + "C;A\nI;M1;0;;0\n", GOLD + "C A\nI M1\nK 0\nH \nQ 0\n", 5, 54, FORM + "the lots held short H"),
    "refused-5-grouped-lots": (GOLD_SHEET + "C;A\nI;M1;8,000;0;0\n", GOLD + "C A\nI M1\nK 8.000\nH 0\nQ 0\n", 5, 50, FORM + "the lots held long K"),
    "refused-5-two-marks": (GOLD_SHEET.replace("400,00", "4,000,00"), GOLD.replace("400.00", "4.000.00"), 5, 8, FORM + "the settlement price S"),
    "refused-6-edges": (GOLD_SHEET.replace("V;4", "V;8"), GOLD.replace("V 4", "V 8"), 6, 33, "the tier 1 edge U is not greater than the tier 2 edge V"),
    "refused-7-customer-twice": (
        SEATED_SHEET + "C;A\nI;M2;0;0;0\n",
        SEATED + "C A\nI M2\nK 0\nH 0\nQ 0\n",
        7,
        62,
        "this customer code was given before",
    ),
    "refused-8-unfilled": (
        GOLD_SHEET + "C;A\nI;M1;0;0;1\n",
        GOLD + "C A\nI M1\nK 0\nH 0\nQ 1\n",
        8,
        58,
        "the unfilled lots Q exceed the lots held on the locked side",
    ),
    "refused-9-trades": (
        GOLD_SHEET + "C;A\nI;M1;2;0;0\nB;400,00;1;20250115;1000\n",
        GOLD + "C A\nI M1\nK 2\nH 0\nQ 0\nB 400.00 1 20250115 1000\n",
        9,
        41,
        "this customer's opening trades on its net side sum to less than its net position",
    ),
    "refused-10-customers": (
        GOLD_SHEET + "".join(f"C;{1000 + i}\nI;M1;0;0;0\n" for i in range(257)),
        GOLD + "".join(f"C {1000 + i}\nI M1\nK 0\nH 0\nQ 0\n" for i in range(257)),
        10,
        41 + 256 * 24,
        "more than 256 customers",
    ),
    "refused-12-lost-mark": (
        SEATED_SHEET + "B;40000,00;1;20250115;1000\n",
        SEATED + "B 40000.00 1 20250115 1000\n",
        12,
        62,
        "this trade's price is above five times the settlement price S or below a fifth of it",
    ),
    "refused-13-seat-twice": (
        SEATED_SHEET + "I;M1;0;0;0\n",
        SEATED + "I M1\nK 0\nH 0\nQ 0\n",
        13,
        62,
        "this customer has a seat of this code already",
    ),
}


def main():
    files = {}
    for name, (sheet, fields) in ACCEPTED.items():
        files |= {f"{name}.sheet": sheet.encode(), f"{name}.book": book(fields)}
    for name, (sheet, number, place) in REFUSED.items():
        files |= {f"{name}.sheet": sheet.encode(), f"{name}.said": f"sheet: refused {number} at {place}: {OWN_WORDS[number]}\n".encode()}
    for name, (sheet, fields, number, place, words) in MADE.items():
        said = f"sheet: refused {number} at {place}: {words}\n"
        files |= {f"{name}.sheet": sheet.encode(), f"{name}.book": book(fields), f"{name}.said": said.encode()}
    assert len(files["refused-1-too-long.sheet"]) == 60_001, len(files["refused-1-too-long.sheet"])
    for name, bytes_of in files.items():
        with open(name, "wb") as file:
            file.write(bytes_of)


if __name__ == "__main__":
    main()
