#!/usr/bin/env python3
"""Writes the sample lists of the lock ladder into the working folder, each NAME.list with its listing NAME.txt, and a refused one with the line
on standard error, NAME.said. The listings are written out here by hand, from request [12]; none is taken from a program."""

WORDS = {
    30: "more than 2,001 line feeds",
    31: "a zero price or zero open interest",
    32: "a letter that is no mark",
    33: "a line that is not of a day's form",
}

# mark, price limit, and what the day is
LOCKS = [
    ("-", "7.000", "none"),
    ("U", "7.000", "first holds"),
    ("U", "10.000", "same 2"),
    ("U", "13.000", "same 3"),
    ("D", "13.000", "reverse"),
    ("D", "13.000", "same 2"),
    ("U", "13.000", "reverse"),
    ("-", "7.000", "none"),
    ("D", "7.000", "first fails"),
    ("-", "7.000", "none"),
    ("U", "-", "first no-limit"),
    ("-", "10.000", "none"),
    ("D", "7.000", "first no-next-limit"),
    ("D", "-", "same 2"),
    ("-", "7.000", "none"),
    ("U", "-", "first no-day"),
]

# both ends of the raise and a thousandth beside each; the mark of the day after does not matter
EDGES = [
    ("D", "9.000", "first holds"),
    ("-", "12.000", "none"),
    ("U", "9.000", "first fails"),
    ("-", "11.999", "none"),
    ("U", "9.000", "first holds"),
    ("D", "15.000", "reverse"),
    ("-", "9.000", "none"),
    ("D", "9.000", "first fails"),
    ("D", "15.001", "same 2"),
]


def days(metal, rows):
    """Prices and open interest wander, and decide nothing here."""
    lines = [f"{560 + day * 7 % 5}.{day * 13 % 100:02} {180_000 + day * 37 % 900} {row[0]} {row[1]}\n" for day, row in enumerate(rows)]
    return metal + "\n" + "".join(lines)


def listing(rows):
    return f"days {len(rows)}\n" + "".join(f"{day} {row[2]}\n" for day, row in enumerate(rows, 1))


def main():
    two = days("gold", [("-", "7.000"), ("U", "7.000")])
    accepted = {
        "gold-locks": (days("gold", LOCKS), listing(LOCKS)),
        "silver-edges": (days("silver", EDGES), listing(EDGES)),
        "no-days": ("gold\n", "days 0\n"),
    }
    refused = {
        "refused-30": (days("gold", [("-", "7.000")] * 2_001), 30, 0),
        "refused-31-price": (two + "0.00 180000 D 10.000\n", 31, 3),
        "refused-31-before-32": (two + "560.00 0 X 10.000\n", 31, 3),
        "refused-32-letter": (two + "560.00 180000 X 10.000\n", 32, 3),
        "refused-32-small": (two + "560.00 180000 u 10.000\n560.00 180000 U 7,000\n", 32, 3),
        "refused-33-mark": (two + "560.00 180000 + 10.000\n", 33, 3),
        "refused-33-two-letters": (two + "560.00 180000 UU 10.000\n", 33, 3),
        "refused-33-limit": (two + "560.00 0 X 10.00\n", 33, 3),
        "refused-33-zero-limit": (two + "560.00 180000 U 0.000\n", 33, 3),
        "refused-33-comma": (two + "560.00 180000 U 10,000\n", 33, 3),
        "refused-33-short-form": ("gold\n560.00 180000\n", 33, 1),
        "refused-33-unended": (two[:-1], 33, 2),
        "refused-33-metal": (two.replace("gold", "copper"), 33, 0),
    }
    files = {}
    for name, (text, said) in accepted.items():
        files |= {f"{name}.list": text, f"{name}.txt": said}
    for name, (text, number, place) in refused.items():
        line = f"refused {number} at {place}"
        words = "the first line is neither gold nor silver" if (number, place) == (33, 0) else WORDS[number]
        files |= {f"{name}.list": text, f"{name}.txt": line + "\n", f"{name}.said": f"ladder: {line}: {words}\n"}
    for name, text in files.items():
        with open(name, "w", encoding="ascii", newline="") as file:
            file.write(text)


if __name__ == "__main__":
    main()
