#!/usr/bin/env python3
"""Runs the worked lines of RULES.md through a program: docs/rules.py target/cargo/release/second, or another program.

What must come out is read from the page; the books are made here, in the order of the page's lines. A listing has no seats; of a program
that prints each seat's lots below its customer (examples/allot.py --seats), these are compared too."""
import pathlib
import re
import subprocess
import sys

PAGE = (pathlib.Path(__file__).parent / "RULES.md").read_text()


def field(tag, value=""):
    return tag.encode() + bytes(divmod(len(value), 256)) + value.encode()


def terms(d="D", x="2", s="400.00", l="8.000", u="8.000", v="4.000"):
    return field("D", d) + field("X", x) + field("S", s) + field("L", l) + field("U", u) + field("V", v)


def seat(code, k="0", h="0", q="0"):
    return field("I", code) + field("K", k) + field("H", h) + field("Q", q)


def seated(code, seats, *trades):
    return field("C", code) + b"".join(seats) + b"".join(field(t, v) for t, v in trades)


def customer(code, k="0", h="0", q="0", *trades):
    """A customer with one seat."""
    return seated(code, [seat("M1", k, h, q)], *trades)


def traded(tag, value):
    """A customer without a position, with one trade."""
    return customer("A", "0", "0", "0", (tag, value))


def rows(heading, nth=0):
    """The cells of the first table under a heading, or of a later one, without its two top lines."""
    section = re.search(rf"^## {re.escape(heading)}$.*?(?=^## )", PAGE, re.M | re.S).group(0)
    table = re.findall(r"(?:^\|.*\n)+", section, re.M)[nth].strip()
    return [[cell.strip() for cell in line.strip("|").split("|")] for line in table.split("\n")[2:]]


def hexed(heading):
    """The bytes of the first block of code under a heading, from its second column, and each line's place."""
    lines = re.search(rf"^###? {heading}$.*?^```\n(.*?)^```", PAGE, re.M | re.S).group(1).split("\n")[1:-1]
    return [(int(line[:5]), bytes.fromhex(re.match(r"((?:[0-9a-f]{2} )+)", line[7:] + " ").group(1))) for line in lines]


GOLD, END = terms(), field("Z")
YUAN = terms(x="0", s="400")
SILVER = terms("D", "0", "8000", "10.000", "10.000", "5.000")
STAMP = " 20250115 1000"
LACKING = customer("A", "5", "0", "0", ("B", "400.00 4" + STAMP))
FULL = seated("A", [seat(f"M{i}") for i in range(1, 5)])
CROWD = [customer(str(1000 + i)) for i in range(256)]

REFUSED = [
    b"",
    b"a" * 60001,
    bytes(60000),
    GOLD[:-1],
    GOLD,
    GOLD + b"Y\0\1",
    GOLD + b"Y\0\0",
    GOLD + field("V", "4.000"),
    GOLD + field("B", "400.00 1" + STAMP),
    GOLD + field("I", "M1"),
    GOLD + field("C", "A") + field("K", "0"),
    [GOLD + field("C", "A") + END, GOLD + field("C", "A") + field("C", "B")],
    GOLD + field("C", "A") + field("B", "400.00 1" + STAMP),
    [GOLD + field("C", "A") + field("I", "M1") + next_one for next_one in (field("H", "0"), field("I", "M2"))],
    GOLD + customer("A")[:-4] + END,
    GOLD + customer("A") + field("K", "0"),
    GOLD + END + b"a",
    GOLD + field("Z", "a") + b"a",
    [terms(s="400,00") + END, terms(s="x,") + END],
    terms(d=",") + END,
    GOLD[:4] + GOLD[8:] + END,
    GOLD[:4] + GOLD[8:17] + GOLD[4:8] + GOLD[17:] + END,
    GOLD[:8] + GOLD[4:] + END,
    [terms(x="1", s="400.0") + END, terms(x="02") + END, terms(x="") + END],
    terms(x=",") + END,
    terms(x="0") + END,
    terms(s="400") + END,
    terms(x="0", s="8,000") + END,
    GOLD + customer("A", "0", "0", "0", ("B", "400 1" + STAMP)) + END,
    YUAN + customer("A", "0", "0", "0", ("B", "400.00 1" + STAMP)) + END,
    GOLD + field("C", "A" * 44) + END,
    terms(u="4.000") + END,
    terms(u="4.000", v="4.0") + END,
    GOLD + customer("A", "0", "0", "0", ("B", "400.00 1")) + END,
    GOLD + customer("A", "0", "0", "0", ("B", "400.00 1 20250431 1000")) + END,
    GOLD + customer("A", "0", "0", "0", ("B", "400.00 1 20250431 10,0")) + END,
    GOLD + customer("A", "0", "0", "0", ("B", "40000.00 1" + STAMP)) + END,
    GOLD + customer("A", "0", "0", "0", ("A", "4.00 1" + STAMP)),
    GOLD + customer("A", "0", "0", "0", ("B", "40000.00 1,0" + STAMP)) + END,
    GOLD + customer("A", "0", "0", "0", ("B", "40000.00 0" + STAMP)) + END,
    GOLD + customer("A", "0", "0", "0", ("B", "4000000 1" + STAMP)) + END,
    GOLD + LACKING + field("A", "40000.00 1" + STAMP) + END,
    GOLD + customer("A") + customer("B") + customer("A") + END,
    [GOLD + field("C", "A") + seat(code) + END for code in ("", "m1", "M" * 13, "M,")],
    GOLD + customer("A") + seat("M1") + END,
    [GOLD + customer("A") + field("I", "M1"), GOLD + customer("A") + field("I", "M1") + field("K", ",")],
    GOLD + customer("A") + b"I\0\2M",
    GOLD + customer("A") + seat("M2") + seat("M1") + END,
    GOLD + FULL + seat("M5") + END,
    [GOLD + FULL + seat("M1") + END, GOLD + FULL + seat("m") + END],
    GOLD + FULL + b"I\0\2M",
    GOLD + traded("B", "400.00 1" + STAMP) + seat("M2") + END,
    GOLD + customer("A", "5", "9", "6") + END,
    GOLD + seated("A", [seat("M1", "9"), seat("M2", "1", "0", "2")]) + END,
    GOLD + LACKING + END,
    GOLD + customer("B") + LACKING + customer("C") + END,
    GOLD + seated("A", [seat("M1", "5"), seat("M2", "4")], ("B", "400.00 8" + STAMP)) + END,
    GOLD + LACKING,
    GOLD + LACKING + field("K", "1"),
    GOLD + LACKING + field("A", ", 1"),
    GOLD + LACKING + field("C", "a"),
    GOLD + LACKING + customer("A") + END,
    GOLD + LACKING + field("Z", "a"),
    GOLD + b"".join(CROWD) + field("C"),
    GOLD + b"".join(CROWD) + b"C\0\1",
    GOLD + b"".join(CROWD[:-1]) + customer("1255", "5") + field("C"),
]


def figures():
    """Good and bad figures: books for each, with its place in them, and what they must come to. A price is tried in S and in a trade."""
    table = re.search(r"^\| \| Good .*?\n\n", PAGE, re.M | re.S).group(0).strip().split("\n")[2:]
    for line in table:
        kind, good, bad = [cell.strip() for cell in line.strip("|").split("|")]
        make = {
            "X": lambda v: [(4, terms(x=v, s="400" if v == "0" else "400.00"))],
            "price, X 2": lambda v: [(8, terms(s=v)), (62, near("2", v, GOLD) + traded("B", f"{v} 1{STAMP}"))],
            "price, X 0": lambda v: [(8, terms(x="0", s=v)), (59, near("0", v, YUAN) + traded("A", f"{v} 1{STAMP}"))],
            "rate": lambda v: [(17, terms(l=v))],
            "lots": lambda v: [(50, GOLD + customer("A", v, v, "0"))],
            "day": lambda v: [(62, GOLD + traded("B", f"400.00 1 {v} 1000"))],
            "time": lambda v: [(62, GOLD + traded("A", f"400.00 1 20250115 {v}"))],
        }[kind]
        # terms whose S a trade at a good price is not too far from
        near = lambda x, v, otherwise: terms(x=x, s=v) if f"`{v}`" in good else otherwise
        for v in re.findall(r"`([^`]*)`", good):
            for place, book in make(v):
                yield book + END, "total 0\nleft 0\n" + ("A N 0\n" if place > 41 else "")
        for v in re.findall(r"`([^`]*)`", bad) + [""] * ("no bytes" in bad):
            for place, book in make(v):
                yield book + END, f"refused {4 if ',' in v else 5} at {place}\n"
    for v in "400.00  1" + STAMP, f"400.00 1{STAMP} ", "400.00 1 20250115", "400.00 1", "400.00 0" + STAMP:
        assert f"`{v}`" in PAGE, v
        yield GOLD + traded("B", v) + END, "refused 5 at 62\n"


def bounds():
    """Section 6: prices at five times S and at a fifth of it, and beyond; bought and sold, of a customer without a position."""
    for x, s, good, far in rows("6. Refusal numbers", 2):
        terms_of = terms(x=x.strip("`"), s=s.strip("`"))
        for tag in "BA":
            for v in re.findall(r"`([^`]*)`", good):
                yield terms_of + traded(tag, f"{v} 1{STAMP}") + END, "total 0\nleft 0\nA N 0\n"
            for v in re.findall(r"`([^`]*)`", far):
                yield terms_of + traded(tag, f"{v} 1{STAMP}") + END, f"refused 12 at {len(terms_of) + 21}\n"


def standings():
    """Section 9: a position of 10 lots for each line, its total gain, and its standing; gold in fen, then silver in yuan."""
    for nth, terms_of, s in (0, GOLD, 40000), (1, SILVER, 8000):
        for position, price, total, times, standing in rows("9. Standing", nth):
            number = int(price.replace(".", ""))
            long = position.startswith("long")
            gain = (s - number if long else number - s) * 10
            assert (total, times) == (f"{gain:,}", f"{gain * 100000:,}"), (price, gain)
            q = "0" if not long or "Q 0" in position else "10"
            trade = ("B" if long else "A", f"{price} 10{STAMP}")
            group = customer("A", "10" if long else "0", "0" if long else "10", q, trade)
            left = 10 if standing[0] == "P" else 0
            yield terms_of + group + END, f"total 0\nleft {left}\nA {standing[0]} 0\n"
    worked = re.search(r"^Worked, S 400.00, K 17, H 2, (.*?): the net", PAGE, re.M | re.S).group(1)
    trades = re.findall(r"([BA])\s`(.*?)`", worked)
    assert len(trades) == 3, trades
    for held in [seat("M1", "17", "2", "15")], [seat("M1", "15", "0", "15"), seat("M2", "2", "2")]:
        yield GOLD + seated("A", held, *trades) + END, "total 0\nleft 0\nA N 0\n"


def positions(seats):
    """Seats as the page has them, with or without codes: each code, and K, H and Q as numbers."""
    held = re.findall(r"(?:(\w+) )?(\d+)/(\d+)/(\d+)", seats)
    return [(code or f"M{i}", int(k), int(h), int(q)) for i, (code, k, h, q) in enumerate(held)]


def in_all(seats):
    return [sum(s[i] for s in seats) for i in (1, 2, 3)]


def holds(code, seats, price):
    """A customer with such seats, and trades at a price for all that is held."""
    k, h, _ = in_all(seats)
    trades = [(tag, f"{price} {lots}{STAMP}") for tag, lots in (("B", k), ("A", h)) if lots > 0]
    return seated(code, [seat(i, *map(str, held)) for i, *held in seats], *trades)


def sums():
    """Section 8: the positions of several seats added up."""
    for seats, sum_of, net, counted in rows("8. Position and total gain"):
        seats = positions(seats)
        k, h, q = in_all(seats)
        assert sum_of == f"{k}, {h}, {q}", sum_of
        assert net == ("0" if k == h else f"{'long' if k > h else 'short'} {abs(k - h)}"), net
        pending, standing = re.match(r"(\d+|none), ([P1N])", counted).groups()
        assert pending == (str(min(q, k - h)) if k > h else "none"), counted
        yield GOLD + holds("A", seats, "440.00") + END, f"total 0\nleft {pending if k > h else 0}\nA {standing} 0\n"


def orders():
    """Section 8: 10 lots by two trades, of which the newer has a loss; in either order in the book, unless the stamps are equal."""
    for older, newer, _ in rows("8. Position and total gain", 1):
        trades = [("B", f"400.00 10 {older.strip('`')}"), ("B", f"440.00 10 {newer.strip('`')}")]
        for order in [trades] if older == newer else [trades, trades[::-1]]:
            yield GOLD + customer("A", "10", "0", "10", *order) + END, "total 0\nleft 10\nA P 0\n"


def divided(x, weights, lots):
    """A book in which one customer has x lots pending and the members offer their weights in tier 1; those without any have no position."""
    offers = b"".join(customer(c, "0", str(w), "0", *[("A", f"440.00 {w}{STAMP}")] * (w > 0)) for c, w in weights)
    book = GOLD + customer("ZZ", str(x), "0", str(x), ("B", f"440.00 {x}{STAMP}")) + offers + END
    own = "".join(f"{c} {1 if w else 'N'} {lots[c]}\n  M1 {lots[c]}\n" for c, w in weights)
    return book, f"total {x}\nleft 0\nZZ P {x}\n  M1 {x}\n{own}"


def divisions():
    """Section 10: one customer has all lots pending, and the members are in tier 1."""
    for line in re.findall(r"^- (\d+ over .*?)(?=\n- |\n\n)", PAGE, re.M | re.S):
        line = " ".join(line.split())
        x, members, shares = re.match(r"(\d+) over (.*?): .*[:.] (\w+ \d+(?:, \w+ \d+)*)\.$", line).groups()
        weights = [(c, int(w.replace(",", ""))) for c, w in re.findall(r"\b([A-Z]\w*) (\d[\d,]*\d|\d)", members)]
        yield divided(x, weights, dict(share.split() for share in shares.split(", ")))


def over_seats():
    """Section 12: a customer's offset over its seats, against one customer of just that many lots; and the same division over customers of
    tier 1 that have the seats' codes and weights, which shows the lots in a listing."""
    for standing, seats, weights, offset, lots in rows("12. The lots of the seats, and the report"):
        seats, x = positions(seats), int(offset)
        k, h, q = in_all(seats)
        column = {"P": 3, "1": 1 if k > h else 2}.get(standing)
        assert weights == ", ".join(str(s[column]) if column else "0" for s in seats), weights
        assert lots.split(", ") == [f"{s[0]} {n}" for s, n in zip(seats, re.findall(r" (\d+)", lots))], lots
        assert sum(map(int, re.findall(r" (\d+)", lots))) == x, lots
        own = f"A {standing} {x}\n" + "".join(f"  {line}\n" for line in lots.split(", "))
        left = min(q, k - h) - x if standing == "P" else 0
        other = {
            "P": (customer("ZZ", "0", offset, "0", ("A", f"440.00 {x}{STAMP}")), f"ZZ 1 {x}\n  M1 {x}\n"),
            "1": (customer("ZZ", offset, "0", offset, ("B", f"440.00 {x}{STAMP}")), f"ZZ P {x}\n  M1 {x}\n"),
            "N": (b"", ""),
        }[standing]
        group = holds("A", seats, "400.00" if standing == "N" else "440.00")
        yield GOLD + group + other[0] + END, f"total {x}\nleft {left}\n{own}{other[1]}"
        if x > 0:
            members = zip((s[0] for s in seats), map(int, weights.split(", ")))
            yield divided(x, list(members), dict(share.split() for share in lots.split(", ")))


def sizes():
    """Section 15: the largest residue and the largest total, and as many trades as fit, at the sizes that the page says; one trade more does not fit."""
    short = terms(x="0", s="1")
    held = [seat(i, "1000000", "0", "1000000") for i in "ABCD"]
    letters = "0123456789ABCDEFGHIJKLMNOPQRSTUVWXYZ"
    names = [*letters, *(a + b for a in letters for b in letters)][:256]
    book = short + b"".join(seated(code, held, *[("B", f"5 1000000{STAMP}")] * 4) for code in names) + END
    assert "a book of {:,} bytes has it".format(len(book)) in " ".join(PAGE.split()), len(book)
    lines = "".join(f"{code} P 0\n" + "".join(f"  {i} 0\n" for i in "ABCD") for code in names)
    yield book, "total 0\nleft 1024000000\n" + lines
    others = [seat(i, "0", "1000000", "0") for i in "ABCD"]
    sides = [(held, "B", "P")] * 128 + [(others, "A", "1")] * 128
    book = short + b"".join(seated(code, own, *[(tag, f"5 1000000{STAMP}")] * 4) for code, (own, tag, _) in zip(names, sides)) + END
    millions = "".join(f"  {i} 1000000\n" for i in "ABCD")
    lines = "".join(f"{code} {standing} 4000000\n{millions}" for code, (_, _, standing) in zip(names, sides))
    yield book, "total 512000000\nleft 0\n" + lines
    most = int(re.search(r"A book has at most ([\d,]+) trades", PAGE).group(1).replace(",", ""))
    trades = [("B", "1 1" + STAMP)] * most
    yield short + seated("A", [seat("A")], *trades) + END, "total 0\nleft 0\nA N 0\n"
    yield short + seated("A", [seat("A")], *trades, trades[0]) + END, "refused 1 at 0\n"
    large = int(re.search(r"can sum to ([\d,]+),000,000,", PAGE).group(1).replace(",", ""))
    assert len(short + seated("A", [seat("A")], *[("B", "1 1000000" + STAMP)] * large) + END) <= 60000 - 11
    assert len(short + seated("A", [seat("A")], *[("B", "1 1000000" + STAMP)] * (large + 1)) + END) > 60000
    full = sum(len(seated(f"{i:012}", [seat(f"{j:012}") for j in range(4)])) for i in range(256))
    assert f"take {full:,} bytes" in " ".join(PAGE.split()), full


def whole_book():
    """The book byte by byte: its places, and its listing in section 14. The report's places and length too."""
    for heading, length in ("A book byte by byte", 155), ("The fields of a report", 61):
        at = 0
        for place, part in hexed(heading):
            assert place == at and len(part) == 3 + part[1] * 256 + part[2], (heading, place)
            at += len(part)
        assert at == length, (heading, at)
    listing = re.search(r"^## 14\..*?^```\n(.*?)^```", PAGE, re.M | re.S).group(1)
    report = [(chr(part[0]), part[3:].decode()) for _, part in hexed("The fields of a report")]
    as_listed = {"T": "total {}\n", "R": "left {}\n", "C": "{} ", "E": "{} ", "O": "{}\n", "I": "  {} ", "J": "{}\n"}
    shown = "".join(as_listed[tag].format(value) for tag, value in report)
    assert without_seats(shown) == listing, shown
    yield b"".join(part for _, part in hexed("A book byte by byte")), shown


def refusals():
    lines = rows("7. The order of judging")
    assert len(lines) == len(REFUSED), (len(lines), len(REFUSED))
    for (_, answer, _), books in zip(lines, REFUSED):
        for book in books if isinstance(books, list) else [books]:
            yield book, f"refused {answer}\n"


def without_seats(listing):
    return re.sub(r"^  .*\n", "", listing, flags=re.M)


passed = failed = with_seats = 0
for part in refusals, figures, bounds, sums, orders, standings, divisions, over_seats, sizes, whole_book:
    for book, wanted in part():
        run = subprocess.run(sys.argv[1:], input=book, capture_output=True)
        # status 1 is the program's for a refused book, and 0 the second program's
        got = run.stdout.decode() if run.returncode == 0 or wanted.startswith("refused") and run.returncode == 1 else f"status {run.returncode}"
        # seats are compared where the program prints them and the page says their lots
        shown = got != without_seats(got) and wanted != without_seats(wanted)
        wanted, got = (wanted, got) if shown else (without_seats(wanted), without_seats(got))
        passed, failed, with_seats = passed + (got == wanted), failed + (got != wanted), with_seats + shown
        if got != wanted:
            print(f"{part.__name__}: {book[:80]!r}\nwanted {wanted!r}\ngot    {got!r}")
print(f"{with_seats} listings with the lots of seats" if with_seats else "the program prints no lots of seats")
print(f"{passed} passed, {failed} failed")
sys.exit(failed > 0)
