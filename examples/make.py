#!/usr/bin/env python3
"""Writes the sample books of this folder, each with the listing that documents 01 and 02 give it, NAME.book and NAME.txt, and a refused
one with the line that the program puts on standard error too, NAME.said. seats.seats has the lots of each seat beside the listing, as
allot.py --seats prints them.

The listings are written out here by hand, from those documents, and the lines from section 16 of docs/RULES.md; none is taken from a
program. Run it in this folder.

The exceptions are typical.txt and silver.txt, too long to write by hand. This script writes their books alone; their listings are what
the second program printed, and the gate holds both programs to them. In the folder above:
target/cargo/release/second < examples/typical.book"""


def field(tag, value):
    value = value if isinstance(value, bytes) else value.encode()
    return tag.encode() + bytes(divmod(len(value), 256)) + value


def terms(lock="D", x="2", s="400.00", l="8.000", u="8.000", v="4.000"):
    """Gold's, with two decimals in every price. No x: the terms as books once had them."""
    decimals = b"" if x is None else field("X", x)
    return field("D", lock) + decimals + field("S", s) + field("L", l) + field("U", u) + field("V", v)


def silver_terms(lock="D", s="8000"):
    """Silver's, with prices in whole yuan."""
    return terms(lock, "0", s, "10.000", "10.000", "5.000")


def seated(code, seats, *trades):
    """A customer by its seats, each with its code and what is held and unfilled there."""
    held = b"".join(field("I", i) + field("K", k) + field("H", h) + field("Q", q) for i, k, h, q in seats)
    return field("C", code) + held + b"".join(field(t, v) for t, v in trades)


def customer(code, k, h, q, *trades):
    """A customer with one seat."""
    return seated(code, [("M1", k, h, q)], *trades)


END = field("Z", "")
STAMP = " 20250115 1000"  # the one day and time of document 01's cases, with their blanks: 14 bytes


def listing(l="8.000", stamp=STAMP, x="2", customer=customer):
    return (
        terms(l=l, x=x)
        + customer("W3", "0", "1", "0", ("A", "410.00 1" + stamp))
        + customer("P2", "4", "0", "4", ("B", "440.00 4" + stamp))
        + customer("W1", "0", "3", "0", ("A", "440.00 3" + stamp))
        + customer("P1", "8", "2", "6", ("B", "440.00 8" + stamp), ("A", "440.00 2" + stamp))
        + customer("W2", "0", "5", "0", ("A", "420.00 5" + stamp))
        + END
    )


def with_trades(p1, w1, w2):
    """Three customers by their trades. P1 is long 5 and W1 short 10; W2 is short 4."""
    return terms() + customer("P1", "5", "0", "5", *p1) + customer("W1", "0", "10", "0", *w1) + customer("W2", "0", "4", "0", *w2) + END


# A trading day begins at 19:50, so that the night, 20:00 to 2:30, comes before the day. In the order of time:
P1 = [
    ("B", "400.00 5 20250115 2245"),
    ("B", "400.00 5 20250115 0105"),
    ("B", "400.00 5 20250115 0930"),
    ("B", "440.00 5 20250115 0930"),  # of equal minutes the later place: these 5, a loss of 10 percent, P
]
W1 = [
    ("A", "410.00 10 20250115 2031"),
    ("B", "300.00 1 20250115 0930"),
    ("A", "440.00 10 20250115 1455"),  # these 10, a gain of 10 percent, tier 1
]
W2 = [
    ("A", "400.00 4 20250114 2100"),
    ("A", "400.00 4 20250114 1500"),
    ("A", "404.00 3 20250115 2355"),  # 2 of these 3
    ("A", "440.00 2 20250115 0010"),  # and these 2: 22.00 on 400.00 in the mean, 5.5 percent, tier 2
]
# P1's 5 against the 10 of W1, whichever way the trades stand in the book. By the clock P1 would have no loss and W1 and W2 stand in tier 3.
BY_TIME = "total 5\nleft 0\nP1 P 5\nW1 1 5\nW2 2 0\n"


def by_clock(trades):
    """As a broker exports them who goes by the clock: the night of a trading day after its day."""
    return sorted(trades, key=lambda trade: trade[1].split()[2:])


def silver_edges():
    """S 8000: 10 percent are 800 yuan and 5 percent 400. Exactly at each edge, and one yuan beside it."""
    return (
        silver_terms()
        + customer("P1", "10", "0", "10", ("B", "8800 10" + STAMP))
        + customer("P2", "10", "0", "10", ("B", "8799 10" + STAMP))
        + customer("W1", "0", "3", "0", ("A", "8800 3" + STAMP))
        + customer("W2", "0", "2", "0", ("A", "8799 2" + STAMP))
        + customer("W3", "0", "2", "0", ("A", "8400 2" + STAMP))
        + customer("W4", "0", "5", "0", ("A", "8399 5" + STAMP))
        + customer("W5", "0", "1", "0", ("A", "8001 1" + STAMP))
        + customer("W6", "0", "4", "0", ("A", "8000 4" + STAMP))
        + END
    )


# P1 has 10 pending. Tier 1 gives its 3 and tier 2 its 4; the last 3 are divided over W4 5 and W5 1, 2.5 and 0.5: the spare lot is W4's.
AT_EDGES = "total 10\nleft 0\nP1 P 10\nP2 N 0\nW1 1 3\nW2 2 2\nW3 2 2\nW4 3 3\nW5 3 0\nW6 N 0\n"


def price_bounds():
    """S 8001: five times are 40005 yuan, and a fifth 1600.2, so that 1601 is the least price. Prices at both bounds on either side."""
    return (
        silver_terms(s="8001")
        + customer("P1", "3", "0", "3", ("B", "40005 3" + STAMP), ("A", "1601 1" + STAMP))
        + customer("W1", "0", "2", "0", ("A", "40005 2" + STAMP), ("B", "40005 1" + STAMP))
        + customer("N1", "4", "0", "4", ("B", "1601 4" + STAMP))
        + customer("N2", "0", "0", "0", ("B", "1601 1" + STAMP), ("A", "40005 1" + STAMP))
        + END
    )


# P1 has lost 400 percent and W1 has gained as much; N1 is on the locked side with a gain, and N2 holds nothing.
AT_BOUNDS = "total 2\nleft 1\nP1 P 2\nW1 1 2\nN1 N 0\nN2 N 0\n"


def without_seat(code, k, h, q, *trades):
    """A customer as books had them before version 0.7.0."""
    return seated(code, [], ("K", k), ("H", h), ("Q", q), *trades)


def seats():
    """Customers with several seats, of which the smaller codes stand behind."""
    return (
        terms()
        + seated("P1", [("M2", "4", "0", "4"), ("M1", "6", "0", "4"), ("M3", "0", "2", "0")], ("B", "440.00 10" + STAMP))
        + seated("W1", [("M2", "0", "3", "0"), ("M1", "1", "3", "0")], ("A", "440.00 6" + STAMP))
        + seated("N1", [("M1", "2", "0", "2"), ("M4", "3", "0", "0")], ("B", "390.00 5" + STAMP))
        + END
    )


# P1 is long 10 - 2 and has 8 pending; W1 is short 6 - 1 and offers 5. P1's 5 by the unfilled lots 4, 4 and 0 are 2.5, 2.5 and 0, and W1's 5
# by the lots held short 3 and 3 are 2.5 and 2.5: the spare lot goes to M1, the smaller code.
OF_SEATS = "total 5\nleft 3\nP1 P 5\nW1 1 5\nN1 N 0\n"
AT_SEATS = "total 5\nleft 3\nP1 P 5\n  M2 2\n  M1 3\n  M3 0\nW1 1 5\n  M2 2\n  M1 3\nN1 N 0\n  M1 0\n  M4 0\n"


def crowd(n):
    """n customers without a position, of 24 bytes each."""
    return b"".join(customer(f"{1000 + i}", "0", "0", "0") for i in range(n))


def sized(size):
    """A sound book of exactly so many bytes: one customer without a position, trades of 23 bytes, the last five of them longer. S is
    1.00, so that a price as short as can be is not far from it."""
    head = terms(s="1.00") + customer("A", "0", "0", "0")
    left = size - len(head) - len(END)
    count, more = left // 23, left % 23  # more bytes than trades of 23 take: up to 22, and up to 5 in each of the last five
    longer = [min(5, max(0, more - 5 * i)) for i in range(5)]
    last = [field("B", f"1.00 {'1' * (1 + n)}{STAMP}") for n in longer]
    book = head + field("B", "1.00 1" + STAMP) * (count - 5) + b"".join(last) + END
    assert len(book) == size
    return book


class Row:
    """A fixed row of numbers by a formula of its own, so that the book is the same wherever and whenever it is made."""

    def __init__(self, start):
        self.x = start

    def among(self, low, high):
        """The next number, from low to high."""
        self.x = (self.x * 6_364_136_223_846_793_005 + 1_442_695_040_888_963_407) % 2**64
        return low + (self.x >> 33) % (high - low + 1)


# Customers by what they did, as (side of the net position, lowest and highest price around which they opened, in fen). The lock is at
# the lower limit and S is 389.47: longs who bought high have the loss, shorts who sold high have the gain.
GOLD_KINDS = [
    ("B", 416_00, 450_00),  # a loss about the loss edge, or far beyond it
    ("B", 423_00, 455_00),
    ("B", 423_00, 455_00),
    ("B", 370_00, 400_00),  # long with a gain or a small loss
    ("A", 418_00, 440_00),  # a gain in tier 1, or just below
    ("A", 403_00, 422_00),  # in tier 2, or near its edges
    ("A", 389_00, 406_00),  # in tier 3, or no gain
    ("A", 389_00, 406_00),
    ("A", 365_00, 389_00),  # short with a loss
]
# The same of silver, in yuan. The lock is at the upper limit and S is 7843: shorts who sold low have the loss, longs who bought low have
# the gain.
SILVER_KINDS = [
    ("A", 6400, 7120),  # a loss about the loss edge, or far beyond it
    ("A", 6400, 7040),
    ("A", 6400, 7040),
    ("A", 7650, 8250),  # short with a gain or a small loss
    ("B", 6650, 7080),  # a gain in tier 1, or just below
    ("B", 7030, 7480),  # in tier 2, or near its edges
    ("B", 7430, 7843),  # in tier 3, or no gain
    ("B", 7430, 7843),
    ("B", 7843, 8300),  # long with a loss
]


def in_fen(price):
    return f"{price // 100}.{price % 100:02d}"


# a metal: its terms, its customers, how far their prices spread, how a price is written, and whose lots are locked, K's or H's
GOLD = (terms(s="389.47"), GOLD_KINDS, 6_00, in_fen, 0)
SILVER = (silver_terms("U", "7843"), SILVER_KINDS, 120, str, 1)


# The hours of trading in steps of 5, as minutes after 19:50: 20:00 to 2:30, 9:00 to 11:30 and 13:30 to 15:30.
HOURS = [*range(10, 401, 5), *range(790, 941, 5), *range(1060, 1181, 5)]


def stamps(row, count):
    """Trading days of January 2025 and times within the hours of trading, oldest first. Now and then two are the same."""
    for day, minute in sorted((row.among(6, 17), HOURS[row.among(0, len(HOURS) - 1)]) for _ in range(count)):
        hour, minute = divmod((19 * 60 + 50 + minute) % (24 * 60), 60)
        yield f"202501{day:02d} {hour:02d}{minute:02d}"


def opened(row, side, low, high, spread, price):
    """Opening trades oldest first, one in six of them on the other side, and the lots opened on the two sides."""
    trades, lots = [], {"A": 0, "B": 0}
    around = row.among(low, high)
    for stamp in stamps(row, row.among(3, 13)):
        own = row.among(1, 6) > 1
        tag = side if own else "AB"[side == "A"]
        count = row.among(1, 60) if own else row.among(1, 9)
        lots[tag] += count
        trades.append((tag, f"{price(around + row.among(-spread, spread))} {count} {stamp}"))
    return trades, lots


def in_parts(row, number, count):
    """A number in so many parts, each from 0 on."""
    cuts = sorted(row.among(0, number) for _ in range(count - 1))
    return [high - low for low, high in zip([0, *cuts], [*cuts, number])]


def over_seats(row, k, h, q, locked):
    """What is held in all, at one seat or, of one customer in four, at two to four. No seat has more unfilled lots than it holds on the
    locked side."""
    count = row.among(2, 4) if row.among(1, 4) == 1 else 1
    codes = sorted((row.among(0, 99), i) for i in range(count))
    held = list(zip(in_parts(row, k, count), in_parts(row, h, count)))
    seats = []
    for (_, i), lots in zip(codes, held):
        unfilled = min(q, lots[locked])
        q -= unfilled
        seats.append((f"M{10 + i * 7}", str(lots[0]), str(lots[1]), str(unfilled)))
    return seats


def typical_customer(row, places, number, metal):
    """Some of what was opened is still held, and some of what is held on the locked side was offered at the limit price and not filled."""
    _, kinds, spread, price, locked = metal
    side, low, high = kinds[row.among(0, len(kinds) - 1)]
    trades, lots = opened(row, side, low, high, spread, price)
    k, h = (row.among(lots[tag] // 2, lots[tag]) for tag in "BA")
    most = (k, h)[locked]
    q = row.among(most // 3, most) if row.among(1, 5) > 1 else 0
    code = f"{'ABCDEFGH'[number % 8]}{number * 10_007 % 99_991:05d}" + "XY12"[: row.among(0, 4)]
    return seated(code, over_seats(places, k, h, q, locked), *trades)


def typical(metal, start):
    """About 200 customers with several trades each: the size of a real book. The seats have a row of numbers of their own: how the lots
    lie over them does not change the listing."""
    row, places = Row(start), Row(start + 1)
    return metal[0] + b"".join(typical_customer(row, places, 1 + i, metal) for i in range(204)) + END


NOTHING = "total 0\nleft 0\n"
BOOKS = {
    "listing": (listing(), "total 9\nleft 1\nW3 3 1\nP2 P 3\nW1 1 3\nP1 P 6\nW2 2 5\n"),
    "empty": (terms() + END, NOTHING),
    "customers-256": (terms() + crowd(256) + END, NOTHING + "".join(f"{1000 + i} N 0\n" for i in range(256))),
    "bytes-60000": (sized(60_000), NOTHING + "A N 0\n"),
    "trades-by-clock": (with_trades(by_clock(P1), by_clock(W1), by_clock(W2)), BY_TIME),
    "trades-shuffled": (
        with_trades([P1[2], P1[0], P1[3], P1[1]], [W1[2], W1[0], W1[1]], [W2[3], W2[1], W2[0], W2[2]]),
        BY_TIME,
    ),
    "silver-edges": (silver_edges(), AT_EDGES),
    "price-bounds": (price_bounds(), AT_BOUNDS),
    "seats": (seats(), OF_SEATS),
}
# the book, its number and place, and the words for them
REFUSED = {
    "1-too-long": (sized(60_001), "1 at 0", "more than 60,000 bytes"),
    "2-cut": (terms()[:-1], "2 at 33", "the book ends before the end of the tier 2 edge V"),
    "3-tag": (terms() + field("Y", ""), "3 at 41", "a byte that is no tag, or that follows Z"),
    "3-no-decimals": (listing(x=None), "3 at 4", "a tag that does not belong here: the settlement price S"),
    "3-no-seat": (listing(customer=without_seat), "3 at 46", "a tag that does not belong here: the lots held long K"),
    "3-fifth-seat": (
        terms() + seated("A", [(f"M{i}", "1", "1", "0") for i in range(1, 6)]) + END,
        "3 at 113",
        "a tag that does not belong here: the seat code I",
    ),
    "4-comma": (listing("8,000"), "4 at 17", "a comma in the loss edge L"),
    "5-form": (terms(s="00.01") + END, "5 at 8", "not of its form or range: the settlement price S"),
    "5-decimals": (terms(x="1", s="400.0") + END, "5 at 4", "not of its form or range: the decimals X"),
    "5-other-decimals": (
        silver_terms() + customer("A", "0", "0", "0", ("B", "8000.00 1" + STAMP)) + END,
        "5 at 62",
        "not of its form or range: the bought trade B",
    ),
    "5-day": (
        terms() + customer("A", "0", "0", "0", ("B", "400.00 1 20250229 1000")) + END,
        "5 at 62",
        "not of its form or range: the bought trade B",
    ),
    "5-time": (
        terms() + customer("A", "0", "0", "0", ("B", "400.00 1 20250115 2400")) + END,
        "5 at 62",
        "not of its form or range: the bought trade B",
    ),
    "5-old-form": (listing(stamp=""), "5 at 63", "not of its form or range: the sold trade A"),
    "6-edges": (terms(u="4.000") + END, "6 at 33", "the tier 1 edge U is not greater than the tier 2 edge V"),
    "7-twice": (terms() + customer("A", "0", "0", "0") * 2 + END, "7 at 62", "this customer code was given before"),
    "8-unfilled": (
        terms() + customer("A", "5", "0", "6", ("B", "400.00 5" + STAMP)) + END,
        "8 at 58",
        "the unfilled lots Q exceed the lots held on the locked side",
    ),
    "8-one-seat": (
        terms() + seated("A", [("M1", "9", "0", "3"), ("M2", "1", "0", "2")], ("B", "400.00 10" + STAMP)) + END,
        "8 at 75",
        "the unfilled lots Q exceed the lots held on the locked side",
    ),
    "9-trades": (
        terms() + customer("A", "5", "0", "0", ("B", "400.00 4" + STAMP)) + END,
        "9 at 41",
        "this customer's opening trades on its net side sum to less than its net position",
    ),
    "10-customers": (terms() + crowd(257) + END, "10 at 6185", "more than 256 customers"),
    "12-lost-point": (
        terms() + customer("A", "5", "0", "5", ("B", "40000.00 5" + STAMP)) + END,
        "12 at 62",
        "this trade's price is above five times the settlement price S or below a fifth of it",
    ),
    "13-seat-twice": (
        terms() + seated("A", [("M1", "1", "1", "0"), ("M2", "1", "1", "0"), ("M1", "1", "1", "0")]) + END,
        "13 at 79",
        "this customer has a seat of this code already",
    ),
}


def write(name, content):
    with open(name, "wb") as f:
        f.write(content if isinstance(content, bytes) else content.encode("ascii"))


write("seats.seats", AT_SEATS)
write("typical.book", typical(GOLD, 26))
write("silver.book", typical(SILVER, 3))
for name, (book, text) in BOOKS.items():
    write(f"{name}.book", book)
    write(f"{name}.txt", text)
for name, (book, place, words) in REFUSED.items():
    write(f"refused-{name}.book", book)
    write(f"refused-{name}.txt", f"refused {place}\n")
    write(f"refused-{name}.said", f"allot: refused {place}: {words}\n")
