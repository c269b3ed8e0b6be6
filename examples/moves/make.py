#!/usr/bin/env python3
"""Writes the sample lists of days into the working folder: a year of gold with a jump, silver at its edges, and one for each refusal."""


def days(metal, rows):
    return (metal + "\n" + "".join(f"{price // 100}.{price % 100:02} {interest}\n" for price, interest in rows)).encode()


def year():
    """244 days: prices wander by less than a percent a day, jump by 11 percent on day 121, and open interest follows."""
    price, interest, rows = 56_000, 180_000, []
    for day in range(1, 245):
        step = (day * day * 7 + day * 3) % 13 - 6
        price += price * step // 1_000
        interest += interest * ((day * 5) % 11 - 5) // 500
        if day == 121:
            price, interest = price * 111 // 100, interest * 135 // 100
        rows.append((price, interest))
    return days("gold", rows)


def main():
    flat = [(40_000, 100)] * 3
    lists = {
        "gold-year": year(),
        "silver-edges": days("silver", [(560_000, 1_000)] * 3 + [(627_200, 1_300), (644_000, 1_350), (655_200, 1_400)]),
        "no-days": b"gold\n",
        "refused-30": days("gold", [(40_000, 100)] * 2_001),
        "refused-31-price": days("gold", flat + [(0, 100)]),
        "refused-31-interest": days("gold", flat + [(40_000, 0)]),
        "refused-33-metal": days("copper", flat),
        "refused-33-comma": days("gold", flat) + b"40,000 100\n",
        "refused-33-unended": days("gold", flat)[:-1],
    }
    for name, text in lists.items():
        with open(f"{name}.list", "wb") as file:
            file.write(text)


if __name__ == "__main__":
    main()
