#!/usr/bin/env python3
"""The figures of ARTICLE-24.md, points 1 to 4 and 18, with exact fractions; then random cases: article-24.py [COUNT [SEED]].

Rules: whole lots are made in each tier, and equal remainders go to the smaller code (RULES.md, sections 10 and 11).
Article: every division is exact, and whole lots are made once at the end, by the fractional parts. Where equal parts
compete for too few lots, it draws at random: then every outcome of the draw counts as the Article's."""
import random
import sys
from fractions import Fraction


def divide(x, weights):
    """Whole lots, as the rules divide x over {code: weight}."""
    total = sum(weights.values())
    if x == 0 or total == 0:
        return {code: 0 for code in weights}
    shares = {code: x * w // total for code, w in weights.items()}
    order = sorted(weights, key=lambda code: (-(x * weights[code] % total), code))
    for code in order[: x - sum(shares.values())]:
        shares[code] += 1
    return shares


def prorate(x, weights):
    """The same without whole lots."""
    total = sum(weights.values())
    return {code: Fraction(x * w) / total if total else Fraction(0) for code, w in weights.items()}


def cascade(pending, tiers, share):
    """What the three tiers close on the pending side and give on the gaining side, by code, with one way to share."""
    left, closed, given = dict(pending), {code: 0 for code in pending}, {}
    for tier in tiers:
        x = min(sum(left.values()), sum(tier.values()))
        given.update(share(x, tier))
        for code, lots in share(x, left).items():
            closed[code] += lots
            left[code] -= lots
    return closed, given


def allowed(lots, exact):
    """Can the Article make these whole lots of exact shares: the whole parts, and one more in descending order of the
    fractional parts?"""
    parts = {code: share - share // 1 for code, share in exact.items()}
    more = {code: lots[code] - exact[code] // 1 for code in exact}
    if any(m not in (0, 1) for m in more.values()) or sum(lots.values()) != sum(exact.values()):
        return False
    with_one = [parts[code] for code in more if more[code] == 1]
    without = [parts[code] for code in more if more[code] == 0]
    return not with_one or not without or min(with_one) >= max(without)


def example(name, pending, tiers):
    closed, given = cascade(pending, tiers, divide)
    exact, _ = cascade(pending, tiers, prorate)
    left = sum(pending.values()) - sum(closed.values())
    shown, gives, shares = (", ".join(f"{code} {n}" for code, n in side.items()) for side in (closed, given, exact))
    print(f"{name}: rules {shown}; given {gives}; residue {left}; exact {shares}; ", end="")
    print("the Article can give it" if allowed(closed, exact) else "the Article cannot give it")


def some(row, prefix, most):
    return {f"{prefix}{i}": row.randint(1, 9) for i in range(row.randint(0, most))}


def random_cases(count, seed):
    row = random.Random(seed)
    kinds = "gaining side", "residue 0", "one tier offers", "several tiers and a residue"
    seen = {kind: [0, 0] for kind in kinds}
    widest = 0
    for _ in range(count):
        pending = some(row, "P", 6)
        tiers = [some(row, f"T{k}", 3) for k in (1, 2, 3)]
        closed, given = cascade(pending, tiers, divide)
        exact, offered = cascade(pending, tiers, prorate)
        residue = sum(pending.values()) - sum(closed.values())
        offering = sum(1 for tier in tiers if tier)
        same = allowed(closed, exact)
        of_kind = True, residue == 0, offering == 1, residue > 0 and offering > 1
        fits = allowed(given, offered), same, same, same
        for kind, counts, fit in zip(kinds, of_kind, fits):
            seen[kind][0] += counts
            seen[kind][1] += counts and not fit
        widest = max([widest] + [abs(closed[code] - exact[code]) for code in closed])
    print(f"{count} random cases, seed {seed}: cases, and how many of them the Article cannot give")
    for kind, (cases, other) in seen.items():
        print(f"  {kind}: {cases}, {other}")
    print(f"  farthest from an exact share: {float(widest):.3f} lots")
    return any(seen[kind][1] for kind in kinds[:3])


LISTING = [{"W1": 3}, {"W2": 5}, {"W3": 1}]
example("1, the listing", {"P1": 6, "P2": 4}, LISTING)
example("1, three customers", {"A": 1, "B": 5, "C": 1}, [{"X": 4}, {"Y": 1}, {"Z": 1}])
example("1, one large, eight small", {"P1": 4, **{f"P{i}": 1 for i in range(2, 10)}}, [{"X": 1}, {"Y": 1}, {"Z": 1}])
example("2, 5 over 3, 3, 3", {"A": 3, "B": 3, "C": 3}, [{"X": 5}, {}, {}])
example("3, pending 10 counted", {"P1": 10, "P2": 4}, LISTING)
example("4, with W4", {"P1": 6, "P2": 4}, [{"W1": 3, "W4": 10}, {"W2": 5}, {"W3": 1}])
example("18, P1 in sum", {"P1": 6, "P2": 4}, LISTING)
example("18, P1's two seats apart", {"P1": 6, "P2": 4}, [{"P1B": 2, "W1": 3}, {"W2": 5}, {"W3": 1}])
print("18, 5 over seats of 7 and 2:", ", ".join(map(str, divide(5, {"A": 7, "B": 2}).values())))
words = [int(word) for word in sys.argv[1:]]
sys.exit(random_cases(*(words + [200000, 24][len(words):])))
