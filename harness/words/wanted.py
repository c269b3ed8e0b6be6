#!/usr/bin/env python3
"""What every.c must print: the words of each number at each byte, as docs/RULES.md, section 16, has them."""

import pathlib
import re

PAGE = (pathlib.Path(__file__).parents[2] / "docs/RULES.md").read_text()
SECTION = re.search(r"^## 16\. .*?(?=^## 17\. )", PAGE, re.M | re.S).group(0)
TEXT = " ".join(SECTION.split())
NAMES = re.search(r" A field's name: (.*?)\. ", TEXT).group(1).split(", ")
ENDED = re.search(r" Where the place is the end of the book, number 2 says: (.*?)\. ", TEXT).group(1)
FIELD_OF = {ord(name[-1]): name for name in NAMES}
OF_FIELDS, OTHERS = [
    {cells[0]: cells[1:] for line in table.strip().split("\n")[2:] for cells in [[c.strip() for c in line.strip("|").split("|")]]}
    for table in re.findall(r"(?:^\|.*\n)+", SECTION, re.M)
]
KNOWN = {*range(14), *range(20, 24), *range(30, 34), *range(40, 45)}
SPLIT = {20, 33}
assert len(FIELD_OF) == 14 and {*OF_FIELDS, *OTHERS} == {
    *map(str, KNOWN - SPLIT), *(f"{n} {where}" for n in SPLIT for where in ("at 0", "elsewhere")), "all others"
}


def words(number, byte, place):
    """The words where this byte stands at the place, and none where the book has ended."""
    if number == 2 and byte is None:
        return ENDED
    if number in SPLIT:
        return OTHERS[f"{number} at 0" if place == 0 else f"{number} elsewhere"][0]
    if str(number) not in OF_FIELDS:
        return OTHERS.get(str(number), OTHERS["all others"])[0]
    named, unnamed = OF_FIELDS[str(number)]
    return named.replace("FIELD", FIELD_OF[byte]) if byte in FIELD_OF else unnamed


for number in [*range(50), 255, 256, 260, 2**32, 2**32 + 4, 2**63, 2**64 - 1]:
    for byte in range(256):
        print(number, byte, words(number, byte, 1))
    for place in (3, 4, 2**64 - 1):
        print(number, "none", words(number, None, place))
    print(number, "first", words(number, None, 0))
