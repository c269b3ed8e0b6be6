#!/usr/bin/env python3
"""Lists the allotment of a book, as the program allot does, by a call of libfrundavel.so: how another language calls the product.

It needs Python's standard library alone. `allotment` below is all that a program of one's own takes from here."""

import argparse
import ctypes
import os
import sys

# As in frundavel.h: how long a book may be, and rooms that are always enough for a report and for the words of a refusal.
LONGEST_BOOK = 60_000
ROOM = 13 + 13 + 256 * (15 + 4 + 10 + 4 * (15 + 10))
WORDS = 128

ACCEPTED, REFUSED, FAILED = 0, 1, 2  # exit statuses


class Answer(ctypes.Structure):
    """frundavel_answer"""

    _fields_ = [("number", ctypes.c_uint64), ("place", ctypes.c_uint64), ("length", ctypes.c_uint64)]


class Refused(Exception):
    """A book that is refused: its number, its place, and the words for both."""

    def __init__(self, number, place, words):
        super().__init__(f"refused {number} at {place}: {words}")
        self.number, self.place, self.words = number, place, words


def load(name):
    """The library of this file name, or the one of the system's loader; OSError says why it is none."""
    library = ctypes.CDLL(name)
    size, lent = ctypes.c_size_t, ctypes.c_void_p
    try:
        library.frundavel_allot.argtypes = [ctypes.c_char_p, size, lent, size]
        library.frundavel_reason.argtypes = [ctypes.c_uint64, ctypes.c_uint64, ctypes.c_char_p, size, lent, size]
    except AttributeError as error:
        raise OSError(str(error)) from None
    library.frundavel_allot.restype = library.frundavel_reason.restype = Answer
    return library


def reason(library, answer, book):
    """The words for a refusal."""
    lent = ctypes.create_string_buffer(WORDS)
    said = library.frundavel_reason(answer.number, answer.place, book, len(book), lent, WORDS)
    return lent.raw[: said.length].decode("ascii")


def fields(report):
    """Each field of a report as (tag, text): a tag of one byte, a length of two, high byte first, and the value."""
    at = 0
    while at < len(report):
        end = at + 3 + int.from_bytes(report[at + 1 : at + 3], "big")
        yield chr(report[at]), report[at + 3 : end].decode("ascii")
        at = end


def allotment(library, book):
    """The total, the residue and for each customer code, standing, offset lots and the lots of each of its seats as (code, lots);
    Refused where the book is refused."""
    lent = ctypes.create_string_buffer(ROOM)
    answer = library.frundavel_allot(book, len(book), lent, ROOM)
    if answer.number != 0:
        raise Refused(answer.number, answer.place, reason(library, answer, book))
    (_, total), (_, residue), *rest = fields(lent.raw[: answer.length])
    return int(total), int(residue), list(customers_of(rest))


def customers_of(rest):
    """The customers of a report's fields after the first two: C, E, O, and I and J for each seat."""
    values = {}
    for tag, text in rest:
        values[tag] = text
        if tag == "O":
            seats = []
            yield values["C"], values["E"], int(text), seats
        if tag == "J":
            seats.append((values["I"], int(text)))


def read(name):
    """A book, at most one byte more than it may have: a longer one is then refused for its length."""
    if name == "-" and sys.stdin is None:
        raise OSError(0, "it is closed")
    with open(0 if name == "-" else name, "rb", closefd=name != "-") as file:
        return file.read(LONGEST_BOOK + 1)


def say(line):
    """Says a line on standard error. Where that is closed, or does not take it, the exit status has to do."""
    if sys.stderr is None:
        return
    try:
        print(f"allot.py: {line}", file=sys.stderr, flush=True)
    except OSError:
        drop(2)


def drop(output):
    """What is left in the buffer of an output that failed goes nowhere at the end."""
    os.dup2(os.open(os.devnull, os.O_WRONLY), output)


def failed(what, error):
    """Says why something failed, in the words of the system where it has them."""
    say(f"{ascii(what)[1:-1]}: {getattr(error, 'strerror', None) or error}")
    return FAILED


def show(lines):
    if sys.stdout is None:
        raise OSError(0, "it is closed")
    sys.stdout.write("".join(f"{line}\n" for line in lines))
    sys.stdout.flush()


def lines(customers, with_seats):
    """The lines of a listing; with a line more for each seat, if these are wanted."""
    for code, standing, lots, seats in customers:
        yield f"{code} {standing} {lots}"
        yield from (f"  {seat} {lots}" for seat, lots in seats if with_seats)


def answered(library, book, with_seats):
    """Prints the listing of a book; the reason of a refusal goes to standard error."""
    try:
        total, residue, customers = allotment(library, book)
    except Refused as refused:
        show([f"refused {refused.number} at {refused.place}"])
        say(refused)
        return REFUSED
    show([f"total {total}", f"left {residue}", *lines(customers, with_seats)])
    return ACCEPTED


class Words(argparse.ArgumentParser):
    """The words of the command line."""

    def error(self, message):
        say(f"{message}\n{self.format_usage()}".rstrip())
        sys.exit(FAILED)


def words():
    parser = Words(prog="allot.py", description=__doc__.split("\n\n")[0], add_help=False)
    parser.add_argument("file", nargs="?", default="-", metavar="FILE", help="the book; - or nothing is standard input")
    parser.add_argument("--library", default="libfrundavel.so.0", metavar="FILE", help="the library; without it, the installed one")
    parser.add_argument("--seats", action="store_true", help="list the lots of each seat too, in a line of its own")
    parser.add_argument("-h", "--help", action="store_true", help="print this text, and end")
    return parser, parser.parse_args()


def run(parser, asked):
    """Does what the words ask for. What goes wrong with standard output is the caller's."""
    if asked.help:
        show(parser.format_help().splitlines())
        return ACCEPTED
    try:
        library = load(asked.library)
    except OSError as error:
        return failed("the library", error)
    try:
        book = read(asked.file)
    except (OSError, ValueError) as error:
        return failed("standard input" if asked.file == "-" else asked.file, error)
    return answered(library, book, asked.seats)


def main():
    try:
        return run(*words())
    except OSError as error:
        drop(1)
        return failed("standard output", error)


if __name__ == "__main__":
    sys.exit(main())
