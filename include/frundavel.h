/*
 * frundavel.h - the forced offsetting allotment, for C99 and C++.
 *
 * frundavel_allot: a book and a lent buffer in; a number, a place and a length out. frundavel_columns: the
 * same for a viewer that reads column by column. frundavel_reason: the words for a refusal. frundavel_cutback: a customer's seats over the
 * position limit. frundavel_moves and frundavel_ladder: lists of days. frundavel_sheet_to_book and frundavel_book_to_sheet: comma
 * sheets. The rules, with worked examples, are in
 * docs/RULES.md of the source tree. Every byte and number that a call writes, and every answer that it gives, is proved to be what the
 * definitions (crates/rules/specs, crates/columns/specs) say; docs/ASSUMPTIONS.md says what that rests on.
 *
 * Link with -lfrundavel: libfrundavel.so or libfrundavel.a. They are for x86-64 Linux only today. libfrundavel.so needs the GNU C library,
 * 2.14 or newer.
 */
#ifndef FRUNDAVEL_H
#define FRUNDAVEL_H

#include <stddef.h>
#include <stdint.h>

#ifdef __cplusplus
extern "C" {
#endif

/* The version. CHANGELOG.md of the source tree says what changed with each. */
#define FRUNDAVEL_VERSION "0.11.1"
#define FRUNDAVEL_VERSION_MAJOR 0
#define FRUNDAVEL_VERSION_MINOR 11
#define FRUNDAVEL_VERSION_PATCH 1

/* A book has at most so many bytes; a longer one is refused with number 1. Reading one byte more than this is enough to see it. */
#define FRUNDAVEL_LONGEST_BOOK 60000

/*
 * A room that is enough for every book. A field is 3 bytes and its value:
 *   T      3 + 10    at most 256 x 4,000,000 lots, 10 digits
 *   R      3 + 10    likewise
 *   C, E, O for each of at most 256 customers:
 *          3 + 12    code
 *          3 + 1     standing
 *          3 + 7     at most 4,000,000 lots, 7 digits
 *   I, J for each of its at most 4 seats:
 *          3 + 12    code
 *          3 + 7     at most 1,000,000 lots, 7 digits
 * 13 + 13 + 256 x (29 + 4 x 25) = 33050
 * That no report is longer, and that a call with this room never answers 11, is proved (crates/promises/specs/Room.antt: report-fits,
 * room-enough).
 */
#define FRUNDAVEL_ROOM (13 + 13 + 256 * (15 + 4 + 10 + 4 * (15 + 10)))

/* A room that is enough for the words of every refusal: a call of frundavel_reason with it never answers 11 (proved). */
#define FRUNDAVEL_WORDS 128

/* A book has at most so many customers: runs of so many places are enough for every book. */
#define FRUNDAVEL_MOST_CUSTOMERS 256

/* A list of days has at most so many: a run of so many places is enough for every list. */
#define FRUNDAVEL_MOST_DAYS 2000

/* The numbers of an answer. The table below says when each is given; from 30 on they are those of a list of days (frundavel_moves and
 * frundavel_ladder; 32 is given by the latter alone). */
enum frundavel_number {
    FRUNDAVEL_ACCEPTED = 0,
    FRUNDAVEL_TOO_LONG = 1,
    FRUNDAVEL_CUT_SHORT = 2,
    FRUNDAVEL_MISPLACED = 3,
    FRUNDAVEL_COMMA = 4,
    FRUNDAVEL_MALFORMED = 5,
    FRUNDAVEL_EDGES = 6,
    FRUNDAVEL_GIVEN_BEFORE = 7,
    FRUNDAVEL_OVERDRAWN = 8,
    FRUNDAVEL_UNCOVERED = 9,
    FRUNDAVEL_TOO_MANY = 10,
    FRUNDAVEL_NO_ROOM = 11,
    FRUNDAVEL_ASTRAY = 12,
    FRUNDAVEL_SEAT_TWICE = 13,
    FRUNDAVEL_TOO_MANY_DAYS = 30,
    FRUNDAVEL_ZERO = 31,
    FRUNDAVEL_OTHER_MARK = 32,
    FRUNDAVEL_NO_DAY = 33
};

/*
 * The answer of a call.
 *
 * number 0: accepted. place is 0, and length is the length of what was written.
 * Any other number: refused. length is 0, and place says where, as a count of bytes from the front of the book. Where another call of this
 * header counts otherwise it says so: frundavel_sheet_to_book leaves a refused book, with its length, and counts lines of a sheet.
 *
 *   number  given exactly when                                              place
 *        1  the book has more than 60,000 bytes                             0
 *        2  fewer than 3 bytes are left where a field must begin, or its    where it begins
 *           value runs past the end
 *        3  the tag doesn't belong there, or bytes follow Z                 the tag; the first byte after Z
 *        4  a comma stands in S, L, U, V, K, H, Q, B or A                   the field's tag
 *        5  a value is otherwise not of its form or range; so is a trade    the field's tag
 *           without day and time, and a price with other decimals than X
 *           says
 *        6  U is not greater than V                                         the tag of V
 *        7  a customer code was given before                                the second C tag
 *        8  Q of a seat exceeds its K when locked down, or its H when       the Q tag
 *           locked up
 *        9  the customer's opening trades on the side of its net position   its C tag
 *           sum to less than that position
 *       10  a C after 256 customers                                         that C tag
 *       11  the report is longer than the room; of frundavel_columns,       the length needed, or the number of places: no place in
 *           a run has fewer places than there are customers                 the book
 *       12  the price of a trade is above five times S or below a fifth     the trade's tag
 *           of it; every trade is judged, also one that does not count.
 *           At one field 4 and 5 come first
 *       13  the customer has a seat of that code already; at one field 5    the second I tag
 *           comes first
 */
typedef struct frundavel_answer {
    uint64_t number;
    uint64_t place;
    uint64_t length;
} frundavel_answer;

/*
 * Judges the book of `size` bytes and, where it is accepted, writes its report at the front of the `room` bytes lent at `report`.
 *
 * - Bytes of the buffer after the report are unaltered; on a refusal all of them are.
 * - The report's fields are a one-byte tag, a two-byte length (high byte first) and the value: T total, R residue, then for each
 *   customer in book order C code, E standing (one of P, 1, 2, 3, N) and O offset lots, and for each of its seats in their order I code
 *   and J the part of these lots that is the seat's. Numbers are plain digits. Before version 0.7.0 there was no I and no J.
 * - `book` and `report` must not overlap, and must be good for `size` and `room` bytes. A null pointer with length 0 is an empty part.
 *   Any bytes may stand in the book.
 * - The term X of the book, after D, is one byte and says how many decimals every price has, in S and in trades: `2` as in `400.00`, or
 *   `0` for whole figures as in `8000`. Before version 0.5.0 there was no X, and a book without it is refused with 3 at place 4.
 * - After its code C a customer has one to four seats in the book, each I code, K, H and Q; its trades follow. Its position is that of
 *   all its seats together. Before version 0.7.0 there was no I, and such a book is refused with 3 at the first K.
 * - The value of a trade in the book is a price, lots, the trading day and the time: `400.00 5 20250115 1000`. A customer's trades may
 *   stand in any order. Before version 0.4.0 a trade had neither day nor time, and the order in the book was that of time.
 * - The call keeps nothing, allocates nothing and calls nothing but memcpy, memmove and memset. It may be called from several threads
 *   at once. It takes at most 14,336 bytes of the calling thread's stack (measured, and held by a test; docs/BENCHMARKS.md).
 */
frundavel_answer frundavel_allot(const uint8_t *book, size_t size, uint8_t *report, size_t room);

/*
 * Puts the words for a number at the front of the `room` bytes lent at `words`, with no zero byte after them: `a comma in the loss edge L`.
 *
 * - `number` and `place` are those that a call answered, and `book` is the book that it was given, or made: the byte at the place says the
 *   field.
 *   With another book, or a place past its end, the words may be of another field or of none. A number from 14 on names no field, so that
 *   no book is needed: a null pointer with length 0.
 * - The answer is number 0, place 0 and the length of the words; or 11 with the length needed as place, length 0 and no byte altered,
 *   where the words are longer than the room. Bytes of the buffer after the words are unaltered.
 * - Every number has words, those of sheets, of lists and of cutting back too: 0 is `accepted`, and one that no call answers is `no such number`. They
 *   are ASCII, in English, of one line without a line feed. Later versions may put other words; a program that has to decide looks at the
 *   number.
 * - Of pointers, threads and what is called the same holds as above. `book` and `words` must not overlap. It takes at most 1,536 bytes of
 *   the calling thread's stack (measured, and held by a test).
 */
frundavel_answer frundavel_reason(uint64_t number, uint64_t place, const uint8_t *book, size_t size, uint8_t *words, size_t room);

/*
 * Judges the book as frundavel_allot does and, where it is accepted, puts its customers into four lent runs, column by column, in book
 * order. Customer i stands at place i of each:
 *
 *   standings   one of the bytes P, 1, 2, 3, N
 *   offered     the lots that it offers: its whole net position in a tier, else 0
 *   pending     its lots pending as counted before the cascade, else 0
 *   offsets     the lots that are offset
 *
 * - Accepted: number 0, place 0, and length is the number of customers. The first so many places of each run are filled, and the rest
 *   of each is unaltered.
 * - Number and place are those of the table. 11: a run has fewer places than there are customers; place is the number of places needed.
 * - Refused: length 0, and no place of any run is altered.
 * - Lots are at most 4,000,000. They are 64 bits wide as every number here is, so that a column can be summed up as it stands.
 * - The runs must not overlap one another or the book, and must be good for so many places each. A null pointer with 0 places is an empty
 *   run.
 * - What is said above of memory, threads and the stack holds here too.
 */
frundavel_answer frundavel_columns(const uint8_t *book, size_t size, uint8_t *standings, size_t standings_places, uint64_t *offered,
                                   size_t offered_places, uint64_t *pending, size_t pending_places, uint64_t *offsets,
                                   size_t offsets_places);

/* The numbers of frundavel_cutback, besides 0 and 11. The place is 0. */
enum frundavel_cutback_number {
    FRUNDAVEL_UNKNOWN = 40,
    FRUNDAVEL_BAD_GRAMS = 41,
    FRUNDAVEL_BAD_CODE = 42,
    FRUNDAVEL_BAD_COUNT = 43,
    FRUNDAVEL_BAD_LOTS = 44
};

/* A customer has at most so many seats: so many places are enough for every call. */
#define FRUNDAVEL_MOST_SEATS 4

/*
 * The lots cut at each seat of a customer over the position limit (Articles 34 and 52 (2) 3; docs/POSITION-LIMIT.md).
 *
 *   kind    `corporate` or `individual`            metal   `gold` or `silver`
 *   grams   in one lot                             codes   the seat codes, one behind the other, without anything between
 *   sizes   the bytes of each code, in order       lots    held at each seat, in the same order
 *
 * - Accepted: number 0, place 0, and length is the number of seats. The first so many places at `cuts` have the lots cut, in the order
 *   given; the others are unaltered. At or under the limit every cut is 0.
 * - Refused, length 0 and no place altered, by the first of these over the whole call:
 *
 *     number  given exactly when                                                                          place
 *         40  the type or the metal is unknown                                                            0
 *         41  the grams are 0 or above 1,000,000                                                          0
 *         42  a seat's code is malformed (1 to 12 bytes, each 0-9 or A-Z) or another seat has it; a code  0
 *             runs past the end of `codes`; there are more lots than sizes
 *         43  there is no seat, or there are more than four                                               0
 *         44  a seat has more than 1,000,000 lots; there are more sizes than lots                         0
 *         11  there are fewer places than seats                                                           the number of places needed
 *
 * - Any bytes and any numbers may be given. Bytes behind the last code are not looked at.
 * - The time grows with the square of the number of seats given: each code is held against those behind it.
 * - `cuts` must overlap no other part. Of memory and threads the same holds as above. It takes at most 1,024 bytes of the calling thread's
 *   stack (measured, and held by a test).
 */
frundavel_answer frundavel_cutback(const uint8_t *kind, size_t kind_size, const uint8_t *metal, size_t metal_size, uint64_t grams,
                                   const uint8_t *codes, size_t codes_size, const uint64_t *sizes, size_t sizes_count,
                                   const uint64_t *lots, size_t lots_count, uint64_t *cuts, size_t places);

/*
 * Judges a list of days of `size` bytes and, where it is accepted, puts one byte for each day into the lent run, with a bit for each span that is met
 * on it: 1, 2, 4 where the price has moved, and 8, 16, 32 where open interest has grown, over 3, 4 and 5 days (Articles 12 and 13; docs/MOVES.md has
 * the form of a list and the figures).
 *
 * - Accepted: number 0, place 0, and length is the number of days. The rest of the run is unaltered.
 * - 30 at 0: more than 2,001 line feeds. Then the first bad line decides, its place the day's number, 0 for the first line: 33, not of its form; then
 *   31, a zero price or zero open interest. 11, last of all: the run has fewer places than there are days; place is the number of places needed.
 * - Refused: length 0, and no place of the run is altered.
 * - There is no limit in bytes.
 * - What is said above of pointers, memory and threads holds here too. It takes at most 1,024 bytes of the calling thread's stack (measured,
 *   and held by a test).
 */
frundavel_answer frundavel_moves(const uint8_t *list, size_t size, uint8_t *spans, size_t places);

/* The kind of a day's step in the lock ladder. */
enum frundavel_step {
    FRUNDAVEL_NOT_LOCKED = 0,
    FRUNDAVEL_FIRST_HOLDS = 1,         /* a first lock, and the next day's limit is raised by three to six percentage points */
    FRUNDAVEL_FIRST_FAILS = 2,         /* a first lock, and it is not */
    FRUNDAVEL_FIRST_NO_DAY = 3,        /* a first lock, and no day follows */
    FRUNDAVEL_FIRST_NO_LIMIT = 4,      /* a first lock without its limit */
    FRUNDAVEL_FIRST_NO_NEXT_LIMIT = 5, /* a first lock, and the next day is without its limit */
    FRUNDAVEL_SAME = 6,                /* a lock in the same direction as the day before */
    FRUNDAVEL_REVERSE = 7              /* a lock in the other direction than the day before */
};

/* A step in the run: its kind in the low byte, and the days running above it. These are 0 on a day that is not locked, 1 on a first and on a reverse
 * lock, and 2 or more on a lock in the same direction. */
#define FRUNDAVEL_STEP_KIND(step) ((step) % 256)
#define FRUNDAVEL_STEP_DAYS(step) ((step) / 256)

/*
 * Judges a list of days of `size` bytes, with a mark and a price limit behind the open interest of each day, and, where it is accepted, puts one step for
 * each day into the lent run (Articles 17 and 18; docs/MOVES.md has the form of a list and the rules).
 *
 * - Accepted: number 0, place 0, and length is the number of days. The rest of the run is unaltered.
 * - 30, 33, 31 and 11 as of frundavel_moves; for one line 33 comes first, then 31, and then 32, another letter as the mark.
 * - Refused: length 0, and no place of the run is altered.
 * - There is no limit in bytes.
 * - What is said above of pointers, memory and threads holds here too. It takes at most 1,024 bytes of the calling thread's stack (measured,
 *   and held by a test).
 */
frundavel_answer frundavel_ladder(const uint8_t *list, size_t size, uint64_t *steps, size_t places);

/* The numbers of a comma sheet, besides those of the table. */
enum frundavel_sheet_number {
    FRUNDAVEL_SHEET_NO_MARK = 20,
    FRUNDAVEL_SHEET_OTHER_MARK = 21,
    FRUNDAVEL_SHEET_NO_LINE = 22,
    FRUNDAVEL_SHEET_NO_RESULT = 23
};

/* A room that is enough for the book of every sheet, and for the sheet of every book: neither call with it answers 23 (proved). */
#define FRUNDAVEL_SHEET_ROOM 120000

/*
 * Reads a comma sheet of `size` bytes and writes the book that it makes at the front of the `room` bytes lent at `book`
 * (docs/SHEETS.md has the form of a sheet).
 *
 *     number  given exactly when                                                                     place
 *          1  the sheet has more than 60,000 bytes                                                   0
 *         20  the first line is neither `mark,` nor `mark.` with its line feed                       1
 *         22  a line's letter is none of a sheet's, it has another number of parts, or no line feed  the line's number; the mark line is 1
 *         21  the other mark stands in a price, rate or lots figure                                  the line's number
 *         23  the book is longer than the room                                                       0
 *
 * - 1 comes first, then 20; then the first bad line decides, 22 before its 21; then 23. Length is 0 then, and no byte is altered.
 * - Otherwise the book stands in the buffer, length is its length, and the rest of the buffer is unaltered. Number and place are those that
 *   the table above has for the book, 11 aside: 0 and 0 where it is accepted, and the place counts from the front of the book.
 * - Of pointers, memory and threads the same holds as above. `sheet` and `book` must not overlap. It takes at most 8,192 bytes of the
 *   calling thread's stack (measured, and held by a test).
 */
frundavel_answer frundavel_sheet_to_book(const uint8_t *sheet, size_t size, uint8_t *book, size_t room);

/*
 * Judges the book of `size` bytes and, where it is accepted, writes it as a sheet at the front of the `room` bytes lent at `sheet`. `mark` is
 * the byte that stands for the point in its figures: a comma or a point.
 *
 * - Accepted: number 0, place 0, and length is the sheet's, at most 60,000. The rest of the buffer is unaltered.
 * - 20 at 0, before all else: the mark is another byte. Then number and place of the table, 11 aside. Then 23 at 0: the sheet is longer than
 *   the room. Length is 0 then, and no byte of the buffer is altered.
 * - Of pointers, memory, threads and the stack the same holds. `book` and `sheet` must not overlap.
 */
frundavel_answer frundavel_book_to_sheet(const uint8_t *book, size_t size, uint8_t mark, uint8_t *sheet, size_t room);

#ifdef __cplusplus
}
#endif

#endif
