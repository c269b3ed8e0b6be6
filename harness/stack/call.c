/* The stack that the product's calls use, through their C symbols. A book or a list comes on standard input; the stack below the caller's
   frame is painted, the call made, and the deepest byte that lost its paint looked for. Printed: that many bytes for frundavel_allot, for
   frundavel_reason at its place (the most over all numbers) and for frundavel_columns; for frundavel_moves and frundavel_ladder, which take
   the input as a list; for frundavel_cutback (the most over some seats); and the numbers that frundavel_allot, frundavel_moves and
   frundavel_ladder answered. */

#include "paint.h"

struct answer frundavel_allot(const byte *book, size count, byte *report, size room);
struct answer frundavel_columns(const byte *book, size count, byte *standings, size s, size *offered, size f, size *pending, size p,
                                size *offsets, size o);
struct answer frundavel_reason(size number, size place, const byte *book, size count, byte *words, size room);
struct answer frundavel_moves(const byte *list, size count, byte *spans, size places);
struct answer frundavel_ladder(const byte *list, size count, size *steps, size places);
struct answer frundavel_cutback(const byte *kind, size k, const byte *metal, size m, size grams, const byte *codes, size c, const size *sizes,
                                size s, const size *lots, size l, size *cuts, size places);

enum { MOST_BOOK = 1 << 20, ROOM = 1 << 16, PLACES = 256, DAYS = 2000, SEATS = 5, NUMBERS = 50 };

static byte book[MOST_BOOK];
static byte report[ROOM], standings[PLACES];
static size offered[PLACES], pending[PLACES], offsets[PLACES], steps[DAYS];
static byte spans[DAYS];

/* The most that the words of any number take. */
static size reasons(volatile byte *top, size place, size count)
{
    size most = 0;
    for (size number = 0; number < NUMBERS; number++) {
        paint(top);
        if (frundavel_reason(number, place, book, count, report, ROOM).number != 0)
            call(EXIT, 3, 0, 0);
        const size used = deepest(top);
        most = used > most ? used : most;
    }
    return most;
}

/* The most over up to five seats of 12 bytes, the last of a code that another has: cut, and refused with 43 and 42. */
static size cutbacks(volatile byte *top)
{
    static const byte codes[] = "A00000000001A00000000002A00000000003A00000000004A00000000001";
    static const size sizes[SEATS] = {12, 12, 12, 12, 12}, lots[SEATS] = {700, 700, 900, 800, 1}, wanted[SEATS + 1] = {43, 0, 0, 0, 0, 42};
    size most = 0, cuts[SEATS];
    for (size seats = 0; seats <= SEATS; seats++) {
        paint(top);
        const struct answer answer = frundavel_cutback((const byte *)"corporate", 9, (const byte *)"gold", 4, 1000, codes, 12 * seats, sizes, seats, lots,
                                                       seats, cuts, SEATS);
        const size used = deepest(top);
        if (answer.number != wanted[seats])
            call(EXIT, 4, 0, 0);
        most = used > most ? used : most;
    }
    return most;
}

void measure(void)
{
    volatile byte frame = 0;
    const size count = input(book, MOST_BOOK);
    size used[9];
    trusted(&frame);
    paint(&frame);
    const struct answer answer = frundavel_allot(book, count, report, ROOM);
    used[0] = deepest(&frame);
    used[1] = reasons(&frame, answer.place, count);
    paint(&frame);
    const struct answer shown = frundavel_columns(book, count, standings, PLACES, offered, PLACES, pending, PLACES, offsets, PLACES);
    used[2] = deepest(&frame);
    paint(&frame);
    const struct answer moves = frundavel_moves(book, count, spans, DAYS);
    used[3] = deepest(&frame);
    paint(&frame);
    const struct answer ladder = frundavel_ladder(book, count, steps, DAYS);
    used[4] = deepest(&frame);
    used[5] = cutbacks(&frame);
    used[6] = answer.number;
    used[7] = moves.number;
    used[8] = ladder.number;
    say(used, 9);
    call(EXIT, shown.number != answer.number, 0, 0);
}
