/* The product's calls behind standard input and output, for machines that cannot link x86-64 archives.
   It needs no C library: it is linked with the archives alone and is run under an emulator.

   Numbers are 8 bytes, low byte first. A question: the call, the input's size, how often something is lent, the input; then
   what is lent each time:

     0  frundavel_allot           one buffer
     1  frundavel_columns         the runs offered, pending, offsets and standings
     2  frundavel_moves           one run of bytes
     3  frundavel_ladder          one run of numbers
     4  frundavel_sheet_to_book   one buffer
     5  frundavel_book_to_sheet   one buffer; the mark is the second byte of the call
     6  frundavel_cutback         one run of numbers; its input is that of `cutback` below
     7  frundavel_allot_in_rows   one buffer

   Of a buffer or a run come its places with guards, the room's place in it, the room, and what stands in it. The answer: each
   time number, place and length, then all that was lent as the call left it. It ends with its input. */

typedef unsigned char byte;
typedef unsigned long size;
/* Many bytes in one turn of a loop, which is what an emulator is slow at. */
typedef byte __attribute__((vector_size(128), aligned(1), may_alias)) line;

struct answer { size number, place, length; };
struct answer frundavel_allot(const byte *book, size count, byte *report, size room);
struct answer frundavel_allot_in_rows(const byte *book, size count, byte *report, size room);
struct answer frundavel_columns(const byte *book, size count, byte *standings, size s, size *offered, size f, size *pending, size p,
                                size *offsets, size o);
struct answer frundavel_moves(const byte *list, size count, byte *spans, size room);
struct answer frundavel_ladder(const byte *list, size count, size *steps, size places);
struct answer frundavel_sheet_to_book(const byte *sheet, size count, byte *book, size room);
struct answer frundavel_book_to_sheet(const byte *book, size count, byte mark, byte *sheet, size room);
struct answer frundavel_cutback(const byte *kind, size k, const byte *metal, size m, size grams, const byte *codes, size c,
                                const size *sizes, size s, const size *lots, size l, size *cuts, size places);

enum { READ = 0, WRITE = 1, EXIT = 60 };
enum { MOST_INPUT = 1 << 20, MOST_OUT = 1 << 20, MOST_PLACES = 1 << 12 };
enum { ALLOT = 0, COLUMNS = 1, MOVES = 2, LADDER = 3, TO_BOOK = 4, TO_SHEET = 5, CUTBACK = 6, IN_ROWS = 7 };

/* Numbers can stand at its front. */
static byte input[MOST_INPUT] __attribute__((aligned(sizeof(size))));
static byte out[MOST_OUT];
static byte standings[MOST_PLACES];
static size lots[3][MOST_PLACES];

static long call(long number, long one, const void *two, size three)
{
    long result;
    __asm__ volatile("syscall" : "=a"(result) : "a"(number), "D"(one), "S"(two), "d"(three) : "rcx", "r11", "memory");
    return result;
}

void *memcpy(void *to, const void *from, size count)
{
    byte *t = to;
    const byte *f = from;
    for (; count >= sizeof(line); count -= sizeof(line), t += sizeof(line), f += sizeof(line))
        *(line *)t = *(const line *)f;
    for (; count; count--)
        *t++ = *f++;
    return to;
}

void *memmove(void *to, const void *from, size count)
{
    byte *t = to;
    const byte *f = from;
    if (t <= f || t >= f + count)
        return memcpy(to, from, count);
    while (count--)
        t[count] = f[count];
    return to;
}

void *memset(void *to, int value, size count)
{
    byte *t = to;
    const line all = (byte)value - (line){};
    for (; count >= sizeof(line); count -= sizeof(line), t += sizeof(line))
        *(line *)t = all;
    for (; count; count--)
        *t++ = (byte)value;
    return to;
}

static _Noreturn void leave(int status)
{
    for (;;)
        call(EXIT, status, 0, 0);
}

/* All bytes asked for; an input that ends between two calls is the end. */
static void take(void *to, size count, int may_end)
{
    size at = 0;
    while (at < count) {
        const long got = call(READ, 0, (byte *)to + at, count - at);
        if (got <= 0)
            leave(got == 0 && may_end && at == 0 ? 0 : 1);
        at += got;
    }
}

static void give(const void *from, size count)
{
    size at = 0;
    while (at < count) {
        const long put = call(WRITE, 1, (const byte *)from + at, count - at);
        if (put <= 0)
            leave(1);
        at += put;
    }
}

/* What is lent: all of it, and its bytes; the room in it, and its places. */
struct lent { byte *whole; size bytes; byte *room; size places; };

/* Takes a buffer or a run, of places of so many bytes. */
static struct lent take_lent(void *to, size most, size width)
{
    struct { size whole, place, room; } asked;
    take(&asked, sizeof asked, 0);
    if (asked.whole > most / width || asked.place > asked.whole || asked.room > asked.whole - asked.place)
        leave(2);
    take(to, asked.whole * width, 0);
    return (struct lent){to, asked.whole * width, (byte *)to + asked.place * width, asked.room};
}

/* Puts bytes at the end of what is to go out. */
static size put(size used, const void *from, size count)
{
    if (count > MOST_OUT - used)
        leave(2);
    memcpy(out + used, from, count);
    return used + count;
}

/* So many places of the input, of so many bytes, from `at` on; moves `at` behind them. */
static const byte *part(size *at, size count, size places, size width)
{
    const byte *from = input + *at;
    if (places > (count - *at) / width)
        leave(2);
    *at += places * width;
    return from;
}

/* The input is the sizes of type and metal, the grams, the size of the codes, how many sizes and how many lots; then the sizes,
   the lots, the type, the metal and the codes. */
static struct answer cutback(size count, size *cuts, size places)
{
    size at = 0;
    const size *has = (const size *)part(&at, count, 6, sizeof(size));
    const size *sizes = (const size *)part(&at, count, has[4], sizeof(size));
    const size *held = (const size *)part(&at, count, has[5], sizeof(size));
    const byte *kind = part(&at, count, has[0], 1);
    const byte *metal = part(&at, count, has[1], 1);
    const byte *codes = part(&at, count, has[3], 1);
    return frundavel_cutback(kind, has[0], metal, has[1], has[2], codes, has[3], sizes, has[4], held, has[5], cuts, places);
}

/* A call with one buffer, or one run of bytes. */
static struct answer with_bytes(size call, byte mark, size count, byte *room, size places)
{
    switch (call) {
    case ALLOT:
        return frundavel_allot(input, count, room, places);
    case IN_ROWS:
        return frundavel_allot_in_rows(input, count, room, places);
    case MOVES:
        return frundavel_moves(input, count, room, places);
    case TO_BOOK:
        return frundavel_sheet_to_book(input, count, room, places);
    default:
        return frundavel_book_to_sheet(input, count, mark, room, places);
    }
}

/* Lends one buffer, and puts the answer and the buffer at the end of what is to go out. */
static size lend_bytes(size call, byte mark, size count, size used)
{
    const size after = used + sizeof(struct answer);
    if (after > MOST_OUT)
        leave(2);
    const struct lent lent = take_lent(out + after, MOST_OUT - after, 1);
    const struct answer answer = with_bytes(call, mark, count, lent.room, lent.places);
    return put(used, &answer, sizeof answer) + lent.bytes;
}

/* The same with one run of numbers, which stands apart, since a number does not stand at every byte. */
static size lend_numbers(size call, size count, size used)
{
    const struct lent lent = take_lent(lots[0], sizeof lots[0], sizeof(size));
    size *room = (size *)lent.room;
    const struct answer answer =
        call == LADDER ? frundavel_ladder(input, count, room, lent.places) : cutback(count, room, lent.places);
    return put(put(used, &answer, sizeof answer), lent.whole, lent.bytes);
}

/* The same with four runs. */
static size lend_runs(size count, size used)
{
    const struct lent offered = take_lent(lots[0], sizeof lots[0], sizeof(size));
    const struct lent pending = take_lent(lots[1], sizeof lots[1], sizeof(size));
    const struct lent offsets = take_lent(lots[2], sizeof lots[2], sizeof(size));
    const struct lent letters = take_lent(standings, sizeof standings, 1);
    const struct answer answer =
        frundavel_columns(input, count, letters.room, letters.places, (size *)offered.room, offered.places,
                          (size *)pending.room, pending.places, (size *)offsets.room, offsets.places);
    used = put(used, &answer, sizeof answer);
    used = put(used, offered.whole, offered.bytes);
    used = put(used, pending.whole, pending.bytes);
    used = put(used, offsets.whole, offsets.bytes);
    return put(used, letters.whole, letters.bytes);
}

/* Lends what the call takes. */
static size lend(size call, byte mark, size count, size used)
{
    switch (call) {
    case COLUMNS:
        return lend_runs(count, used);
    case LADDER:
    case CUTBACK:
        return lend_numbers(call, count, used);
    default:
        return lend_bytes(call, mark, count, used);
    }
}

void serve(void)
{
    struct { size call, input, lent; } asked;
    for (;;) {
        take(&asked, sizeof asked, 1);
        const size call = asked.call & 255, mark = asked.call >> 8;
        if (asked.input > MOST_INPUT || call > IN_ROWS || mark > (call == TO_SHEET ? 255 : 0))
            leave(2);
        take(input, asked.input, 0);
        size used = 0;
        for (; asked.lent; asked.lent--)
            used = lend(call, mark, asked.input, used);
        give(out, used);
    }
}

__asm__(".globl _start\n_start: xor %ebp, %ebp\n and $-16, %rsp\n call serve\n hlt\n");
