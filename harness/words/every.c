/*
 * Asks frundavel_reason for the words of every number, at every byte, at a place past the end and at place 0 of an empty book, and prints
 * them: NUMBER BYTE WORDS, with `none` for the byte past the end, and `first` at place 0. Each is asked for in every room from 0 to FRUNDAVEL_WORDS, and what it answers and each byte of the
 * buffer are held to the header. What must be printed is said by wanted.py.
 */
#include <stdio.h>
#include <stdlib.h>
#include <string.h>

#include "frundavel.h"

enum { FILLED = 0xa5, MOST = FRUNDAVEL_WORDS + 64 };

/* The place asked for: the byte in the middle of the book, or none. */
static const uint64_t inside = 1, none[] = {3, 4, UINT64_MAX};

static void wrong(const char *what, uint64_t number, uint64_t place, size_t room)
{
    fprintf(stderr, "number %llu, place %llu, room %zu: %s\n", (unsigned long long)number, (unsigned long long)place, room, what);
    exit(1);
}

static int filled(const uint8_t *from, const uint8_t *to)
{
    while (from < to && *from == FILLED)
        from++;
    return from == to;
}

/* The words in the room that is always enough; their length. */
static size_t whole(uint64_t number, uint64_t place, const uint8_t *book, size_t size, uint8_t *lent)
{
    frundavel_answer answer;

    memset(lent, FILLED, MOST);
    answer = frundavel_reason(number, place, book, size, lent, FRUNDAVEL_WORDS);
    if (answer.number != FRUNDAVEL_ACCEPTED || answer.place != 0 || answer.length == 0 || answer.length > FRUNDAVEL_WORDS)
        wrong("the answer in the room that is always enough", number, place, FRUNDAVEL_WORDS);
    if (!filled(lent + answer.length, lent + MOST))
        wrong("a byte after the words", number, place, FRUNDAVEL_WORDS);
    return (size_t)answer.length;
}

/* The same in every smaller room: nothing where they are too long, and the same words where they are not. */
static void smaller(uint64_t number, uint64_t place, const uint8_t *book, size_t size, const uint8_t *words, size_t length)
{
    uint8_t lent[MOST];
    size_t room;

    for (room = 0; room < FRUNDAVEL_WORDS; room++) {
        size_t written = room < length ? 0 : length;
        frundavel_answer answer;

        memset(lent, FILLED, MOST);
        answer = frundavel_reason(number, place, book, size, room == 0 ? NULL : lent, room);
        if (answer.number != (room < length ? FRUNDAVEL_NO_ROOM : FRUNDAVEL_ACCEPTED) || answer.length != written ||
            answer.place != (room < length ? length : 0))
            wrong("the answer", number, place, room);
        if (memcmp(lent, words, written) != 0 || !filled(lent + written, lent + MOST))
            wrong("a byte of the buffer", number, place, room);
    }
}

static void ask(uint64_t number, uint64_t place, const uint8_t *book, size_t size, const char *byte)
{
    uint8_t words[MOST];
    size_t length = whole(number, place, book, size, words);

    smaller(number, place, book, size, words, length);
    printf("%llu %s %.*s\n", (unsigned long long)number, byte, (int)length, (const char *)words);
}

int main(void)
{
    enum { EACH = 50 };
    static const uint64_t far[] = {255, 256, 260, UINT64_C(1) << 32, (UINT64_C(1) << 32) + 4, UINT64_C(1) << 63, UINT64_MAX};
    uint8_t book[3] = {'D', 0, 'D'};
    char shown[8];
    size_t i, j;
    unsigned byte;

    for (i = 0; i < EACH + sizeof far / sizeof far[0]; i++) {
        uint64_t number = i < EACH ? i : far[i - EACH];

        for (byte = 0; byte < 256; byte++) {
            book[1] = (uint8_t)byte;
            snprintf(shown, sizeof shown, "%u", byte);
            ask(number, inside, book, sizeof book, shown);
        }
        for (j = 0; j < sizeof none / sizeof none[0]; j++)
            ask(number, none[j], book, sizeof book, "none");
        ask(number, 0, NULL, 0, "first");
    }
    return fflush(stdout) == 0 && !ferror(stdout) ? 0 : 1;
}
