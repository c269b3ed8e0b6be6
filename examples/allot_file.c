/*
 * Reads a book from a file and prints the answer of frundavel_allot, with its report taken apart.
 *
 *     allot_file FILE [ROOM]
 *
 * ROOM is how many bytes of report are lent; without it, FRUNDAVEL_ROOM, which is always enough.
 * Exit status: 0 accepted, 1 refused, 2 an error, which is said on standard error.
 */
#include <errno.h>
#include <stdio.h>
#include <stdlib.h>
#include <string.h>

#include "frundavel.h"

/* One byte more than a book may have: a longer one is then refused for its length. */
#define MOST_READ (FRUNDAVEL_LONGEST_BOOK + 1)

enum { ACCEPTED = 0, REFUSED = 1, FAILED = 2 };

struct bytes {
    uint8_t *at;
    size_t size;
};

static int failed(const char *what, const char *why)
{
    fprintf(stderr, "allot_file: %s: %s\n", what, why);
    return FAILED;
}

/* Gives back what a book does not need, so that a checker of memory sees where it ends. An empty one is a null pointer. */
static void trim(struct bytes *book)
{
    uint8_t *less;

    if (book->size == 0) {
        free(book->at);
        book->at = NULL;
        return;
    }
    less = realloc(book->at, book->size);
    if (less != NULL)
        book->at = less;
}

/* Reads at most MOST_READ bytes of an open file; 0, or the status to exit with. */
static int read_open(FILE *file, const char *name, struct bytes *book)
{
    book->at = malloc(MOST_READ);
    if (book->at == NULL)
        return failed(name, "no memory for the book");
    book->size = fread(book->at, 1, MOST_READ, file);
    if (ferror(file)) {
        free(book->at);
        return failed(name, strerror(errno));
    }
    trim(book);
    return 0;
}

static int read_book(const char *name, struct bytes *book)
{
    FILE *file = fopen(name, "rb");
    int status;

    if (file == NULL)
        return failed(name, strerror(errno));
    status = read_open(file, name, book);
    fclose(file);
    return status;
}

/* The room that a word asks for: plain digits, at most FRUNDAVEL_ROOM. */
static int read_room(const char *word, size_t *room)
{
    size_t digits = strspn(word, "0123456789");
    unsigned long value;

    if (digits == 0 || digits > 6 || word[digits] != '\0')
        return failed(word, "not a room: a number of bytes is expected");
    value = strtoul(word, NULL, 10);
    if (value > FRUNDAVEL_ROOM)
        return failed(word, "a larger room than any report needs");
    *room = value;
    return 0;
}

/* Takes the next field with this tag off the front of the rest; its value, or one of no bytes at a null pointer where it is not there. */
static struct bytes take_field(struct bytes *rest, char tag)
{
    struct bytes none = {NULL, 0}, value;

    if (rest->size < 3 || rest->at[0] != (uint8_t)tag)
        return none;
    value.at = rest->at + 3;
    value.size = (size_t)rest->at[1] * 256 + rest->at[2];
    if (value.size > rest->size - 3)
        return none;
    rest->at = value.at + value.size;
    rest->size -= 3 + value.size;
    return value;
}

/* Prints fields of these tags on one line, a blank between them; 0 where one of them is not there. */
static int print_fields(struct bytes *rest, const char *tags)
{
    const char *tag;

    for (tag = tags; *tag != '\0'; tag++) {
        struct bytes value = take_field(rest, *tag);

        if (value.at == NULL)
            return 0;
        printf("%s%.*s", tag == tags ? "" : " ", (int)value.size, (const char *)value.at);
    }
    putchar('\n');
    return 1;
}

/* Prints total and residue under their tags, then a line for each customer, code, standing, offset lots, and one for each of its seats,
   two blanks, code, offset lots. */
static int print_report(struct bytes report)
{
    int whole;

    printf("T ");
    whole = print_fields(&report, "T");
    printf("R ");
    whole = whole && print_fields(&report, "R");
    while (whole && report.size > 0) {
        if (report.at[0] != 'I') {
            whole = print_fields(&report, "CEO");
            continue;
        }
        printf("  ");
        whole = print_fields(&report, "IJ");
    }
    return whole ? ACCEPTED : failed("report", "not of its form");
}

/* Prints the words for a refusal. They have no zero byte at their end, and always fit. */
static void print_reason(frundavel_answer answer, struct bytes book)
{
    uint8_t words[FRUNDAVEL_WORDS];
    frundavel_answer said = frundavel_reason(answer.number, answer.place, book.at, book.size, words, sizeof words);

    printf("refused: %.*s", (int)said.length, (const char *)words);
    if (answer.number == FRUNDAVEL_NO_ROOM)
        printf("; it needs %llu bytes", (unsigned long long)answer.place);
    putchar('\n');
}

static int print_answer(frundavel_answer answer, struct bytes book, uint8_t *report)
{
    struct bytes written;

    printf("number %llu place %llu length %llu\n", (unsigned long long)answer.number, (unsigned long long)answer.place,
           (unsigned long long)answer.length);
    if (answer.number != FRUNDAVEL_ACCEPTED) {
        print_reason(answer, book);
        return REFUSED;
    }
    written.at = report;
    written.size = (size_t)answer.length;
    return print_report(written);
}

static int allot(struct bytes book, size_t room)
{
    uint8_t *report = NULL;
    int status;

    if (room > 0) {
        report = malloc(room);
        if (report == NULL)
            return failed("report", "no memory for it");
    }
    status = print_answer(frundavel_allot(book.at, book.size, report, room), book, report);
    free(report);
    return status;
}

int main(int count, char **words)
{
    struct bytes book = {NULL, 0};
    size_t room = FRUNDAVEL_ROOM;
    int status;

    if (count != 2 && count != 3) {
        fputs("usage: allot_file FILE [ROOM]\n", stderr);
        return FAILED;
    }
    if (count == 3 && read_room(words[2], &room) != 0)
        return FAILED;
    if (read_book(words[1], &book) != 0)
        return FAILED;
    status = allot(book, room);
    free(book.at);
    if (fflush(stdout) != 0 || ferror(stdout))
        return failed("standard output", strerror(errno));
    return status;
}
