/*
 * Reads a comma sheet from standard input, makes its book with frundavel_sheet_to_book, and lists what frundavel_allot says of it, as
 * `sheet read | allot` does. Link with -lfrundavel.
 *
 * Exit status: 0 accepted, 1 refused, 2 an error. A refused sheet, and a refused book, are one line on standard output; who has to say whether the
 * place is a line of the sheet or a byte of the book looks at the answer's length.
 */
#include <stdio.h>

#include "frundavel.h"

/* A sheet has at most 60,000 bytes, as a book has; one byte more shows that it is too long. No sheet makes a book of more than 120,000 bytes. */
enum { MOST_READ = FRUNDAVEL_LONGEST_BOOK + 1, MOST_MADE = FRUNDAVEL_SHEET_ROOM };

static uint8_t sheet[MOST_READ], book[MOST_MADE], report[FRUNDAVEL_ROOM];

/* The next field of the report, its value printed between two pieces of text; where the one after it begins. */
static size_t print_field(size_t at, const char *before, const char *after)
{
    size_t size = (size_t)report[at + 1] * 256 + report[at + 2];

    printf("%s%.*s%s", before, (int)size, (const char *)report + at + 3, after);
    return at + 3 + size;
}

static void print_listing(size_t length)
{
    size_t at = print_field(0, "total ", "\n");

    at = print_field(at, "left ", "\n");
    while (at < length) {
        at = print_field(at, "", " ");
        at = print_field(at, "", " ");
        at = print_field(at, "", "\n");
        /* the seats, which a listing leaves out */
        while (at < length && report[at] != 'C')
            at += 3 + (size_t)report[at + 1] * 256 + report[at + 2];
    }
}

static int refused(frundavel_answer answer, const char *where)
{
    printf("refused %llu at %s %llu\n", (unsigned long long)answer.number, where, (unsigned long long)answer.place);
    return 1;
}

int main(void)
{
    size_t size = fread(sheet, 1, sizeof sheet, stdin);
    frundavel_answer made, allotted;

    if (ferror(stdin)) {
        perror("standard input");
        return 2;
    }
    made = frundavel_sheet_to_book(sheet, size, book, sizeof book);
    if (made.number != FRUNDAVEL_ACCEPTED)
        return refused(made, made.length == 0 ? "line" : "byte");
    allotted = frundavel_allot(book, made.length, report, sizeof report);
    if (allotted.number != FRUNDAVEL_ACCEPTED)
        return refused(allotted, "byte");
    print_listing(allotted.length);
    return 0;
}
