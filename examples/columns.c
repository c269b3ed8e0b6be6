/*
 * Reads a book from a file and prints its customers as a table, from the columns that frundavel_columns fills.
 *
 *     columns FILE [PLACES]
 *
 * PLACES is how many places each run has; without it, FRUNDAVEL_MOST_CUSTOMERS, which is always enough.
 * Exit status: 0 accepted, 1 refused, 2 an error, which is said on standard error.
 */
#include <inttypes.h>
#include <stdio.h>
#include <stdlib.h>

#include "frundavel.h"

enum { ACCEPTED = 0, REFUSED = 1, FAILED = 2 };

/* One byte more than a book may have: a longer one is then refused for its length. */
static uint8_t book[FRUNDAVEL_LONGEST_BOOK + 1];

static uint8_t standings[FRUNDAVEL_MOST_CUSTOMERS];
static uint64_t offered[FRUNDAVEL_MOST_CUSTOMERS];
static uint64_t pending[FRUNDAVEL_MOST_CUSTOMERS];
static uint64_t offsets[FRUNDAVEL_MOST_CUSTOMERS];

static int failed(const char *what, const char *why)
{
    fprintf(stderr, "columns: %s: %s\n", what, why);
    return FAILED;
}

static int read_book(const char *name, size_t *size)
{
    FILE *file = fopen(name, "rb");
    int bad;

    if (file == NULL)
        return failed(name, "cannot be opened");
    *size = fread(book, 1, sizeof book, file);
    bad = ferror(file);
    fclose(file);
    return bad ? failed(name, "cannot be read") : 0;
}

/* The sum of a column, which a viewer wants at its foot: it needs that one run and no other. */
static uint64_t sum(const uint64_t *run, size_t count)
{
    uint64_t all = 0;
    size_t i;

    for (i = 0; i < count; i++)
        all += run[i];
    return all;
}

static void print_row(const char *who, const char *standing, uint64_t offers, uint64_t had, uint64_t offset)
{
    printf("%5s  %8s  %10" PRIu64 "  %10" PRIu64 "  %10" PRIu64 "\n", who, standing, offers, had, offset);
}

static void print_table(size_t count)
{
    char place[24], standing[2] = "";
    size_t i;

    printf("%5s  %8s  %10s  %10s  %10s\n", "place", "standing", "offered", "pending", "offset");
    for (i = 0; i < count; i++) {
        snprintf(place, sizeof place, "%zu", i);
        standing[0] = (char)standings[i];
        print_row(place, standing, offered[i], pending[i], offsets[i]);
    }
    print_row("all", "", sum(offered, count), sum(pending, count), sum(offsets, count));
}

int main(int count, char **words)
{
    size_t size = 0, places = FRUNDAVEL_MOST_CUSTOMERS;
    frundavel_answer answer;
    char *end = NULL;

    if (count != 2 && count != 3) {
        fputs("usage: columns FILE [PLACES]\n", stderr);
        return FAILED;
    }
    if (count == 3) {
        places = strtoul(words[2], &end, 10);
        if (end == words[2] || *end != '\0' || places > FRUNDAVEL_MOST_CUSTOMERS)
            return failed(words[2], "not a number of places");
    }
    if (read_book(words[1], &size) != 0)
        return FAILED;
    answer = frundavel_columns(book, size, standings, places, offered, places, pending, places, offsets, places);
    if (answer.number != 0) {
        printf("refused %" PRIu64 " at %" PRIu64 "\n", answer.number, answer.place);
        return REFUSED;
    }
    print_table((size_t)answer.length);
    return fflush(stdout) != 0 ? failed("standard output", "cannot be written") : ACCEPTED;
}
