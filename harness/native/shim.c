/* The kit's code hands the answer back through a pointer in the first register, which on x86-64 is what C does with a struct of this size.
   On another machine C does it otherwise: this stands between. PRODUCT is defined for the product's calls, ROWS for the call in rows. */

typedef unsigned char byte;
typedef unsigned long size;
struct answer { size number, place, length; };

#ifdef PRODUCT
struct answer *product_allot(struct answer *to, const byte *book, size count, byte *report, size room);

struct answer frundavel_allot(const byte *book, size count, byte *report, size room)
{
    struct answer a;
    product_allot(&a, book, count, report, room);
    return a;
}

struct answer *product_columns(struct answer *to, const byte *book, size count, byte *standings, size s, size *offered, size f,
                               size *pending, size p, size *offsets, size o);

struct answer frundavel_columns(const byte *book, size count, byte *standings, size s, size *offered, size f, size *pending, size p,
                                size *offsets, size o)
{
    struct answer a;
    product_columns(&a, book, count, standings, s, offered, f, pending, p, offsets, o);
    return a;
}

struct answer *product_moves(struct answer *to, const byte *list, size count, byte *spans, size room);

struct answer frundavel_moves(const byte *list, size count, byte *spans, size room)
{
    struct answer a;
    product_moves(&a, list, count, spans, room);
    return a;
}

struct answer *product_ladder(struct answer *to, const byte *list, size count, size *steps, size places);

struct answer frundavel_ladder(const byte *list, size count, size *steps, size places)
{
    struct answer a;
    product_ladder(&a, list, count, steps, places);
    return a;
}

struct answer *product_sheet_to_book(struct answer *to, const byte *sheet, size count, byte *book, size room);

struct answer frundavel_sheet_to_book(const byte *sheet, size count, byte *book, size room)
{
    struct answer a;
    product_sheet_to_book(&a, sheet, count, book, room);
    return a;
}

struct answer *product_book_to_sheet(struct answer *to, const byte *book, size count, byte mark, byte *sheet, size room);

struct answer frundavel_book_to_sheet(const byte *book, size count, byte mark, byte *sheet, size room)
{
    struct answer a;
    product_book_to_sheet(&a, book, count, mark, sheet, room);
    return a;
}

struct answer *product_cutback(struct answer *to, const byte *kind, size k, const byte *metal, size m, size grams, const byte *codes,
                               size c, const size *sizes, size s, const size *lots, size l, size *cuts, size places);

struct answer frundavel_cutback(const byte *kind, size k, const byte *metal, size m, size grams, const byte *codes, size c,
                                const size *sizes, size s, const size *lots, size l, size *cuts, size places)
{
    struct answer a;
    product_cutback(&a, kind, k, metal, m, grams, codes, c, sizes, s, lots, l, cuts, places);
    return a;
}
#endif

#ifdef ROWS
struct answer *product_allot_in_rows(struct answer *to, const byte *book, size count, byte *report, size room);

struct answer frundavel_allot_in_rows(const byte *book, size count, byte *report, size room)
{
    struct answer a;
    product_allot_in_rows(&a, book, count, report, room);
    return a;
}
#endif
