/* The stack that the product's calls for sheets use, through their C symbols. A sheet comes on standard input. Printed: the bytes of stack of
   frundavel_sheet_to_book; those of frundavel_book_to_sheet of the book made, or of the input itself where none was; and the number of the first. */

#include "paint.h"

struct answer frundavel_sheet_to_book(const byte *sheet, size count, byte *book, size room);
struct answer frundavel_book_to_sheet(const byte *book, size count, byte mark, byte *sheet, size room);

enum { MOST_SHEET = 1 << 20, ROOM = 1 << 17 };

static byte sheet[MOST_SHEET], book[ROOM], back[ROOM];

void measure(void)
{
    volatile byte frame = 0;
    const size count = input(sheet, MOST_SHEET);
    size used[3];
    trusted(&frame);
    paint(&frame);
    const struct answer made = frundavel_sheet_to_book(sheet, count, book, ROOM);
    used[0] = deepest(&frame);
    paint(&frame);
    const struct answer written = made.length > 0 ? frundavel_book_to_sheet(book, made.length, ',', back, ROOM)
                                                  : frundavel_book_to_sheet(sheet, count, ',', back, ROOM);
    used[1] = deepest(&frame);
    used[2] = made.number;
    say(used, 3);
    call(EXIT, made.length > 0 && written.number != made.number, 0, 0);
}
