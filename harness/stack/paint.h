/* The stack below a caller's frame: it is painted, a call is made, and the deepest byte that lost its paint is looked for. This needs no C library:
   what includes it is linked with the archive alone, so that it can be run under an emulator too. It defines `measure`, which is all that runs. */

typedef unsigned char byte;
typedef unsigned long size;

struct answer { size number, place, length; };

enum { READ = 0, WRITE = 1, EXIT = 60 };
enum { DEPTH = 1 << 18, GAP = 256, PAINT = 0xa5 };

static long call(long number, long one, const void *two, size three)
{
    long result;
    __asm__ volatile("syscall" : "=a"(result) : "a"(number), "D"(one), "S"(two), "d"(three) : "rcx", "r11", "memory");
    return result;
}

void *memcpy(void *to, const void *from, size count)
{
    byte *t = to;
    const byte *f = from;
    while (count--)
        *t++ = *f++;
    return to;
}

void *memmove(void *to, const void *from, size count)
{
    byte *t = to;
    const byte *f = from;
    if (t <= f || t >= f + count)
        return memcpy(to, from, count);
    while (count--)
        t[count] = f[count];
    return to;
}

void *memset(void *to, int value, size count)
{
    byte *t = to;
    while (count--)
        *t++ = (byte)value;
    return to;
}

static size put(byte *to, size n)
{
    byte digits[20];
    size count = 0;
    do
        digits[count++] = '0' + n % 10;
    while (n /= 10);
    for (size i = 0; i < count; i++)
        to[i] = digits[count - 1 - i];
    return count;
}

/* The part next to the frame is not painted, since the painter's own frame is there. */
static __attribute__((noinline)) void paint(volatile byte *top)
{
    for (volatile byte *place = top - DEPTH; place < top - GAP; place++)
        *place = PAINT;
}

static __attribute__((noinline)) size deepest(volatile byte *top)
{
    volatile byte *place = top - DEPTH;
    while (place < top - GAP && *place == PAINT)
        place++;
    return top - place;
}

/* A function of known use: the method must find it, or it measures nothing. */
static __attribute__((noinline)) void fill(void)
{
    volatile byte bytes[8192];
    for (size i = 0; i < sizeof bytes; i++)
        bytes[i] = 1;
}

/* All of standard input, as far as there is room, or a status of its own where it cannot be read. */
static size input(byte *to, size room)
{
    size count = 0;
    long got;
    while ((got = call(READ, 0, to + count, room - count)) > 0)
        count += got;
    if (got < 0)
        call(EXIT, 1, 0, 0);
    return count;
}

/* Ends where the method does not find what is known. */
static void trusted(volatile byte *frame)
{
    size used;
    paint(frame);
    fill();
    used = deepest(frame);
    if (used < 8192 || used > 8192 + GAP)
        call(EXIT, 2, 0, 0);
}

/* Numbers in one line on standard output. */
static void say(const size *numbers, size many)
{
    byte line[128];
    size count = 0;
    for (size i = 0; i < many; i++) {
        count += put(line + count, numbers[i]);
        line[count++] = i + 1 < many ? ' ' : '\n';
    }
    call(WRITE, 1, line, count);
}

__asm__(".globl _start\n_start: xor %ebp, %ebp\n and $-16, %rsp\n call measure\n hlt\n");
