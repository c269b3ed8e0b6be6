/* Preloaded into a program: its reads, writes and closings go wrong in the way that the word FAULT of the environment names.

     reads     every other read is interrupted, and the others bring at most 7 bytes
     writes    a write takes at most 5 bytes
     unread    standard input breaks off with an error after 20 bytes
     full      standard output takes 10 bytes and is full then
     close     closing standard output fails, and so does handing its file over to the device, by which a program can learn of that too */

typedef unsigned long size;

enum { READ = 0, WRITE = 1, CLOSE = 3, DATASYNC = 75 };
enum { INTERRUPTED = 4, BROKEN = 5, FULL = 28 };

int *__errno_location(void);
char *getenv(const char *name);

static long call(long number, long one, const void *two, size three)
{
    long result;
    __asm__ volatile("syscall" : "=a"(result) : "a"(number), "D"(one), "S"(two), "d"(three) : "rcx", "r11", "memory");
    return result;
}

static long failed(int error)
{
    *__errno_location() = error;
    return -1;
}

static long told(long result) { return result < 0 ? failed((int)-result) : result; }

static size least(size a, size b) { return a < b ? a : b; }

/* Whether this is the fault that is wanted. */
static int fault(const char *name)
{
    const char *wanted = getenv("FAULT");
    if (!wanted)
        return 0;
    while (*name && *name == *wanted)
        name++, wanted++;
    return *name == *wanted;
}

long read(int from, void *to, size count)
{
    static size calls, given;
    if (fault("reads")) {
        if (calls++ % 2 == 0)
            return failed(INTERRUPTED);
        count = least(count, 7);
    }
    if (from == 0 && fault("unread")) {
        if (given == 20)
            return failed(BROKEN);
        count = least(count, 20 - given);
    }
    const long got = told(call(READ, from, to, count));
    given += got > 0 ? got : 0;
    return got;
}

long write(int to, const void *from, size count)
{
    static size taken;
    if (fault("writes"))
        count = least(count, 5);
    if (to == 1 && fault("full")) {
        if (taken == 10)
            return failed(FULL);
        count = least(count, 10 - taken);
    }
    const long put = told(call(WRITE, to, from, count));
    taken += to == 1 && put > 0 ? put : 0;
    return put;
}

int close(int which)
{
    if (which == 1 && fault("close"))
        return (int)failed(BROKEN);
    return (int)told(call(CLOSE, which, 0, 0));
}

int fdatasync(int which)
{
    if (fault("close"))
        return (int)failed(BROKEN);
    return (int)told(call(DATASYNC, which, 0, 0));
}
