/* The shim of tools/faults: it stands before the C library's calls on files, makes those of a plan fail, and logs what became of each.
   It includes no header and is linked to no library, and of the C library it uses syscall, getenv and errno's place alone, so that any
   compiler for x86-64 makes it and any glibc loads it. */

long syscall(long number, ...);
char *getenv(const char *name);
int *__errno_location(void);

enum { SYS_READ = 0, SYS_WRITE = 1, SYS_OPEN = 2, SYS_CLOSE = 3, SYS_MMAP = 9, SYS_GETPID = 39, SYS_KILL = 62, SYS_FSYNC = 74, SYS_RENAME = 82,
       SYS_UNLINK = 87, SYS_EXIT_GROUP = 231, SYS_STATX = 332 };
enum { READ_WRITE = 2, PROT_BOTH = 3, MAP_SHARED = 1, SIGKILL = 9, MODE = 28 };
enum { ANY, OPEN, READ, WRITE, FSYNC, CLOSE, RENAME, UNLINK, STAT, KINDS };

/* What befalls a call: 0 for nothing, an error by its number, or one of these; from DONE on, an error though the call is done (rename, unlink). */
enum { SHORT = -1, ZERO = -2, KILLED = -3, DONE = 1000 };
enum { ITEMS = 8, RECORDS = 4000, NAME = 32 };

/* The file FAULTS_LOG: the plan, which says what befalls the first to the last call of a kind, and a record of each call, or of several
   that were alike one after the other. */
struct item { long kind, first, last, struck; };
struct record { int kind, fd, flags, error, struck, unused; long result; char name[NAME], other[NAME]; long count; };
struct log { struct item items[ITEMS]; long used; struct record records[RECORDS]; };

static struct log *book;
static long made[KINDS];

/* A run that could not be judged, since it has no log, ends at once. */
static void start(void)
{
    const char *path = getenv("FAULTS_LOG");
    long fd = path ? syscall(SYS_OPEN, path, READ_WRITE, 0) : -1;
    book = (struct log *)syscall(SYS_MMAP, 0, sizeof *book, PROT_BOTH, MAP_SHARED, fd, 0);
    if (fd < 0 || book == (void *)-1)
        syscall(SYS_EXIT_GROUP, 99);
    syscall(SYS_CLOSE, fd);
}

/* Logs a call and hands on its result. A log that is too short says that it has more records than there is room for. */
static long told(int kind, int fd, int flags, const char *name, const char *other, long struck, long result)
{
    struct record r = { kind, fd, flags, result < 0 ? *__errno_location() : 0, (int)struck, 0, result, "", "", 1 };
    struct record *last = &book->records[book->used - 1];
    unsigned long same = 0, length = (char *)&r.count - (char *)&r;
    for (int i = 0; i < NAME - 1 && name[i]; i++)
        r.name[i] = name[i];
    for (int i = 0; i < NAME - 1 && other[i]; i++)
        r.other[i] = other[i];
    if (book->used > 0 && book->used <= RECORDS)
        while (same < length && ((char *)&r)[same] == ((char *)last)[same])
            same++;
    if (same == length)
        last->count++;
    else if (book->used++ < RECORDS)
        last[1] = r;
    return result;
}

/* Counts a call of this kind; the last item of the plan that names it says what befalls it. */
static long fault(int kind)
{
    long struck = 0;
    if (!book)
        start();
    made[ANY]++;
    made[kind]++;
    for (struct item *i = book->items; i < book->items + ITEMS; i++)
        if ((i->kind == ANY || i->kind == kind) && i->first <= made[i->kind] && made[i->kind] <= i->last)
            struck = i->struck;
    if (struck == KILLED) {
        told(kind, -1, 0, "", "", KILLED, 0);
        syscall(SYS_KILL, syscall(SYS_GETPID), SIGKILL);
    }
    return struck;
}

static long fail(long error)
{
    *__errno_location() = (int)(error % DONE);
    return -1;
}

/* A read or a write; one that fails moves nothing. */
static long move(int kind, long number, int fd, const void *bytes, unsigned long length)
{
    long struck = fault(kind);
    if (struck == ZERO)
        return told(kind, fd, 0, "", "", struck, 0);
    if (struck == SHORT && length > 1)
        length = 1;
    return told(kind, fd, 0, "", "", struck, struck > 0 ? fail(struck) : syscall(number, fd, bytes, length));
}

long read(int fd, void *bytes, unsigned long length) { return move(READ, SYS_READ, fd, bytes, length); }

long write(int fd, const void *bytes, unsigned long length) { return move(WRITE, SYS_WRITE, fd, bytes, length); }

int open(const char *name, int flags, unsigned mode)
{
    long struck = fault(OPEN);
    return (int)told(OPEN, -1, flags, name, "", struck, struck > 0 ? fail(struck) : syscall(SYS_OPEN, name, flags, mode));
}

/* Logged is, in the result's place, the mode that was found, by which a program goes on. It stands MODE bytes behind the start of what is found. */
int statx(int folder, const char *name, int flags, unsigned mask, void *found)
{
    long struck = fault(STAT), result = struck > 0 ? fail(struck) : syscall(SYS_STATX, folder, name, flags, mask, found);
    long mode = result < 0 ? -1 : *(unsigned short *)((char *)found + MODE);
    told(STAT, folder, flags, name, "", struck, mode);
    return (int)result;
}

int fsync(int fd)
{
    long struck = fault(FSYNC);
    return (int)told(FSYNC, fd, 0, "", "", struck, struck > 0 ? fail(struck) : syscall(SYS_FSYNC, fd));
}

/* As on Linux, the descriptor is closed whatever the answer is. */
int close(int fd)
{
    long struck = fault(CLOSE), result = syscall(SYS_CLOSE, fd);
    return (int)told(CLOSE, fd, 0, "", "", struck, struck > 0 ? fail(struck) : result);
}

static int by_name(int kind, long number, const char *name, const char *other)
{
    long struck = fault(kind), result = struck <= 0 || struck >= DONE ? syscall(number, name, other) : -1;
    if (struck >= DONE && result < 0)
        struck = 0; /* It failed by itself. */
    return (int)told(kind, -1, 0, name, other, struck, struck > 0 ? fail(struck) : result);
}

int rename(const char *from, const char *to) { return by_name(RENAME, SYS_RENAME, from, to); }

int unlink(const char *name) { return by_name(UNLINK, SYS_UNLINK, name, ""); }
