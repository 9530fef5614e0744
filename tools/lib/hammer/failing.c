/* Loaded before a program: counts its allocations and its calls of the system, and has one of them fail.

   HAMMER_COUNTS names a file of numbers of eight bytes: how many calls of each kind there were.
   HAMMER_FAULT is "KIND HOW NUMBER": the kind's place in the list; an error of the system, or -1 for a call that moves one byte
   at most; and which call of the kind, from 1, or 0 for all.
   HAMMER_EACH names a file. Then at each call of the kind, or each NUMBER-th, a copy of the process goes on with that call at fault,
   and once it has ended the process itself goes on without: so one run tries them all. The file gets, for each copy, the call's
   number, its status as `wait` tells it and the length of its standard output, in eight bytes each, and then that output. It is for
   programs of one thread.
   No header is used, so any C compiler for Linux on x86-64 will do. */

typedef unsigned long size_t;
typedef long ssize_t;
struct part { char *start; size_t length; };
enum kind { ALLOCATION, OPEN, READ, WRITE, COUNTS };
enum { SYSTEM_READ = 0, SYSTEM_WRITE = 1, SYSTEM_OPEN = 2, SYSTEM_OPEN_AT = 257 };
enum { OUT_OF_MEMORY = 12, READ_AND_WRITE = 2, PAGES_READ_AND_WRITE = 3, SHARED = 1, FROM_START = 0, FROM_HERE = 1 };
enum { OUTPUT = 1, FILES = 16, DIES_WITH_PARENT = 1, KILL = 9, MOST_SECONDS = 60 };

extern void *__libc_malloc(size_t);
extern void *__libc_calloc(size_t, size_t);
extern void *__libc_realloc(void *, size_t);
extern void *__libc_memalign(size_t, size_t);
extern int *__errno_location(void);
extern char *getenv(const char *);
extern long strtol(const char *, char **, int);
extern long syscall(long, ...);
extern void *mmap(void *, size_t, int, int, int, long);
extern int close(int);
extern int fork(void);
extern int wait4(int, int *, int, void *);
extern int prctl(int, ...);
extern unsigned alarm(unsigned);
extern int memfd_create(const char *, unsigned);
extern int ftruncate(int, long);
extern long lseek(int, long, int);
extern int dup2(int, int);
extern ssize_t sendfile(int, int, long *, size_t);

static long *counts, kind_at_fault = -1, how_it_fails, number_at_fault;
static int copies = -1, output_of_copy;

__attribute__((constructor)) static void begin(void)
{
    char *file = getenv("HAMMER_COUNTS"), *fault = getenv("HAMMER_FAULT"), *each = getenv("HAMMER_EACH");
    if (!file)
        return;
    if (fault) {
        kind_at_fault = strtol(fault, &fault, 10);
        how_it_fails = strtol(fault, &fault, 10);
        number_at_fault = strtol(fault, &fault, 10);
    }
    int opened = (int)syscall(SYSTEM_OPEN, file, READ_AND_WRITE);
    counts = mmap(0, COUNTS * sizeof(long), PAGES_READ_AND_WRITE, SHARED, opened, 0);
    close(opened);
    if (each) {
        copies = (int)syscall(SYSTEM_OPEN, each, READ_AND_WRITE);
        output_of_copy = memfd_create("output", 0);
    }
}

/* What a copy does first: it writes to a file of its own, which begins with what was written before it. */
static void begin_copy(void)
{
    long start = 0, length = lseek(OUTPUT, 0, FROM_HERE);
    counts = 0;
    prctl(DIES_WITH_PARENT, KILL);
    alarm(MOST_SECONDS);
    sendfile(output_of_copy, OUTPUT, &start, length);
    dup2(output_of_copy, OUTPUT);
}

static void note_copy(long number, long status)
{
    long start = 0, length = lseek(output_of_copy, 0, FROM_HERE), head[3] = {number, status, length};
    syscall(SYSTEM_WRITE, copies, head, sizeof head);
    sendfile(copies, output_of_copy, &start, length);
}

/* Whether this is a copy, whose call is to fail. What it reads is read again by the process itself. */
static int is_copy(long number)
{
    long places[FILES];
    int status = -1;
    ftruncate(output_of_copy, 0);
    lseek(output_of_copy, 0, FROM_START);
    for (int file = 0; file < FILES; file++)
        places[file] = lseek(file, 0, FROM_HERE);
    int child = fork();
    if (!child) {
        begin_copy();
        return 1;
    }
    wait4(child, &status, 0, 0);
    note_copy(number, status);
    for (int file = 0; file < FILES; file++)
        if (places[file] >= 0 && file != output_of_copy && file != copies)
            lseek(file, places[file], FROM_START);
    return 0;
}

/* 0, or how this call is to fail. */
static long fault(enum kind kind)
{
    if (!counts)
        return 0;
    long number = __atomic_add_fetch(&counts[kind], 1, __ATOMIC_SEQ_CST);
    if (kind != kind_at_fault)
        return 0;
    if (copies >= 0)
        return (!number_at_fault || number % number_at_fault == 0) && is_copy(number) ? how_it_fails : 0;
    return !number_at_fault || number == number_at_fault ? how_it_fails : 0;
}

static long failed(long error)
{
    *__errno_location() = (int)error;
    return -1;
}

static void *no_memory(void)
{
    *__errno_location() = OUT_OF_MEMORY;
    return 0;
}

void *malloc(size_t size)
{
    return fault(ALLOCATION) ? no_memory() : __libc_malloc(size);
}

void *calloc(size_t count, size_t size)
{
    return fault(ALLOCATION) ? no_memory() : __libc_calloc(count, size);
}

void *realloc(void *old, size_t size)
{
    return fault(ALLOCATION) ? no_memory() : __libc_realloc(old, size);
}

void *aligned_alloc(size_t alignment, size_t size)
{
    return fault(ALLOCATION) ? no_memory() : __libc_memalign(alignment, size);
}

int posix_memalign(void **to, size_t alignment, size_t size)
{
    void *made = fault(ALLOCATION) ? 0 : __libc_memalign(alignment, size);
    if (!made)
        return OUT_OF_MEMORY;
    *to = made;
    return 0;
}

int openat(int folder, const char *name, int flags, int mode)
{
    long how = fault(OPEN);
    return (int)(how > 0 ? failed(how) : syscall(SYSTEM_OPEN_AT, folder, name, flags, mode));
}

int openat64(int folder, const char *name, int flags, int mode)
{
    return openat(folder, name, flags, mode);
}

int open(const char *name, int flags, int mode)
{
    return openat(-100, name, flags, mode);
}

int open64(const char *name, int flags, int mode)
{
    return openat(-100, name, flags, mode);
}

static ssize_t moved(enum kind kind, long call, int file, const void *bytes, size_t count)
{
    long how = fault(kind);
    if (how > 0)
        return failed(how);
    return syscall(call, file, bytes, how < 0 && count > 1 ? 1 : count);
}

ssize_t read(int file, void *to, size_t count)
{
    return moved(READ, SYSTEM_READ, file, to, count);
}

ssize_t write(int file, const void *from, size_t count)
{
    return moved(WRITE, SYSTEM_WRITE, file, from, count);
}
