/* Fails the calls by which the program that it is loaded into changes files of a folder: opens that make one, writes, syncs, cuts,
   renames. Such calls are counted from 1 on, of all threads together. tools/desk_trials builds it, and says in the environment which
   one fails, and how. Each of them, and each write to standard output, is told in a line of a file: what it is, its number, what it
   gave, and of which file or with which first letter. */

typedef unsigned long Size;
typedef __builtin_va_list Rest;

extern char *getenv(const char *);
extern long atol(const char *);
extern int dprintf(int, const char *, ...), *__errno_location(void);
extern long syscall(long, ...);

enum { WRITE = 1, OPEN = 2, FSYNC = 74, FDATASYNC = 75, FTRUNCATE = 77, RENAME = 82, READLINK = 89, OPENAT = 257 };
enum { MAKES = 0100, APPENDS = 02000, WRITES = 1, HERE = -100, ANSWERS = 1, FIRST_FILE = 3, MOST = 4096 };

/* The first call that fails, how many from there on, its fault, and whether the first, where it is a write, takes half of its bytes. */
static long first, many, fault, half, calls;
static const char *folder;
static int told = -1;

static long number(const char *name) {
    const char *text = getenv(name);
    return text ? atol(text) : 0;
}

__attribute__((constructor)) static void begin(void) {
    const char *path = getenv("FAIL_TOLD");
    folder = getenv("FAIL_FOLDER");
    many = number("FAIL_MANY");
    fault = number("FAIL_FAULT");
    half = number("FAIL_HALF");
    first = number("FAIL_CALL");
    if (path && folder)
        told = (int)syscall(OPEN, path, (long)(WRITES | APPENDS | MAKES), 0666L);
}

/* Whether a path is the folder, or in it. */
static int is_inside(const char *path) {
    Size at = 0;
    if (!folder)
        return 0;
    while (folder[at] && folder[at] == path[at])
        at++;
    return !folder[at] && (!path[at] || path[at] == '/');
}

/* The path of an open file. */
static void find_path(int file, char *path) {
    char link[32] = "/proc/self/fd/", digits[16];
    Size place = 14, count = 0;
    for (int left = file; left || !count; left /= 10)
        digits[count++] = (char)('0' + left % 10);
    while (count)
        link[place++] = digits[--count];
    long length = syscall(READLINK, link, path, (long)(MOST - 1));
    path[length > 0 ? length : 0] = 0;
}

/* What a call of the system gave, less than 0 where it failed; and as the C library says it. */
static long raw(long gave) { return gave < 0 ? -*__errno_location() : gave; }

static long given(long gave) {
    if (gave < 0)
        *__errno_location() = (int)-gave;
    return gave < 0 ? -1 : gave;
}

/* Makes a call that is counted if its path is inside: a write of half of its bytes where it is to. */
static long change(const char *what, const char *path, long call, long a, long b, long c, long d) {
    if (!is_inside(path))
        return given(raw(syscall(call, a, b, c, d)));
    long at = __atomic_add_fetch(&calls, 1, __ATOMIC_SEQ_CST), gave = -fault;
    int fails = first && at >= first && at - first < many, is_half = fails && half && at == first && call == WRITE;
    if (is_half)
        c = (c + 1) / 2;
    if (!fails || is_half)
        gave = raw(syscall(call, a, b, c, d));
    dprintf(told, "%s %ld %ld %s\n", what, at, gave, path);
    return given(gave);
}

static long change_file(const char *what, int file, long call, long b, long c) {
    char path[MOST];
    find_path(file, path);
    return change(what, path, call, file, b, c, 0);
}

long write(int file, const void *text, Size size) {
    if (file >= FIRST_FILE)
        return change_file("write", file, WRITE, (long)text, (long)size);
    long gave = raw(syscall(WRITE, (long)file, text, size));
    if (file == ANSWERS && told >= 0)
        dprintf(told, "answer 0 %ld %.1s\n", gave, (const char *)text);
    return given(gave);
}

struct part {
    const char *text;
    Size size;
};

/* (of the first piece alone: a short write is right) */
long writev(int file, const struct part *parts, int count) {
    for (int at = 0; at < count; at++)
        if (parts[at].size)
            return write(file, parts[at].text, parts[at].size);
    return 0;
}

int fsync(int file) { return (int)change_file("sync", file, FSYNC, 0, 0); }

int fdatasync(int file) { return (int)change_file("sync", file, FDATASYNC, 0, 0); }

int ftruncate(int file, long size) { return (int)change_file("cut", file, FTRUNCATE, size, 0); }

int ftruncate64(int, long) __attribute__((alias("ftruncate")));

int rename(const char *from, const char *to) { return (int)change("rename", to, RENAME, (long)from, (long)to, 0, 0); }

static int open_file(int at, const char *path, int how, Rest rest) {
    int rights = how & MAKES ? __builtin_va_arg(rest, int) : 0;
    if (how & MAKES)
        return (int)change("make", path, OPENAT, at, (long)path, how, rights);
    return (int)given(raw(syscall(OPENAT, (long)at, path, (long)how, (long)rights)));
}

int open(const char *path, int how, ...) {
    Rest rest;
    __builtin_va_start(rest, how);
    int made = open_file(HERE, path, how, rest);
    __builtin_va_end(rest);
    return made;
}

int openat(int at, const char *path, int how, ...) {
    Rest rest;
    __builtin_va_start(rest, how);
    int made = open_file(at, path, how, rest);
    __builtin_va_end(rest);
    return made;
}

int open64(const char *, int, ...) __attribute__((alias("open")));
int openat64(int, const char *, int, ...) __attribute__((alias("openat")));
