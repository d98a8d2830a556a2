/* Refuses memory or threads to the program that it is loaded into before the C library. tools/refused_growths builds it, says in
   the environment what is refused, and reads what is told at the end. A growth is a call that takes memory, counted from 1 on; of
   those that are refused the first thread's are counted too. */

typedef unsigned long Size;
typedef void *(*Starts)(void *);

extern void *__libc_malloc(Size), *__libc_calloc(Size, Size), *__libc_realloc(void *, Size), *__libc_memalign(Size, Size);
extern char *getenv(const char *);
extern long atol(const char *);
extern void *dlsym(void *, const char *);
extern int open(const char *, int, ...), dprintf(int, const char *, ...), *__errno_location(void);
extern long syscall(long, ...);

enum { OUT_OF_MEMORY = 12, TRY_AGAIN = 11, WRITES = 1, GET_PROCESS = 39, GET_THREAD = 186, EXIT_GROUP = 231 };

/* The first growth that is refused, how many from there on, and whether a thread that asks for no more once right after is refused that
   too; the first thread, and after how many each further one (0: none). */
static long first, many, less, first_thread, each_thread;
/* The size of the growth that this thread asked for last, if it was refused. */
static __thread Size lacked __attribute__((tls_model("initial-exec")));
static long growths, refused, refused_first, threads, refused_threads;

static long number(const char *name) {
    const char *text = getenv(name);
    return text ? atol(text) : 0;
}

__attribute__((constructor)) static void begin(void) {
    many = number("REFUSE_MANY");
    less = number("REFUSE_LESS");
    first_thread = number("REFUSE_THREAD");
    each_thread = number("REFUSE_EACH");
    growths = 0;
    first = number("REFUSE_GROWTH");
}

static void tell(void) {
    const char *path = getenv("REFUSE_TOLD");
    int file = path ? open(path, WRITES) : -1;
    if (file >= 0)
        dprintf(file, "%ld %ld %ld %ld %ld\n", growths, refused, refused_first, threads, refused_threads);
}

/* (a program of the toolchain ends by this call) */
__attribute__((noreturn)) void _exit(int status) {
    tell();
    for (;;)
        syscall(EXIT_GROUP, status);
}

static int refuses(Size size) {
    long at = __atomic_add_fetch(&growths, 1, __ATOMIC_SEQ_CST);
    int asks_again = less && size <= lacked, is_first = first && at >= first && at - first < many;
    lacked = 0;
    if (!asks_again && !is_first)
        return 0;
    lacked = is_first ? size : 0;
    __atomic_add_fetch(&refused, 1, __ATOMIC_SEQ_CST);
    if (syscall(GET_THREAD) == syscall(GET_PROCESS))
        __atomic_add_fetch(&refused_first, 1, __ATOMIC_SEQ_CST);
    *__errno_location() = OUT_OF_MEMORY;
    return 1;
}

void *malloc(Size size) { return refuses(size) ? 0 : __libc_malloc(size); }

void *calloc(Size count, Size size) { return refuses(count * size) ? 0 : __libc_calloc(count, size); }

void *realloc(void *old, Size size) { return refuses(size) ? 0 : __libc_realloc(old, size); }

void *memalign(Size align, Size size) { return refuses(size) ? 0 : __libc_memalign(align, size); }

void *aligned_alloc(Size align, Size size) { return memalign(align, size); }

int posix_memalign(void **made, Size align, Size size) {
    void *found = memalign(align, size);
    if (!found)
        return OUT_OF_MEMORY;
    *made = found;
    return 0;
}

int pthread_create(unsigned long *thread, const void *how, Starts call, void *given) {
    static int (*next)(unsigned long *, const void *, Starts, void *);
    long at = __atomic_add_fetch(&threads, 1, __ATOMIC_SEQ_CST);
    if (first_thread && (at == first_thread || (each_thread && at > first_thread && (at - first_thread) % each_thread == 0))) {
        __atomic_add_fetch(&refused_threads, 1, __ATOMIC_SEQ_CST);
        return TRY_AGAIN;
    }
    if (!next)
        next = (int (*)(unsigned long *, const void *, Starts, void *))dlsym((void *)-1L, "pthread_create");
    int fault = next(thread, how, call, given);
    if (fault)
        __atomic_add_fetch(&refused_threads, 1, __ATOMIC_SEQ_CST);
    return fault;
}
