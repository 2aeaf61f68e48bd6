/*
 * Refuses and counts growths of memory and starts of threads in the program that loads this object by LD_PRELOAD.
 *
 *     REFUSE_GROWTH=N         the Nth growth is refused
 *     REFUSE_GROWTHS_FROM=N   the Nth growth is refused, and all later ones
 *     REFUSE_THREAD=N         the Nth start of a thread is refused
 *     REFUSE_THREADS_FROM=N   the Nth start of a thread is refused, and all later ones
 *     REFUSE_MARKED=1         only what comes between the marks of crates/growth_marks counts
 *     REFUSED_FILE=PATH       a file that is made before the first refusal
 *     GROWTHS_FILE=PATH       a file that is made at the end, with the number of growths
 *
 * A growth is a call of malloc, calloc or realloc for one byte or more. The program takes memory in no other way, and
 * the C library takes some in this way to start a thread. Growths before main do not count, and neither do the marks.
 *
 * The kit has a compiler, a linker and the C library, but no headers, so what is used of the library is declared here.
 */
typedef __SIZE_TYPE__ size_t;

enum { NO_MEMORY = 12, TRY_AGAIN = 11 };

/* The bytes that the marks of crates/growth_marks ask for. */
enum { BEGIN = 7654321, END = 7654323 };

#define NEXT ((void *)-1L)

extern void *__libc_malloc(size_t size);
extern void *__libc_calloc(size_t count, size_t size);
extern void *__libc_realloc(void *old, size_t size);
extern void *dlsym(void *library, const char *name);
extern char *getenv(const char *name);
extern unsigned long strtoul(const char *text, char **end, int base);
extern int creat(const char *path, unsigned mode);
extern long write(int file, const void *bytes, size_t count);
extern int close(int file);
extern int *__errno_location(void);

typedef void end_process(int status);

typedef int start_thread(void *thread, const void *attributes, void *(*run)(void *), void *given);

/* What is refused of one kind of calls: one of them, and all from one on. A 0 refuses none. */
struct refused {
    unsigned long one;
    unsigned long from;
    unsigned long calls;
};

static struct refused growths;
static struct refused threads;
static start_thread *next_start;
static end_process *next_exit;
static const char *told;
static int is_told;
static int counts;
static int is_marked;

static unsigned long number(const char *name)
{
    const char *text = getenv(name);
    return text ? strtoul(text, 0, 10) : 0;
}

__attribute__((constructor)) static void read_settings(void)
{
    next_start = (start_thread *)dlsym(NEXT, "pthread_create");
    next_exit = (end_process *)dlsym(NEXT, "_exit");
    growths.one = number("REFUSE_GROWTH");
    growths.from = number("REFUSE_GROWTHS_FROM");
    threads.one = number("REFUSE_THREAD");
    threads.from = number("REFUSE_THREADS_FROM");
    told = getenv("REFUSED_FILE");
    is_marked = number("REFUSE_MARKED") != 0;
    counts = !is_marked;
}

/* Two threads that refuse at the same time both make the file, so that neither goes on without it. */
static void tell(void)
{
    if (!told || __atomic_load_n(&is_told, __ATOMIC_ACQUIRE))
        return;
    close(creat(told, 0666));
    __atomic_store_n(&is_told, 1, __ATOMIC_RELEASE);
}

/* Counts a call, and says whether it is refused. */
static int is_refused(struct refused *kind)
{
    if (!__atomic_load_n(&counts, __ATOMIC_ACQUIRE))
        return 0;
    unsigned long call = __atomic_add_fetch(&kind->calls, 1, __ATOMIC_RELAXED);
    int found = call == kind->one || (kind->from && call >= kind->from);
    if (found)
        tell();
    return found;
}

static int is_mark(size_t size)
{
    if (size != BEGIN && size != END)
        return 0;
    if (is_marked)
        __atomic_store_n(&counts, size == BEGIN, __ATOMIC_RELEASE);
    return 1;
}

static void *no_memory(void)
{
    *__errno_location() = NO_MEMORY;
    return 0;
}

void *malloc(size_t size)
{
    if (size && !is_mark(size) && is_refused(&growths))
        return no_memory();
    return __libc_malloc(size);
}

void *calloc(size_t count, size_t size)
{
    if (count && size && is_refused(&growths))
        return no_memory();
    return __libc_calloc(count, size);
}

void *realloc(void *old, size_t size)
{
    if (size && is_refused(&growths))
        return no_memory();
    return __libc_realloc(old, size);
}

int pthread_create(void *thread, const void *attributes, void *(*run)(void *), void *given)
{
    if (is_refused(&threads))
        return TRY_AGAIN;
    return next_start(thread, attributes, run, given);
}

/* The program ends by _exit, which runs no destructors. */
static void write_count(void)
{
    const char *path = getenv("GROWTHS_FILE");
    char text[24];
    char *front = text + sizeof text;
    unsigned long left = growths.calls;

    if (!path)
        return;
    do
        *--front = (char)('0' + left % 10);
    while (left /= 10);
    int file = creat(path, 0666);
    if (write(file, front, (size_t)(text + sizeof text - front)) < 0)
        *__errno_location() = 0;
    close(file);
}

__attribute__((noreturn)) void _exit(int status)
{
    write_count();
    next_exit(status);
    __builtin_unreachable();
}
