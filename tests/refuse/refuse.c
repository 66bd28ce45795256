/*
 * Loaded before a test program, this refuses one of its allocations.
 *
 * The program asks for a block of BEGIN bytes before each call that is tried, and for one of END bytes after it. Of the call with the
 * number REFUSE_CALL, from 1 in the order in which the program comes to them, the allocation with the number REFUSE_AT is refused once:
 * those between the two blocks are counted, from 1, of all threads. Where REFUSE_CALL is 0 all of the program's are counted. At the end
 * a line is added to the file REFUSE_REPORT: how many calls began, how many allocations the chosen one made, and whether one was refused.
 */
/* Of glibc on x86-64, declared here: where the gate runs there is the kit's clang, and no header need be. */
typedef unsigned long size_t;
typedef struct file FILE;
void *dlsym(void *, const char *);
char *getenv(const char *);
long atol(const char *);
FILE *fopen(const char *, const char *);
int fprintf(FILE *, const char *, ...), fclose(FILE *), *__errno_location(void);
long syscall(long, ...);
#define RTLD_NEXT ((void *)-1)
#define NULL ((void *)0)
enum { ENOMEM = 12, SYS_exit_group = 231 };

enum { BEGIN = 77777, END = 77776 };

static void *(*real_malloc)(size_t);
static void *(*real_realloc)(void *, size_t);
static void *(*real_calloc)(size_t, size_t);
static int (*real_posix_memalign)(void **, size_t, size_t);
static void *(*real_aligned_alloc)(size_t, size_t);

static long chosen_call, chosen_at;
static long calls, asked, refused;
static int inside;

/* What dlsym itself asks for before it has said where calloc is. */
static _Alignas(16) char early[4096];
static size_t early_used;

__attribute__((constructor)) static void find(void)
{
    const char *call = getenv("REFUSE_CALL"), *at = getenv("REFUSE_AT");
    chosen_call = call ? atol(call) : 0;
    chosen_at = at ? atol(at) : 0;
    inside = !chosen_call;
    real_malloc = dlsym(RTLD_NEXT, "malloc");
    real_realloc = dlsym(RTLD_NEXT, "realloc");
    real_calloc = dlsym(RTLD_NEXT, "calloc");
    real_posix_memalign = dlsym(RTLD_NEXT, "posix_memalign");
    real_aligned_alloc = dlsym(RTLD_NEXT, "aligned_alloc");
}

static int is_reported;

__attribute__((destructor)) static void report(void)
{
    if (is_reported)
        return;
    is_reported = 1;
    inside = 0;
    const char *path = getenv("REFUSE_REPORT");
    FILE *file = path ? fopen(path, "a") : NULL;
    if (file) {
        fprintf(file, "calls=%ld asked=%ld refused=%ld\n", calls, asked, refused);
        fclose(file);
    }
}

/* A program may end by this, which runs no destructors. */
void _exit(int status)
{
    report();
    for (;;)
        syscall(SYS_exit_group, status);
}

/* Whether an allocation of this size is the one that is refused. */
static int refuses(size_t size)
{
    if (size == BEGIN) {
        if (__atomic_add_fetch(&calls, 1, __ATOMIC_SEQ_CST) == chosen_call)
            __atomic_store_n(&inside, 1, __ATOMIC_SEQ_CST);
        return 0;
    }
    if (size == END) {
        __atomic_store_n(&inside, 0, __ATOMIC_SEQ_CST);
        return 0;
    }
    if (!__atomic_load_n(&inside, __ATOMIC_SEQ_CST))
        return 0;
    if (__atomic_add_fetch(&asked, 1, __ATOMIC_SEQ_CST) != chosen_at)
        return 0;
    refused = 1;
    *__errno_location() = ENOMEM;
    return 1;
}

void *malloc(size_t size)
{
    if (!real_malloc)
        real_malloc = dlsym(RTLD_NEXT, "malloc");
    return refuses(size) ? NULL : real_malloc(size);
}

void *realloc(void *block, size_t size)
{
    if (!real_realloc)
        real_realloc = dlsym(RTLD_NEXT, "realloc");
    return refuses(size) ? NULL : real_realloc(block, size);
}

void *calloc(size_t count, size_t size)
{
    if (!real_calloc) {
        size_t used = early_used;
        early_used += (count * size + 15) & ~(size_t)15;
        return early_used <= sizeof early ? early + used : NULL;
    }
    return refuses(count * size) ? NULL : real_calloc(count, size);
}

int posix_memalign(void **block, size_t alignment, size_t size)
{
    return refuses(size) ? ENOMEM : real_posix_memalign(block, alignment, size);
}

void *aligned_alloc(size_t alignment, size_t size)
{
    return refuses(size) ? NULL : real_aligned_alloc(alignment, size);
}
