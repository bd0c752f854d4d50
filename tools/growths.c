/* Preloaded, it counts the growths of a program, its calls of malloc, calloc and realloc, and refuses one of them.
 *
 * GROWTHS_LOG is a file that gets a byte for each growth: '-' for the one that is refused, '+' for all others.
 * GROWTHS_REFUSED is the number of the one to be refused, counted from 1. It needs no header, so that any compiler does.
 */
typedef __SIZE_TYPE__ size;

void *__libc_malloc(size bytes);
void *__libc_calloc(size count, size bytes);
void *__libc_realloc(void *at, size bytes);
char *getenv(const char *name);
unsigned long strtoul(const char *text, char **end, int base);
int open(const char *path, int flags, ...);
long write(int file, const void *from, size bytes);
int *__errno_location(void);
void abort(void);

enum { WRITE_AND_APPEND = 02001, NO_MEMORY = 12 };

static int log = -1;
static unsigned long made, refused;
static volatile int is_counting;

__attribute__((constructor)) static void begin(void) {
    refused = strtoul(getenv("GROWTHS_REFUSED"), 0, 10);
    log = open(getenv("GROWTHS_LOG"), WRITE_AND_APPEND);
    if (log < 0)
        abort();
}

/* Whether this growth, which begins, is to be refused. What is made before `begin` does not count. A growth takes its number and leaves its byte before
 * that of another thread does. */
static int is_refused(void) {
    int is_it;
    if (log < 0)
        return 0;
    while (__sync_lock_test_and_set(&is_counting, 1))
        ;
    is_it = ++made == refused;
    if (write(log, is_it ? "-" : "+", 1) != 1)
        abort();
    __sync_lock_release(&is_counting);
    if (is_it)
        *__errno_location() = NO_MEMORY;
    return is_it;
}

void *malloc(size bytes) {
    return is_refused() ? 0 : __libc_malloc(bytes);
}

void *calloc(size count, size bytes) {
    return is_refused() ? 0 : __libc_calloc(count, bytes);
}

void *realloc(void *at, size bytes) {
    return is_refused() ? 0 : __libc_realloc(at, bytes);
}
