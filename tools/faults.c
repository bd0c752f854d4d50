/* Preloaded, it moves a program's clocks, and has calls of the system fail, as the words of a file say, which is mapped into memory.
 *
 * FAULTS is that file, of 96 bytes: twelve numbers, in the order of `enum word`. It needs no header, so that any compiler does.
 */
typedef __SIZE_TYPE__ size;

struct moment {
    long seconds, nanos;
};

char *getenv(const char *name);
int open(const char *path, int flags, ...);
void *mmap(void *at, size bytes, int may, int kind, int file, long from);
long syscall(long number, ...);
int *__errno_location(void);
void *dlsym(void *of, const char *name);
void abort(void);
void *__libc_malloc(size bytes);
void *__libc_calloc(size count, size bytes);
void *__libc_realloc(void *at, size bytes);

enum { READ_AND_WRITE = 2, MAY_BOTH = 3, SHARED = 1 };

enum { WRITE = 1, SLEEP = 35, SOCKET = 41, RECEIVE_FROM = 45, SET_OPTION = 54, CLOCK = 228, WAIT_FOR_EVENTS = 232, ACCEPT = 288 };

enum { REALTIME = 0, MONOTONIC = 1, OF_SOCKETS = 1, SENDS = 7, RECEIVES = 8 };

/* By how many nanoseconds each clock is moved; the fault of each wait for events, and of each read of a datagram, if it is not 0; the fault of so many accepts;
 * how many calls have failed; the fault of each new thread; how many waits for events have begun; the fault of each call for memory; how many bytes each new socket is
 * to keep, for either direction; and how many nanoseconds each wake of another thread takes: a write of eight bytes. */
enum word { OF_REALTIME, OF_MONOTONIC, OF_EVENTS, OF_DATAGRAMS, OF_ACCEPTS, ACCEPTS, FAILED, OF_THREADS, WAITS, OF_MEMORY, KEPT, OF_WAKES };

static volatile long *words;

__attribute__((constructor)) static void begin(void) {
    int file = open(getenv("FAULTS"), READ_AND_WRITE);
    words = mmap(0, 96, MAY_BOTH, SHARED, file, 0);
    if (file < 0 || words == (void *)-1)
        abort();
}

static long failed(long fault) {
    __sync_fetch_and_add(&words[FAILED], 1);
    *__errno_location() = (int)fault;
    return -1;
}

int clock_gettime(int clock, struct moment *now) {
    long done = syscall(CLOCK, clock, now);
    long moved = clock == REALTIME ? words[OF_REALTIME] : clock == MONOTONIC ? words[OF_MONOTONIC] : 0;
    long nanos = now->nanos + moved % 1000000000;
    now->seconds += moved / 1000000000 + (nanos >= 1000000000) - (nanos < 0);
    now->nanos = nanos >= 1000000000 ? nanos - 1000000000 : nanos < 0 ? nanos + 1000000000 : nanos;
    return (int)done;
}

int epoll_wait(int poll, void *events, int most, int milliseconds) {
    __sync_fetch_and_add(&words[WAITS], 1);
    return (int)(words[OF_EVENTS] ? failed(words[OF_EVENTS]) : syscall(WAIT_FOR_EVENTS, poll, events, most, milliseconds));
}

long recvfrom(int socket, void *to, size bytes, int flags, void *from, void *length) {
    return words[OF_DATAGRAMS] ? failed(words[OF_DATAGRAMS]) : syscall(RECEIVE_FROM, socket, to, bytes, flags, from, length);
}

int socket(int family, int kind, int protocol) {
    int made = (int)syscall(SOCKET, family, kind, protocol), kept = (int)words[KEPT];
    if (made >= 0 && kept) {
        syscall(SET_OPTION, made, OF_SOCKETS, SENDS, &kept, sizeof kept);
        syscall(SET_OPTION, made, OF_SOCKETS, RECEIVES, &kept, sizeof kept);
    }
    return made;
}

long write(int file, const void *from, size bytes) {
    long done = syscall(WRITE, file, from, bytes);
    struct moment pause = {0, words[OF_WAKES]};
    if (bytes == 8 && pause.nanos)
        syscall(SLEEP, &pause, 0);
    return done;
}

int accept4(int socket, void *from, void *length, int flags) {
    if (words[ACCEPTS] > 0 && __sync_fetch_and_sub(&words[ACCEPTS], 1) > 0)
        return (int)failed(words[OF_ACCEPTS]);
    return (int)syscall(ACCEPT, socket, from, length, flags);
}

int pthread_create(void *thread, const void *attributes, void *(*work)(void *), void *words_of) {
    int (*create)(void *, const void *, void *(*)(void *), void *) = dlsym((void *)-1L, "pthread_create");
    return words[OF_THREADS] ? (int)words[OF_THREADS] : create(thread, attributes, work, words_of);
}

/* Memory is asked for before `begin`, too. */
static int is_refused(void) {
    return words && words != (void *)-1 && words[OF_MEMORY] && failed(words[OF_MEMORY]);
}

void *malloc(size bytes) {
    return is_refused() ? 0 : __libc_malloc(bytes);
}

void *calloc(size count, size bytes) {
    return is_refused() ? 0 : __libc_calloc(count, bytes);
}

void *realloc(void *at, size bytes) {
    return is_refused() ? 0 : __libc_realloc(at, bytes);
}
