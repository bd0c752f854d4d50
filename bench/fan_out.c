/* Subscribers of one record on circuits of their own, timed: fan_out PORT NAME ELEMENTS SUBSCRIBERS ROUNDS [reads] prints the microseconds that ROUNDS writes of
 * ELEMENTS LONGs took, each by one more circuit once all subscribers have the whole update of the one before. With `reads` one more circuit reads TEMP all the while,
 * and the microseconds of the read are printed that one in a thousand takes longer than. Each update has to show what was written. */
#define _GNU_SOURCE
#include <arpa/inet.h>
#include <netinet/tcp.h>
#include <pthread.h>
#include <stdatomic.h>
#include <stdint.h>
#include <stdio.h>
#include <stdlib.h>
#include <string.h>
#include <sys/epoll.h>
#include <sys/resource.h>
#include <sys/socket.h>
#include <time.h>
#include <unistd.h>

enum { VERSION = 0, EVENT_ADD = 1, WRITE = 4, READ_NOTIFY = 15, CREATE_CHAN = 18, LONG = 5, EVENTS = 256, READS = 1 << 20 };

struct message {
    uint32_t command, size, type, count, p1, p2;
};

struct subscriber {
    int circuit;
    size_t got;
    unsigned char head[24], first[4], last[4];
};

static uint32_t elements;
static unsigned char *scratch;
static int port;

static void fail(const char *what)
{
    fprintf(stderr, "fan_out: %s\n", what);
    exit(1);
}

static double now(void)
{
    struct timespec at;
    clock_gettime(CLOCK_MONOTONIC, &at);
    return at.tv_sec * 1e6 + at.tv_nsec / 1e3;
}

static void put(unsigned char *at, uint32_t value)
{
    value = htonl(value);
    memcpy(at, &value, 4);
}

static uint32_t get(const unsigned char *at)
{
    uint32_t value;
    memcpy(&value, at, 4);
    return ntohl(value);
}

/* A header in the short form, or in the extended one if the size or the count needs it; how long it is. */
static size_t spell(unsigned char *at, struct message it)
{
    int extended = it.size > 65528 || it.count > 65535;
    put(at, it.command << 16 | (extended ? 0xFFFF : it.size));
    put(at + 4, it.type << 16 | (extended ? 0 : it.count));
    put(at + 8, it.p1);
    put(at + 12, it.p2);
    put(at + 16, it.size);
    put(at + 20, it.count);
    return extended ? 24 : 16;
}

static void send_all(int circuit, const unsigned char *bytes, size_t size)
{
    while (size > 0) {
        ssize_t taken = send(circuit, bytes, size, 0);
        if (taken <= 0)
            fail("a circuit takes nothing");
        bytes += taken;
        size -= taken;
    }
}

static void read_all(int circuit, unsigned char *bytes, size_t size)
{
    while (size > 0) {
        ssize_t came = recv(circuit, bytes, size, 0);
        if (came <= 0)
            fail("a circuit was closed");
        bytes += came;
        size -= came;
    }
}

/* The next message; its payload goes to scratch. */
static struct message take(int circuit, unsigned char *payload)
{
    unsigned char head[24];
    read_all(circuit, head, 16);
    struct message it = {get(head) >> 16, get(head) & 0xFFFF, get(head + 4) >> 16, get(head + 4) & 0xFFFF, get(head + 8), get(head + 12)};
    if (it.size == 0xFFFF && it.count == 0) {
        read_all(circuit, head + 16, 8);
        it.size = get(head + 16);
        it.count = get(head + 20);
    }
    read_all(circuit, payload, it.size);
    return it;
}

/* A circuit with a channel to a record, and that channel's SID. */
static int opened(const char *name, uint32_t *sid, unsigned char *payload)
{
    struct sockaddr_in to = {.sin_family = AF_INET, .sin_port = htons(port), .sin_addr.s_addr = htonl(INADDR_LOOPBACK)};
    int circuit = socket(AF_INET, SOCK_STREAM, 0), yes = 1;
    if (circuit < 0 || connect(circuit, (struct sockaddr *)&to, sizeof to) < 0)
        fail("no circuit");
    setsockopt(circuit, IPPROTO_TCP, TCP_NODELAY, &yes, sizeof yes);
    unsigned char bytes[64] = {0};
    spell(bytes, (struct message){VERSION, 0, 0, 13, 0, 0});
    spell(bytes + 16, (struct message){CREATE_CHAN, 8, 0, 0, 0x10000, 13});
    memset(bytes + 32, 0, 8);
    memcpy(bytes + 32, name, strlen(name));
    send_all(circuit, bytes, 40);
    for (;;) {
        struct message it = take(circuit, payload);
        if (it.command == CREATE_CHAN) {
            *sid = it.p2;
            return circuit;
        }
    }
}

static void subscribe(int circuit, uint32_t sid)
{
    unsigned char bytes[40];
    size_t head = spell(bytes, (struct message){EVENT_ADD, 16, LONG, elements, sid, 0x10000});
    memset(bytes + head, 0, 16);
    put(bytes + head + 12, 0x10000);
    send_all(circuit, bytes, head + 16);
    if (take(circuit, scratch).command != EVENT_ADD)
        fail("no first update");
}

/* Takes in what is there of an update of value. Says whether it is whole. */
static int took(struct subscriber *of, size_t head, size_t size, uint32_t value)
{
    size_t due = head + size, last = head + 4 * (size_t)(elements - 1);
    while (of->got < due) {
        ssize_t came = recv(of->circuit, scratch, due - of->got, MSG_DONTWAIT);
        if (came < 0)
            return 0;
        if (came == 0)
            fail("a circuit was closed");
        for (size_t at = of->got; at < of->got + came; at++) {
            if (at < head)
                of->head[at] = scratch[at - of->got];
            if (at >= head && at < head + 4)
                of->first[at - head] = scratch[at - of->got];
            if (at >= last && at < last + 4)
                of->last[at - last] = scratch[at - of->got];
            if (at >= head + 4 && at < last)
                at = last < of->got + came ? last - 1 : of->got + came - 1;
        }
        of->got += came;
    }
    if (get(of->head) >> 16 != EVENT_ADD || get(of->first) != value || get(of->last) != value)
        fail("not the update that is due");
    of->got = 0;
    return 1;
}

static atomic_int is_over;
static float spans[READS];
static size_t reads;

static void *read_on(void *unused)
{
    (void)unused;
    unsigned char payload[64], bytes[24];
    uint32_t sid;
    int circuit = opened("TEMP", &sid, payload);
    spell(bytes, (struct message){READ_NOTIFY, 0, LONG, 1, sid, 1});
    while (!is_over && reads < READS) {
        double begun = now();
        send_all(circuit, bytes, 16);
        if (take(circuit, payload).command != READ_NOTIFY || get(payload) != 21)
            fail("not the reply that is due");
        spans[reads++] = now() - begun;
    }
    return NULL;
}

static int by_size(const void *one, const void *other)
{
    float a = *(const float *)one, b = *(const float *)other;
    return (a > b) - (a < b);
}

/* Writes once, and waits until all subscribers have the update. */
static void round_of(uint32_t value, int writer, unsigned char *bytes, size_t head, size_t size, int poll, size_t count)
{
    for (uint32_t at = 0; at < elements; at++)
        put(bytes + head + 4 * (size_t)at, value);
    send_all(writer, bytes, head + size);
    struct epoll_event events[EVENTS];
    while (count > 0) {
        int ready = epoll_wait(poll, events, EVENTS, 30000);
        if (ready <= 0)
            fail("no update within 30 s");
        for (int at = 0; at < ready; at++)
            count -= took(events[at].data.ptr, head, size, value);
    }
}

int main(int words, char **word)
{
    if (words < 6)
        fail("usage: fan_out PORT NAME ELEMENTS SUBSCRIBERS ROUNDS [reads]");
    port = atoi(word[1]);
    elements = atoi(word[3]);
    size_t count = atoi(word[4]), size = (4 * (size_t)elements + 7) / 8 * 8;
    uint32_t rounds = atoi(word[5]), sid;
    struct rlimit most;
    getrlimit(RLIMIT_NOFILE, &most);
    most.rlim_cur = most.rlim_max;
    setrlimit(RLIMIT_NOFILE, &most);
    scratch = malloc(size + 64);
    unsigned char *bytes = calloc(1, size + 64);
    struct subscriber *all = calloc(count, sizeof *all);
    int poll = epoll_create1(0), writer = opened(word[2], &sid, scratch);
    size_t head = spell(bytes, (struct message){WRITE, size, LONG, elements, sid, 1});
    for (size_t at = 0; at < count; at++) {
        uint32_t its;
        all[at].circuit = opened(word[2], &its, scratch);
        subscribe(all[at].circuit, its);
        struct epoll_event event = {.events = EPOLLIN, .data.ptr = &all[at]};
        epoll_ctl(poll, EPOLL_CTL_ADD, all[at].circuit, &event);
    }
    round_of(1, writer, bytes, head, size, poll, count);
    pthread_t reader;
    if (words > 6 && pthread_create(&reader, NULL, read_on, NULL))
        fail("no thread");
    double begun = now();
    for (uint32_t value = 2; value < rounds + 2; value++)
        round_of(value, writer, bytes, head, size, poll, count);
    double took = now() - begun;
    if (words > 6) {
        is_over = 1;
        pthread_join(reader, NULL);
        qsort(spans, reads, sizeof *spans, by_size);
        took = spans[reads - 1 - reads / 1000];
    }
    printf("%.0f\n", took);
    return 0;
}
