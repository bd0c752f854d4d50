/* A server of ready bytes, for what the machine itself can do: ready prints 'serving 127.0.0.1:PORT', accepts circuits on loopback in one thread, and
 * answers each request by bytes that are there before it comes: those that `ca serve` answers to the requests of bench/serve. Of a request it reads
 * no more than its command and its length. It ends when it is killed. */
#define _GNU_SOURCE
#include <arpa/inet.h>
#include <netinet/tcp.h>
#include <stdio.h>
#include <stdlib.h>
#include <string.h>
#include <sys/epoll.h>
#include <sys/socket.h>
#include <unistd.h>

enum { HEADER = 16, INPUT = 65536, CIRCUITS = 1024, EVENTS = 64, LONGEST = 256, COMMANDS = 24 };

/* VERSION, CREATE_CHAN with ACCESS_RIGHTS before it, READ_NOTIFY of one LONG, WRITE_NOTIFY: the answer to each, by its command. */
static const struct {
    size_t size;
    const char *bytes;
} ready[COMMANDS] = {
    [0] = {16, "\0\0\0\0\0\0\0\15\0\0\0\0\0\0\0\0"},
    [18] = {32, "\0\26\0\0\0\0\0\0\0\1\0\0\0\0\0\3\0\22\0\0\0\5\0\1\0\1\0\0\0\1\0\0"},
    [15] = {24, "\0\17\0\10\0\5\0\1\0\0\0\1\0\1\0\0\0\0\0\25\0\0\0\0"},
    [19] = {16, "\0\23\0\0\0\5\0\1\0\0\0\1\0\1\0\0"},
};

/* The beginning of a request that came in parts, by circuit. */
static struct {
    size_t size;
    unsigned char bytes[LONGEST];
} begun[CIRCUITS];
static unsigned char input[LONGEST + INPUT];
static char output[2 * (LONGEST + INPUT)];

static int must(int result, const char *what)
{
    if (result < 0) {
        perror(what);
        exit(1);
    }
    return result;
}

/* Writes the answers to all requests that are complete, and gives where they end. */
static unsigned char *answer(int circuit, unsigned char *at, const unsigned char *end)
{
    char *to = output;
    while (end - at >= HEADER && end - at >= HEADER + (at[2] << 8 | at[3])) {
        unsigned command = at[0] << 8 | at[1];
        if (command < COMMANDS && ready[command].size) {
            memcpy(to, ready[command].bytes, ready[command].size);
            to += ready[command].size;
        }
        at += HEADER + (at[2] << 8 | at[3]);
    }
    for (char *from = output; from < to;) {
        ssize_t taken = write(circuit, from, to - from);
        if (taken <= 0)
            break;
        from += taken;
    }
    return at;
}

static void serve(int circuit)
{
    size_t had = begun[circuit].size;
    memcpy(input, begun[circuit].bytes, had);
    ssize_t came = read(circuit, input + had, INPUT);
    if (came > 0) {
        unsigned char *end = input + had + came, *rest = answer(circuit, input, end);
        if (end - rest <= LONGEST) {
            begun[circuit].size = end - rest;
            memcpy(begun[circuit].bytes, rest, end - rest);
            return;
        }
    }
    begun[circuit].size = 0;
    close(circuit);
}

static void watch(int poll, int circuit)
{
    struct epoll_event event = {.events = EPOLLIN, .data.fd = circuit};
    must(epoll_ctl(poll, EPOLL_CTL_ADD, circuit, &event), "epoll_ctl");
}

int main(void)
{
    struct sockaddr_in at = {.sin_family = AF_INET, .sin_addr.s_addr = htonl(INADDR_LOOPBACK)};
    socklen_t size = sizeof at;
    struct epoll_event events[EVENTS];
    int yes = 1, listener = must(socket(AF_INET, SOCK_STREAM, 0), "socket"), poll = must(epoll_create1(0), "epoll_create1");
    must(bind(listener, (struct sockaddr *)&at, size), "bind");
    must(listen(listener, CIRCUITS), "listen");
    must(getsockname(listener, (struct sockaddr *)&at, &size), "getsockname");
    printf("serving 127.0.0.1:%d\n", ntohs(at.sin_port));
    fflush(stdout);
    watch(poll, listener);
    for (;;) {
        int count = must(epoll_wait(poll, events, EVENTS, -1), "epoll_wait");
        for (int i = 0; i < count; i++) {
            if (events[i].data.fd != listener) {
                serve(events[i].data.fd);
                continue;
            }
            int circuit = must(accept(listener, NULL, NULL), "accept");
            must(setsockopt(circuit, IPPROTO_TCP, TCP_NODELAY, &yes, sizeof yes), "setsockopt");
            if (circuit < CIRCUITS)
                watch(poll, circuit);
            else
                close(circuit);
        }
    }
}
