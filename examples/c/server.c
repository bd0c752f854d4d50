/* A server of Channel Access on poll. Clients may read and monitor its records, and write TEMP and MOVE. COUNT goes up by one each second. MOVE is
 * slow: a put to it is done 100 ms later, and MOVED goes up by its value.
 *
 *     cc server.c $(pkg-config --cflags --libs cuvezhin) -o server && ./server 5064 [RECORDS]
 *
 * With port 0 the system chooses one, which is printed. RECORDS is a file of records and rules, of 65,536 bytes at most, to serve in place of these.
 * For a line of its standard input it prints what it has counted, and at the end of that it ends. */
#define _POSIX_C_SOURCE 200809L
#include <cuvezhin.h>

#include <arpa/inet.h>
#include <errno.h>
#include <fcntl.h>
#include <netinet/in.h>
#include <netinet/tcp.h>
#include <poll.h>
#include <stdio.h>
#include <stdlib.h>
#include <string.h>
#include <sys/socket.h>
#include <time.h>
#include <unistd.h>

enum { INPUT, LISTENER, SEARCHES, CIRCUITS, PLACES = 64, DEVICE_MILLISECONDS = 100 };

static struct pollfd polled[PLACES];   /* standard input, the listener, the socket of searches, and circuits */
static uint64_t circuits[PLACES];      /* the handle of each circuit */
static nfds_t used = CIRCUITS;
static struct {
    uint8_t name[60];
    size_t size;
    uint64_t due;
} busy[PLACES];                        /* the slow records that a put makes busy, and when that put is to be done: the earliest first */
static size_t busies;
static uint32_t moved;
static struct {
    uint64_t created, searches, reads, updates, refused;
} counted;
static size_t ahead[PLACES];           /* for each circuit, where in what waits the first reply begins that was not counted */

static char records[65536] =
    "record TEMP LONG 1 quick 21\n"
    "record COUNT LONG 1 quick 0\n"
    "record MOVE LONG 1 slow 0\n"
    "record MOVED LONG 1 quick 0\n"
    "rule * * COUNT r\n"
    "rule * * MOVED r\n";

static uint64_t milliseconds(void)
{
    struct timespec now;
    clock_gettime(CLOCK_MONOTONIC, &now);
    return (uint64_t)now.tv_sec * 1000 + (uint64_t)now.tv_nsec / 1000000;
}

/* Writes of clients that are applied from now on have this time, in seconds since 1990. */
static void stamp(cvz_server *server)
{
    struct timespec now;
    clock_gettime(CLOCK_REALTIME, &now);
    cvz_server_stamp(server, (uint32_t)(now.tv_sec - 631152000), (uint32_t)now.tv_nsec);
}

static int socket_on(int kind, struct sockaddr_in *address)
{
    int made = socket(AF_INET, kind, 0), yes = 1;
    socklen_t size = sizeof *address;
    setsockopt(made, SOL_SOCKET, SO_REUSEADDR, &yes, sizeof yes);
    if (made < 0 || bind(made, (struct sockaddr *)address, size) < 0 || getsockname(made, (struct sockaddr *)address, &size) < 0) {
        perror("server");
        exit(1);
    }
    fcntl(made, F_SETFL, O_NONBLOCK);
    return made;
}

/* Posts a LONG with its time. */
static void post_long(cvz_server *server, const char *name, int32_t value)
{
    struct timespec now;
    uint32_t words[4] = {0};           /* status and severity, seconds, nanoseconds, the value: big-endian */
    clock_gettime(CLOCK_REALTIME, &now);
    words[1] = htonl((uint32_t)(now.tv_sec - 631152000));
    words[2] = htonl((uint32_t)now.tv_nsec);
    words[3] = htonl((uint32_t)value);
    cvz_server_post(server, (const uint8_t *)name, strlen(name), CVZ_MASK_VALUE | CVZ_MASK_LOG, CVZ_TIME + CVZ_LONG, 1, (const uint8_t *)words, sizeof words);
}

/* If a put makes the record busy, the device has something to do; with too many such records it does it at once. */
static void begin(cvz_server *server, const uint8_t *name, size_t size)
{
    uint8_t room[1];
    size_t of_value;
    while (cvz_server_busy(server, name, size, room, 0, &of_value) == 0) {
        if (busies < PLACES) {
            memcpy(busy[busies].name, name, size);
            busy[busies].size = size;
            busy[busies++].due = milliseconds() + DEVICE_MILLISECONDS;
            return;
        }
        cvz_server_finish(server, name, size);
    }
}

/* The device: it has done what the first of these puts asks for. The next one that waits makes the record busy again. */
static void process(cvz_server *server)
{
    uint32_t value;                    /* big-endian */
    size_t size = busy[0].size, of_value;
    uint8_t name[60];
    memcpy(name, busy[0].name, size);
    memmove(busy, busy + 1, --busies * sizeof *busy);
    if (size == 4 && memcmp(name, "MOVE", 4) == 0 && cvz_server_busy(server, name, size, (uint8_t *)&value, sizeof value, &of_value) == 0) {
        moved += ntohl(value);
        post_long(server, "MOVED", (int32_t)moved);
    }
    stamp(server);                     /* of the put that waits, if one does: it is applied now */
    cvz_server_finish(server, name, size);
    begin(server, name, size);
}

/* Counts the replies that begin in these bytes, after those that were counted before; the header of the last may be cut. */
static void count_replies(size_t *before, const uint8_t *bytes, size_t size)
{
    while (*before + 16 <= size) {
        const uint8_t *head = bytes + *before;
        size_t payload = (size_t)head[2] << 8 | head[3];
        bool is_normal = head[8] == 0 && head[9] == 0 && head[10] == 0 && head[11] == 1;
        if (payload == 0xffff) {       /* the header has 24 bytes, of which these are the size */
            if (*before + 24 > size)
                return;
            payload = 8 + ((size_t)head[16] << 24 | (size_t)head[17] << 16 | (size_t)head[18] << 8 | head[19]);
        }
        switch (head[0] << 8 | head[1]) {
        case 1:                        /* EVENT_ADD; one without a payload confirms a cancel */
            counted.updates += payload > 0;
            break;
        case 6:                        /* SEARCH */
            counted.searches++;
            break;
        case 15:                       /* READ_NOTIFY */
            counted.reads += is_normal;
            counted.refused += !is_normal;
            break;
        case 18:                       /* CREATE_CHAN */
            counted.created++;
            break;
        case 19:                       /* WRITE_NOTIFY */
            counted.refused += !is_normal;
            break;
        case 11:                       /* ERROR */
        case 26:                       /* CREATE_CH_FAIL */
            counted.refused++;
            break;
        }
        *before += 16 + payload;
    }
}

static void print_counts(cvz_server *server)
{
    printf("%u circuits, %llu channels created, %llu searches, %llu reads, %llu writes, %llu updates, %llu refused\n", (unsigned)(used - CIRCUITS),
           (unsigned long long)counted.created, (unsigned long long)counted.searches, (unsigned long long)counted.reads,
           (unsigned long long)cvz_server_applied(server), (unsigned long long)counted.updates, (unsigned long long)counted.refused);
    fflush(stdout);
}

/* Sends what waits on a circuit, as far as its socket takes it. False if the circuit was lost. */
static bool send_all(cvz_server *server, nfds_t at)
{
    uint8_t room[65536];
    size_t size;
    cvz_server_pump(server, circuits[at]);
    polled[at].events = POLLIN;
    while ((size = cvz_server_output(server, circuits[at], room, sizeof room)) > 0) {
        count_replies(&ahead[at], room, size);
        size = size < ahead[at] ? size : ahead[at];
        ssize_t sent = send(polled[at].fd, room, size, MSG_NOSIGNAL);
        if (sent < 0 && (errno == EAGAIN || errno == EWOULDBLOCK)) {
            polled[at].events = POLLOUT;
            return true;
        }
        if (sent < 0)
            return false;
        cvz_server_sent(server, circuits[at], (size_t)sent);
        ahead[at] -= (size_t)sent;
        cvz_server_pump(server, circuits[at]);
    }
    return true;
}

/* Reads what came on a circuit, and handles it message by message. False if the circuit has ended. */
static bool serve(cvz_server *server, nfds_t at)
{
    uint8_t bytes[65536];
    size_t left;
    cvz_step did;
    if (polled[at].revents & (POLLIN | POLLHUP | POLLERR)) {
        ssize_t size = recv(polled[at].fd, bytes, sizeof bytes, 0);
        if (size == 0 || (size < 0 && errno != EAGAIN && errno != EWOULDBLOCK))
            cvz_server_cut(server, circuits[at]);
        else if (size > 0 && cvz_server_give(server, circuits[at], bytes, (size_t)size) < 0)
            cvz_server_cut(server, circuits[at]);
    }
    stamp(server);
    for (;;) {
        switch (cvz_server_step(server, circuits[at], &did)) {
        case CVZ_HANDLED:
            if (did.effect == CVZ_BUSIED)
                begin(server, bytes, cvz_server_name(server, circuits[at], did.sid, bytes, sizeof bytes));
            break;
        case CVZ_NEEDS_BYTES:
            if (!send_all(server, at))
                cvz_server_cut(server, circuits[at]);
            else
                return true;
            break;
        case CVZ_STEP_OUTPUT_FULL:
            if (!send_all(server, at))
                cvz_server_cut(server, circuits[at]);
            else if (polled[at].events == POLLOUT)
                return true;
            break;
        default:                       /* CVZ_CLOSED: what is left goes out, as far as the socket takes it now */
            while ((left = cvz_server_left(server, bytes, sizeof bytes)) > 0)
                if (send(polled[at].fd, bytes, left, MSG_NOSIGNAL) < 0)
                    break;
            return false;
        }
    }
}

/* Answers a search. */
static void answer(cvz_server *server)
{
    uint8_t bytes[65536];
    struct sockaddr_in from;
    socklen_t from_size = sizeof from;
    ssize_t size = recvfrom(polled[SEARCHES].fd, bytes, sizeof bytes, 0, (struct sockaddr *)&from, &from_size);
    if (size < 0 || cvz_server_datagram(server, bytes, (size_t)size) < 0)
        return;
    while ((size = (ssize_t)cvz_server_answer(server, bytes, sizeof bytes)) > 0) {
        size_t before = 0;
        count_replies(&before, bytes, (size_t)size);
        sendto(polled[SEARCHES].fd, bytes, (size_t)size, 0, (struct sockaddr *)&from, from_size);
    }
}

/* Sends the beacon that is due, if one is, to the repeater of this host, so that clients hear of the server. */
static void beacon(cvz_server *server, uint64_t now)
{
    uint8_t bytes[16];
    size_t size = cvz_server_beacon(server, now, bytes, sizeof bytes);
    const char *port = size > 0 ? getenv("EPICS_CA_REPEATER_PORT") : NULL;
    struct sockaddr_in repeater = {.sin_family = AF_INET, .sin_port = htons((uint16_t)(port ? atoi(port) : 5065)), .sin_addr.s_addr = htonl(INADDR_LOOPBACK)};
    if (size > 0)
        sendto(polled[SEARCHES].fd, bytes, size, 0, (struct sockaddr *)&repeater, sizeof repeater);
}

static void accept_one(cvz_server *server)
{
    int made = accept(polled[LISTENER].fd, NULL, NULL), yes = 1;
    if (made < 0)
        return;
    fcntl(made, F_SETFL, O_NONBLOCK);
    setsockopt(made, IPPROTO_TCP, TCP_NODELAY, &yes, sizeof yes);
    if (used == PLACES || cvz_server_accept(server, &circuits[used]) < 0) {
        close(made);
        return;
    }
    polled[used] = (struct pollfd){.fd = made, .events = POLLIN};
    ahead[used] = 0;
    used++;
}

int main(int argc, char **argv)
{
    cvz_server server = {0};
    struct sockaddr_in address = {.sin_family = AF_INET, .sin_port = htons((uint16_t)(argc > 1 ? atoi(argv[1]) : 5064))};
    size_t size = strlen(records);
    int32_t count = 0, made;
    uint64_t next, wake;
    char line[80];

    if (argc > 2) {
        FILE *file = fopen(argv[2], "r");
        if (!file) {
            perror(argv[2]);
            return 1;
        }
        size = fread(records, 1, sizeof records, file);
        if (!feof(file) && (ferror(file) || getc(file) != EOF)) {
            fprintf(stderr, "server: %s cannot be read, or is too long\n", argv[2]);
            return 1;
        }
        fclose(file);
    }
    polled[LISTENER] = (struct pollfd){.fd = socket_on(SOCK_STREAM, &address), .events = POLLIN};
    polled[SEARCHES] = (struct pollfd){.fd = socket_on(SOCK_DGRAM, &address), .events = POLLIN};
    polled[INPUT] = (struct pollfd){.fd = 0, .events = POLLIN};
    listen(polled[LISTENER].fd, 16);
    made = cvz_server_load(&server, ntohs(address.sin_port), milliseconds(), (const uint8_t *)records, size);
    if (made < 0) {
        fprintf(stderr, "server: the records are refused: %d\n", made);
        return 1;
    }
    printf("serving %d\n", ntohs(address.sin_port));
    fflush(stdout);
    next = milliseconds() + 1000;
    for (;;) {
        uint64_t now = milliseconds();
        beacon(&server, now);
        if (now >= next) {
            post_long(&server, "COUNT", ++count);
            next += 1000;
        }
        while (busies > 0 && now >= busy[0].due)
            process(&server);
        for (nfds_t at = CIRCUITS; at < used; at++)
            if (polled[at].events == POLLIN && !send_all(&server, at))
                cvz_server_cut(&server, circuits[at]);
        wake = busies > 0 && busy[0].due < next ? busy[0].due : next;
        poll(polled, used, wake > now ? (int)(wake - now) : 0);
        if (polled[INPUT].revents) {
            ssize_t came = read(0, line, sizeof line);
            if (came <= 0)
                break;
            if (memchr(line, '\n', (size_t)came))
                print_counts(&server);
        }
        if (polled[LISTENER].revents)
            accept_one(&server);
        if (polled[SEARCHES].revents)
            answer(&server);
        for (nfds_t at = CIRCUITS; at < used;) {
            if (polled[at].revents && !serve(&server, at)) {
                close(polled[at].fd);
                used--;
                polled[at] = polled[used];
                circuits[at] = circuits[used];
                ahead[at] = ahead[used];
                continue;
            }
            at++;
        }
    }
    for (nfds_t at = LISTENER; at < used; at++)
        close(polled[at].fd);
    cvz_server_free(&server);
    return 0;
}
