/* A client of Channel Access on poll: it prints a record's value, or writes one, or prints its updates.
 *
 *     cc client.c $(pkg-config --cflags --libs cuvezhin) -o client
 *     ./client 127.0.0.1:5064 get TEMP
 *     ./client 127.0.0.1:5064 put TEMP 22
 *     ./client 127.0.0.1:5064 monitor COUNT 3       three updates
 *
 * Values go as texts, which the server converts; one of this library to FLOAT or DOUBLE only with display data. The status is 0 if that was done, within ten
 * seconds for each answer. */
#define _POSIX_C_SOURCE 200809L
#include <cuvezhin.h>

#include <arpa/inet.h>
#include <poll.h>
#include <stdio.h>
#include <stdlib.h>
#include <string.h>
#include <sys/socket.h>
#include <time.h>
#include <unistd.h>

static cvz_client client;
static struct pollfd polled[2] = {{.fd = -1, .events = POLLIN}, {.fd = -1, .events = POLLIN}};   /* searches, and the circuit */
static uint64_t circuit;
static const char *order, *name, *given;
static long updates = 1;

static uint64_t milliseconds(void)
{
    struct timespec now;
    clock_gettime(CLOCK_MONOTONIC, &now);
    return (uint64_t)now.tv_sec * 1000 + (uint64_t)now.tv_nsec / 1000000;
}

static struct sockaddr_in place(uint32_t host, uint16_t port)
{
    return (struct sockaddr_in){.sin_family = AF_INET, .sin_port = htons(port), .sin_addr.s_addr = htonl(host)};
}

static int failed(const char *why)
{
    fprintf(stderr, "client: %s: %s\n", name, why);
    return 1;
}

/* Sends the searches that are due. */
static void search(void)
{
    uint8_t bytes[2048];
    cvz_address to;
    size_t size;
    cvz_client_tick(&client, milliseconds());
    while ((size = cvz_client_search(&client, &to, bytes, sizeof bytes)) > 0) {
        struct sockaddr_in address = place(to.host, to.port);
        sendto(polled[0].fd, bytes, size, 0, (struct sockaddr *)&address, sizeof address);
    }
}

/* Takes an answer to a search, and connects the circuit that is wanted then. */
static void find(void)
{
    uint8_t bytes[65536];
    struct sockaddr_in from;
    socklen_t from_size = sizeof from;
    ssize_t size = recvfrom(polled[0].fd, bytes, sizeof bytes, 0, (struct sockaddr *)&from, &from_size);
    cvz_wanted wanted;
    uint32_t cause;
    if (size < 0)
        return;
    cvz_client_datagram(&client, milliseconds(), &(cvz_address){ntohl(from.sin_addr.s_addr), ntohs(from.sin_port)}, bytes, (size_t)size);
    if (polled[1].fd >= 0 || cvz_client_wanted(&client, 0, &wanted) != 1)
        return;
    circuit = wanted.circuit;
    from = place(wanted.host, wanted.port);
    polled[1].fd = socket(AF_INET, SOCK_STREAM, 0);
    if (connect(polled[1].fd, (struct sockaddr *)&from, sizeof from) < 0)
        cvz_client_cut(&client, circuit);
    else
        cvz_client_connected(&client, circuit, &cause);
}

/* The channel is live: asks what was ordered. */
static int32_t ask(uint64_t channel)
{
    uint64_t request;
    uint8_t text[40] = {0};
    if (strcmp(order, "get") == 0)
        return cvz_client_read(&client, channel, CVZ_STRING, 0, &request);
    if (strcmp(order, "monitor") == 0)
        return cvz_client_subscribe(&client, channel, CVZ_STRING, 0, CVZ_MASK_VALUE, &request);
    strncpy((char *)text, given, sizeof text - 1);
    return cvz_client_put(&client, channel, CVZ_STRING, 1, text, sizeof text, &request);
}

/* Takes what was reported. -1 to go on, or the status. */
static int hear(void)
{
    cvz_notice told;
    uint8_t text[40];
    size_t size;
    while (cvz_client_next(&client, &told) == 1) {
        if (told.kind == CVZ_NOTICE_LIVE) {
            if (ask(told.of) < 0)
                return failed("refused");
        } else if (told.kind == CVZ_NOTICE_COMPLETED && told.outcome == CVZ_DONE) {
            printf("%s done\n", name);
            return 0;
        } else if ((told.kind == CVZ_NOTICE_COMPLETED || told.kind == CVZ_NOTICE_UPDATE) && told.outcome == CVZ_VALUE && told.count > 0) {
            if (cvz_client_value(&client, CVZ_STRING, text, sizeof text, &size) < 0)
                return failed("out of memory");
            printf("%s %.40s\n", name, (char *)text);
            if (--updates == 0)
                return 0;
        } else {
            return failed("lost, or refused by the server");
        }
    }
    return -1;
}

/* Reads what came on the circuit, and sends what waits. -1 to go on, or the status. */
static int speak(void)
{
    uint8_t bytes[65536];
    uint32_t cause;
    int32_t did;
    int status = -1;
    size_t size;
    if (polled[1].revents) {
        ssize_t read = recv(polled[1].fd, bytes, sizeof bytes, 0);
        if (read <= 0 || cvz_client_give(&client, circuit, bytes, (size_t)read, false) < 0)
            return failed("the server is gone");
    }
    while (status < 0 && (did = cvz_client_step(&client, circuit, &cause)) != CVZ_NEEDS_BYTES)
        status = did == CVZ_HANDLED ? hear() : failed("the circuit has closed");
    while (status < 0 && (size = cvz_client_output(&client, circuit, bytes, sizeof bytes)) > 0) {
        ssize_t sent = send(polled[1].fd, bytes, size, MSG_NOSIGNAL);
        if (sent <= 0)
            return failed("the server is gone");
        cvz_client_sent(&client, circuit, (size_t)sent);
    }
    return status;
}

int main(int argc, char **argv)
{
    unsigned a, b, c, d, port;
    cvz_address server;
    uint64_t channel, last;
    int status = -1;
    if (argc < 4 || sscanf(argv[1], "%u.%u.%u.%u:%u", &a, &b, &c, &d, &port) != 5 || (argc < 5 && strcmp(argv[2], "get") != 0)) {
        fprintf(stderr, "usage: client A.B.C.D:PORT get NAME | put NAME VALUE | monitor NAME COUNT\n");
        return 2;
    }
    order = argv[2], name = argv[3], given = argc > 4 ? argv[4] : "";
    if (strcmp(order, "monitor") == 0)
        updates = atol(given);
    server = (cvz_address){a << 24 | b << 16 | c << 8 | d, (uint16_t)port};
    polled[0].fd = socket(AF_INET, SOCK_DGRAM, 0);
    if (cvz_client_new(&client, (const uint8_t *)"me", 2, (const uint8_t *)"here", 4, &server, 1, &server, 0, milliseconds()) < 0
        || cvz_client_open(&client, (const uint8_t *)name, strlen(name), 0, milliseconds(), &channel) < 0)
        status = failed("out of memory, or no name");
    last = milliseconds();
    while (status < 0 && milliseconds() - last < 10000) {
        search();
        if (poll(polled, 2, 50) > 0 && polled[1].revents)
            last = milliseconds();
        if (polled[0].revents)
            find();
        if (polled[1].fd >= 0)
            status = speak();
    }
    if (status < 0)
        status = failed("no answer");
    cvz_client_free(&client);
    close(polled[0].fd);
    if (polled[1].fd >= 0)
        close(polled[1].fd);
    return status;
}
