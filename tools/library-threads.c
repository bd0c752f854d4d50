/* Objects that are handed from thread to thread as the header says, each bound by what made the handing over safe: see tools/library, which
 * compiles it with gcc's thread sanitizer. With an argument two threads also count in one number without a lock: that has to be found. */
#define _POSIX_C_SOURCE 200809L
#include "library-test.h"

#include <pthread.h>
#include <stdlib.h>

enum { PUTS = 200, OBJECTS = 50 };

#define HELLO "00000000 0000000d 00000000 00000000  00120008 00000000 00000001 0000000d 534c4f57 00000000"
#define CREATED "00000000 0000000d 00000000 00000000  00160000 00000000 00000001 00000003  00120000 00050001 00000001 00010000"

static pthread_mutex_t lock = PTHREAD_MUTEX_INITIALIZER;
static pthread_cond_t changed = PTHREAD_COND_INITIALIZER;
static cvz_server server;              /* under the lock */
static int processed;                  /* puts that the device finished, under the lock */
static size_t bytes_seen;

static void server_of(cvz_server *made)
{
    IS(cvz_server_load(made, 5064, 0, T("record SLOW LONG 1 slow 0\n")), 0);
}

/* One step of a circuit, which does this. */
static void step(cvz_server *at, uint64_t circuit, uint32_t effect)
{
    cvz_step did;
    IS(cvz_server_step(at, circuit, &did), CVZ_HANDLED);
    IS(did.effect, effect);
}

static void give(cvz_server *at, uint64_t circuit, const char *text)
{
    uint8_t bytes[256];
    IS(cvz_server_give(at, circuit, bytes, unhex(text, bytes)), 0);
}

/* What waits on the circuit is this, and is sent. */
static void speaks(int line, cvz_server *at, uint64_t circuit, const char *wanted)
{
    uint8_t room[256];
    size_t size = cvz_server_output(at, circuit, room, sizeof room);
    bytes_are(line, room, size, wanted);
    IS(cvz_server_sent(at, circuit, size), 0);
}

/* The device: finishes each put to SLOW once the record has its value, under the lock. */
static void *processes(void *nothing)
{
    uint8_t value[4];
    size_t size;
    int32_t answer;
    for (int done = 0; done < PUTS;) {
        pthread_mutex_lock(&lock);
        answer = cvz_server_busy(&server, T("SLOW"), value, sizeof value, &size);
        if (answer == 0) {
            cvz_server_finish(&server, T("SLOW"));
            processed = ++done;
            pthread_cond_broadcast(&changed);
        } else {
            pthread_cond_wait(&changed, &lock);
        }
        pthread_mutex_unlock(&lock);
    }
    return nothing;
}

/* The network and the device on one server, each under the lock. The server was made before the threads began, and is freed after the join. */
static void under_a_lock(void)
{
    pthread_t device;
    uint64_t circuit;
    char text[128];
    server_of(&server);
    IS(cvz_server_accept(&server, &circuit), 0);
    give(&server, circuit, HELLO);
    step(&server, circuit, CVZ_QUIET);
    step(&server, circuit, CVZ_CREATED);
    speaks(__LINE__, &server, circuit, CREATED);
    IS(pthread_create(&device, NULL, processes, NULL), 0);
    for (int put = 0; put < PUTS; put++) {
        pthread_mutex_lock(&lock);
        snprintf(text, sizeof text, "00130008 00050001 00010000 %08x %08x 00000000", (unsigned)put, (unsigned)put);
        give(&server, circuit, text);
        step(&server, circuit, CVZ_BUSIED);
        pthread_cond_broadcast(&changed);
        while (processed <= put)
            pthread_cond_wait(&changed, &lock);
        snprintf(text, sizeof text, "00130000 00050001 00000001 %08x", (unsigned)put);
        speaks(__LINE__, &server, circuit, text);
        pthread_mutex_unlock(&lock);
    }
    IS(pthread_join(device, NULL), 0);
    IS(cvz_server_applied(&server), PUTS);
    cvz_server_free(&server);
}

/* A place for one object, which waits there for the next thread. */
static struct queue {
    pthread_mutex_t lock;
    pthread_cond_t changed;
    cvz_server *object;
} queue = {PTHREAD_MUTEX_INITIALIZER, PTHREAD_COND_INITIALIZER, NULL};

static void send_on(cvz_server *object)
{
    pthread_mutex_lock(&queue.lock);
    while (queue.object)
        pthread_cond_wait(&queue.changed, &queue.lock);
    queue.object = object;
    pthread_cond_broadcast(&queue.changed);
    pthread_mutex_unlock(&queue.lock);
}

static cvz_server *receive(void)
{
    cvz_server *object;
    pthread_mutex_lock(&queue.lock);
    while (!queue.object)
        pthread_cond_wait(&queue.changed, &queue.lock);
    object = queue.object;
    queue.object = NULL;
    pthread_cond_broadcast(&queue.changed);
    pthread_mutex_unlock(&queue.lock);
    return object;
}

/* Goes on with each server that comes, and frees it. */
static void *goes_on(void *nothing)
{
    for (int i = 0; i < OBJECTS; i++) {
        cvz_server *mine = receive();
        uint8_t room[256];
        cvz_step did;
        while (cvz_server_step(mine, 65536, &did) == CVZ_HANDLED)
            ;
        bytes_seen += cvz_server_output(mine, 65536, room, sizeof room);
        cvz_server_free(mine);
        free(mine);
    }
    return nothing;
}

/* Servers that one thread made, and gave bytes, go to another by a queue. */
static void by_a_queue(void)
{
    pthread_t next;
    IS(pthread_create(&next, NULL, goes_on, NULL), 0);
    for (int i = 0; i < OBJECTS; i++) {
        cvz_server *made = calloc(1, sizeof *made);
        uint64_t circuit;
        server_of(made);
        IS(cvz_server_accept(made, &circuit), 0);
        IS(circuit, 65536);
        give(made, circuit, HELLO);
        send_on(made);
    }
    IS(pthread_join(next, NULL), 0);
    IS(bytes_seen, OBJECTS * 48);
}

/* Each thread has an object of its own, and no lock: a client that searches, and a repeater. */
static void *searches(void *nothing)
{
    cvz_client client = {0};
    cvz_address server_at = {0x7f000001, 5064}, to;
    uint8_t room[2048];
    uint64_t channel;
    size_t *size = nothing;
    for (int i = 0; i < OBJECTS; i++) {
        cvz_client_new(&client, T("me"), T("here"), &server_at, 1, &server_at, 0, 0);
        cvz_client_open(&client, T("TEMP"), 0, 0, &channel);
        cvz_client_tick(&client, 1000);
        *size += cvz_client_search(&client, &to, room, sizeof room);
    }
    cvz_client_free(&client);
    return nothing;
}

static void *repeats(void *nothing)
{
    cvz_repeater repeater = {0};
    cvz_address from = {0x7f000001, 40001}, to;
    uint8_t room[64];
    size_t *size = nothing;
    for (int i = 0; i < OBJECTS; i++) {
        cvz_repeater_new(&repeater);
        cvz_repeater_datagram(&repeater, &from, room, 0);
        *size += cvz_repeater_outgoing(&repeater, &to, room, sizeof room);
    }
    cvz_repeater_free(&repeater);
    return nothing;
}

static void on_their_own(bool is_careless)
{
    pthread_t client, repeater;
    size_t searched = 0, repeated = 0;
    IS(pthread_create(&client, NULL, searches, &searched), 0);
    IS(pthread_create(&repeater, NULL, repeats, is_careless ? &searched : &repeated), 0);
    IS(pthread_join(client, NULL), 0);
    IS(pthread_join(repeater, NULL), 0);
    IS(searched + repeated, OBJECTS * (40 + 16));
}

int main(int argc, char **argv)
{
    (void)argv;
    under_a_lock();
    by_a_queue();
    on_their_own(argc > 1);
    printf("%d passed, %d failed\n", passed, failed);
    return failed != 0;
}
