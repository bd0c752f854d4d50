/* Refuses each request for memory in turn, and sees that each call answers, that a refusal changes nothing, and that no memory is lost: see
 * tools/library. It is linked with --wrap for malloc, realloc and free. */
#include <cuvezhin.h>

#include <stdio.h>
#include <stdlib.h>
#include <string.h>

void *__real_malloc(size_t);
void *__real_realloc(void *, size_t);
void __real_free(void *);
void *__wrap_malloc(size_t);
void *__wrap_realloc(void *, size_t);
void __wrap_free(void *);

static long left = -1;                 /* requests until one is refused, or -1 for none */
static long blocks;                    /* that are in use */
static long requests;

static bool is_refused(void)
{
    requests++;
    return left >= 0 && left-- == 0;
}

void *__wrap_malloc(size_t size)
{
    void *made = is_refused() ? NULL : __real_malloc(size);
    blocks += made != NULL;
    return made;
}

void *__wrap_realloc(void *was, size_t size)
{
    void *made = is_refused() ? NULL : __real_realloc(was, size);
    blocks += was == NULL && made != NULL;
    return made;
}

void __wrap_free(void *was)
{
    blocks -= was != NULL;
    __real_free(was);
}

#define T(text) (const uint8_t *)(text), sizeof(text) - 1

static const uint8_t hello[] = {0, 0, 0, 0, 0, 0, 0, 13, 0, 0, 0, 0, 0, 0, 0, 0,
                                0, 18, 0, 8, 0, 0, 0, 0, 0, 0, 0, 1, 0, 0, 0, 13, 'T', 'E', 'M', 'P', 0, 0, 0, 0};
static const uint8_t watch[] = {0, 1, 0, 16, 0, 5, 0, 1, 0, 1, 0, 0, 0, 0, 0, 9, 0, 0, 0, 0, 0, 0, 0, 0, 0, 0, 0, 0, 0, 1, 0, 0};
static const uint8_t put[] = {0, 19, 0, 8, 0, 5, 0, 1, 0, 1, 0, 0, 0, 0, 0, 7, 0, 0, 0, 22, 0, 0, 0, 0};
static const uint8_t search[] = {0, 6, 0, 8, 0, 5, 0, 13, 0, 0, 0, 3, 0, 0, 0, 3, 'T', 'E', 'M', 'P', 0, 0, 0, 0};

/* CREATE_CHAN of SLOW, and WRITE_NOTIFY to it. */
static const uint8_t slow[] = {0, 18, 0, 8, 0, 0, 0, 0, 0, 0, 0, 2, 0, 0, 0, 13, 'S', 'L', 'O', 'W', 0, 0, 0, 0,
                               0, 19, 0, 8, 0, 5, 0, 1, 0, 1, 0, 1, 0, 0, 0, 8, 0, 0, 0, 23, 0, 0, 0, 0};
static const uint8_t enroll[] = {0, 24, 0, 0, 0, 0, 0, 0, 0, 0, 0, 0, 127, 0, 0, 1};
static const uint8_t beacon[] = {0, 13, 0, 0, 0, 13, 19, 200, 0, 0, 0, 7, 0, 0, 0, 0};

/* Gives these bytes, and steps. Answers 0, or the refusal, or 1 if the end has closed for lack of memory, and 2 if it did anything else. */
static int given(cvz_server *server, uint64_t circuit, const uint8_t *bytes, size_t size)
{
    cvz_step did;
    int answer = cvz_server_give(server, circuit, bytes, size);
    if (answer < 0)
        return answer;
    while ((answer = cvz_server_step(server, circuit, &did)) == CVZ_HANDLED)
        cvz_server_pump(server, circuit);
    if (answer == CVZ_CLOSED)
        return did.cause == CVZ_CAUSE_OUT_OF_MEMORY ? 1 : 2;
    return 0;
}

static bool refused_any(const int *answers)
{
    for (int i = 0; i < 11; i++)
        if (answers[i] != 0)
            return true;
    return false;
}

/* A record with display data is added, and removed if it is there. Answers what the first of these did. */
static int shown(cvz_server *server, uint16_t type, const uint8_t *image, size_t size)
{
    const int answer = cvz_server_add(server, T("SHOWN"), 1, false, type, 1, image, size);
    return cvz_server_remove(server, T("SHOWN")) == (answer == 0 ? 0 : CVZ_UNKNOWN_RECORD) ? answer : 4;
}

/* All calls once. Answers how many found no memory, or -1 if one answered anything else. */
static int run(cvz_server *server)
{
    static uint8_t room[65536];
    const uint8_t image[8] = {0, 0, 0, 21};
    static const uint8_t gain[88], state[424] = {0, 0, 0, 0, 0, 2, 'o', 'f', 'f', [32] = 'o', 'n'};
    uint64_t circuit;
    int answers[16] = {0}, refused = 0;
    size_t size = 7;
    uint32_t count = 7;
    answers[0] = cvz_server_load(server, 5064, 0, T("record SLOW LONG 1 slow 5\nrule me * SLOW rw\n"));
    if (answers[0] == 0) {
        answers[1] = cvz_server_add(server, T("TEMP"), 4, false, CVZ_LONG, 1, image, 4);
        if (answers[1] != 0)
            answers[2] = cvz_server_add(server, T("TEMP"), 4, false, CVZ_LONG, 1, image, 4);
        answers[3] = cvz_server_datagram(server, search, sizeof search);
        answers[4] = cvz_server_accept(server, &circuit);
        if (answers[4] == 0) {
            answers[5] = given(server, circuit, hello, sizeof hello);
            answers[6] = answers[5] ? 0 : given(server, circuit, watch, sizeof watch);
            answers[7] = answers[5] || answers[6] ? 0 : given(server, circuit, put, sizeof put);
            answers[8] = cvz_server_post(server, T("TEMP"), CVZ_MASK_VALUE, CVZ_LONG, 2, image, 8);
            cvz_server_pump(server, circuit);
            cvz_server_output(server, circuit, room, sizeof room);
            answers[10] = answers[5] || answers[6] || answers[7] ? 0 : given(server, circuit, slow, sizeof slow);
            if (answers[10] == CVZ_CIRCUIT_CLOSED)
                answers[10] = 1;       /* the post closed it, for lack of memory */
            answers[11] = cvz_server_busy(server, T("SLOW"), room, sizeof room, &size);
            if (answers[11] == CVZ_NOT_BUSY && refused_any(answers))
                answers[11] = 0;
            size = 7;
            answers[12] = cvz_server_value(server, T("TEMP"), CVZ_TIME + CVZ_LONG, &count, room, sizeof room, &size);
            if (answers[12] == CVZ_OUT_OF_MEMORY ? count != 7 || size != 7 : size != 12 + 4 * count)
                answers[12] = 2;
            if (cvz_server_first(server, T("SLOW"), &circuit) != 0 || cvz_server_user(server, circuit, room, sizeof room) != 0)
                answers[12] = 3;       /* neither asks for memory */
        }
        answers[15] = cvz_server_set_display(server, T("TEMP"), CVZ_CONTROL + CVZ_DOUBLE, 1, gain, sizeof gain);
        answers[9] = cvz_server_remove(server, T("TEMP"));
        answers[13] = shown(server, CVZ_CONTROL + CVZ_DOUBLE, gain, sizeof gain);
        answers[14] = shown(server, CVZ_GRAPHIC + CVZ_ENUM, state, sizeof state);
    }
    for (int i = 0; i < 16; i++) {
        if (answers[i] != 0 && answers[i] != 1 && answers[i] != CVZ_OUT_OF_MEMORY)
            return printf("answer %d is %d\n", i, answers[i]), -1;
        refused += answers[i] != 0;
    }
    return refused;
}

/* Whether a call of a client went well, or found no memory: then it counts that. */
static bool is_well(int32_t answer, int *refused, bool *is_wrong)
{
    *refused += answer == CVZ_OUT_OF_MEMORY;
    *is_wrong = *is_wrong || (answer < 0 && answer != CVZ_OUT_OF_MEMORY);
    return answer >= 0;
}

/* The client's read with display data; no handle until it is asked for. */
static uint64_t shown_read;

/* What the client said is answered by the server, until neither has anything to say. False if an end has closed. */
static bool talk(cvz_server *server, uint64_t at, cvz_client *client, uint64_t circuit, int *refused, bool *is_wrong)
{
    static uint8_t bytes[65536];
    bool is_on = true;
    for (int turn = 0; turn < 4 && is_on; turn++) {
        size_t size = cvz_client_output(client, circuit, bytes, sizeof bytes);
        uint32_t cause = 0;
        cvz_step did = {0};
        int32_t answer;
        cvz_notice told;
        cvz_client_sent(client, circuit, size);
        is_on = is_well(cvz_server_give(server, at, bytes, size), refused, is_wrong);
        while (is_on && (answer = cvz_server_step(server, at, &did)) != CVZ_NEEDS_BYTES)
            is_on = answer == CVZ_HANDLED;
        cvz_server_pump(server, at);
        size = cvz_server_output(server, at, bytes, sizeof bytes);
        cvz_server_sent(server, at, size);
        is_on = is_on && is_well(cvz_client_give(client, circuit, bytes, size, false), refused, is_wrong);
        while (is_on && (answer = cvz_client_step(client, circuit, &cause)) != CVZ_NEEDS_BYTES) {
            is_on = answer == CVZ_HANDLED;
            while (cvz_client_next(client, &told) == 1) {
                *refused += told.outcome == CVZ_FAILED || told.outcome == CVZ_UNREADABLE || told.kind == CVZ_NOTICE_ENDED;
                if (told.outcome == CVZ_VALUE && told.count > 0)
                    is_well(cvz_client_value(client, CVZ_TIME + CVZ_LONG, bytes, sizeof bytes, &size), refused, is_wrong);
                if (told.outcome == CVZ_VALUE && told.of == shown_read)
                    is_well(cvz_client_value(client, CVZ_GRAPHIC + CVZ_LONG, bytes, sizeof bytes, &size), refused, is_wrong);
            }
        }
        *refused += did.cause == CVZ_CAUSE_OUT_OF_MEMORY || cause == CVZ_CAUSE_OUT_OF_MEMORY;
    }
    return is_on;
}

/* All calls of a client once, with a server that has memory until then. Answers how many found none, or -1 if one answered anything else. */
static int run_client(cvz_server *server, cvz_client *client)
{
    static uint8_t bytes[2048];
    const uint8_t image[48] = {[47] = 21};
    const cvz_address at = {0x7f000001, 5064};
    uint64_t channel, circuit, request;
    cvz_address to;
    cvz_wanted wanted;
    uint32_t cause;
    size_t size;
    int refused = 0;
    bool is_wrong = false;
    shown_read = UINT64_MAX;
    if (!is_well(cvz_server_new(server, 5064, 0), &refused, &is_wrong) || !is_well(cvz_server_add(server, T("TEMP"), 1, false, CVZ_CONTROL + CVZ_LONG, 1, image, 48), &refused, &is_wrong)
        || !is_well(cvz_server_accept(server, &circuit), &refused, &is_wrong) || !is_well(cvz_client_new(client, T("me"), T("here"), &at, 1, &at, 0, 0), &refused, &is_wrong)
        || !is_well(cvz_client_open(client, T("TEMP"), 0, 0, &channel), &refused, &is_wrong) || !is_well(cvz_client_tick(client, 1000), &refused, &is_wrong)
        || (size = cvz_client_search(client, &to, bytes, sizeof bytes)) == 0 || !is_well(cvz_server_datagram(server, bytes, size), &refused, &is_wrong)
        || (size = cvz_server_answer(server, bytes, sizeof bytes)) == 0 || !is_well(cvz_client_datagram(client, 1000, &at, bytes, size), &refused, &is_wrong)
        || cvz_client_wanted(client, 0, &wanted) != 1)
        return is_wrong ? -1 : refused + (refused == 0);
    if (cvz_client_connected(client, wanted.circuit, &cause) != 0)
        return cause == CVZ_CAUSE_OUT_OF_MEMORY ? refused + 1 : -1;
    if (!talk(server, circuit, client, wanted.circuit, &refused, &is_wrong))
        return is_wrong ? -1 : refused;
    if (is_well(cvz_client_subscribe(client, channel, CVZ_TIME + CVZ_LONG, 1, CVZ_MASK_VALUE, &request), &refused, &is_wrong)
        && !talk(server, circuit, client, wanted.circuit, &refused, &is_wrong))
        return is_wrong ? -1 : refused;
    if (is_well(cvz_client_put(client, channel, CVZ_LONG, 1, image, 4, &request), &refused, &is_wrong)
        && !talk(server, circuit, client, wanted.circuit, &refused, &is_wrong))
        return is_wrong ? -1 : refused;
    if (is_well(cvz_client_read(client, channel, CVZ_TIME + CVZ_LONG, 1, &request), &refused, &is_wrong)
        && !talk(server, circuit, client, wanted.circuit, &refused, &is_wrong))
        return is_wrong ? -1 : refused;
    if (is_well(cvz_client_read(client, channel, CVZ_CONTROL + CVZ_LONG, 1, &shown_read), &refused, &is_wrong)
        && !talk(server, circuit, client, wanted.circuit, &refused, &is_wrong))
        return is_wrong ? -1 : refused;
    is_well(cvz_client_clear(client, channel), &refused, &is_wrong);
    cvz_client_close(client, wanted.circuit);
    return is_wrong ? -1 : refused;
}

/* How many datagrams are to be sent. */
static int sends(cvz_repeater *repeater)
{
    uint8_t bytes[64];
    cvz_address to;
    int count = 0;
    while (cvz_repeater_outgoing(repeater, &to, bytes, sizeof bytes) > 0)
        count++;
    return count;
}

/* Two clients register with a repeater, and a beacon comes. A datagram that found no memory sends nothing, and makes nobody a member. */
static int run_repeater(cvz_repeater *repeater)
{
    const cvz_address server = {0x0a000009, 5064};
    int refused = 0, members = 0;
    bool is_wrong = false;
    if (!is_well(cvz_repeater_new(repeater), &refused, &is_wrong))
        return is_wrong ? -1 : refused;
    for (uint16_t port = 40001; port <= 40002; port++) {
        bool is_in = is_well(cvz_repeater_datagram(repeater, &(cvz_address){0x7f000001, port}, enroll, sizeof enroll), &refused, &is_wrong);
        is_wrong = is_wrong || sends(repeater) != is_in;
        members += is_in;
    }
    if (is_well(cvz_repeater_datagram(repeater, &server, beacon, sizeof beacon), &refused, &is_wrong))
        is_wrong = is_wrong || sends(repeater) != members;
    return is_wrong ? -1 : refused;
}

int main(void)
{
    static const char *names[] = {"server", "client", "repeater"};
    int passed = 0, failed = 0, refused, kind = 0;
    for (long n = 0; kind < 3; n++) {
        cvz_server server = {0};
        cvz_client client = {0};
        cvz_repeater repeater = {0};
        bool all;
        requests = 0;
        left = n;
        refused = kind == 0 ? run(&server) : kind == 1 ? run_client(&server, &client) : run_repeater(&repeater);
        all = requests <= n;
        left = -1;
        cvz_server_free(&server);
        cvz_client_free(&client);
        cvz_repeater_free(&repeater);
        if (refused < 0 || blocks != 0 || (all && refused != 0) || (!all && n == 0 && refused == 0)) {
            printf("%s, request %ld refused: %d calls found no memory, %ld blocks are left\n", names[kind], n, refused, blocks);
            failed++;
            blocks = 0;
        }
        passed++;
        if (all) {
            kind++;
            n = -1;
        }
    }
    printf("%d passed, %d failed\n", passed - failed, failed);
    return failed != 0;
}
