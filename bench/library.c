/* Calls of the library in rounds, for bench/library, which times them: library WHAT SIZE ROUNDS. WHAT is `empty` (cvz_version, which does nothing), `step` (a
 * step of a circuit on which nothing came) or `reads`: so many READ_NOTIFY come at once, are handled one by one, and their replies are taken at once. Each
 * answer is compared with the one that is due, and the status is 1 where one differs. */
#include <cuvezhin.h>

#include <stdio.h>
#include <stdlib.h>
#include <string.h>

enum { MESSAGE = 16, REPLY = 24, MOST = 10000 };

static const char records[] = "record TEMP LONG 1 quick 21\n";
/* VERSION and CREATE_CHAN of TEMP under CID 00010000, READ_NOTIFY of one LONG, and its reply. */
static const uint8_t begun[] = "\0\0\0\0\0\0\0\15\0\0\0\0\0\0\0\0\0\22\0\10\0\0\0\0\0\1\0\0\0\0\0\15TEMP\0\0\0";
static const uint8_t asked[] = "\0\17\0\0\0\5\0\1\0\1\0\0\0\1\0";
static const uint8_t due[] = "\0\17\0\10\0\5\0\1\0\0\0\1\0\1\0\0\0\0\0\25\0\0\0";

static cvz_server server;
static uint64_t circuit;
static uint8_t messages[MOST * MESSAGE], room[MOST * REPLY];

static void must(bool is_right, const char *what)
{
    if (!is_right) {
        fprintf(stderr, "library: %s\n", what);
        exit(1);
    }
}

static void handle(int32_t count)
{
    cvz_step did;
    for (int32_t i = 0; i < count; i++)
        must(cvz_server_step(&server, circuit, &did) == CVZ_HANDLED, "a message is not handled");
}

static size_t taken(void)
{
    cvz_server_pump(&server, circuit);
    size_t size = cvz_server_output(&server, circuit, room, sizeof room);
    must(cvz_server_sent(&server, circuit, size) == 0, "what was taken is not sent");
    return size;
}

static void begin(void)
{
    must(cvz_server_load(&server, 5064, 0, (const uint8_t *)records, sizeof records - 1) == 0, "no server");
    must(cvz_server_accept(&server, &circuit) == 0 && cvz_server_give(&server, circuit, begun, sizeof begun) == 0, "no circuit");
    handle(2);
    taken();
}

static void empty(long rounds)
{
    while (rounds-- > 0)
        must(cvz_version() > 0, "no version");
}

static void steps(long rounds)
{
    cvz_step did;
    while (rounds-- > 0)
        must(cvz_server_step(&server, circuit, &did) == CVZ_NEEDS_BYTES, "something came");
}

static void reads(int32_t size, long rounds)
{
    for (int32_t i = 0; i < size; i++)
        memcpy(messages + i * MESSAGE, asked, MESSAGE);
    while (rounds-- > 0) {
        must(cvz_server_give(&server, circuit, messages, (size_t)size * MESSAGE) == 0, "not given");
        handle(size);
        must(taken() == (size_t)size * REPLY && memcmp(room, due, REPLY) == 0, "not the replies that are due");
    }
}

int main(int argc, char **argv)
{
    int32_t size = argc == 4 ? atoi(argv[2]) : 0;
    must(size > 0 && size <= MOST, "usage: library WHAT SIZE ROUNDS");
    begin();
    if (strcmp(argv[1], "empty") == 0)
        empty(atol(argv[3]));
    else if (strcmp(argv[1], "step") == 0)
        steps(atol(argv[3]));
    else
        reads(size, atol(argv[3]));
    cvz_server_free(&server);
    return 0;
}
