/* A client's calls, each with the answer that it has to give, worked by hand from the protocol: see tools/library. */
#include "library-test.h"
#include "library-display.h"

static cvz_client client;
static uint8_t room[4096];
static uint64_t channel, circuit;

/* What waits on the circuit is this, and is sent. */
#define OUTPUT(wanted) do { \
    size_t size = cvz_client_output(&client, circuit, room, sizeof room); \
    bytes_are(__LINE__, room, size, wanted); \
    IS(cvz_client_sent(&client, circuit, size), 0); \
} while (0)

/* The next notice is this. */
#define NOTICE(kind_, of_, outcome_, status_, type_, count_) do { \
    cvz_notice told = {0}; \
    IS(cvz_client_next(&client, &told), 1); \
    IS(told.kind, kind_); \
    IS(told.of, of_); \
    IS(told.outcome, outcome_); \
    IS(told.status, status_); \
    IS(told.type, type_); \
    IS(told.count, count_); \
} while (0)

#define NO_MORE() do { \
    cvz_notice told; \
    IS(cvz_client_next(&client, &told), 0); \
} while (0)

/* These bytes come, which are so many messages. */
static void hear(const char *text, int messages)
{
    uint8_t bytes[4096];
    uint32_t cause = 7;
    IS(cvz_client_give(&client, circuit, bytes, unhex(text, bytes), false), 0);
    for (int i = 0; i < messages; i++)
        IS(cvz_client_step(&client, circuit, &cause), CVZ_HANDLED);
    IS(cause, 7);
}

/* Each call on a struct that has no object. */
static void nothing_is_there(void)
{
    uint64_t out = 7;
    uint32_t cause = 7;
    size_t size = 7;
    cvz_channel how = {7, 7, 7, 7};
    cvz_wanted wanted = {7, 7, 7, 7};
    cvz_notice told = {7, 7, 7, 7, 7, 7};
    cvz_address to = {7, 7};
    uint8_t image[4] = {0};
    IS(cvz_client_open(&client, T("TEMP"), 0, 0, &out), CVZ_NO_OBJECT);
    IS(cvz_client_channel(&client, 65536, &how), CVZ_NO_OBJECT);
    IS(cvz_client_clear(&client, 65536), CVZ_NO_OBJECT);
    IS(cvz_client_read(&client, 65536, CVZ_LONG, 1, &out), CVZ_NO_OBJECT);
    IS(cvz_client_write(&client, 65536, CVZ_LONG, 1, image, 4), CVZ_NO_OBJECT);
    IS(cvz_client_put(&client, 65536, CVZ_LONG, 1, image, 4, &out), CVZ_NO_OBJECT);
    IS(cvz_client_subscribe(&client, 65536, CVZ_LONG, 1, 1, &out), CVZ_NO_OBJECT);
    IS(cvz_client_unsubscribe(&client, 65536), CVZ_NO_OBJECT);
    IS(cvz_client_wanted(&client, 0, &wanted), CVZ_NO_OBJECT);
    IS(cvz_client_connected(&client, 65536, &cause), CVZ_NO_OBJECT);
    IS(cvz_client_give(&client, 65536, image, 4, false), CVZ_NO_OBJECT);
    IS(cvz_client_step(&client, 65536, &cause), CVZ_NO_OBJECT);
    IS(cvz_client_cut(&client, 65536), CVZ_NO_OBJECT);
    IS(cvz_client_close(&client, 65536), CVZ_NO_OBJECT);
    IS(cvz_client_output(&client, 65536, room, sizeof room), 0);
    IS(cvz_client_sent(&client, 65536, 0), CVZ_NO_OBJECT);
    IS(cvz_client_left(&client, room, sizeof room), 0);
    IS(cvz_client_tick(&client, 0), CVZ_NO_OBJECT);
    IS(cvz_client_search(&client, &to, room, sizeof room), 0);
    IS(cvz_client_ended(&client, &out), CVZ_NO_OBJECT);
    IS(cvz_client_datagram(&client, 0, &to, image, 4), CVZ_NO_OBJECT);
    IS(cvz_client_next(&client, &told), CVZ_NO_OBJECT);
    IS(cvz_client_value(&client, CVZ_LONG, room, sizeof room, &size), CVZ_NO_OBJECT);
    IS(out == 7 && cause == 7 && size == 7 && how.state == 7 && wanted.circuit == 7 && told.kind == 7 && to.host == 7, 1);
}

/* TEMP is searched for, found at 127.0.0.1:5064, and created. */
static void finds(void)
{
    uint8_t bytes[64];
    cvz_address to, from = {0x7f000001, 5064};
    cvz_wanted wanted;
    cvz_channel how;
    uint32_t cause;
    IS(cvz_client_open(&client, T(""), 0, 0, &channel), CVZ_NAME_LENGTH);
    IS(cvz_client_open(&client, T("TEMP"), 100, 0, &channel), CVZ_BAD_PRIORITY);
    IS(cvz_client_open(&client, T("TEMP"), 0, 0, &channel), 0);
    IS(cvz_client_channel(&client, channel, &how), 0);
    IS(how.state, CVZ_SEARCHING);
    IS(cvz_client_tick(&client, 1000), 0);
    bytes_are(__LINE__, room, cvz_client_search(&client, &to, room, sizeof room),
              "00000000 0000000d 00000000 00000000  00060008 0005000d 00010000 00010000 54454d50 00000000");
    IS(to.host, 0x7f000001);
    IS(to.port, 5064);
    IS(cvz_client_search(&client, &to, room, sizeof room), 0);
    IS(cvz_client_wanted(&client, 0, &wanted), 0);
    IS(cvz_client_datagram(&client, 1000, &from, bytes, unhex("00060008 13c80000 ffffffff 00010000 000d0000 00000000", bytes)), 0);
    IS(cvz_client_channel(&client, channel, &how), 0);
    IS(how.state, CVZ_CONNECTING);
    IS(cvz_client_wanted(&client, 0, &wanted), 1);
    IS(wanted.host, 0x7f000001);
    IS(wanted.port, 5064);
    IS(wanted.priority, 0);
    IS(cvz_client_wanted(&client, 1, &wanted), 0);
    circuit = wanted.circuit;
    IS(cvz_client_connected(&client, circuit, &cause), 0);
    OUTPUT("00000000 0000000d 00000000 00000000  00140008 00000000 00000000 00000000 6d650000 00000000"
           "  00150008 00000000 00000000 00000000 68657265 00000000  00120008 00000000 00010000 0000000d 54454d50 00000000");
    IS(cvz_client_read(&client, channel, CVZ_LONG, 1, &channel), CVZ_NOT_LIVE);
    hear("00000000 0000000d 00000000 00000000  00160000 00000000 00010000 00000003  00120000 00050001 00010000 00090001", 3);
    NOTICE(CVZ_NOTICE_LIVE, channel, 0, 0, 0, 0);
    NO_MORE();
    IS(cvz_client_channel(&client, channel, &how), 0);
    IS(how.state == CVZ_LIVE && how.type == CVZ_LONG && how.greatest == 1 && how.rights == 3, 1);
}

/* A read, with its value in three types; a put that is done, one that fails, and a write that is refused. */
static void asks(void)
{
    uint64_t request;
    size_t size = 0;
    const uint8_t image[4] = {0, 0, 0, 22};
    IS(cvz_client_value(&client, CVZ_LONG, room, sizeof room, &size), CVZ_BAD_TYPE);
    IS(cvz_client_read(&client, channel, 35, 1, &request), CVZ_BAD_TYPE);
    IS(cvz_client_read(&client, channel, CVZ_LONG, 2, &request), CVZ_BAD_COUNT);
    IS(cvz_client_read(&client, channel, CVZ_TIME + CVZ_LONG, 1, &request), 0);
    OUTPUT("000f0000 00130001 00090001 00010000");
    hear("000f0010 00130001 00000001 00010000 00020001 00000005 00000006 00000015", 1);
    NOTICE(CVZ_NOTICE_COMPLETED, request, CVZ_VALUE, 0, CVZ_LONG, 1);
    IS(cvz_client_value(&client, CVZ_LONG, room, sizeof room, &size), 0);
    bytes_are(__LINE__, room, size, "00000015");
    IS(cvz_client_value(&client, CVZ_STS + CVZ_LONG, room, sizeof room, &size), 0);
    bytes_are(__LINE__, room, size, "00020001 00000015");
    IS(cvz_client_value(&client, CVZ_TIME + CVZ_LONG, room, sizeof room, &size), 0);
    bytes_are(__LINE__, room, size, "00020001 00000005 00000006 00000015");
    IS(cvz_client_value(&client, CVZ_DOUBLE, room, sizeof room, &size), CVZ_BAD_TYPE);
    IS(cvz_client_value(&client, CVZ_GRAPHIC + CVZ_LONG, room, sizeof room, &size), CVZ_BAD_TYPE);
    IS(cvz_client_value(&client, CVZ_CONTROL + CVZ_LONG, room, sizeof room, &size), CVZ_BAD_TYPE);
    memset(room, 9, 4);
    IS(cvz_client_value(&client, CVZ_LONG, room, 3, &size), 0);
    IS(size, 4);
    bytes_are(__LINE__, room, 4, "00000009");
    NO_MORE();
    IS(cvz_client_put(&client, channel, CVZ_LONG, 1, image, 3, &request), CVZ_SHORT);
    IS(cvz_client_put(&client, channel, CVZ_LONG, 1, image, 4, &request), 0);
    size = cvz_client_output(&client, circuit, room, sizeof room);
    IS(size, 24);
    bytes_are(__LINE__, room, 12, "00130008 00050001 00090001");
    memcpy(room + 8, "\0\0\0\1", 4);
    memcpy(room + 2, "\0\0", 2);
    IS(cvz_client_sent(&client, circuit, 24), 0);
    IS(cvz_client_give(&client, circuit, room, 16, false), 0);
    hear("", 1);
    NOTICE(CVZ_NOTICE_COMPLETED, request, CVZ_DONE, 0, 0, 0);
    IS(cvz_client_write(&client, channel, CVZ_LONG, 1, image, 4), 0);
    OUTPUT("00040008 00050001 00090001 00000000 00000016 00000000");
}

/* A read of one element of the channel as a type goes out, and is answered by this image, of a type. */
static uint64_t answered(unsigned type, unsigned of_type, const uint8_t *image, size_t size)
{
    uint64_t request;
    const size_t padded = (size + 7) / 8 * 8;
    uint8_t bytes[600] = {0, 15, (uint8_t)(padded >> 8), (uint8_t)padded, 0, (uint8_t)of_type, 0, 1, 0, 0, 0, 1};
    IS(cvz_client_read(&client, channel, (uint16_t)type, 1, &request), 0);
    IS(cvz_client_output(&client, circuit, room, sizeof room), 16);
    IS(memcmp(room, "\0\17\0\0\0", 5) == 0 && room[5] == type && memcmp(room + 6, "\0\1\0\11\0\1", 6) == 0, 1);
    IS(cvz_client_sent(&client, circuit, 16), 0);
    memcpy(bytes + 12, room + 12, 4);
    memcpy(bytes + 16, image, size);
    IS(cvz_client_give(&client, circuit, bytes, 16 + padded, false), 0);
    hear("", 1);
    return request;
}

/* The value of the last notice is this in a type. */
#define VALUE(type, wanted) do { \
    size_t its = 0; \
    IS(cvz_client_value(&client, type, room, sizeof room, &its), 0); \
    bytes_are(__LINE__, room, its, wanted); \
} while (0)

#define NO_VALUE(type) IS(cvz_client_value(&client, type, room, sizeof room, &size), CVZ_BAD_TYPE)

/* Reads with display data: each image as it came, what its type does not have as zeros, and images that are none. */
static void is_shown(void)
{
    uint64_t request;
    size_t size = 7;
    uint8_t image[512];
    for (size_t at = 0; recorded[at].type >= CVZ_GRAPHIC; at++) {
        const unsigned type = recorded[at].type;
        const size_t bytes = unhex(recorded[at].image, image);
        memcpy(image, "\0\3\0\2", 4);
        request = answered(type, type, image, bytes);
        NOTICE(CVZ_NOTICE_COMPLETED, request, CVZ_VALUE, 0, type % 7, 1);
        IS(cvz_client_value(&client, (uint16_t)type, room, sizeof room, &size), 0);
        IS(size == bytes && memcmp(room, image, bytes) == 0, 1);
        IS(cvz_client_value(&client, (uint16_t)(CVZ_STS + type % 7), room, sizeof room, &size), 0);
        IS(memcmp(room, "\0\3\0\2", 4), 0);
        for (uint16_t other = CVZ_GRAPHIC; other <= CVZ_CONTROL + CVZ_DOUBLE; other++)
            IS(cvz_client_value(&client, other, room, sizeof room, &size), other % 7 == type % 7 ? 0 : CVZ_BAD_TYPE);
        NO_VALUE(35);
        NO_VALUE((uint16_t)((type + 1) % 7));
    }
    /* The last was of control limits of a DOUBLE; they are zero where a graphic type was read. */
    VALUE(CVZ_GRAPHIC + CVZ_DOUBLE, "00030002 00030000 6d412f73 00000000 40592000 00000000 c0344000 00000000 4056a000 00000000 40541000 00000000 c0250000 00000000 "
          "c02f8000 00000000 40060000 00000000");
    VALUE(CVZ_DOUBLE, "40060000 00000000");
    VALUE(CVZ_TIME + CVZ_DOUBLE, "00030002 00000000 00000000 00000000 40060000 00000000");
    memset(room, 9, 8);
    IS(cvz_client_value(&client, CVZ_CONTROL + CVZ_DOUBLE, room, 7, &size), 0);
    IS(size, 88);
    bytes_are(__LINE__, room, 8, "00030002 00030009");
    answered(CVZ_GRAPHIC + CVZ_INT, CVZ_GRAPHIC + CVZ_INT, image, unhex(recorded[1].image, image));
    IS(cvz_client_next(&client, &(cvz_notice){0}), 1);
    VALUE(CVZ_CONTROL + CVZ_INT, "00000000 6d412f73 00000000 0064ffec 005a0050 fff6fff1 00000000 0002");
    NO_MORE();
    VALUE(CVZ_GRAPHIC + CVZ_INT, recorded[1].image);
    /* States: two of 16, and one too many. */
    memset(image, 0, sizeof image);
    memcpy(image, "\0\7\0\1\0\2off", 9);
    memcpy(image + 32, "failed, but still running", 25);
    image[423] = 1;
    for (uint16_t type = CVZ_GRAPHIC + CVZ_ENUM; type <= CVZ_CONTROL + CVZ_ENUM; type += 7) {
        request = answered(type, type, image, 424);
        NOTICE(CVZ_NOTICE_COMPLETED, request, CVZ_VALUE, 0, CVZ_ENUM, 1);
        IS(cvz_client_value(&client, type, room, sizeof room, &size), 0);
        IS(size == 424 && memcmp(room, image, 424) == 0, 1);
    }
    image[5] = 17;
    request = answered(CVZ_GRAPHIC + CVZ_ENUM, CVZ_GRAPHIC + CVZ_ENUM, image, 424);
    NOTICE(CVZ_NOTICE_COMPLETED, request, CVZ_UNREADABLE, -CVZ_BAD_COUNT, 0, 0);
    NO_VALUE(CVZ_ENUM);
    /* Too few bytes, and types of the other kind. */
    request = answered(CVZ_CONTROL + CVZ_DOUBLE, CVZ_CONTROL + CVZ_DOUBLE, image, 80);
    NOTICE(CVZ_NOTICE_COMPLETED, request, CVZ_UNREADABLE, -CVZ_SHORT, 0, 0);
    request = answered(CVZ_CONTROL + CVZ_LONG, CVZ_STS + CVZ_LONG, image, 48);
    NOTICE(CVZ_NOTICE_COMPLETED, request, CVZ_UNREADABLE, -CVZ_BAD_TYPE, 0, 0);
    request = answered(CVZ_STS + CVZ_LONG, CVZ_CONTROL + CVZ_LONG, image, 48);
    NOTICE(CVZ_NOTICE_COMPLETED, request, CVZ_UNREADABLE, -CVZ_BAD_TYPE, 0, 0);
    IS(cvz_client_read(&client, channel, CVZ_CONTROL + CVZ_LONG, 2, &request), CVZ_BAD_COUNT);
    IS(cvz_client_subscribe(&client, channel, CVZ_CONTROL + CVZ_LONG, 1, CVZ_MASK_PROPERTY, &request), CVZ_BAD_TYPE);
}

/* A subscription with an update, which is ended; and one whose mask is none. */
static void watches(void)
{
    uint64_t subscription, other;
    size_t size;
    uint8_t id[4];
    IS(cvz_client_subscribe(&client, channel, CVZ_LONG, 1, 16, &subscription), CVZ_BAD_EVENT);
    IS(cvz_client_subscribe(&client, channel, CVZ_LONG, 1, CVZ_MASK_VALUE, &subscription), 0);
    size = cvz_client_output(&client, circuit, room, sizeof room);
    IS(size, 32);
    memcpy(id, room + 12, 4);
    bytes_are(__LINE__, room, 12, "00010010 00050001 00090001");
    bytes_are(__LINE__, room + 16, 16, "00000000 00000000 00000000 00010000");
    IS(cvz_client_sent(&client, circuit, size), 0);
    unhex("00010008 00050001 00000001 00000000 0000001e 00000000", room);
    memcpy(room + 12, id, 4);
    IS(cvz_client_give(&client, circuit, room, 24, false), 0);
    hear("", 1);
    NOTICE(CVZ_NOTICE_UPDATE, subscription, CVZ_VALUE, 0, CVZ_LONG, 1);
    IS(cvz_client_value(&client, CVZ_LONG, room, sizeof room, &size), 0);
    bytes_are(__LINE__, room, size, "0000001e");
    IS(cvz_client_unsubscribe(&client, subscription), 0);
    IS(cvz_client_unsubscribe(&client, subscription), CVZ_STALE_HANDLE);
    size = cvz_client_output(&client, circuit, room, sizeof room);
    bytes_are(__LINE__, room, 12, "00020000 00050001 00090001");
    IS(memcmp(room + 12, id, 4), 0);
    IS(cvz_client_sent(&client, circuit, size), 0);
    IS(cvz_client_subscribe(&client, channel, CVZ_LONG, 1, CVZ_MASK_VALUE, &other), 0);
    IS(other != subscription, 1);
}

/* The circuit is cut while a read is open; handles that are old; a silence. */
static void ends(void)
{
    uint64_t request, old = circuit;
    uint32_t cause;
    cvz_channel how;
    IS(cvz_client_read(&client, channel, CVZ_LONG, 1, &request), 0);
    IS(cvz_client_cut(&client, circuit), 0);
    NOTICE(CVZ_NOTICE_COMPLETED, request, CVZ_LOST, 0, 0, 0);
    NOTICE(CVZ_NOTICE_LOST, channel, 0, 0, 0, 0);
    NO_MORE();
    IS(cvz_client_left(&client, room, sizeof room), 48);
    IS(cvz_client_left(&client, room, sizeof room), 0);
    IS(cvz_client_step(&client, old, &cause), CVZ_CLOSED);
    IS(cause, CVZ_CAUSE_CUT);
    IS(cvz_client_give(&client, old, room, 1, false), CVZ_CIRCUIT_CLOSED);
    IS(cvz_client_connected(&client, old, &cause), CVZ_CLOSED);
    IS(cvz_client_sent(&client, old, 1), CVZ_OUT_OF_RANGE);
    IS(cvz_client_channel(&client, channel, &how), 0);
    IS(how.state, CVZ_SEARCHING);
    IS(cvz_client_clear(&client, channel), 0);
    IS(cvz_client_clear(&client, channel), CVZ_STALE_HANDLE);
    IS(cvz_client_channel(&client, channel, &how), CVZ_STALE_HANDLE);
    IS(cvz_client_read(&client, channel, CVZ_LONG, 1, &request), CVZ_STALE_HANDLE);
    IS(cvz_client_write(&client, UINT64_MAX, CVZ_LONG, 1, (const uint8_t *)"\0\0\0\0", 4), CVZ_STALE_HANDLE);
    IS(cvz_client_ended(&client, &request), 0);
}

int main(void)
{
    cvz_address server = {0x7f000001, 5064};
    nothing_is_there();
    cvz_client_free(&client);
    IS(cvz_client_new(&client, T("me"), T("here"), &server, 1, &server, 0, 0), 0);
    finds();
    asks();
    is_shown();
    watches();
    ends();
    IS(cvz_client_new(&client, T("me"), T("here"), &server, 1, &server, 0, 0), 0);
    cvz_client_free(&client);
    cvz_client_free(&client);
    nothing_is_there();
    printf("%d passed, %d failed\n", passed, failed);
    return failed != 0;
}
