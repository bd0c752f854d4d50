/* Calls of the library, each with the answer that it has to give, worked by hand from the protocol: see tools/library. With an argument one call
 * also breaks a promise: it says that a room is greater than it is, which gcc's sanitizer has to find. */
#include "library-test.h"
#include "library-display.h"

#include <stdlib.h>

/* What waits on the circuit is this, and is sent. */
#define OUTPUT(circuit, wanted) do { \
    size_t size = cvz_server_output(&server, circuit, room, sizeof room); \
    bytes_are(__LINE__, room, size, wanted); \
    IS(cvz_server_sent(&server, circuit, size), 0); \
} while (0)

/* The next message is handled, and does this. */
#define STEP(circuit, wanted, channel, of_client) do { \
    cvz_step handled; \
    IS(cvz_server_step(&server, circuit, &handled), CVZ_HANDLED); \
    IS(handled.effect, wanted); \
    IS(handled.sid, channel); \
    IS(handled.subscription, of_client); \
    IS(handled.cause, 0); \
} while (0)

/* The value for which the record is busy is this, in its own type, also in part; or the call is refused so, and writes nothing. */
#define BUSY(name, wanted, image) do { \
    size_t size = 4095, half = 1; \
    memset(room, 9, sizeof room); \
    IS(cvz_server_busy(&server, T(name), room, sizeof room, &size), wanted); \
    if ((wanted) == 0) { \
        bytes_are(__LINE__, room, size, image); \
        memset(room, 9, sizeof room); \
        IS(cvz_server_busy(&server, T(name), room, half, &size), 0); \
        IS(room[half], 9); \
    } else { \
        IS(room[0] == 9 && size == 4095, 1); \
    } \
} while (0)

/* The record's value is this, in that type and of so many elements, also in part; or the call is refused so, and writes nothing. */
#define VALUE(name, type, wanted, elements, image) do { \
    size_t size = 4095, all; \
    uint32_t count = 4095; \
    memset(room, 9, sizeof room); \
    IS(cvz_server_value(&server, T(name), type, &count, room, sizeof room, &size), wanted); \
    if ((wanted) == 0) { \
        IS(count, elements); \
        bytes_are(__LINE__, room, size, image); \
        memset(room, 9, sizeof room); \
        IS(cvz_server_value(&server, T(name), type, &count, room, 3, &all), 0); \
        IS(all == size && room[2] != 9 && room[3] == 9, 1); \
    } else { \
        IS(room[0] == 9 && size == 4095 && count == 4095, 1); \
    } \
} while (0)

/* The put that waits longest for the record is of this circuit; or none waits, if it is 7, and nothing is written. */
#define FIRST(name, wanted) do { \
    uint64_t first = 7; \
    IS(cvz_server_first(&server, T(name), &first), (wanted) != 7); \
    IS(first, wanted); \
} while (0)

/* What the client on the circuit called itself, also in part; or it gave nothing. */
#define CALLED(circuit, name, host) do { \
    called(__LINE__, cvz_server_user, circuit, T(name)); \
    called(__LINE__, cvz_server_host, circuit, T(host)); \
} while (0)

static cvz_server server;
static uint8_t room[4096];

static void called(int line, size_t (*of)(cvz_server *, uint64_t, uint8_t *, size_t), uint64_t circuit, const uint8_t *name, size_t size)
{
    memset(room, 9, sizeof room);
    is(line, "the length of the name", (int64_t)of(&server, circuit, room, sizeof room), (int64_t)size);
    is(line, "the name is as it was given", memcmp(room, name, size) == 0 && room[size] == 9, 1);
    memset(room, 9, sizeof room);
    is(line, "the length of the name, in part", (int64_t)of(&server, circuit, room, 1), (int64_t)size);
    is(line, "the name is cut", (size == 0 || room[0] == name[0]) && room[1] == 9, 1);
}

static void give(uint64_t circuit, const char *text)
{
    uint8_t bytes[4096];
    IS(cvz_server_give(&server, circuit, bytes, unhex(text, bytes)), 0);
}

/* Each call on a struct that has no object. */
static void nothing_is_there(void)
{
    cvz_step did = {7, 7, 7, 7};
    uint64_t circuit = 7;
    size_t size = 7;
    uint32_t count = 7;
    uint8_t image[4] = {0};
    IS(cvz_server_accept(&server, &circuit), CVZ_NO_OBJECT);
    IS(circuit, 7);
    IS(cvz_server_give(&server, 65536, image, 4), CVZ_NO_OBJECT);
    IS(cvz_server_step(&server, 65536, &did), CVZ_NO_OBJECT);
    IS(did.effect == 7 && did.sid == 7 && did.subscription == 7 && did.cause == 7, 1);
    IS(cvz_server_pump(&server, 65536), CVZ_NO_OBJECT);
    IS(cvz_server_output(&server, 65536, room, sizeof room), 0);
    IS(cvz_server_sent(&server, 65536, 0), CVZ_NO_OBJECT);
    IS(cvz_server_left(&server, room, sizeof room), 0);
    IS(cvz_server_cut(&server, 65536), CVZ_NO_OBJECT);
    IS(cvz_server_stamp(&server, 1, 2), CVZ_NO_OBJECT);
    IS(cvz_server_add(&server, T("TEMP"), 1, false, CVZ_LONG, 1, image, 4), CVZ_NO_OBJECT);
    IS(cvz_server_remove(&server, T("TEMP")), CVZ_NO_OBJECT);
    IS(cvz_server_post(&server, T("TEMP"), 1, CVZ_LONG, 1, image, 4), CVZ_NO_OBJECT);
    IS(cvz_server_finish(&server, T("TEMP")), CVZ_NO_OBJECT);
    IS(cvz_server_datagram(&server, image, 4), CVZ_NO_OBJECT);
    IS(cvz_server_answer(&server, room, sizeof room), 0);
    IS(cvz_server_beacon(&server, 1, room, sizeof room), 0);
    IS(cvz_server_applied(&server), 0);
    IS(cvz_server_waiting(&server), 0);
    IS(cvz_server_name(&server, 65536, 65536, room, sizeof room), 0);
    IS(cvz_server_busy(&server, T("TEMP"), room, sizeof room, &size), CVZ_NO_OBJECT);
    IS(cvz_server_value(&server, T("TEMP"), CVZ_LONG, &count, room, sizeof room, &size), CVZ_NO_OBJECT);
    IS(size == 7 && count == 7, 1);
    IS(cvz_server_first(&server, T("TEMP"), &circuit), CVZ_NO_OBJECT);
    IS(circuit, 7);
    IS(cvz_server_user(&server, 65536, room, sizeof room), 0);
    IS(cvz_server_host(&server, 65536, room, sizeof room), 0);
}

static void records(void)
{
    uint8_t image[16] = {0, 0, 0, 21};
    IS(cvz_server_add(&server, T("TEMP"), 1, false, CVZ_LONG, 1, image, 4), 0);
    IS(cvz_server_add(&server, T("TEMP"), 1, false, CVZ_LONG, 1, image, 4), CVZ_RECORD_EXISTS);
    IS(cvz_server_add(&server, T("SLOW"), 1, true, CVZ_LONG, 1, image, 4), 0);
    IS(cvz_server_add(&server, T(""), 1, false, CVZ_LONG, 1, image, 4), CVZ_NAME_LENGTH);
    IS(cvz_server_add(&server, T("NONE"), 1, false, 99, 1, image, 4), CVZ_BAD_TYPE);
    IS(cvz_server_add(&server, T("NONE"), 1, false, CVZ_DOUBLE, 1, image, 7), CVZ_SHORT);
    IS(cvz_server_add(&server, T("NONE"), 1, false, CVZ_LONG, 2, image, 8), CVZ_BAD_COUNT);
    IS(cvz_server_post(&server, T("NONE"), 1, CVZ_LONG, 1, image, 4), CVZ_UNKNOWN_RECORD);
    IS(cvz_server_post(&server, T("TEMP"), 1, CVZ_DOUBLE, 1, image, 8), CVZ_BAD_TYPE);
    IS(cvz_server_finish(&server, T("NONE")), CVZ_UNKNOWN_RECORD);
    IS(cvz_server_finish(&server, T("SLOW")), CVZ_NOT_BUSY);
    BUSY("NONE", CVZ_NOT_BUSY, "");
    BUSY("SLOW", CVZ_NOT_BUSY, "");
    FIRST("NONE", 7);
    FIRST("SLOW", 7);
    VALUE("TEMP", CVZ_LONG, 0, 1, "00000015");
    VALUE("TEMP", CVZ_STS + CVZ_LONG, 0, 1, "00000000 00000015");
    VALUE("TEMP", CVZ_TIME + CVZ_LONG, 0, 1, "00000000 00000000 00000000 00000015");
    VALUE("TEMP", CVZ_DOUBLE, CVZ_BAD_TYPE, 0, "");
    VALUE("TEMP", 21, CVZ_BAD_TYPE, 0, "");
    VALUE("NONE", 21, CVZ_UNKNOWN_RECORD, 0, "");
    IS(cvz_server_remove(&server, T("NONE")), CVZ_UNKNOWN_RECORD);
}

/* VERSION, CREATE_CHAN of TEMP under CID 65536, and READ_NOTIFY: its rights are 3, and its value is 21. */
static void reads(uint64_t circuit)
{
    cvz_step did;
    give(circuit, "00000000 0000000d 00000000 00000000  00120008 00000000 00010000 0000000d 54454d50 00000000");
    give(circuit, "000f0000 00050001 00010000 00000001");
    STEP(circuit, CVZ_QUIET, 0, 0);
    STEP(circuit, CVZ_CREATED, 65536, 0);
    STEP(circuit, CVZ_QUIET, 0, 0);
    IS(cvz_server_step(&server, circuit, &did), CVZ_NEEDS_BYTES);
    IS(cvz_server_sent(&server, circuit, 4096), CVZ_OUT_OF_RANGE);
    OUTPUT(circuit, "00000000 0000000d 00000000 00000000  00160000 00000000 00010000 00000003  00120000 00050001 00010000 00010000"
                    "  000f0008 00050001 00000001 00000001 00000015 00000000");
    IS(cvz_server_output(&server, circuit, room, sizeof room), 0);
    IS(cvz_server_name(&server, circuit, 65536, room, sizeof room), 4);
    IS(memcmp(room, "TEMP", 4), 0);
    IS(cvz_server_name(&server, circuit, 65537, room, sizeof room), 0);
}

/* EVENT_ADD, a post, WRITE_NOTIFY of 22 to TEMP, which is quick, and of 23 to SLOW. */
static void writes(uint64_t circuit)
{
    const uint8_t image[16] = {0, 3, 0, 2, 0, 0, 0, 5, 0, 0, 0, 6, 0, 0, 0, 30};
    give(circuit, "00010010 00050001 00010000 00000009 00000000 00000000 00000000 00010000");
    STEP(circuit, CVZ_SUBSCRIBED, 65536, 9);
    IS(cvz_server_pump(&server, circuit), 0);
    OUTPUT(circuit, "00010008 00050001 00000001 00000009 00000015 00000000");
    IS(cvz_server_post(&server, T("TEMP"), CVZ_MASK_LOG, CVZ_TIME + CVZ_LONG, 1, image, 16), 0);
    IS(cvz_server_pump(&server, circuit), 0);
    OUTPUT(circuit, "");
    IS(cvz_server_post(&server, T("TEMP"), CVZ_MASK_VALUE, CVZ_TIME + CVZ_LONG, 1, image, 16), 0);
    OUTPUT(circuit, "");
    IS(cvz_server_pump(&server, circuit), 0);
    OUTPUT(circuit, "00010008 00050001 00000001 00000009 0000001e 00000000");
    VALUE("TEMP", CVZ_TIME + CVZ_LONG, 0, 1, "00030002 00000005 00000006 0000001e");
    VALUE("TEMP", CVZ_STS + CVZ_LONG, 0, 1, "00030002 0000001e");
    IS(cvz_server_stamp(&server, 7, 8), 0);
    give(circuit, "00130008 00050001 00010000 00000007 00000016 00000000");
    STEP(circuit, CVZ_WROTE, 65536, 0);
    VALUE("TEMP", CVZ_TIME + CVZ_LONG, 0, 1, "00000000 00000007 00000008 00000016");
    IS(cvz_server_pump(&server, circuit), 0);
    OUTPUT(circuit, "00130000 00050001 00000001 00000007  00010008 00050001 00000001 00000009 00000016 00000000");
    IS(cvz_server_applied(&server), 1);
    give(circuit, "00120008 00000000 00010001 0000000d 534c4f57 00000000  00130008 00050001 00010001 00000008 00000017 00000000");
    STEP(circuit, CVZ_CREATED, 65537, 0);
    STEP(circuit, CVZ_BUSIED, 65537, 0);
    BUSY("SLOW", 0, "00000017");
    OUTPUT(circuit, "00160000 00000000 00010001 00000003  00120000 00050001 00010001 00010001");
    give(circuit, "00130008 00050001 00010001 0000000a 00000018 00000000");
    STEP(circuit, CVZ_QUEUED, 65537, 0);
    FIRST("SLOW", circuit);
    FIRST("TEMP", 7);
    IS(cvz_server_waiting(&server), 1);
    IS(cvz_server_applied(&server), 2);
    BUSY("SLOW", 0, "00000017");
    IS(cvz_server_finish(&server, T("SLOW")), 0);
    OUTPUT(circuit, "00130000 00050001 00000001 00000008");
    IS(cvz_server_applied(&server), 3);
    BUSY("SLOW", 0, "00000018");
    FIRST("SLOW", 7);
    IS(cvz_server_finish(&server, T("SLOW")), 0);
    BUSY("SLOW", CVZ_NOT_BUSY, "");
    IS(cvz_server_finish(&server, T("SLOW")), CVZ_NOT_BUSY);
    OUTPUT(circuit, "00130000 00050001 00000001 0000000a");
}

/* A put makes SLOW busy; one of another circuit waits, and then one of the first. */
static void waits(uint64_t circuit)
{
    uint64_t other;
    IS(cvz_server_accept(&server, &other), 0);
    give(other, "00120008 00000000 00000001 0000000d 534c4f57 00000000");
    STEP(other, CVZ_CREATED, 65536, 0);
    give(circuit, "00130008 00050001 00010001 00000001 00000001 00000000");
    STEP(circuit, CVZ_BUSIED, 65537, 0);
    FIRST("SLOW", 7);
    give(other, "00130008 00050001 00010000 00000002 00000002 00000000");
    STEP(other, CVZ_QUEUED, 65536, 0);
    give(circuit, "00130008 00050001 00010001 00000003 00000003 00000000");
    STEP(circuit, CVZ_QUEUED, 65537, 0);
    FIRST("SLOW", other);
    IS(cvz_server_finish(&server, T("SLOW")), 0);
    FIRST("SLOW", circuit);
    IS(cvz_server_finish(&server, T("SLOW")), 0);
    FIRST("SLOW", 7);
    IS(cvz_server_finish(&server, T("SLOW")), 0);
    OUTPUT(circuit, "00130000 00050001 00000001 00000001  00130000 00050001 00000001 00000003");
    OUTPUT(other, "00160000 00000000 00000001 00000003  00120000 00050001 00000001 00010000  00130000 00050001 00000001 00000002");
}

/* A WRITE under a SID that no channel has, one of no element, and a WRITE_NOTIFY of a type that no put has. */
static void refuses(uint64_t circuit)
{
    give(circuit, "00040008 00050001 00050000 00000001 00000005 00000000  00040008 00050000 00010000 00000002 00000005 00000000");
    give(circuit, "00130008 00070001 00010001 00000003 00000005 00000000");
    STEP(circuit, CVZ_WRITE_REFUSED, 327680, 0);
    STEP(circuit, CVZ_WRITE_REFUSED, 65536, 0);
    STEP(circuit, CVZ_WRITE_REFUSED, 65537, 0);
    OUTPUT(circuit, "000b0018 00000000 ffffffff 0000019a 00040008 00050001 00050000 00000001 00000000 00000000"
                    "  000b0018 00000000 00010000 000000b0 00040008 00050000 00010000 00000002 00000000 00000000"
                    "  00130000 00070001 00000072 00000003");
    IS(cvz_server_applied(&server), 6);
    VALUE("TEMP", CVZ_LONG, 0, 1, "00000016");
}

/* On a circuit of its own: CREATE_CHAN of TEMP, and of a record that is not served, EVENT_ADD, EVENTS_OFF, EVENTS_ON, EVENT_CANCEL and CLEAR_CHANNEL. */
static void effects(void)
{
    uint64_t circuit;
    IS(cvz_server_accept(&server, &circuit), 0);
    give(circuit, "00120008 00000000 00000001 0000000d 54454d50 00000000  00120008 00000000 00000002 0000000d 4e4f4e45 00000000");
    give(circuit, "00010010 00050001 00010000 0000000b 00000000 00000000 00000000 00010000  00080000 00000000 00000000 00000000");
    give(circuit, "00090000 00000000 00000000 00000000  00020000 00050001 00010000 0000000b  000c0000 00000000 00010000 00000001");
    STEP(circuit, CVZ_CREATED, 65536, 0);
    STEP(circuit, CVZ_REFUSED, 0, 0);
    STEP(circuit, CVZ_SUBSCRIBED, 65536, 11);
    STEP(circuit, CVZ_EVENTS_OFF, 0, 0);
    STEP(circuit, CVZ_EVENTS_ON, 0, 0);
    STEP(circuit, CVZ_CANCELLED, 65536, 11);
    STEP(circuit, CVZ_CLEARED, 65536, 0);
}

/* A search for TEMP, and one for a record that is not served; and beacons. */
static void datagrams(void)
{
    uint8_t bytes[64];
    IS(cvz_server_datagram(&server, bytes, unhex("00060008 0005000d 00000003 00000003 54454d50 00000000", bytes)), 0);
    bytes_are(__LINE__, room, cvz_server_answer(&server, room, sizeof room),
              "00000000 0000000d 00000000 00000000  00060008 13c80000 ffffffff 00000003 000d0000 00000000");
    IS(cvz_server_answer(&server, room, sizeof room), 0);
    IS(cvz_server_datagram(&server, bytes, unhex("00060008 0005000d 00000003 00000003 4e4f4e45 00000000", bytes)), 0);
    IS(cvz_server_answer(&server, room, sizeof room), 0);
    bytes_are(__LINE__, room, cvz_server_beacon(&server, 1000, room, sizeof room), "000d0000 000d13c8 00000000 00000000");
    IS(cvz_server_beacon(&server, 1000, room, sizeof room), 0);
}

/* A record goes, a message breaks a circuit, a circuit is cut; and the handles that are old then. */
static void ends(uint64_t circuit)
{
    cvz_step did;
    uint64_t other, next;
    uint8_t byte = 0;
    IS(cvz_server_remove(&server, T("TEMP")), 0);
    OUTPUT(circuit, "001b0000 00000000 00010000 00000000");
    IS(cvz_server_accept(&server, &other), 0);
    IS(cvz_server_cut(&server, other), 0);
    IS(cvz_server_give(&server, other, &byte, 1), CVZ_CIRCUIT_CLOSED);
    IS(cvz_server_step(&server, other, &did), CVZ_CLOSED);
    IS(did.cause, CVZ_CAUSE_CUT);
    give(circuit, "00170000 00000000 00000000 00000000  00170001 00000000 00000000 00000000");
    IS(cvz_server_step(&server, circuit, &did), CVZ_HANDLED);
    IS(cvz_server_step(&server, circuit, &did), CVZ_CLOSED);
    IS(did.cause, CVZ_CAUSE_MISALIGNED);
    IS(cvz_server_left(&server, room, 6), 6);
    bytes_are(__LINE__, room, 6, "00170000 0000");
    IS(cvz_server_left(&server, room, sizeof room), 10);
    IS(cvz_server_left(&server, room, sizeof room), 0);
    IS(cvz_server_step(&server, circuit, &did), CVZ_CLOSED);
    IS(did.cause, CVZ_CAUSE_CUT);
    IS(cvz_server_give(&server, circuit, &byte, 1), CVZ_CIRCUIT_CLOSED);
    IS(cvz_server_output(&server, circuit, room, sizeof room), 0);
    CALLED(circuit, "", "");
    CALLED(UINT64_MAX, "", "");
    VALUE("TEMP", CVZ_LONG, CVZ_UNKNOWN_RECORD, 0, "");
    IS(cvz_server_sent(&server, circuit, 1), CVZ_OUT_OF_RANGE);
    IS(cvz_server_accept(&server, &next), 0);
    IS(next != circuit && next != other, 1);
    IS(cvz_server_step(&server, UINT64_MAX, &did), CVZ_CLOSED);
    IS(cvz_server_pump(&server, UINT64_MAX), 0);
    IS(cvz_server_cut(&server, 0), 0);
}

/* A server of a record file: an INT of two elements that is slow, and rules by which `me` at `here` may do less than others. */
static void loads(void)
{
    uint64_t circuit;
    uint8_t image[4] = {0, 0, 0, 21};
    IS(cvz_server_load(&server, 5064, 0, T("record SETP INT 2 slow 1 -2\nrule me here SETP w\nrule me * LATE -\nrule * * LATE r")), 0);
    IS(cvz_server_add(&server, T("LATE"), 1, false, CVZ_LONG, 1, image, 4), 0);
    IS(cvz_server_add(&server, T("SETP"), 1, false, CVZ_LONG, 1, image, 4), CVZ_RECORD_EXISTS);
    IS(cvz_server_accept(&server, &circuit), 0);
    give(circuit, "00140008 00000000 00000000 00000000 6d650000 00000000  00150008 00000000 00000000 00000000 68657265 00000000");
    give(circuit, "00120008 00000000 00000001 0000000d 53455450 00000000  00120008 00000000 00000002 0000000d 4c415445 00000000");
    give(circuit, "000f0000 00010002 00010000 00000001  00130008 00010002 00010000 00000008 00050006 00000000");
    STEP(circuit, CVZ_QUIET, 0, 0);
    STEP(circuit, CVZ_QUIET, 0, 0);
    STEP(circuit, CVZ_CREATED, 65536, 0);
    STEP(circuit, CVZ_CREATED, 65537, 0);
    STEP(circuit, CVZ_QUIET, 0, 0);
    STEP(circuit, CVZ_BUSIED, 65536, 0);
    BUSY("SETP", 0, "00050006");
    VALUE("SETP", CVZ_INT, 0, 2, "00050006");
    VALUE("SETP", CVZ_TIME + CVZ_INT, 0, 2, "00000000 00000000 00000000 0000 00050006");
    CALLED(circuit, "me", "here");
    OUTPUT(circuit, "00160000 00000000 00000001 00000002  00120000 00010002 00000001 00010000"
                    "  00160000 00000000 00000002 00000000  00120000 00050001 00000002 00010001"
                    "  000f0000 00010002 00000170 00000001");
    give(circuit, "00140008 00000000 00000000 00000000 796f7500 00000000");
    STEP(circuit, CVZ_QUIET, 0, 0);
    CALLED(circuit, "me", "here");
    IS(cvz_server_cut(&server, circuit), 0);
    CALLED(circuit, "", "");
    IS(cvz_server_accept(&server, &circuit), 0);
    CALLED(circuit, "", "");
    give(circuit, "00150008 00000000 00000000 00000000 68616c6c 00000000");
    STEP(circuit, CVZ_QUIET, 0, 0);
    CALLED(circuit, "", "hall");
    give(circuit, "00120008 00000000 00000001 0000000d 53455450 00000000  00120008 00000000 00000002 0000000d 4c415445 00000000");
    STEP(circuit, CVZ_CREATED, 65536, 0);
    STEP(circuit, CVZ_CREATED, 65537, 0);
    OUTPUT(circuit, "00160000 00000000 00000001 00000003  00120000 00010002 00000001 00010000"
                    "  00160000 00000000 00000002 00000001  00120000 00050001 00000002 00010001");
    IS(cvz_server_load(&server, 5064, 0, T("record SETP INT 1 slow")), CVZ_BAD_TEXT);
    IS(cvz_server_load(&server, 5064, 0, T("rule * * TEMP rx\n")), CVZ_BAD_TEXT);
    BUSY("SETP", 0, "00050006");
    IS(cvz_server_load(&server, 5064, 0, T("")), 0);
    BUSY("SETP", CVZ_NOT_BUSY, "");
    IS(cvz_server_remove(&server, T("SETP")), CVZ_UNKNOWN_RECORD);
}

/* A READ_NOTIFY of one element of SID 65536, and the reply. */
static void is_read(uint64_t circuit, unsigned type, const char *image)
{
    char text[4096];
    uint8_t bytes[4096];
    const size_t size = unhex(image, bytes), padded = (size + 7) / 8 * 8;
    snprintf(text, sizeof text, "000f0000 %04x0001 00010000 00000009", type);
    give(circuit, text);
    STEP(circuit, CVZ_QUIET, 0, 0);
    snprintf(text, sizeof text, "000f%04x %04x0001 00000001 00000009 %s", (unsigned)padded, type, image);
    for (size_t at = size; at < padded; at++)
        strcat(text, " 00");
    OUTPUT(circuit, text);
}

/* The display data of GAIN are set: whoever subscribed to properties gets them with the value, which stays, and nobody else. */
static void changes(uint64_t circuit, const uint8_t *gain)
{
    uint8_t image[88];
    memcpy(image, gain, 88);
    memcpy(image + 8, "V\0\0\0\0\0\0", 8);
    memset(image + 80, 1, 8);
    give(circuit, "00010010 00220001 00010000 00000009 00000000 00000000 00000000 00080000");
    STEP(circuit, CVZ_SUBSCRIBED, 65536, 9);
    give(circuit, "00010010 00220001 00010000 0000000a 00000000 00000000 00000000 00070000");
    STEP(circuit, CVZ_SUBSCRIBED, 65536, 10);
    IS(cvz_server_pump(&server, circuit), 0);
    IS(cvz_server_sent(&server, circuit, 2 * (16 + 88)), 0);
    IS(cvz_server_set_display(&server, T("NONE"), CVZ_CONTROL + CVZ_DOUBLE, 1, image, 88), CVZ_UNKNOWN_RECORD);
    IS(cvz_server_set_display(&server, T("GAIN"), CVZ_DOUBLE, 1, image, 88), CVZ_BAD_TYPE);
    IS(cvz_server_set_display(&server, T("GAIN"), CVZ_CONTROL + CVZ_DOUBLE, 1, image, 87), CVZ_SHORT);
    IS(cvz_server_set_display(&server, T("GAIN"), CVZ_CONTROL + CVZ_DOUBLE, 1, image, 88), 0);
    IS(cvz_server_pump(&server, circuit), 0);
    IS(cvz_server_output(&server, circuit, room, sizeof room), 16 + 88);
    memcpy(image + 80, gain + 80, 8);
    IS(memcmp(room, "\0\1\0\130\0\42\0\1\0\0\0\1\0\0\0\11", 16) == 0 && memcmp(room + 16, image, 88) == 0, 1);
    IS(cvz_server_sent(&server, circuit, 16 + 88), 0);
}

/* Records with display data: that of which the images were recorded, and one of three states; and images that are refused. */
static void displays(void)
{
    uint64_t circuit;
    uint8_t gain[88], state[424] = {0, 7, 0, 1, 0, 3};
    IS(unhex(recorded[11].image, gain), 88);
    memcpy(state + 6, "off", 3);
    memcpy(state + 32, "on", 2);
    memcpy(state + 58, "failed, but still running", 25);
    state[423] = 1;
    IS(cvz_server_add(&server, T("GAIN"), 1, false, CVZ_CONTROL + CVZ_DOUBLE, 1, gain, 87), CVZ_SHORT);
    IS(cvz_server_add(&server, T("GAIN"), 1, false, CVZ_CONTROL + CVZ_DOUBLE, 2, gain, 88), CVZ_SHORT);
    IS(cvz_server_add(&server, T("GAIN"), 1, false, 35, 1, gain, 88), CVZ_BAD_TYPE);
    IS(cvz_server_add(&server, T(""), 1, false, CVZ_CONTROL + CVZ_DOUBLE, 1, gain, 88), CVZ_NAME_LENGTH);
    IS(cvz_server_add(&server, T("GAIN"), 1, false, CVZ_CONTROL + CVZ_DOUBLE, 1, gain, 88), 0);
    IS(cvz_server_add(&server, T("GAIN"), 1, false, CVZ_CONTROL + CVZ_DOUBLE, 1, gain, 88), CVZ_RECORD_EXISTS);
    IS(cvz_server_add(&server, T("STATE"), 1, true, CVZ_GRAPHIC + CVZ_ENUM, 1, state, sizeof state), 0);
    VALUE("STATE", CVZ_STS + CVZ_ENUM, 0, 1, "00000000 0001");
    state[5] = 17;
    IS(cvz_server_add(&server, T("NONE"), 1, false, CVZ_CONTROL + CVZ_ENUM, 1, state, sizeof state), CVZ_BAD_COUNT);
    state[5] = 3;
    VALUE("NONE", CVZ_ENUM, CVZ_UNKNOWN_RECORD, 0, "");
    IS(cvz_server_accept(&server, &circuit), 0);
    give(circuit, "00120008 00000000 00000001 0000000d 4741494e 00000000");
    STEP(circuit, CVZ_CREATED, 65536, 0);
    OUTPUT(circuit, "00160000 00000000 00000001 00000003  00120000 00060001 00000001 00010000");
    for (size_t at = 0; at < sizeof recorded / sizeof recorded[0]; at++)
        is_read(circuit, recorded[at].type, recorded[at].image);
    IS(cvz_server_post(&server, T("GAIN"), CVZ_MASK_VALUE, CVZ_CONTROL + CVZ_DOUBLE, 1, gain, 88), CVZ_BAD_TYPE);
    changes(circuit, gain);
    IS(cvz_server_accept(&server, &circuit), 0);
    give(circuit, "00120008 00000000 00000001 0000000d 53544154 45000000");
    STEP(circuit, CVZ_CREATED, 65536, 0);
    OUTPUT(circuit, "00160000 00000000 00000001 00000003  00120000 00030001 00000001 00010000");
    is_read(circuit, CVZ_STRING, "6f6e0000 00000000 00000000 00000000 00000000 00000000 00000000 00000000 00000000 00000000");
    give(circuit, "000f0000 001f0001 00010000 00000009");
    STEP(circuit, CVZ_QUIET, 0, 0);
    IS(cvz_server_output(&server, circuit, room, sizeof room), 16 + 424);
    memset(state, 0, 4);               /* status and severity were not taken */
    IS(memcmp(room, "\0\17\1\250\0\37\0\1\0\0\0\1\0\0\0\11", 16) == 0 && memcmp(room + 16, state, sizeof state) == 0, 1);
    IS(cvz_server_sent(&server, circuit, 16 + 424), 0);
}

int main(int argc, char **argv)
{
    uint64_t circuit = 0;
    (void)argv;
    IS(cvz_version(), CVZ_VERSION_MAJOR * 65536 + CVZ_VERSION_MINOR);
    nothing_is_there();
    cvz_server_free(&server);
    IS(cvz_server_new(&server, 5064, 1000), 0);
    records();
    IS(cvz_server_accept(&server, &circuit), 0);
    reads(circuit);
    writes(circuit);
    waits(circuit);
    refuses(circuit);
    effects();
    datagrams();
    ends(circuit);
    loads();
    displays();
    if (argc > 1)
        cvz_server_beacon(&server, 1000, malloc(8), 16);
    IS(cvz_server_new(&server, 5065, 0), 0);
    IS(cvz_server_applied(&server), 0);
    cvz_server_free(&server);
    cvz_server_free(&server);
    nothing_is_there();
    printf("%d passed, %d failed\n", passed, failed);
    return failed != 0;
}
