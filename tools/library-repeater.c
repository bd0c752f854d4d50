/* A repeater's calls, each with the answer that it has to give, worked by hand from the protocol: see tools/library. */
#include "library-test.h"

#define REGISTER "00180000 00000000 00000000 7f000001"
#define CONFIRM "00110000 00000000 00000000 7f000001"
#define BLANK "000d0000 000d13c8 00000007 00000000"
#define HERE 0x7f000001
#define THERE 0x0a000009               /* 10.0.0.9, another host */

static cvz_repeater repeater;
static uint8_t room[65536];

/* These bytes come from this address. */
static void come(uint32_t host, uint16_t port, const char *text)
{
    uint8_t bytes[4096];
    cvz_address from = {host, port};
    IS(cvz_repeater_datagram(&repeater, &from, bytes, unhex(text, bytes)), 0);
}

/* The next datagram that is to be sent goes to this port of the host, and is this. */
#define GOES(port_, wanted) do { \
    cvz_address to = {0, 0}; \
    size_t size = cvz_repeater_outgoing(&repeater, &to, room, sizeof room); \
    IS(to.host, HERE); \
    IS(to.port, port_); \
    bytes_are(__LINE__, room, size, wanted); \
} while (0)

#define NO_MORE() do { \
    cvz_address to = {7, 7}; \
    IS(cvz_repeater_outgoing(&repeater, &to, room, sizeof room), 0); \
    IS(to.host == 7 && to.port == 7, 1); \
} while (0)

static void nothing_is_there(void)
{
    cvz_address from = {HERE, 40001};
    IS(cvz_repeater_datagram(&repeater, &from, room, 0), CVZ_NO_OBJECT);
    NO_MORE();
    IS(cvz_repeater_refused(&repeater, &from), CVZ_NO_OBJECT);
}

/* Clients register: by the message, and by an empty datagram; again; from another host; and with more in the same datagram. */
static void registers(void)
{
    come(HERE, 40001, BLANK);
    NO_MORE();
    come(HERE, 40001, REGISTER);
    GOES(40001, CONFIRM);
    NO_MORE();
    come(HERE, 40002, "");
    GOES(40002, CONFIRM);
    NO_MORE();
    come(HERE, 40001, REGISTER);
    GOES(40001, CONFIRM);
    NO_MORE();
    come(THERE, 40001, REGISTER);
    NO_MORE();
    come(HERE, 40003, REGISTER BLANK);
    GOES(40003, CONFIRM);
    GOES(40001, BLANK);
    GOES(40002, BLANK);
    NO_MORE();
}

/* A beacon with no address gets its sender's; one with an address, and what is no message, go on as they are; none to the sender. */
static void hands_on(void)
{
    cvz_address to, gone = {HERE, 40002}, other = {THERE, 40001};
    come(THERE, 5064, BLANK);
    GOES(40001, "000d0000 000d13c8 00000007 0a000009");
    GOES(40002, "000d0000 000d13c8 00000007 0a000009");
    GOES(40003, "000d0000 000d13c8 00000007 0a000009");
    NO_MORE();
    come(HERE, 5064, "000d0000 000d13c8 00000007 0a000008");
    GOES(40001, "000d0000 000d13c8 00000007 0a000008");
    come(HERE, 40002, BLANK);
    GOES(40001, "000d0000 000d13c8 00000007 7f000001");
    GOES(40003, "000d0000 000d13c8 00000007 7f000001");
    NO_MORE();
    come(THERE, 5064, "010203");
    memset(room, 9, 4);
    IS(cvz_repeater_outgoing(&repeater, &to, room, 2), 2);
    bytes_are(__LINE__, room, 4, "01020909");
    GOES(40002, "010203");
    IS(cvz_repeater_refused(&repeater, &gone), 0);
    IS(cvz_repeater_refused(&repeater, &gone), 0);
    IS(cvz_repeater_refused(&repeater, &other), 0);
    GOES(40003, "010203");
    NO_MORE();
    come(THERE, 5064, "010203");
    GOES(40001, "010203");
    GOES(40003, "010203");
    NO_MORE();
    come(HERE, 40002, "");
    GOES(40002, CONFIRM);
}

/* 64 members, in order of registration: 40001, 40003, 40002 and 41000 to 41060. The next gets nothing, until one is gone. */
static void is_full(void)
{
    cvz_address gone = {HERE, 40003};
    for (uint16_t port = 41000; port <= 41060; port++) {
        come(HERE, port, REGISTER);
        GOES(port, CONFIRM);
    }
    come(HERE, 42000, REGISTER);
    NO_MORE();
    come(HERE, 40003, "");
    GOES(40003, CONFIRM);
    come(THERE, 5064, "010203");
    GOES(40001, "010203");
    GOES(40003, "010203");
    GOES(40002, "010203");
    for (uint16_t port = 41000; port <= 41060; port++)
        GOES(port, "010203");
    NO_MORE();
    IS(cvz_repeater_refused(&repeater, &gone), 0);
    come(HERE, 42000, REGISTER);
    GOES(42000, CONFIRM);
    come(HERE, 40003, REGISTER);
    NO_MORE();
    come(HERE, 41060, "010203");
    GOES(40001, "010203");
    GOES(40002, "010203");
    for (uint16_t port = 41000; port < 41060; port++)
        GOES(port, "010203");
    GOES(42000, "010203");
    NO_MORE();
}

int main(void)
{
    nothing_is_there();
    cvz_repeater_free(&repeater);
    IS(cvz_repeater_new(&repeater), 0);
    NO_MORE();
    registers();
    hands_on();
    is_full();
    IS(cvz_repeater_new(&repeater), 0);
    come(THERE, 5064, BLANK);
    NO_MORE();
    cvz_repeater_free(&repeater);
    cvz_repeater_free(&repeater);
    nothing_is_there();
    printf("%d passed, %d failed\n", passed, failed);
    return failed != 0;
}
