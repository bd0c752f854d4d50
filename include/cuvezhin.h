/* cuvezhin.h: both ends of EPICS Channel Access, protocol 4.13, and its repeater, for C11 and C++17.
 *
 * The library does no input or output, has no thread and no clock. You have the sockets: bytes that came go in, bytes that are to be sent come
 * out, and moments are handed in, in milliseconds of any clock that does not go back. docs/EMBEDDING.md goes from nothing to a server
 * and a client.
 *
 * What each call does is proved. That rests on these promises of yours, which nothing checks:
 *
 *   1. A struct of an object (cvz_server, cvz_client, cvz_repeater) is all zero before its first use, is written by these calls alone, and is not copied while it
 *      has an object.
 *   2. Each pointer is to what its type says, and none is NULL, also where its count is 0. A count is no more than what is there.
 *   3. What is passed to one call to be written overlaps nothing else that is passed to it.
 *   4. A bool is 0 or 1.
 *   5. One call at a time is made on one object. Another thread may make the next one, after a lock, a start or join of a thread, or a
 *      sequentially consistent atomic: the library has no global state, so calls on different objects may be made at once.
 *   6. No call is made from a signal handler, nor in the child of a fork of a process with threads.
 *   7. malloc, realloc and free are of one allocator, which aligns to 16.
 *   8. The library that the program runs with serves the header that it was compiled with (see cvz_version).
 *
 * What you need not promise: that an object is there, or that a handle still names something. Each call tests that, and answers
 * CVZ_NO_OBJECT, a refusal or 0.
 *
 * Ownership: a struct owns its object, and the call that ends in _free gives its memory back; it may be called again. Nothing that you pass
 * is kept: each call copies what it needs. Nothing is lent to you: bytes are copied to your room.
 *
 * Answers: an int32_t is 0, or what the call says, or below zero a refusal. A refusal changes nothing. A size_t is how many bytes were
 * written, or what the call says. Memory is asked of malloc, and a call that gets none is refused by CVZ_OUT_OF_MEMORY, or closes the circuit that needed it.
 *
 * Handles of circuits, channels, requests and subscriptions are numbers. No handle is given twice by one object for the same kind of thing, so
 * a call with an old one finds nothing. The low 48 bits count; no handle has others.
 */
#ifndef CUVEZHIN_H
#define CUVEZHIN_H

#include <stdbool.h>
#include <stddef.h>
#include <stdint.h>

#ifdef __cplusplus
extern "C" {
#endif

/* ---- the version */

#define CVZ_VERSION_MAJOR 1
#define CVZ_VERSION_MINOR 4

/* The version of the library: 65,536 times its first number, and its second. A library serves each program whose header has the same first
 * number, and a second one that is not greater: calls are added, and none changes or goes. */
uint32_t cvz_version(void);

/* ---- refusals */

enum {
    CVZ_OUT_OF_MEMORY = -1,
    CVZ_MISALIGNED = -2,
    CVZ_TOO_LARGE = -3,
    CVZ_BAD_TYPE = -4,               /* no such type, or not the record's */
    CVZ_SHORT = -5,                  /* fewer bytes than the elements take */
    CVZ_NO_CONVERT = -6,
    CVZ_OUT_OF_RANGE = -7,
    CVZ_BAD_TEXT = -8,
    CVZ_ARENA_FULL = -9,             /* no handle is free: 65,536 circuits */
    CVZ_STALE_HANDLE = -10,
    CVZ_DRAINING = -11,
    CVZ_NAME_LENGTH = -12,           /* a name that is empty, over 60 bytes, or has a zero byte */
    CVZ_NOT_LIVE = -13,
    CVZ_NO_ACCESS = -14,
    CVZ_BAD_COUNT = -15,             /* more elements than there may be, or none */
    CVZ_DISCONNECTED = -16,
    CVZ_CIRCUIT_CLOSED = -17,
    CVZ_TOO_MANY_SUBSCRIPTIONS = -18,
    CVZ_DATAGRAM_TOO_LONG = -19,
    CVZ_UNKNOWN_RECORD = -20,
    CVZ_NOT_BUSY = -21,
    CVZ_BAD_EVENT = -22,
    CVZ_DEVICE = -23,
    CVZ_NO_CELL = -24,
    CVZ_BAD_PRIORITY = -25,
    CVZ_OUTPUT_FULL = -26,
    CVZ_SERVER_REFUSED = -27,
    CVZ_RECORD_EXISTS = -28,
    CVZ_NO_OBJECT = -100             /* the struct has no object */
};

/* ---- values
 *
 * A value crosses as its image: what a payload of Channel Access has, big-endian. An image of a type begins with what the type carries beside
 * the value, and then has the elements.
 *
 *   STRING 0: 40 bytes each, zero-filled      INT 1: 2 bytes      FLOAT 2: 4      ENUM 3: 2      CHAR 4: 1      LONG 5: 4      DOUBLE 6: 8
 *   7 to 13: the same with status and severity, 2 bytes each, and padding      14 to 20: with a time stamp too, seconds since 1990 and
 *   nanoseconds, 4 bytes each, and padding
 *
 * Images with display data, 21 to 34, are taken since 1.3 by cvz_server_add and cvz_server_set_display, and since 1.4 asked for by cvz_client_read. They begin
 * with status and severity, 2 bytes each, and then have
 *
 *   INT, CHAR, LONG: the units, 8 bytes, zero-filled; limits of the type; of CHAR a byte of padding
 *   FLOAT, DOUBLE: the precision, 2 bytes; 2 of padding; units and limits
 *   ENUM: the number of states, 2 bytes; the names of 16 states, 26 bytes each, zero-filled
 *   STRING: nothing
 *
 * The limits are 6: upper and lower of display, upper alarm, upper and lower warning, lower alarm. From 28 on upper and lower of control follow.
 */
enum {
    CVZ_STRING = 0, CVZ_INT = 1, CVZ_FLOAT = 2, CVZ_ENUM = 3, CVZ_CHAR = 4, CVZ_LONG = 5, CVZ_DOUBLE = 6,
    CVZ_STS = 7,                     /* added to one of these: with status and severity */
    CVZ_TIME = 14,                   /* added to one of these: with a time stamp too */
    CVZ_GRAPHIC = 21,                /* added to one of these: with display data. Since 1.3 */
    CVZ_CONTROL = 28                 /* added to one of these: with limits of control too. Since 1.3 */
};

/* An IPv4 address, its first number in the highest byte, and a port: both as numbers of this machine. */
typedef struct cvz_address {
    uint32_t host;
    uint16_t port;
} cvz_address;

/* Which changes a subscription is told of. A write is a change of value, and one for the archive; a change of display data, one of properties. */
enum { CVZ_MASK_VALUE = 1, CVZ_MASK_LOG = 2, CVZ_MASK_ALARM = 4, CVZ_MASK_PROPERTY = 8 };

/* ---- a server */

typedef struct cvz_server {
    void *at;
} cvz_server;

/* What a step did. */
enum { CVZ_NEEDS_BYTES = 0, CVZ_HANDLED = 1, CVZ_STEP_OUTPUT_FULL = 2, CVZ_CLOSED = 3 };

/* What a message that was handled did, beside its replies. */
enum {
    CVZ_QUIET = 0,                   /* nothing of which you have to know */
    CVZ_WROTE = 1,                   /* a record was written */
    CVZ_BUSIED = 2,                  /* a record was written and is busy: process cvz_server_busy, then call cvz_server_finish */
    CVZ_QUEUED = 3,                  /* a put waits behind another */
    CVZ_REFUSED = 4,                 /* a channel was refused */
    CVZ_CREATED = 5,                 /* a channel was created */
    CVZ_CLEARED = 6,                 /* a channel was cleared, if it was open */
    CVZ_SUBSCRIBED = 7,              /* a subscription began */
    CVZ_CANCELLED = 8,               /* a subscription ended, if it was there */
    CVZ_EVENTS_OFF = 9,              /* the client wants no updates for now */
    CVZ_EVENTS_ON = 10,              /* it wants them again */
    CVZ_WRITE_REFUSED = 11           /* a write or a put was refused. Since 1.2 */
};

/* Why an end has closed. */
enum { CVZ_CAUSE_OUT_OF_MEMORY = 1, CVZ_CAUSE_MISALIGNED = 2, CVZ_CAUSE_TOO_LARGE = 3, CVZ_CAUSE_CUT = 4 };

typedef struct cvz_step {
    uint32_t effect;                 /* CVZ_QUIET to CVZ_WRITE_REFUSED */
    uint32_t sid;                    /* of the channel, of CVZ_BUSIED, CVZ_CREATED, CVZ_CLEARED, CVZ_SUBSCRIBED and CVZ_CANCELLED, and since 1.2 of
                                        CVZ_WROTE, CVZ_QUEUED and CVZ_WRITE_REFUSED (for this what the message says, whether or not a channel is open
                                        under it); else 0 */
    uint32_t subscription;           /* the client's id of it, of CVZ_SUBSCRIBED and CVZ_CANCELLED, else 0 */
    uint32_t cause;                  /* after CVZ_CLOSED, else 0 */
} cvz_step;

/* Makes a server of this TCP port that begins at this moment, with no record. An object that the struct had is freed.
 * 0 or CVZ_OUT_OF_MEMORY; then the struct has what it had. */
int32_t cvz_server_new(cvz_server *server, uint16_t port, uint64_t now);

/* The same, with the records and the rules of access that this text says, as a record file of `ca serve --records` does. Its lines are, in any
 * order, with one blank between two words:
 *
 *   record NAME TYPE COUNT quick|slow VALUE ..      rule USER HOST NAME rw|r|w|-
 *
 * The first rule that meets a client's user and host and the record's name says whether it may read and write that; `*` meets all. What no rule
 * meets may be read and written. Records may be added later, rules may not. 0, CVZ_BAD_TEXT if a line is not understood, or CVZ_OUT_OF_MEMORY;
 * then the struct has what it had. Since 1.1. */
int32_t cvz_server_load(cvz_server *server, uint16_t port, uint64_t now, const uint8_t *text, size_t text_size);

/* Frees the server, if there is one. */
void cvz_server_free(cvz_server *server);

/* Serves one more record: its name, the greatest count of elements, whether it is slow (a put with notification makes it busy, until
 * cvz_server_finish), and its value, an image of one of the types 0 to 6. Since 1.3 that may be of a type from 21 to 34: then the record also has
 * the display data of the image, which clients read in these types; what the image lacks is zero or empty. Status and severity are not taken: each put
 * sets the alarm by the limits, of which one that is NaN is at no value.
 * 0, CVZ_BAD_TYPE, CVZ_SHORT, CVZ_NAME_LENGTH, CVZ_RECORD_EXISTS, CVZ_BAD_COUNT (also for over 16 states) or CVZ_OUT_OF_MEMORY. */
int32_t cvz_server_add(cvz_server *server, const uint8_t *name, size_t name_size, uint32_t greatest, bool slow, uint16_t type, uint32_t count,
                       const uint8_t *image, size_t image_size);

/* Serves the record no more. Its channels are told, and its puts that wait are never applied. 0 or CVZ_UNKNOWN_RECORD. */
int32_t cvz_server_remove(cvz_server *server, const uint8_t *name, size_t name_size);

/* The record has this value from now on, with the alarm and the time stamp of the image, and it reaches each subscription whose mask shares a bit
 * with this one. 0, CVZ_BAD_TYPE, CVZ_SHORT, CVZ_UNKNOWN_RECORD, CVZ_BAD_COUNT or CVZ_OUT_OF_MEMORY. */
int32_t cvz_server_post(cvz_server *server, const uint8_t *name, size_t name_size, uint16_t mask, uint16_t type, uint32_t count,
                        const uint8_t *image, size_t image_size);

/* The record is shown by the display data of this image from now on, which is of a type from 21 to 34: its value, status and severity are not taken. Puts
 * that wait for the record will be shown so, too. The record's value stays, and reaches each subscription whose mask has CVZ_MASK_PROPERTY.
 * 0, CVZ_BAD_TYPE, CVZ_SHORT, CVZ_BAD_COUNT (over 16 states), CVZ_UNKNOWN_RECORD or CVZ_OUT_OF_MEMORY. Since 1.3. */
int32_t cvz_server_set_display(cvz_server *server, const uint8_t *name, size_t name_size, uint16_t type, uint32_t count, const uint8_t *image,
                               size_t image_size);

/* Writes of clients that are applied from now on have this time stamp: seconds since 1990-01-01 00:00:00 UTC, and nanoseconds. 0. */
int32_t cvz_server_stamp(cvz_server *server, uint32_t seconds, uint32_t nanoseconds);

/* Finishes the put that makes the record busy: its reply goes out, and the next put that waits is applied and makes it busy, which no step tells:
 * ask cvz_server_busy. 0, CVZ_UNKNOWN_RECORD or CVZ_NOT_BUSY. */
int32_t cvz_server_finish(cvz_server *server, const uint8_t *name, size_t name_size);

/* The value for which a put makes the record busy, which is what is to be processed: copies its image in the record's own type, 0 to 6, as far as
 * the room takes it, and writes how long it is. 0, CVZ_NOT_BUSY if no put makes a record of this name busy, or CVZ_OUT_OF_MEMORY. Since 1.1. */
int32_t cvz_server_busy(cvz_server *server, const uint8_t *name, size_t name_size, uint8_t *room, size_t room_size, size_t *size);

/* The record's value now: writes its count, copies its image, as far as the room takes it, and writes how long that is. The type is the record's
 * own, 0 to 6, or that plus CVZ_STS or CVZ_TIME. 0, CVZ_UNKNOWN_RECORD, CVZ_BAD_TYPE or CVZ_OUT_OF_MEMORY. Since 1.2. */
int32_t cvz_server_value(cvz_server *server, const uint8_t *name, size_t name_size, uint16_t type, uint32_t *count, uint8_t *room, size_t room_size,
                         size_t *size);

/* The circuit of the put that waits longest for the record, which cvz_server_finish applies next. 1, or 0 if none waits, or no record has the name.
 * Since 1.2. */
int32_t cvz_server_first(cvz_server *server, const uint8_t *name, size_t name_size, uint64_t *circuit);

/* A circuit was accepted: writes its handle. 0, CVZ_ARENA_FULL or CVZ_OUT_OF_MEMORY. */
int32_t cvz_server_accept(cvz_server *server, uint64_t *circuit);

/* These bytes came on the circuit. 0, CVZ_CIRCUIT_CLOSED or CVZ_OUT_OF_MEMORY. */
int32_t cvz_server_give(cvz_server *server, uint64_t circuit, const uint8_t *bytes, size_t size);

/* Handles the circuit's next message, and writes what it did. CVZ_NEEDS_BYTES: no complete message is there. CVZ_STEP_OUTPUT_FULL: 262,144 bytes or
 * more wait to be sent. CVZ_CLOSED: the circuit has ended; cvz_server_left has what is left to be sent, and the handle names nothing from now on.
 * So does a handle that names nothing, with CVZ_CAUSE_CUT and nothing left. */
int32_t cvz_server_step(cvz_server *server, uint64_t circuit, cvz_step *did);

/* Puts updates that wait on the circuit after what waits to be sent. 0. */
int32_t cvz_server_pump(cvz_server *server, uint64_t circuit);

/* Copies bytes that wait to be sent on the circuit, as many as the room takes, and says how many. They wait until cvz_server_sent. */
size_t cvz_server_output(cvz_server *server, uint64_t circuit, uint8_t *room, size_t room_size);

/* The first bytes that wait on the circuit were sent. 0, or CVZ_OUT_OF_RANGE if fewer wait. */
int32_t cvz_server_sent(cvz_server *server, uint64_t circuit, size_t size);

/* Hands over bytes that are left to be sent on the circuit that a step told closed last, and says how many. */
size_t cvz_server_left(cvz_server *server, uint8_t *room, size_t room_size);

/* The record of the open channel of this SID on the circuit, as cvz_step tells it: copies its name, and says how long it is, or 0. */
size_t cvz_server_name(cvz_server *server, uint64_t circuit, uint32_t sid, uint8_t *room, size_t room_size);

/* The user's name that the client on this circuit gave: copies it, as far as the room takes it, and says how long it is, or 0. Names that come once
 * a channel was created do not count. Since 1.2. */
size_t cvz_server_user(cvz_server *server, uint64_t circuit, uint8_t *room, size_t room_size);

/* The same of its host's name. Since 1.2. */
size_t cvz_server_host(cvz_server *server, uint64_t circuit, uint8_t *room, size_t room_size);

/* The circuit was lost, or is to end. The next step on it answers CVZ_CLOSED, and frees its place. 0. */
int32_t cvz_server_cut(cvz_server *server, uint64_t circuit);

/* Takes a datagram that came to the server's UDP port: a search. cvz_server_answer has what is to be sent back, to where it came from.
 * 0 or CVZ_OUT_OF_MEMORY. */
int32_t cvz_server_datagram(cvz_server *server, const uint8_t *bytes, size_t size);

/* Hands over the next datagram that answers the last one, and says how long it is, or 0. It is cut if the room is too small: 2,048 bytes
 * take each. */
size_t cvz_server_answer(cvz_server *server, uint8_t *room, size_t room_size);

/* The beacon that is due at this moment, once: 16 bytes, to be sent as a datagram to the repeater's port, 5065; or 0 if none is due. A moment
 * before one that was given counts as that one. */
size_t cvz_server_beacon(cvz_server *server, uint64_t now, uint8_t *room, size_t room_size);

/* How many writes of clients were applied, and how many puts wait. */
uint64_t cvz_server_applied(cvz_server *server);
uint64_t cvz_server_waiting(cvz_server *server);

/* ---- a client
 *
 * A client searches for the channels that were opened (cvz_client_tick, cvz_client_search, cvz_client_datagram), says which circuits it wants
 * (cvz_client_wanted, cvz_client_connected), and then speaks on them (cvz_client_give, _step, _output, _sent). What a call reports are notices:
 * after a call that says so, take them one by one by cvz_client_next. What was not taken is gone at the next call that reports. */

typedef struct cvz_client {
    void *at;
} cvz_client;

/* A circuit that is to be connected by TCP. */
typedef struct cvz_wanted {
    uint64_t circuit;
    uint32_t host;
    uint16_t port;
    uint16_t priority;
} cvz_wanted;

/* How far a channel is. */
enum { CVZ_SEARCHING = 0, CVZ_CONNECTING = 1, CVZ_CREATING = 2, CVZ_LIVE = 3, CVZ_LEAVING = 4 };

typedef struct cvz_channel {
    uint32_t state;
    uint32_t type;                   /* if it is live, its native type, 0 to 6, */
    uint32_t greatest;               /* its greatest count, */
    uint32_t rights;                 /* and the bits 1 to read, 2 to write; else 0 */
} cvz_channel;

/* What a notice is about: a channel that is live, or was lost; a request that is complete; an update of a subscription; a subscription that
 * the server refused, which is over; a plain write that it refused. */
enum { CVZ_NOTICE_LIVE = 1, CVZ_NOTICE_LOST = 2, CVZ_NOTICE_COMPLETED = 3, CVZ_NOTICE_UPDATE = 4, CVZ_NOTICE_ENDED = 5, CVZ_NOTICE_WRITE_REFUSED = 6 };

/* What became of a request, or what an update brought. */
enum { CVZ_VALUE = 0, CVZ_DONE = 1, CVZ_FAILED = 2, CVZ_UNREADABLE = 3, CVZ_LOST = 4 };

typedef struct cvz_notice {
    uint64_t of;                     /* the channel, the request or the subscription */
    uint32_t kind;
    uint32_t outcome;                /* of a request or an update, else 0 */
    uint32_t status;                 /* the server's status if it refused; why it is unreadable, as a refusal above zero; else 0 */
    uint32_t type;                   /* of a value, 0 to 6, */
    uint64_t count;                  /* and its count; else 0 */
} cvz_notice;

/* Two more causes for which a client's end closes: a silence that was too long, and cvz_client_close. */
enum { CVZ_CAUSE_SILENCE = 5, CVZ_CAUSE_ASKED = 6 };

/* Makes a client of this user at this host, from this moment. It searches by datagrams to the servers, and on a circuit to each name server.
 * An object that the struct had is freed. 0, CVZ_NAME_LENGTH, CVZ_ARENA_FULL or CVZ_OUT_OF_MEMORY; then the struct has what it had. */
int32_t cvz_client_new(cvz_client *client, const uint8_t *user, size_t user_size, const uint8_t *host, size_t host_size, const cvz_address *servers,
                       size_t server_count, const cvz_address *name_servers, size_t name_server_count, uint64_t now);

/* Frees the client, if there is one. */
void cvz_client_free(cvz_client *client);

/* Opens a channel, which is searched for from now on, and writes its handle; its circuit is to have this priority, 0 to 99.
 * 0, CVZ_NAME_LENGTH, CVZ_BAD_PRIORITY, CVZ_ARENA_FULL or CVZ_OUT_OF_MEMORY. */
int32_t cvz_client_open(cvz_client *client, const uint8_t *name, size_t name_size, uint16_t priority, uint64_t now, uint64_t *channel);

/* Writes how far the channel is. 0 or CVZ_STALE_HANDLE. */
int32_t cvz_client_channel(cvz_client *client, uint64_t channel, cvz_channel *told);

/* Lets the channel go. It reports: its open requests are complete, as lost. 0, CVZ_STALE_HANDLE or CVZ_OUT_OF_MEMORY. */
int32_t cvz_client_clear(cvz_client *client, uint64_t channel);

/* Asks for the value of a live channel, as this type from 0 to 20, since 1.4 to 34, and with this count (0: those that there are), and writes the request's handle.
 * 0, CVZ_STALE_HANDLE, CVZ_NOT_LIVE, CVZ_BAD_TYPE, CVZ_NO_ACCESS, CVZ_BAD_COUNT, CVZ_OUTPUT_FULL, CVZ_ARENA_FULL or CVZ_OUT_OF_MEMORY. */
int32_t cvz_client_read(cvz_client *client, uint64_t channel, uint16_t type, uint32_t count, uint64_t *request);

/* Writes a value, an image of one of the types 0 to 6, and is told nothing if that is done.
 * 0, CVZ_BAD_TYPE, CVZ_SHORT, CVZ_STALE_HANDLE, CVZ_NOT_LIVE, CVZ_NO_ACCESS, CVZ_BAD_COUNT, CVZ_OUTPUT_FULL or CVZ_OUT_OF_MEMORY. */
int32_t cvz_client_write(cvz_client *client, uint64_t channel, uint16_t type, uint32_t count, const uint8_t *image, size_t image_size);

/* The same, and the request is complete once that is done. CVZ_ARENA_FULL too. */
int32_t cvz_client_put(cvz_client *client, uint64_t channel, uint16_t type, uint32_t count, const uint8_t *image, size_t image_size, uint64_t *request);

/* Subscribes to a live channel, and writes the subscription's handle. As cvz_client_read, but of a type from 0 to 20, and CVZ_BAD_EVENT for a mask with none
 * of its low four bits. */
int32_t cvz_client_subscribe(cvz_client *client, uint64_t channel, uint16_t type, uint32_t count, uint16_t mask, uint64_t *subscription);

/* Ends the subscription. 0, CVZ_STALE_HANDLE, CVZ_OUTPUT_FULL or CVZ_OUT_OF_MEMORY. */
int32_t cvz_client_unsubscribe(cvz_client *client, uint64_t subscription);

/* Writes the circuit at this place, from 0, of those that are to be connected. 1, or 0 if there is none. */
int32_t cvz_client_wanted(cvz_client *client, size_t place, cvz_wanted *told);

/* The circuit was connected. 0; or CVZ_CLOSED, with the cause: then it reports, and cvz_client_left has what is left to be sent. */
int32_t cvz_client_connected(cvz_client *client, uint64_t circuit, uint32_t *cause);

/* These bytes came on the circuit, and whether more are there to be read. 0, CVZ_CIRCUIT_CLOSED or CVZ_OUT_OF_MEMORY. */
int32_t cvz_client_give(cvz_client *client, uint64_t circuit, const uint8_t *bytes, size_t size, bool more);

/* Reads the circuit's next message. CVZ_NEEDS_BYTES: no complete message is there. CVZ_HANDLED: it reports. CVZ_CLOSED, with the cause: it reports, and
 * cvz_client_left has what is left to be sent. */
int32_t cvz_client_step(cvz_client *client, uint64_t circuit, uint32_t *cause);

/* The circuit was lost, or could not be connected; or it is to end. It reports, and cvz_client_left has what is left. 0. */
int32_t cvz_client_cut(cvz_client *client, uint64_t circuit);
int32_t cvz_client_close(cvz_client *client, uint64_t circuit);

/* As cvz_server_output, cvz_server_sent and cvz_server_left. */
size_t cvz_client_output(cvz_client *client, uint64_t circuit, uint8_t *room, size_t room_size);
int32_t cvz_client_sent(cvz_client *client, uint64_t circuit, size_t size);
size_t cvz_client_left(cvz_client *client, uint8_t *room, size_t room_size);

/* A moment. cvz_client_search then has the datagrams that are to be sent, and cvz_client_ended the circuits that were silent too long.
 * 0 or CVZ_OUT_OF_MEMORY. */
int32_t cvz_client_tick(cvz_client *client, uint64_t now);

/* Hands over the next of those datagrams, writes where it goes, and says how long it is, or 0. 2,048 bytes take each. */
size_t cvz_client_search(cvz_client *client, cvz_address *to, uint8_t *room, size_t room_size);

/* Hands over one of those circuits, the last one first: 1, or 0 once there is none. It reports, and cvz_client_left has what is left. */
int32_t cvz_client_ended(cvz_client *client, uint64_t *circuit);

/* Takes a datagram that came from there: answers to searches, and beacons. 0 or CVZ_OUT_OF_MEMORY. */
int32_t cvz_client_datagram(cvz_client *client, uint64_t now, const cvz_address *from, const uint8_t *bytes, size_t size);

/* Writes the next notice of the last call that reports. 1, or 0 once there is none. */
int32_t cvz_client_next(cvz_client *client, cvz_notice *told);

/* Copies the image of the value of the notice that was taken last, as far as the room takes it, and writes how long it is. The type is the
 * notice's, or that plus CVZ_STS or CVZ_TIME; since 1.4 also plus CVZ_GRAPHIC or CVZ_CONTROL, if the value was read with display data. What the type that
 * was read lacks is zero, as its time stamp then. 0, CVZ_BAD_TYPE or CVZ_OUT_OF_MEMORY. */
int32_t cvz_client_value(cvz_client *client, uint16_t type, uint8_t *room, size_t room_size, size_t *size);

/* ---- a repeater
 *
 * A host has one, at UDP port 5065. The clients of the host register with it, and it hands each datagram that comes on to all of them but the one
 * that sent it, so that all hear the beacons at that port. It has 64 members at most. */

typedef struct cvz_repeater {
    void *at;
} cvz_repeater;

/* Makes a repeater with no member. An object that the struct had is freed. 0 or CVZ_OUT_OF_MEMORY; then the struct has what it had. Since 1.1. */
int32_t cvz_repeater_new(cvz_repeater *repeater);

/* Frees the repeater, if there is one. */
void cvz_repeater_free(cvz_repeater *repeater);

/* Takes a datagram that came from there. cvz_repeater_outgoing has what is to be sent for it; what was not taken of the one before is gone.
 * 0 or CVZ_OUT_OF_MEMORY. */
int32_t cvz_repeater_datagram(cvz_repeater *repeater, const cvz_address *from, const uint8_t *bytes, size_t size);

/* Hands over the next of those datagrams, writes where it goes, and says how long it is, or 0. It is cut if the room is too small: 65,536 bytes
 * take each. */
size_t cvz_repeater_outgoing(cvz_repeater *repeater, cvz_address *to, uint8_t *room, size_t room_size);

/* A datagram to there could not be sent, since nobody has the port any more: it is a member no more. 0. */
int32_t cvz_repeater_refused(cvz_repeater *repeater, const cvz_address *to);

#ifdef __cplusplus
}
#endif

#endif
