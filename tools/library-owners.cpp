/* The owning types of cuvezhin.hpp: each call of a client, a server and a repeater, which speak with each other in this process; objects that were moved,
 * and moved from; and what is refused: see tools/library. That each is freed, and once, valgrind and gcc's sanitizer see. */
#include <cuvezhin.hpp>

#include "library-test.h"

#include <array>
#include <type_traits>

using cuvezhin::Circuit, cuvezhin::Channel, cuvezhin::Client, cuvezhin::Repeater, cuvezhin::Request, cuvezhin::Server, cuvezhin::Subscription;
using Image = std::vector<std::uint8_t>;

template <class Object>
constexpr bool is_moved_alone = std::is_nothrow_move_constructible_v<Object> && std::is_nothrow_move_assignable_v<Object> && !std::is_copy_constructible_v<Object>
                                && !std::is_copy_assignable_v<Object>;
static_assert(is_moved_alone<Server> && is_moved_alone<Client> && is_moved_alone<Repeater>);
static_assert(!std::is_convertible_v<Circuit, Channel> && !std::is_convertible_v<std::uint64_t, Circuit>);

static std::array<std::uint8_t, 4096> room;
static const cvz_address here = {0x7f000001, 5064};
/* Longer than the room that is tried first. */
static const std::string long_user(200, 'm');

/* The call throws this refusal, whose text is its name. */
#define REFUSED(wanted, ...) refused(__LINE__, #__VA_ARGS__, [&] { static_cast<void>(__VA_ARGS__); }, wanted, #wanted)

template <class Call>
static void refused(int line, const char *what, Call call, int wanted, const char *name)
{
    try {
        call();
        is(line, what, 0, wanted);
    } catch (const cuvezhin::Refusal &why) {
        is(line, what, why.number(), wanted);
        is(line, name, std::string_view(why.what()) == name, true);
    }
}

static Image image(const char *text)
{
    Image made(strlen(text));
    made.resize(unhex(text, made.data()));
    return made;
}

#define IMAGE(was, wanted) image_is(__LINE__, was, wanted)

static void image_is(int line, const Image &was, const char *wanted)
{
    bytes_are(line, was.data(), was.size(), wanted);
}

/* A server, and a client whose channels are live on one circuit. */
struct Ends {
    Server server{5064, 1000, "record TEMP LONG 1 quick 21\nrecord MOVE LONG 1 slow 0\nrule * here MOVE rw\nrule * * MOVE r\n"};
    Client client{long_user, "here", {here}, {}, 1000};
    Circuit of_server{}, of_client{};
    Channel temp{}, move{};
    cvz_step did{};                  /* the server's last step whose effect was not quiet */
    cvz_notice told{};               /* the client's last notice */
    std::optional<Image> value;      /* that of a notice since it was looked at, as a LONG */

    Ends()
    {
        temp = client.open("TEMP", 0, 1000);
        move = client.open(std::string("MOVE"), 0, 1000);
        client.tick(2000);
        cvz_address to{};
        for (std::size_t size; (size = client.search(to, room)) > 0;) {
            server.datagram({room.data(), size});
            while ((size = server.answer(room)) > 0)
                client.datagram(2000, to, {room.data(), size});
        }
        const auto wanted = client.wanted(0);
        IS(wanted && wanted->host == here.host && wanted->port == here.port && !client.wanted(1), true);
        of_client = Circuit{wanted->circuit};
        of_server = server.accept();
        std::uint32_t cause = 7;
        IS(client.connected(of_client, cause), 0);
        speak();
        IS(client.channel(temp).state == CVZ_LIVE && client.channel(move).state == CVZ_LIVE && client.channel(move).rights == 3, true);
    }

    /* Bytes go over, and messages are handled, until both ends are quiet. */
    void speak()
    {
        for (bool is_over = false; !is_over;) {
            const std::size_t asked = client.output(of_client, room);
            server.give(of_server, {room.data(), asked});
            client.sent(of_client, asked);
            for (cvz_step one; server.step(of_server, one) == CVZ_HANDLED;)
                did = one.effect != CVZ_QUIET ? one : did;
            server.pump(of_server);
            const std::size_t answered = server.output(of_server, room);
            client.give(of_client, {room.data(), answered}, false);
            server.sent(of_server, answered);
            for (std::uint32_t cause; client.step(of_client, cause) == CVZ_HANDLED;)
                hear();
            is_over = asked + answered == 0;
        }
    }

    void hear()
    {
        while (const auto one = client.next()) {
            told = *one;
            if (told.outcome == CVZ_VALUE && told.count > 0)
                value = client.value(CVZ_LONG);
        }
    }

    Image taken()
    {
        return std::exchange(value, std::nullopt).value_or(Image());
    }
};

static void asks(Ends &ends)
{
    const Request read = ends.client.read(ends.temp, CVZ_LONG, 1);
    ends.speak();
    IS(Request{ends.told.of} == read && ends.told.kind == CVZ_NOTICE_COMPLETED, true);
    IMAGE(ends.taken(), "00000015");
    const Request put = ends.client.put(ends.temp, CVZ_LONG, 1, image("00000016"));
    ends.speak();
    IS(Request{ends.told.of} == put && ends.told.outcome == CVZ_DONE, true);
    IS(ends.did.effect, CVZ_WROTE);
    const Subscription followed = ends.client.subscribe(ends.temp, CVZ_TIME + CVZ_LONG, 0, CVZ_MASK_VALUE);
    ends.speak();
    IS(Subscription{ends.told.of} == followed && ends.told.kind == CVZ_NOTICE_UPDATE, true);
    IMAGE(ends.taken(), "00000016");
    ends.server.post("TEMP", CVZ_MASK_VALUE, CVZ_TIME + CVZ_LONG, 1, image("00020001 00000005 00000006 00000017"));
    ends.speak();
    IMAGE(ends.client.value(CVZ_TIME + CVZ_LONG), "00020001 00000005 00000006 00000017");
    IMAGE(ends.taken(), "00000017");
    ends.client.write(ends.temp, CVZ_LONG, 1, image("00000018"));
    ends.speak();
    IMAGE(ends.taken(), "00000018");
    IS(ends.server.applied(), 2);
    std::uint32_t count = 0;
    IMAGE(ends.server.value("TEMP", CVZ_LONG, count), "00000018");
    IS(count, 1);
    IS(ends.server.name(ends.of_server, ends.did.sid) == "TEMP" && ends.server.user(ends.of_server) == long_user && ends.server.host(ends.of_server) == "here", true);
    ends.client.unsubscribe(followed);
    ends.speak();
    ends.server.post("TEMP", CVZ_MASK_VALUE, CVZ_LONG, 1, image("00000019"));
    ends.speak();
    IS(ends.value.has_value(), false);
}

/* Two puts to the slow record, the second of which waits for the first. */
static void is_slow(Ends &ends)
{
    IS(ends.server.busy("MOVE").has_value(), false);
    ends.server.stamp(5, 6);
    ends.client.put(ends.move, CVZ_LONG, 1, image("00000003"));
    ends.speak();
    IS(ends.did.effect, CVZ_BUSIED);
    IS(ends.server.name(ends.of_server, ends.did.sid) == "MOVE" && ends.server.name(ends.of_server, 1).empty(), true);
    const Request second = ends.client.put(ends.move, CVZ_LONG, 1, image("00000004"));
    ends.speak();
    IS(ends.server.waiting(), 1);
    IS(ends.server.first("MOVE") == ends.of_server, true);
    IMAGE(ends.server.busy("MOVE").value_or(Image()), "00000003");
    ends.server.finish("MOVE");
    IMAGE(ends.server.busy("MOVE").value_or(Image()), "00000004");
    ends.server.finish("MOVE");
    ends.speak();
    IS(Request{ends.told.of} == second && ends.told.outcome == CVZ_DONE, true);
    IS(ends.server.busy("MOVE").has_value() || ends.server.first("MOVE").has_value(), false);
}

/* A value that is longer than the room that is tried first, for both ends. */
static void is_long(Ends &ends)
{
    const Image many(400, 7);
    ends.server.add("WAVE", 100, true, CVZ_LONG, 100, many);
    const Channel wave = ends.client.open("WAVE", 0, 2000);
    ends.client.tick(10'000);
    cvz_address to{};
    const std::size_t size = ends.client.search(to, room);
    ends.server.datagram({room.data(), size});
    ends.client.datagram(10'000, to, {room.data(), ends.server.answer(room)});
    ends.speak();
    ends.client.put(wave, CVZ_LONG, 100, Image(400, 8));
    ends.speak();
    IS(ends.server.busy("WAVE") == Image(400, 8), true);
    ends.server.finish("WAVE");
    ends.client.read(wave, CVZ_LONG, 0);
    ends.speak();
    IS(ends.taken() == Image(400, 8), true);
    ends.client.clear(wave);
    REFUSED(CVZ_STALE_HANDLE, ends.client.channel(wave));
}

/* A record with display data, read with them. */
static void is_shown(Ends &ends)
{
    const char *shown = "00000000 6d412f73 00000000 00000064 ffffffec 0000005a 00000050 fffffff6 fffffff1 0000005f ffffffee 00000002";
    ends.server.add("SHOWN", 1, false, CVZ_CONTROL + CVZ_LONG, 1, image(shown));
    const Channel channel = ends.client.open("SHOWN", 0, 20'000);
    ends.client.tick(40'000);
    cvz_address to{};
    const std::size_t size = ends.client.search(to, room);
    ends.server.datagram({room.data(), size});
    ends.client.datagram(40'000, to, {room.data(), ends.server.answer(room)});
    ends.speak();
    ends.client.read(channel, CVZ_CONTROL + CVZ_LONG, 1);
    ends.speak();
    IMAGE(ends.taken(), "00000002");
    IMAGE(ends.client.value(CVZ_CONTROL + CVZ_LONG), shown);
    REFUSED(CVZ_BAD_TYPE, ends.client.value(CVZ_CONTROL + CVZ_DOUBLE));
    ends.client.read(ends.temp, CVZ_CONTROL + CVZ_LONG, 1);
    ends.speak();
    IS(ends.told.outcome == CVZ_FAILED && ends.told.status == 114, true);
    REFUSED(CVZ_BAD_TYPE, ends.client.read(channel, 35, 1));
}

static void refuses(Ends &ends)
{
    Server &server = ends.server;
    REFUSED(CVZ_BAD_TEXT, Server(5064, 0, "record TEMP LONG 1\n"));
    REFUSED(CVZ_NAME_LENGTH, Client(std::string(16'777'217, 'x'), "here", {here}, {}, 0));
    REFUSED(CVZ_NAME_LENGTH, server.add(std::string_view(), 1, false, CVZ_LONG, 1, image("00000000")));
    REFUSED(CVZ_RECORD_EXISTS, server.add("TEMP", 1, false, CVZ_LONG, 1, image("00000000")));
    REFUSED(CVZ_BAD_TYPE, server.add("LATE", 1, false, 99, 1, image("00000000")));
    REFUSED(CVZ_SHORT, server.add("LATE", 1, false, CVZ_LONG, 1, {nullptr, 0}));
    REFUSED(CVZ_BAD_COUNT, server.add("LATE", 1, false, CVZ_LONG, 2, Image(8)));
    REFUSED(CVZ_UNKNOWN_RECORD, server.remove("LATE"));
    std::uint32_t count = 0;
    REFUSED(CVZ_UNKNOWN_RECORD, server.value("LATE", CVZ_LONG, count));
    REFUSED(CVZ_NOT_BUSY, server.finish("MOVE"));
    REFUSED(CVZ_OUT_OF_RANGE, server.sent(ends.of_server, 1));
    REFUSED(CVZ_BAD_PRIORITY, ends.client.open("TEMP", 100, 0));
    REFUSED(CVZ_BAD_EVENT, ends.client.subscribe(ends.temp, CVZ_LONG, 1, 0));
    IS(cuvezhin::Bytes(std::string_view()).data() != nullptr && cuvezhin::Room(nullptr, 0).data() != nullptr, true);
    IS(server.output(ends.of_server, {nullptr, 0}), 0);
}

/* A record goes, and both ends of a circuit end. */
static void parts(Ends &ends)
{
    ends.server.remove("TEMP");
    ends.speak();
    IS(ends.told.kind == CVZ_NOTICE_LOST && Channel{ends.told.of} == ends.temp, true);
    bytes_are(__LINE__, room.data(), ends.server.beacon(3000, room), "000d0000 000d13c8 00000000 00000000");
    ends.server.give(ends.of_server, image("00170000 00000000 00000000 00000000  00170001 00000000 00000000 00000000"));
    IS(ends.server.step(ends.of_server, ends.did), CVZ_HANDLED);
    IS(ends.server.step(ends.of_server, ends.did), CVZ_CLOSED);
    bytes_are(__LINE__, room.data(), ends.server.left(room), "00170000 00000000 00000000 00000000");
    REFUSED(CVZ_CIRCUIT_CLOSED, ends.server.give(ends.of_server, image("00")));
    ends.server.cut(ends.of_server);
    ends.client.read(ends.move, CVZ_LONG, 1);
    ends.client.cut(ends.of_client);
    IS(ends.client.left(room), 16);
    ends.hear();
    IS(ends.told.kind == CVZ_NOTICE_LOST || ends.told.outcome == CVZ_LOST, true);
    ends.client.close(ends.of_client);
    IS(ends.client.ended().has_value(), false);
}

/* A client's registration, its confirmation, and a beacon that goes on to it. */
static void repeats()
{
    Repeater first;
    Repeater repeater = std::move(first);
    cvz_address to{};
    repeater.datagram({0x7f000001, 6000}, image("0018 0000 0000 0000 00000000 7F000001"));
    bytes_are(__LINE__, room.data(), repeater.outgoing(to, room), "0011 0000 0000 0000 00000000 7F000001");
    IS(to.port == 6000 && repeater.outgoing(to, room) == 0, true);
    repeater.datagram({0x7f000001, 6001}, image("000D 0000 000D 13C8 00000007 7F000001"));
    bytes_are(__LINE__, room.data(), repeater.outgoing(to, room), "000D 0000 000D 13C8 00000007 7F000001");
    repeater.refused(to);
    repeater.datagram({0x7f000001, 6001}, image("000D 0000 000D 13C8 00000008 7F000001"));
    IS(repeater.outgoing(to, room), 0);
    REFUSED(CVZ_NO_OBJECT, first.refused(here));
    REFUSED(CVZ_NO_OBJECT, first.outgoing(to, room));
}

static void no_server(Server &none)
{
    cvz_step did{};
    REFUSED(CVZ_NO_OBJECT, none.accept());
    REFUSED(CVZ_NO_OBJECT, none.step(Circuit{1}, did));
    REFUSED(CVZ_NO_OBJECT, none.output(Circuit{1}, room));
    REFUSED(CVZ_NO_OBJECT, none.busy("MOVE"));
    REFUSED(CVZ_NO_OBJECT, none.name(Circuit{1}, 1));
    REFUSED(CVZ_NO_OBJECT, none.first("MOVE"));
    REFUSED(CVZ_NO_OBJECT, none.applied());
}

/* Objects move into others, whose own are freed then, and go on where they are. */
static void moves(Ends &ends)
{
    Server other(5065, 0);
    other.add("OTHER", 1, false, CVZ_LONG, 1, image("00000001"));
    Server taken = std::move(ends.server);
    no_server(ends.server);
    ends.server = std::move(taken);
    no_server(taken);
    taken = std::move(other);
    REFUSED(CVZ_RECORD_EXISTS, taken.add("OTHER", 1, false, CVZ_LONG, 1, image("00000001")));
    std::swap(taken, ends.server);
    std::swap(taken, ends.server);
    taken = Server(5066, 0);
    taken.add("OTHER", 1, false, CVZ_LONG, 1, image("00000001"));
    std::vector<Client> kept;
    kept.push_back(std::move(ends.client));
    for (int i = 0; i < 10; i++)
        kept.emplace_back("me", "here", std::vector<cvz_address>(), std::vector<cvz_address>{here}, 0);
    REFUSED(CVZ_NO_OBJECT, ends.client.next());
    REFUSED(CVZ_NO_OBJECT, ends.client.left(room));
    REFUSED(CVZ_NO_OBJECT, ends.client.open("TEMP", 0, 0));
    ends.client = std::move(kept.front());
    kept.clear();
}

int main()
{
    Ends ends;
    asks(ends);
    is_slow(ends);
    moves(ends);
    is_long(ends);
    is_shown(ends);
    refuses(ends);
    parts(ends);
    repeats();
    printf("%d passed, %d failed\n", passed, failed);
    return failed != 0;
}
