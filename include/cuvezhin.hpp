/* cuvezhin.hpp: the objects of cuvezhin.h as types of C++17 that own them.
 *
 * What a call does, and what you promise, is in cuvezhin.h: each member is the call of that name, and throws Refusal if that refuses. Numbers that
 * a call returns are those of cuvezhin.h (CVZ_HANDLED, CVZ_BUSIED). An object is freed with its Server, Client or Repeater, which can be moved and not
 * copied; each call on one that was moved from throws Refusal with CVZ_NO_OBJECT. Out of memory, a call throws CVZ_OUT_OF_MEMORY, or std::bad_alloc
 * for what this header allocates. */
#ifndef CUVEZHIN_HPP
#define CUVEZHIN_HPP

#include <cuvezhin.h>

#include <cstddef>
#include <cstdint>
#include <exception>
#include <memory>
#include <optional>
#include <string>
#include <string_view>
#include <utility>
#include <vector>

namespace cuvezhin {

/* Handles. The number in a struct of cuvezhin.h becomes a handle as in Circuit{wanted.circuit}. */
enum class Circuit : std::uint64_t {};
enum class Channel : std::uint64_t {};
enum class Request : std::uint64_t {};
enum class Subscription : std::uint64_t {};

/* A refusal: its number is below zero, and what() is its name in cuvezhin.h. The refused call changed nothing. */
class Refusal : public std::exception {
public:
    explicit Refusal(std::int32_t number) noexcept : told(number) {}
    std::int32_t number() const noexcept { return told; }

    const char *what() const noexcept override
    {
        switch (told) {
        case CVZ_OUT_OF_MEMORY: return "CVZ_OUT_OF_MEMORY";
        case CVZ_MISALIGNED: return "CVZ_MISALIGNED";
        case CVZ_TOO_LARGE: return "CVZ_TOO_LARGE";
        case CVZ_BAD_TYPE: return "CVZ_BAD_TYPE";
        case CVZ_SHORT: return "CVZ_SHORT";
        case CVZ_NO_CONVERT: return "CVZ_NO_CONVERT";
        case CVZ_OUT_OF_RANGE: return "CVZ_OUT_OF_RANGE";
        case CVZ_BAD_TEXT: return "CVZ_BAD_TEXT";
        case CVZ_ARENA_FULL: return "CVZ_ARENA_FULL";
        case CVZ_STALE_HANDLE: return "CVZ_STALE_HANDLE";
        case CVZ_DRAINING: return "CVZ_DRAINING";
        case CVZ_NAME_LENGTH: return "CVZ_NAME_LENGTH";
        case CVZ_NOT_LIVE: return "CVZ_NOT_LIVE";
        case CVZ_NO_ACCESS: return "CVZ_NO_ACCESS";
        case CVZ_BAD_COUNT: return "CVZ_BAD_COUNT";
        case CVZ_DISCONNECTED: return "CVZ_DISCONNECTED";
        case CVZ_CIRCUIT_CLOSED: return "CVZ_CIRCUIT_CLOSED";
        case CVZ_TOO_MANY_SUBSCRIPTIONS: return "CVZ_TOO_MANY_SUBSCRIPTIONS";
        case CVZ_DATAGRAM_TOO_LONG: return "CVZ_DATAGRAM_TOO_LONG";
        case CVZ_UNKNOWN_RECORD: return "CVZ_UNKNOWN_RECORD";
        case CVZ_NOT_BUSY: return "CVZ_NOT_BUSY";
        case CVZ_BAD_EVENT: return "CVZ_BAD_EVENT";
        case CVZ_DEVICE: return "CVZ_DEVICE";
        case CVZ_NO_CELL: return "CVZ_NO_CELL";
        case CVZ_BAD_PRIORITY: return "CVZ_BAD_PRIORITY";
        case CVZ_OUTPUT_FULL: return "CVZ_OUTPUT_FULL";
        case CVZ_SERVER_REFUSED: return "CVZ_SERVER_REFUSED";
        case CVZ_RECORD_EXISTS: return "CVZ_RECORD_EXISTS";
        case CVZ_NO_OBJECT: return "CVZ_NO_OBJECT";
        default: return "a refusal that this header does not know";
        }
    }

private:
    std::int32_t told;
};

/* Bytes that a call reads: a vector, an array or a text of bytes, or a pointer and a size. */
class Bytes {
public:
    Bytes(const std::uint8_t *data, std::size_t size) noexcept : first(size > 0 ? data : &none), count(size) {}

    template <class Those, class = decltype(std::declval<const Those &>().data())>
    Bytes(const Those &those) noexcept : Bytes(reinterpret_cast<const std::uint8_t *>(those.data()), those.size())
    {
        static_assert(sizeof *those.data() == 1, "an image is big-endian bytes: see cuvezhin.h");
    }

    const std::uint8_t *data() const noexcept { return first; }
    std::size_t size() const noexcept { return count; }

private:
    static constexpr std::uint8_t none = 0;
    const std::uint8_t *first;
    std::size_t count;
};

/* Room for bytes that a call writes: a vector or an array as large as it is, or a pointer and a size. */
class Room {
public:
    Room(std::uint8_t *data, std::size_t size) noexcept : first(size > 0 ? data : &none), count(size) {}

    template <class Those, class = decltype(std::declval<Those &>().data())>
    Room(Those &those) noexcept : Room(those.data(), those.size()) {}

    std::uint8_t *data() const noexcept { return first; }
    std::size_t size() const noexcept { return count; }

private:
    inline static std::uint8_t none = 0;
    std::uint8_t *first;
    std::size_t count;
};

namespace detail {

/* What a call returned, if that is no refusal. */
inline std::int32_t unrefused(std::int32_t answer)
{
    if (answer < 0)
        throw Refusal(answer);
    return answer;
}

/* Owns an object. Its struct stays where it is, since it may not be copied. */
template <class Struct, void (*free)(Struct *)>
class Owner {
protected:
    Owner() : held(new Struct{}) {}

    Struct *at() const
    {
        return held ? held.get() : throw Refusal(CVZ_NO_OBJECT);
    }

private:
    struct Free {
        void operator()(Struct *it) const noexcept
        {
            free(it);
            delete it;
        }
    };
    std::unique_ptr<Struct, Free> held;
};

/* Copies an image of any size, by a call that takes the room and writes the size, and returns what the call returned. */
template <class Call>
std::int32_t copied(std::vector<std::uint8_t> &image, Call call)
{
    std::size_t size = 0;
    image.resize(64);
    std::int32_t answer = call(image.data(), image.size(), &size);
    const bool is_cut = answer == 0 && size > image.size();
    image.resize(size);
    if (is_cut)
        answer = call(image.data(), image.size(), &size);
    return answer;
}

/* A text, by a call that takes the room and returns how long the text is. */
template <class Call>
std::string text(Call call)
{
    std::string made(64, '\0');
    const std::size_t size = call(reinterpret_cast<std::uint8_t *>(made.data()), made.size());
    const bool is_cut = size > made.size();
    made.resize(size);
    if (is_cut)
        call(reinterpret_cast<std::uint8_t *>(made.data()), made.size());
    return made;
}

template <class Handle>
std::uint64_t number(Handle handle)
{
    return static_cast<std::uint64_t>(handle);
}

} // namespace detail

/* A server at a TCP port: see "a server" in cuvezhin.h. */
class Server : detail::Owner<cvz_server, cvz_server_free> {
public:
    Server(std::uint16_t port, std::uint64_t now) { detail::unrefused(cvz_server_new(at(), port, now)); }

    /* With the records and rules of a record file's text: cvz_server_load. */
    Server(std::uint16_t port, std::uint64_t now, std::string_view text)
    {
        const Bytes its(text);
        detail::unrefused(cvz_server_load(at(), port, now, its.data(), its.size()));
    }

    void add(std::string_view name, std::uint32_t greatest, bool slow, std::uint16_t type, std::uint32_t count, Bytes image)
    {
        const Bytes its(name);
        detail::unrefused(cvz_server_add(at(), its.data(), its.size(), greatest, slow, type, count, image.data(), image.size()));
    }

    void remove(std::string_view name)
    {
        const Bytes its(name);
        detail::unrefused(cvz_server_remove(at(), its.data(), its.size()));
    }

    void post(std::string_view name, std::uint16_t mask, std::uint16_t type, std::uint32_t count, Bytes image)
    {
        const Bytes its(name);
        detail::unrefused(cvz_server_post(at(), its.data(), its.size(), mask, type, count, image.data(), image.size()));
    }

    void set_display(std::string_view name, std::uint16_t type, std::uint32_t count, Bytes image)
    {
        const Bytes its(name);
        detail::unrefused(cvz_server_set_display(at(), its.data(), its.size(), type, count, image.data(), image.size()));
    }

    void stamp(std::uint32_t seconds, std::uint32_t nanoseconds) { detail::unrefused(cvz_server_stamp(at(), seconds, nanoseconds)); }

    void finish(std::string_view name)
    {
        const Bytes its(name);
        detail::unrefused(cvz_server_finish(at(), its.data(), its.size()));
    }

    /* The image to process, or nothing if no put makes the record busy. */
    std::optional<std::vector<std::uint8_t>> busy(std::string_view name)
    {
        const Bytes its(name);
        std::vector<std::uint8_t> image;
        const std::int32_t answer = detail::copied(image, [&](std::uint8_t *room, std::size_t room_size, std::size_t *size) {
            return cvz_server_busy(at(), its.data(), its.size(), room, room_size, size);
        });
        if (answer == CVZ_NOT_BUSY)
            return std::nullopt;
        detail::unrefused(answer);
        return image;
    }

    /* The image of the record's value; its count is written. */
    std::vector<std::uint8_t> value(std::string_view name, std::uint16_t type, std::uint32_t &count)
    {
        const Bytes its(name);
        std::vector<std::uint8_t> image;
        detail::unrefused(detail::copied(image, [&](std::uint8_t *room, std::size_t room_size, std::size_t *size) {
            return cvz_server_value(at(), its.data(), its.size(), type, &count, room, room_size, size);
        }));
        return image;
    }

    /* The circuit of the put that finish applies next, or nothing if none waits. */
    std::optional<Circuit> first(std::string_view name)
    {
        const Bytes its(name);
        std::uint64_t circuit = 0;
        return detail::unrefused(cvz_server_first(at(), its.data(), its.size(), &circuit)) ? std::optional(Circuit{circuit}) : std::nullopt;
    }

    Circuit accept()
    {
        std::uint64_t circuit = 0;
        detail::unrefused(cvz_server_accept(at(), &circuit));
        return Circuit{circuit};
    }

    void give(Circuit circuit, Bytes bytes) { detail::unrefused(cvz_server_give(at(), detail::number(circuit), bytes.data(), bytes.size())); }
    std::int32_t step(Circuit circuit, cvz_step &did) { return detail::unrefused(cvz_server_step(at(), detail::number(circuit), &did)); }
    void pump(Circuit circuit) { detail::unrefused(cvz_server_pump(at(), detail::number(circuit))); }
    std::size_t output(Circuit circuit, Room room) { return cvz_server_output(at(), detail::number(circuit), room.data(), room.size()); }
    void sent(Circuit circuit, std::size_t size) { detail::unrefused(cvz_server_sent(at(), detail::number(circuit), size)); }
    std::size_t left(Room room) { return cvz_server_left(at(), room.data(), room.size()); }
    void cut(Circuit circuit) { detail::unrefused(cvz_server_cut(at(), detail::number(circuit))); }

    /* Empty if the circuit has no such channel. */
    std::string name(Circuit circuit, std::uint32_t sid)
    {
        return detail::text([&](std::uint8_t *room, std::size_t size) { return cvz_server_name(at(), detail::number(circuit), sid, room, size); });
    }

    /* Empty if the client gave none; so is the host. */
    std::string user(Circuit circuit)
    {
        return detail::text([&](std::uint8_t *room, std::size_t size) { return cvz_server_user(at(), detail::number(circuit), room, size); });
    }

    std::string host(Circuit circuit)
    {
        return detail::text([&](std::uint8_t *room, std::size_t size) { return cvz_server_host(at(), detail::number(circuit), room, size); });
    }

    void datagram(Bytes bytes) { detail::unrefused(cvz_server_datagram(at(), bytes.data(), bytes.size())); }
    std::size_t answer(Room room) { return cvz_server_answer(at(), room.data(), room.size()); }
    std::size_t beacon(std::uint64_t now, Room room) { return cvz_server_beacon(at(), now, room.data(), room.size()); }
    std::uint64_t applied() { return cvz_server_applied(at()); }
    std::uint64_t waiting() { return cvz_server_waiting(at()); }
};

/* A client: see "a client" in cuvezhin.h. */
class Client : detail::Owner<cvz_client, cvz_client_free> {
public:
    Client(std::string_view user, std::string_view host, const std::vector<cvz_address> &servers, const std::vector<cvz_address> &name_servers, std::uint64_t now)
    {
        static constexpr cvz_address none = {};
        const Bytes of_user(user), of_host(host);
        detail::unrefused(cvz_client_new(at(), of_user.data(), of_user.size(), of_host.data(), of_host.size(), servers.empty() ? &none : servers.data(),
                                         servers.size(), name_servers.empty() ? &none : name_servers.data(), name_servers.size(), now));
    }

    Channel open(std::string_view name, std::uint16_t priority, std::uint64_t now)
    {
        const Bytes its(name);
        std::uint64_t channel = 0;
        detail::unrefused(cvz_client_open(at(), its.data(), its.size(), priority, now, &channel));
        return Channel{channel};
    }

    cvz_channel channel(Channel channel)
    {
        cvz_channel told = {};
        detail::unrefused(cvz_client_channel(at(), detail::number(channel), &told));
        return told;
    }

    void clear(Channel channel) { detail::unrefused(cvz_client_clear(at(), detail::number(channel))); }

    Request read(Channel channel, std::uint16_t type, std::uint32_t count)
    {
        std::uint64_t request = 0;
        detail::unrefused(cvz_client_read(at(), detail::number(channel), type, count, &request));
        return Request{request};
    }

    void write(Channel channel, std::uint16_t type, std::uint32_t count, Bytes image)
    {
        detail::unrefused(cvz_client_write(at(), detail::number(channel), type, count, image.data(), image.size()));
    }

    Request put(Channel channel, std::uint16_t type, std::uint32_t count, Bytes image)
    {
        std::uint64_t request = 0;
        detail::unrefused(cvz_client_put(at(), detail::number(channel), type, count, image.data(), image.size(), &request));
        return Request{request};
    }

    Subscription subscribe(Channel channel, std::uint16_t type, std::uint32_t count, std::uint16_t mask)
    {
        std::uint64_t subscription = 0;
        detail::unrefused(cvz_client_subscribe(at(), detail::number(channel), type, count, mask, &subscription));
        return Subscription{subscription};
    }

    void unsubscribe(Subscription subscription) { detail::unrefused(cvz_client_unsubscribe(at(), detail::number(subscription))); }

    std::optional<cvz_wanted> wanted(std::size_t place)
    {
        cvz_wanted told = {};
        return detail::unrefused(cvz_client_wanted(at(), place, &told)) ? std::optional(told) : std::nullopt;
    }

    std::int32_t connected(Circuit circuit, std::uint32_t &cause) { return detail::unrefused(cvz_client_connected(at(), detail::number(circuit), &cause)); }
    void give(Circuit circuit, Bytes bytes, bool more) { detail::unrefused(cvz_client_give(at(), detail::number(circuit), bytes.data(), bytes.size(), more)); }
    std::int32_t step(Circuit circuit, std::uint32_t &cause) { return detail::unrefused(cvz_client_step(at(), detail::number(circuit), &cause)); }
    void cut(Circuit circuit) { detail::unrefused(cvz_client_cut(at(), detail::number(circuit))); }
    void close(Circuit circuit) { detail::unrefused(cvz_client_close(at(), detail::number(circuit))); }
    std::size_t output(Circuit circuit, Room room) { return cvz_client_output(at(), detail::number(circuit), room.data(), room.size()); }
    void sent(Circuit circuit, std::size_t size) { detail::unrefused(cvz_client_sent(at(), detail::number(circuit), size)); }
    std::size_t left(Room room) { return cvz_client_left(at(), room.data(), room.size()); }
    void tick(std::uint64_t now) { detail::unrefused(cvz_client_tick(at(), now)); }
    std::size_t search(cvz_address &to, Room room) { return cvz_client_search(at(), &to, room.data(), room.size()); }

    std::optional<Circuit> ended()
    {
        std::uint64_t circuit = 0;
        return detail::unrefused(cvz_client_ended(at(), &circuit)) ? std::optional(Circuit{circuit}) : std::nullopt;
    }

    void datagram(std::uint64_t now, const cvz_address &from, Bytes bytes)
    {
        detail::unrefused(cvz_client_datagram(at(), now, &from, bytes.data(), bytes.size()));
    }

    std::optional<cvz_notice> next()
    {
        cvz_notice told = {};
        return detail::unrefused(cvz_client_next(at(), &told)) ? std::optional(told) : std::nullopt;
    }

    /* The image of the value of the notice that was taken last. */
    std::vector<std::uint8_t> value(std::uint16_t type)
    {
        std::vector<std::uint8_t> image;
        detail::unrefused(detail::copied(image, [&](std::uint8_t *room, std::size_t room_size, std::size_t *size) {
            return cvz_client_value(at(), type, room, room_size, size);
        }));
        return image;
    }
};

/* A host's repeater: see "a repeater" in cuvezhin.h. */
class Repeater : detail::Owner<cvz_repeater, cvz_repeater_free> {
public:
    Repeater() { detail::unrefused(cvz_repeater_new(at())); }
    void datagram(const cvz_address &from, Bytes bytes) { detail::unrefused(cvz_repeater_datagram(at(), &from, bytes.data(), bytes.size())); }
    std::size_t outgoing(cvz_address &to, Room room) { return cvz_repeater_outgoing(at(), &to, room.data(), room.size()); }
    void refused(const cvz_address &to) { detail::unrefused(cvz_repeater_refused(at(), &to)); }
};

} // namespace cuvezhin

#endif
