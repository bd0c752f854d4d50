/* The server of examples/c/server.c over cuvezhin.hpp. Clients may read and monitor its records, and write TEMP and MOVE. COUNT goes up by one each
 * second. MOVE is slow: a put to it is done 100 ms later, and MOVED goes up by its value.
 *
 *     c++ -std=c++17 server.cpp $(pkg-config --cflags --libs cuvezhin) -o server && ./server 5064 [RECORDS]
 *
 * With port 0 the system chooses one, which is printed. RECORDS is a file of records and rules to serve in place of these. It ends at the end of its
 * standard input. */
#include <cuvezhin.hpp>

#include <arpa/inet.h>
#include <fcntl.h>
#include <netinet/in.h>
#include <netinet/tcp.h>
#include <poll.h>
#include <sys/socket.h>
#include <unistd.h>

#include <algorithm>
#include <array>
#include <cerrno>
#include <chrono>
#include <cstdio>
#include <cstdlib>
#include <deque>
#include <fstream>
#include <iostream>
#include <iterator>
#include <stdexcept>
#include <system_error>

namespace {

constexpr std::string_view records =
    "record TEMP LONG 1 quick 21\n"
    "record COUNT LONG 1 quick 0\n"
    "record MOVE LONG 1 slow 0\n"
    "record MOVED LONG 1 quick 0\n"
    "rule * * COUNT r\n"
    "rule * * MOVED r\n";

std::uint64_t milliseconds()
{
    const auto now = std::chrono::steady_clock::now().time_since_epoch();
    return static_cast<std::uint64_t>(std::chrono::duration_cast<std::chrono::milliseconds>(now).count());
}

/* Seconds since 1990, and nanoseconds. */
std::array<std::uint32_t, 2> moment()
{
    const auto now = std::chrono::duration_cast<std::chrono::nanoseconds>(std::chrono::system_clock::now().time_since_epoch()).count();
    return {static_cast<std::uint32_t>(now / 1'000'000'000 - 631'152'000), static_cast<std::uint32_t>(now % 1'000'000'000)};
}

/* A socket that does not block. */
class Socket {
public:
    explicit Socket(int of) : file(of)
    {
        if (file < 0)
            throw std::system_error(errno, std::generic_category());
        fcntl(file, F_SETFL, O_NONBLOCK);
    }

    Socket(Socket &&other) noexcept : file(std::exchange(other.file, -1)) {}

    Socket &operator=(Socket &&other) noexcept
    {
        std::swap(file, other.file);
        return *this;
    }

    ~Socket()
    {
        if (file >= 0)
            close(file);
    }

    int number() const { return file; }

private:
    int file;
};

/* A socket at this port. If it is 0 the system chooses one, which is written into `address`. */
Socket bound(int kind, sockaddr_in &address)
{
    Socket made(socket(AF_INET, kind, 0));
    const int yes = 1;
    socklen_t size = sizeof address;
    setsockopt(made.number(), SOL_SOCKET, SO_REUSEADDR, &yes, sizeof yes);
    if (bind(made.number(), reinterpret_cast<sockaddr *>(&address), size) < 0 || getsockname(made.number(), reinterpret_cast<sockaddr *>(&address), &size) < 0)
        throw std::system_error(errno, std::generic_category());
    return made;
}

/* A slow record that a put makes busy, and when that put is to be done. */
struct Busy {
    std::string name;
    std::uint64_t due;
};

struct Peer {
    Socket socket;
    cuvezhin::Circuit circuit;
    short events = POLLIN;
};

class Example {
public:
    Example(sockaddr_in address, std::string_view text)
        : listener(bound(SOCK_STREAM, address)), searches(bound(SOCK_DGRAM, address)), server(ntohs(address.sin_port), milliseconds(), text)
    {
        listen(listener.number(), 16);
        std::cout << "serving " << ntohs(address.sin_port) << std::endl;
    }

    void run()
    {
        for (std::uint64_t next = milliseconds() + 1000;;) {
            const std::uint64_t now = milliseconds();
            beacon(now);
            if (now >= next) {
                post("COUNT", ++count);
                next += 1000;
            }
            while (!busy.empty() && now >= busy.front().due)
                process();
            for (Peer &peer : peers)
                if (peer.events == POLLIN && !send_all(peer))
                    server.cut(peer.circuit);
            const std::uint64_t wake = busy.empty() ? next : std::min(busy.front().due, next);
            if (!turn(wake > now ? static_cast<int>(wake - now) : 0))
                return;
        }
    }

private:
    /* Waits for sockets, and serves them. False at the end of standard input. */
    bool turn(int timeout)
    {
        std::vector<pollfd> polled{{0, POLLIN, 0}, {listener.number(), POLLIN, 0}, {searches.number(), POLLIN, 0}};
        for (const Peer &peer : peers)
            polled.push_back({peer.socket.number(), peer.events, 0});
        poll(polled.data(), polled.size(), timeout);
        if (polled[0].revents && std::getchar() == EOF)
            return false;
        for (std::size_t at = peers.size(); at-- > 0;) {
            const short came = polled[3 + at].revents;
            if (came && !serve(peers[at], came)) {
                std::swap(peers[at], peers.back());
                peers.pop_back();
            }
        }
        if (polled[1].revents)
            accept_one();
        if (polled[2].revents)
            answer();
        return true;
    }

    /* Reads what came on a circuit, and handles it message by message. False if the circuit has ended. */
    bool serve(Peer &peer, short came)
    {
        if (came & (POLLIN | POLLHUP | POLLERR))
            receive(peer);
        const auto [seconds, nanoseconds] = moment();
        server.stamp(seconds, nanoseconds);
        for (cvz_step did;;) {
            switch (server.step(peer.circuit, did)) {
            case CVZ_HANDLED:
                if (did.effect == CVZ_BUSIED)
                    begin(server.name(peer.circuit, did.sid));
                break;
            case CVZ_NEEDS_BYTES:
                if (send_all(peer))
                    return true;
                server.cut(peer.circuit);
                break;
            case CVZ_STEP_OUTPUT_FULL:
                if (!send_all(peer))
                    server.cut(peer.circuit);
                else if (peer.events == POLLOUT)
                    return true;
                break;
            default:   /* CVZ_CLOSED: what is left goes out, as far as the socket takes it now */
                for (std::size_t left; (left = server.left(room)) > 0;)
                    if (send(peer.socket.number(), room.data(), left, MSG_NOSIGNAL) < 0)
                        break;
                return false;
            }
        }
    }

    void receive(Peer &peer)
    {
        const ssize_t size = recv(peer.socket.number(), room.data(), room.size(), 0);
        if (size < 0 && (errno == EAGAIN || errno == EWOULDBLOCK))
            return;
        try {
            if (size > 0)
                return server.give(peer.circuit, {room.data(), static_cast<std::size_t>(size)});
        } catch (const cuvezhin::Refusal &) {   /* no memory for these bytes */
        }
        server.cut(peer.circuit);
    }

    /* Sends what waits on a circuit, as far as its socket takes it. False if the circuit was lost. */
    bool send_all(Peer &peer)
    {
        server.pump(peer.circuit);
        peer.events = POLLIN;
        for (std::size_t size; (size = server.output(peer.circuit, room)) > 0; server.pump(peer.circuit)) {
            const ssize_t sent = send(peer.socket.number(), room.data(), size, MSG_NOSIGNAL);
            if (sent < 0 && (errno == EAGAIN || errno == EWOULDBLOCK)) {
                peer.events = POLLOUT;
                return true;
            }
            if (sent < 0)
                return false;
            server.sent(peer.circuit, static_cast<std::size_t>(sent));
        }
        return true;
    }

    void accept_one()
    {
        const int made = accept(listener.number(), nullptr, nullptr);
        if (made < 0)
            return;
        Socket socket(made);
        const int yes = 1;
        setsockopt(made, IPPROTO_TCP, TCP_NODELAY, &yes, sizeof yes);
        try {
            peers.push_back({std::move(socket), server.accept()});
        } catch (const cuvezhin::Refusal &) {   /* its socket closes */
        }
    }

    void answer()
    {
        sockaddr_in from{};
        socklen_t from_size = sizeof from;
        const ssize_t size = recvfrom(searches.number(), room.data(), room.size(), 0, reinterpret_cast<sockaddr *>(&from), &from_size);
        if (size < 0)
            return;
        try {
            server.datagram({room.data(), static_cast<std::size_t>(size)});
        } catch (const cuvezhin::Refusal &) {   /* no memory: the client searches again */
            return;
        }
        for (std::size_t answer; (answer = server.answer(room)) > 0;)
            sendto(searches.number(), room.data(), answer, 0, reinterpret_cast<sockaddr *>(&from), from_size);
    }

    /* Sends the beacon that is due, if one is, to the repeater of this host, so that clients hear of the server. */
    void beacon(std::uint64_t now)
    {
        const std::size_t size = server.beacon(now, room);
        if (size == 0)
            return;
        const char *port = std::getenv("EPICS_CA_REPEATER_PORT");
        sockaddr_in repeater{};
        repeater.sin_family = AF_INET;
        repeater.sin_port = htons(static_cast<std::uint16_t>(port ? std::atoi(port) : 5065));
        repeater.sin_addr.s_addr = htonl(INADDR_LOOPBACK);
        sendto(searches.number(), room.data(), size, 0, reinterpret_cast<const sockaddr *>(&repeater), sizeof repeater);
    }

    /* A put makes the record busy: the device has something to do. */
    void begin(std::string name) { busy.push_back({std::move(name), milliseconds() + 100}); }

    /* The device: it has done what the first of these puts asks for. The next one that waits makes the record busy again. */
    void process()
    {
        std::string name = std::move(busy.front().name);
        busy.pop_front();
        if (const auto image = server.busy(name)) {
            if (name == "MOVE")
                post("MOVED", moved += long_of(*image));
            const auto [seconds, nanoseconds] = moment();
            server.stamp(seconds, nanoseconds);   /* of the put that waits, if one does: it is applied now */
            server.finish(name);
        }
        if (server.busy(name))
            begin(std::move(name));
    }

    static std::uint32_t long_of(const std::vector<std::uint8_t> &image)
    {
        std::uint32_t value = 0;
        for (const std::uint8_t byte : image)
            value = value << 8 | byte;
        return value;
    }

    /* Posts a LONG with its time, if the record is served. */
    void post(std::string_view name, std::uint32_t value)
    try {
        const auto [seconds, nanoseconds] = moment();
        std::vector<std::uint8_t> image;
        for (const std::uint32_t word : {0U, seconds, nanoseconds, value})   /* status and severity, the time, the value: big-endian */
            for (int shift = 24; shift >= 0; shift -= 8)
                image.push_back(static_cast<std::uint8_t>(word >> shift));
        server.post(name, CVZ_MASK_VALUE | CVZ_MASK_LOG, CVZ_TIME + CVZ_LONG, 1, image);
    } catch (const cuvezhin::Refusal &why) {
        if (why.number() != CVZ_UNKNOWN_RECORD)
            throw;
    }

    Socket listener, searches;
    cuvezhin::Server server;
    std::vector<Peer> peers;
    std::array<std::uint8_t, 65536> room;
    std::deque<Busy> busy;
    std::uint32_t count = 0, moved = 0;
};

} // namespace

int main(int argc, char **argv)
try {
    sockaddr_in address{};
    address.sin_family = AF_INET;
    address.sin_port = htons(static_cast<std::uint16_t>(argc > 1 ? std::atoi(argv[1]) : 5064));
    std::string text(records);
    if (argc > 2) {
        std::ifstream file(argv[2]);
        if (!file)
            throw std::runtime_error(std::string("there is no ") + argv[2]);
        text.assign(std::istreambuf_iterator(file), {});
    }
    Example(address, text).run();
    return 0;
} catch (const std::exception &why) {
    std::cerr << "server: " << why.what() << "\n";
    return 1;
}
