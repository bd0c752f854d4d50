"""Tables drawn from a seed: calls to one core, and what comes from its peers, with ids that are in use for the most part."""
import random
import struct

from client import Client
from protocol import *
from server import Record, Server


class Table:
    """Lines of calls, each with its answer."""

    def __init__(self, core, first):
        self.core, self.lines = core, [f"{first} -> ok"]

    def call(self, name, *words):
        text = " ".join([name] + [word_text(w) for w in words])
        try:
            answer = getattr(self.core, name)(*words)
        except Refused as refusal:
            answer = refusal.args[0]
        self.lines.append(f"{text} -> {answer}")


def word_text(word):
    if isinstance(word, Name):
        return word.text
    if isinstance(word, bytes):
        return " ".join(word[i:i + 8].hex() for i in range(0, len(word), 8))
    if isinstance(word, str):
        return word
    if isinstance(word, int):
        return str(word)
    if isinstance(word[0], int) and word[0] > 65535:
        return address_text(word)
    if len(word) == 2:
        return handle_text(word)
    base, elements, meta = word
    data_type = base if meta == NO_META else base + 14
    return f"{data_type} {len(elements)} {word_text(image(data_type, elements, meta))}".rstrip()


class Name(bytes):
    """A name in a line, which is a word of its own: `-` is the empty one."""

    @property
    def text(self):
        return self.decode() or "-"


HOSTS = [(0x7F000001, 5064), (0x7F000001, 5066), (0x0A000002, 5064)]


def any_bytes(rng, size):
    return bytes(rng.randrange(256) for _ in range(size))


def any_value(rng, most):
    base = rng.randrange(7)
    return base, [any_bytes(rng, SIZE[base]) for _ in range(rng.choice([0, 1, 1, 1, most, most + 1]))], NO_META


def any_display(rng, data_type):
    """An image of this type with display data, in one of ten cases cut, and how many elements it has."""
    size, count = SIZE[data_type % 7], rng.choice([1, 1, 2, 0])
    # Of FLOAT and DOUBLE the last is a NaN.
    limits = [rng.choice([any_bytes(rng, size), any_bytes(rng, size), bytes(size), b"\xff\xf0\0\1\0\0\0\0"[:size]]) for _ in range(8)]
    states = [rng.choice([b"OFF".ljust(26, b"\0"), bytes(26), any_bytes(rng, 26)]) for _ in range(rng.choice([0, 1, 2, 2, 3, 16, 17]))]
    display = rng.choice([b"mm".ljust(8, b"\0"), any_bytes(rng, 8)]), rng.choice([0, 3, rng.randrange(-2**15, 2**15)]), limits, states
    elements = [any_bytes(rng, size) for _ in range(count)]
    b = display_image(data_type, elements, rng.choice([(0, 0), (1, 2), (65535, 258)]), display)
    return count, b if rng.random() < 0.9 else b[:rng.randrange(len(b))]


class ClientDraw:
    """Draws calls to a client, and what its servers send."""

    def __init__(self, seed, n):
        self.rng = rng = random.Random(seed)
        servers = rng.sample(HOSTS, rng.randrange(3))
        names = rng.sample(HOSTS, rng.randrange(3))
        first = " ".join(["client anna hall 0"] + [address_text(a) for a in servers] + ["names"] + [address_text(a) for a in names])
        self.core = Client(b"anna", b"hall", 0, servers, names)
        self.table = Table(self.core, first)
        self.now = 0
        draws = [self.open] * 4 + [self.reply] * 6 + [self.connected] * 5 + [self.hear] * 40 + [self.read] * 5 + [
            self.read_display] * 4 + [self.write] * 2 + [self.write_notify] * 4 + [self.subscribe] * 5 + [self.unsubscribe] * 2 + [self.clear] * 2 + [
            self.cut, self.tick, self.tick, self.state, self.take, self.give_more, self.beacon, self.wanted]
        for _ in range(n):
            rng.choice(draws)()

    def some(self, ids, value=None):
        """A handle that is in use, or any."""
        rng = self.rng
        held = [h for h, v in ids.held() if value is None or value(v)]
        if held and rng.random() < 0.9:
            return rng.choice(held)
        return rng.randrange(4), rng.randrange(1, 4)

    def live(self):
        return self.some(self.core.channels, lambda c: c.phase == "live")

    def circuit(self):
        return self.some(self.core.circuits, lambda d: d.end is not None)

    def open(self):
        rng = self.rng
        name = Name(rng.choice([b"TEMP", b"SETP", b"A-LONGER-NAME:OF-A-RECORD", b"X" * 500]))
        if rng.random() < 0.1:
            name = Name(rng.choice([b"", b"X" * 501]))
        priority = rng.choice([0, 0, 0, 1, 99, 100])
        if len(self.core.channels.held()) < 12:
            self.table.call("open", name, priority, self.now)

    def reply(self):
        rng = self.rng
        h = self.some(self.core.channels, lambda c: c.phase == "searching")
        message = self.search_reply(h)
        self.table.call("datagram", self.now, rng.choice(HOSTS), spelled(VERSION, 0, 13) + message + message[:rng.choice([0, 0, 0, 8, 24])])

    def search_reply(self, h):
        rng = self.rng
        return spelled(SEARCH, rng.choice([5064, 5064, 5066]), 0, rng.choice([0xFFFFFFFF] * 3 + [0x0A000002]), wire_of(h), b"\0\x0d")

    def beacon(self):
        rng = self.rng
        b = spelled(BEACON, 13, 5064, rng.randrange(3), rng.choice([0, 0x0A000002]))
        self.table.call("datagram", self.now, rng.choice(HOSTS), b * rng.choice([1, 1, 2]))

    def wanted(self):
        self.table.call("wanted")

    def connected(self):
        h = self.some(self.core.circuits, lambda d: d.end is None)
        self.table.call("wanted")
        self.table.call("connected", h)

    def take(self):
        self.table.call("take", self.circuit())

    def state(self):
        self.table.call("state", self.some(self.core.channels))

    def read(self):
        self.table.call("read", self.live(), self.rng.choice([5, 5, 19, 0, 20, 21, 36]), self.rng.choice([0, 1, 1, 2, 3]))

    def read_display(self):
        """Its reply may come at once: few of those that are drawn apart are to one that is open."""
        rng, h = self.rng, self.live()
        data_type = rng.choice([rng.randrange(21, 35)] * 20 + [20, 35, 5, 65535])
        self.table.call("read_display", h, data_type, rng.choice([0, 1, 1, 1, 2, 3]))
        c = self.core.channels.at(h)
        if c and c.phase == "live" and rng.random() < 0.7:
            self.table.call("hear", c.circuit, self.read_reply(c.circuit))

    def subscribe(self):
        self.table.call("subscribe", self.live(), self.rng.choice([5, 5, 19, 20, 21]), self.rng.choice([0, 1, 2, 3]),
                        self.rng.choice([1, 2, 3, 15]))

    def unsubscribe(self):
        self.table.call("unsubscribe", self.some(self.core.subscriptions, lambda s: s.stage == "stands"))

    def write(self):
        self.table.call("write", self.live(), any_value(self.rng, 2))

    def write_notify(self):
        self.table.call("write_notify", self.live(), any_value(self.rng, 2))

    def clear(self):
        self.table.call("clear", self.some(self.core.channels))

    def cut(self):
        if self.rng.random() < 0.4:
            self.table.call(self.rng.choice(["cut", "close"]), self.circuit())

    def tick(self):
        self.now = max(0, self.now + self.rng.choice([-5, 0, 10, 32, 64, 500, 3000, 29999, 30000, 5000, 35000]))
        self.table.call("tick", self.now)

    def give_more(self):
        circuit = self.circuit()
        for _ in range(self.rng.randrange(12)):
            self.table.call("give_more", circuit, b"")

    def hear(self):
        if not any(d.end for _, d in self.core.circuits.held()):
            return self.rng.choice([self.open, self.reply, self.connected])()
        circuit = self.circuit()
        draws = [self.rights, self.created, self.created, self.created, self.create_failed, self.cleared, self.cleared, self.gone,
                 self.read_reply, self.read_reply, self.read_reply, self.put_reply] + [self.update] * 5 + [self.confirmation, self.error, self.search_again,
                 self.other]
        messages = b"".join(self.rng.choice(draws)(circuit) for _ in range(self.rng.choice([1, 1, 1, 2, 3])))
        if self.rng.random() < 0.01:
            messages += self.rng.choice([struct.pack(">HHHHII", ECHO, 12, 0, 0, 0, 0), spelled(ECHO)[:2] + b"\xff\xff" + bytes(12) + b"\1\0\0\x08" + bytes(4)])
        self.table.call("hear", circuit, messages)

    def cid(self, circuit, *phases):
        return wire_of(self.some(self.core.channels, lambda c: c.circuit == circuit and c.phase in phases))

    def rights(self, circuit):
        return spelled(RIGHTS, p1=self.cid(circuit, "creating", "live"), p2=self.rng.choice([3, 3, 3, 1, 2, 0]))

    def created(self, circuit):
        cid = self.cid(circuit, "creating", "doomed")
        rights = spelled(RIGHTS, p1=cid, p2=3) if self.rng.random() < 0.8 else b""
        return rights + spelled(CREATE, self.rng.choice([5, 6]), self.rng.choice([1, 2]), cid, 65536 + self.rng.randrange(8))

    def create_failed(self, circuit):
        return spelled(CREATE_FAIL, p1=self.cid(circuit, "creating", "doomed"))

    def cleared(self, circuit):
        return spelled(CLEAR, p1=65536 + self.rng.randrange(8), p2=self.cid(circuit, "clearing", "leaving"))

    def gone(self, circuit):
        return spelled(DISCONN, p1=self.cid(circuit, "live")) if self.rng.random() < 0.3 else b""

    def ioid(self, circuit, command):
        return wire_of(self.some(self.core.requests, lambda q: q.circuit == circuit and q.command == command))

    def image(self):
        rng = self.rng
        data_type, count = rng.choice([5, 5, 19, 12, 4, 0, 20, 18]), rng.choice([1, 1, 2])
        b = image(data_type, [any_bytes(rng, SIZE[data_type % 7]) for _ in range(count)], (1, 2, 3, 4))
        return data_type, count, b if rng.random() < 0.9 else b[:-8]

    def read_reply(self, circuit):
        rng, ioid = self.rng, self.ioid(circuit, READ_NOTIFY)
        if rng.random() < 0.2:
            return spelled(READ_NOTIFY, 5, 1, rng.choice([BADTYPE, GETFAIL, BADCHID]), ioid)
        q = self.core.requests.by_wire(ioid)
        is_display = bool(q) and self.core.requests.at(q).with_display
        data_type = rng.randrange(21, 35)
        data_type, count, b = (data_type, *any_display(rng, data_type)) if is_display != (rng.random() < 0.1) else self.image()
        return spelled(READ_NOTIFY, data_type, count, NORMAL, ioid, b)

    def put_reply(self, circuit):
        return spelled(WRITE_NOTIFY, 5, 1, self.rng.choice([NORMAL, NORMAL, PUTFAIL]), self.ioid(circuit, WRITE_NOTIFY))

    def sub(self, circuit, stage):
        return wire_of(self.some(self.core.subscriptions, lambda s: s.stage == stage))

    def update(self, circuit):
        rng = self.rng
        data_type, count, b = self.image()
        return spelled(EVENT_ADD, data_type, count, rng.choice([NORMAL] * 5 + [GETFAIL]), self.sub(circuit, rng.choice(["stands", "stands", "cancelled"])), b)

    def confirmation(self, circuit):
        return spelled(EVENT_ADD, 5, 1, 65536, self.sub(circuit, self.rng.choice(["cancelled", "cancelled", "stands", "ended"])))

    def error(self, circuit):
        rng = self.rng
        kind = rng.randrange(5)
        command, p2 = [(WRITE, 0), (EVENT_ADD, self.sub(circuit, "stands")), (READ_NOTIFY, self.ioid(circuit, READ_NOTIFY)),
                       (WRITE_NOTIFY, self.ioid(circuit, WRITE_NOTIFY)), (ECHO, 0)][kind]
        quoted = header(command, rng.choice([8, 8, 65536]), 5, 1, 65536, p2)
        quoted = quoted if rng.random() < 0.9 else quoted[:8]
        return spelled(ERROR, 0, 0, self.cid(circuit, "live"), rng.choice([BADCHID, ADDFAIL, PUTFAIL]), quoted + bytes(8))

    def search_again(self, circuit):
        return self.search_reply(self.some(self.core.channels, lambda c: c.phase == "searching"))

    def other(self, circuit):
        return self.rng.choice([spelled(VERSION, 0, 13), spelled(ECHO), spelled(NOT_FOUND, 10, 13, 65536, 65536), spelled(99, 1, 2, 3, 4, bytes(16)),
                                spelled(WRITE, 5, 1, 65536, 65536, bytes(8))])


LINES = """record TEMP LONG 1 quick 21
record SLOW LONG 2 slow 7
record NOTE STRING 2 quick 3432 4f4b
record GAIN DOUBLE 1 quick 3ff0000000000000
record WAVE INT 4 quick 1 -2 300
record LETTERS CHAR 9 quick 65 66
record MODE ENUM 1 slow 3
rule eve * TEMP r
rule eve hall SLOW w
rule bob * NOTE -
rule * garden MODE r"""


def records_in(lines):
    records, rules = [], []
    for line in lines.splitlines():
        first, *words = line.split(" ")
        if first == "rule":
            rules.append((*(w.encode() for w in words[:3]), {"rw": 3, "r": 1, "w": 2, "-": 0}[words[3]]))
            continue
        base = "STRING INT FLOAT ENUM CHAR LONG DOUBLE".split().index(words[1])
        hexadecimal = base in (STRING, FLOAT, DOUBLE)
        elements = [bytes.fromhex(w).ljust(SIZE[base], b"\0") if hexadecimal else struct.pack([0, ">h", 0, ">H", ">B", ">i"][base], int(w))
                    for w in words[4:]]
        records.append(Record(words[0].encode(), base, int(words[2]), words[3] == "slow", elements))
    return records, rules


class ServerDraw:
    """Draws calls to a server, and what its clients send."""

    def __init__(self, seed, n):
        self.rng = rng = random.Random(seed)
        self.core = Server(5064, 0, *records_in(LINES))
        self.table = Table(self.core, "server 5064 0")
        self.table.lines[:0] = [f"{line} -> ok" for line in LINES.splitlines()]
        self.now = 0
        draws = [self.accept] + [self.handle] * 40 + [self.post] * 5 + [self.finish] * 5 + [
            self.remove, self.add, self.cut, self.step, self.stamp, self.counts, self.pump, self.pump, self.beacon, self.datagram]
        self.accept()
        for _ in range(n):
            rng.choice(draws)()

    def accept(self):
        if len(self.core.circuits.held()) < 4:
            self.table.call("accept")

    def circuit(self):
        held = [h for h, e in self.core.circuits.held() if e.open or self.rng.random() < 0.05]
        if not any(e.open for _, e in self.core.circuits.held()):
            self.table.call("accept")
        return self.rng.choice(held) if held and self.rng.random() < 0.97 else (self.rng.randrange(3), 1)

    def handle(self):
        circuit = self.circuit()
        e = self.core.end(circuit)
        names = [self.greeting, self.name] if e and not e.settled else []
        draws = [self.create] * 4 + [self.read] * 6 + [self.write] * 3 + [self.put] * 6 + [self.subscribe] * 5 + [
            self.cancel, self.clear, self.events, self.search, self.other] + names * 8
        messages = b"".join(self.rng.choice(draws)(e) for _ in range(self.rng.choice([1, 1, 1, 2, 4])))
        if self.rng.random() < 0.01:
            messages += struct.pack(">HHHHII", ECHO, 12, 0, 0, 0, 0)
        if self.rng.random() < 0.2:
            self.table.call("give", circuit, messages)
            for _ in range(self.rng.randrange(4)):
                self.table.call("step", circuit)
            return
        self.table.call("handle", circuit, messages)

    def record(self):
        return self.rng.choice([*self.core.records, b"NONE"])

    def sid(self, e):
        held = [wire_of(h) for h, _ in e.channels.held()] if e else []
        return self.rng.choice(held) if held and self.rng.random() < 0.95 else 65536 + self.rng.randrange(4)

    def greeting(self, e):
        return spelled(VERSION, 0, 13)

    def name(self, e):
        return spelled(self.rng.choice([CLIENT_NAME, HOST_NAME]), payload=named(self.rng.choice([b"eve", b"bob", b"hall", b"garden"])))

    def create(self, e):
        if e and len(e.channels.held()) > 8:
            return b""
        return spelled(CREATE, 0, 0, 65536 + self.rng.randrange(12), 13, named(self.record()))

    def read(self, e):
        return spelled(READ_NOTIFY, self.rng.choice([0, 1, 3, 4, 5, 5, 5, 6, 12, 19, 14, 18, 20, 21]), self.rng.choice([0, 0, 1, 1, 2, 4, 10]),
                       self.sid(e), self.rng.randrange(9))

    def value(self):
        rng = self.rng
        base = rng.choice([0, 0, 1, 3, 4, 5, 5, 6, 7])
        count = rng.choice([0, 1, 1, 1, 1, 2, 3])
        if base == STRING:
            elements = [rng.choice([b"42", b" -7 ", b"4x2", b"", b"99999", b"-0", b"0007"]).ljust(40, b"\0") for _ in range(count)]
            return base, count, b"".join(elements)[:rng.choice([8, 40, 80])]
        small = [bytes(SIZE[base % 7] - 1) + bytes([rng.randrange(256)]) for _ in range(count)]
        wide = [any_bytes(rng, SIZE[base % 7]) for _ in range(count)]
        return base, count, b"".join(rng.choice([small, wide]))

    def write(self, e):
        base, count, b = self.value()
        return spelled(WRITE, base, count, self.sid(e), 0, b)

    def put(self, e):
        base, count, b = self.value()
        return spelled(WRITE_NOTIFY, base, count, self.sid(e), self.rng.randrange(9), b) * self.rng.choice([1, 1, 1, 1, 7])

    def subscribe(self, e):
        rng = self.rng
        payload = bytes(12) + struct.pack(">HH", rng.choice([1, 1, 2, 3, 4, 0, 16, 17]), 0)
        return spelled(EVENT_ADD, rng.choice([5, 5, 0, 4, 19, 12, 6, 21]), rng.choice([0, 1, 1, 2, 5]), self.sid(e), rng.randrange(6),
                       payload if rng.random() < 0.95 else payload[:8])

    def key(self, e):
        held = [s.key for s in e.subscriptions] if e else []
        return self.rng.choice(held) if held and self.rng.random() < 0.8 else (self.sid(e), self.rng.randrange(6))

    def cancel(self, e):
        sid, sub = self.key(e)
        return spelled(EVENT_CANCEL, 5, 1, sid, sub)

    def clear(self, e):
        return spelled(CLEAR, p1=self.sid(e), p2=65536 + self.rng.randrange(12))

    def events(self, e):
        return spelled(self.rng.choice([EVENTS_OFF, EVENTS_ON]))

    def search(self, e=None):
        return spelled(SEARCH, self.rng.choice([5, 10]), 13, self.rng.randrange(9), self.rng.randrange(9), named(self.record()))

    def other(self, e):
        return self.rng.choice([spelled(VERSION, 3, 13), spelled(ECHO, 1, 2, 3, 4), spelled(3, 5, 1, 65536, 1), spelled(99, payload=bytes(16)),
                                spelled(CLIENT_NAME, payload=named(b"eve"))])

    def datagram(self):
        count = self.rng.choice([1, 1, 2, 43])
        b = spelled(VERSION, 0, 13) + b"".join(self.search() for _ in range(count))
        self.table.call("datagram", b[:len(b) - self.rng.choice([0, 0, 0, 3])])

    def post(self):
        rng, name = self.rng, self.record()
        r = self.core.records.get(name)
        base = r.base if r and rng.random() < 0.95 else LONG
        size, count = SIZE[base], rng.choice([1, 1, 1, 2, 0])
        elements = [bytes(size - 1) + bytes([rng.randrange(256)]) for _ in range(count)]
        value = base, elements, rng.choice([NO_META, (1, 2, 3, 4)])
        for _ in range(rng.choice([1, 1, 1, 3])):
            self.table.call("post", Name(name), rng.choice([1, 1, 2, 3, 4, 0]), value)

    def finish(self):
        busy = [n for n, r in self.core.records.items() if r.busy]
        self.table.call("finish", Name(self.rng.choice(busy) if busy and self.rng.random() < 0.9 else self.record()))

    def remove(self):
        if self.rng.random() < 0.4:
            self.table.call("remove", Name(self.record()))

    def add(self):
        rng = self.rng
        name = rng.choice([b"TEMP", b"SLOW", b"WAVE", b"NEW", b"N" * 60, b"N" * 61])
        value = LONG, [struct.pack(">i", rng.randrange(100))] * rng.choice([1, 1, 1, 0, 3]), NO_META
        self.table.call("add", Name(name), rng.choice([1, 2, 2, 0]), rng.choice(["quick", "slow"]), value)

    def cut(self):
        if self.rng.random() < 0.4:
            self.table.call("cut", self.circuit())

    def step(self):
        self.table.call("step", self.circuit())

    def pump(self):
        circuit = self.circuit()
        self.table.call("pump", circuit)
        self.table.call("take", circuit)

    def stamp(self):
        self.table.call("stamp", self.rng.randrange(5), self.rng.randrange(5))

    def counts(self):
        self.table.call("applied")
        self.table.call("waiting")

    def beacon(self):
        self.now += self.rng.choice([0, 10, 20, 40, 500])
        self.table.call("beacon", self.now)


def limits():
    """The limits of a circuit at a server: 288 subscriptions, in queues of 36, and 43 names in one datagram."""
    records, rules = records_in("record TEMP LONG 1 quick 21")
    table = Table(Server(5064, 0, records, rules), "server 5064 0")
    table.lines.insert(0, "record TEMP LONG 1 quick 21 -> ok")
    table.call("accept")
    table.call("handle", (0, 1), spelled(CREATE, p1=65536, p2=13, payload=named(b"TEMP")))
    for i in range(290):
        table.call("handle", (0, 1), spelled(EVENT_ADD, 5, 1, 65536, i, bytes(13) + b"\1"))
    # The room of two is free again, and the first queue with room takes the next.
    for i in (200, 40, 500, 501, 502):
        command = EVENT_CANCEL if i < 290 else EVENT_ADD
        table.call("handle", (0, 1), spelled(command, 5, 1, 65536, i, b"" if i < 290 else bytes(13) + b"\1"))
    table.call("post", Name(b"TEMP"), 1, (LONG, [bytes([0, 0, 0, 22])], NO_META))
    table.call("pump", (0, 1))
    for i in range(96):
        table.call("out", (0, 1))
        table.call("sent", (0, 1), 3 * 24)
    table.call("datagram", b"".join(spelled(SEARCH, 5, 13, i, i, named(b"TEMP")) for i in range(43)))
    return table.lines


def beacon_limit():
    """The limit of a client's beacons: it knows the numbers of 1,024 servers, and a beacon of any other is always an anomaly."""
    table = Table(Client(b"anna", b"hall", 0, HOSTS[:1], []), "client anna hall 0 127.0.0.1:5064 names")
    table.call("open", Name(b"TEMP"), 0, 0)
    for ports in range(0, 1024, 64):
        table.call("datagram", 0, HOSTS[0], b"".join(spelled(BEACON, 13, port, 0) for port in range(ports, ports + 64)))
    table.call("tick", 0)
    for port, number in ((5064, 0), (5064, 1), (1023, 1)):
        table.call("datagram", 0, HOSTS[0], spelled(BEACON, 13, port, number))
        table.call("tick", 0)
    return table.lines


def display_reads():
    """A client's reads with display data: six of each type, with replies that are drawn, and plain reads that are open with some of them."""
    rng = random.Random(0)
    table = Table(Client(b"anna", b"hall", 0, [], HOSTS[:1]), "client anna hall 0 names 127.0.0.1:5064")
    table.call("connected", (0, 1))
    table.call("open", Name(b"TEMP"), 0, 0)
    table.call("hear", (0, 1), spelled(SEARCH, 5064, 0, 0xFFFFFFFF, 65536, b"\0\x0d"))
    table.call("hear", (0, 1), spelled(RIGHTS, p1=65536, p2=3) + spelled(CREATE, DOUBLE, 3, 65536, 65536))
    for data_type in [*range(21, 35)] * 6:
        table.call("read_display", (0, 1), data_type, rng.randrange(4))
        asked = [(table.core.issued[-1], data_type, *any_display(rng, data_type))]
        if rng.random() < 0.3:
            table.call("read", (0, 1), DOUBLE, 1)
            asked.insert(rng.randrange(2), (table.core.issued[-1], DOUBLE, 1, any_bytes(rng, 8)))
        replies = [spelled(READ_NOTIFY, replied, count, NORMAL, wire_of(q), b) for q, replied, count, b in asked]
        table.call("hear", (0, 1), b"".join(replies))
    return table.lines


def drawn(seed, n):
    return (ClientDraw if seed % 2 == 0 else ServerDraw)(seed, n).table.lines
