"""A whole world by the protocol's rules, over the client and the server beside it: what `ca replay` has to print for a script.

`replayed(script, seed)` gives standard output, standard error and the status. Expected values of this model were compared with the example cases of
vectors/, which come from elsewhere.
"""
import re

import protocol
from client import Client
from protocol import *
from server import Record, Server

# Values are shown whole here.
protocol.bytes_text = bytes.hex
TYPES = ["STRING", "INT", "FLOAT", "ENUM", "CHAR", "LONG", "DOUBLE"]
WHOLE = {1: (">h", -2**15, 2**15), 3: (">H", 0, 2**16), 4: (">B", 0, 2**8), 5: (">i", -2**31, 2**31)}
U64 = 2**64
WORDS = 16


class NotUnderstood(Exception):
    pass


class BadEvent(Exception):
    pass


# Words


def number(word, below=U64):
    if not re.fullmatch(rb"[0-9]+", word) or int(word) >= below:
        raise NotUnderstood
    return int(word)


def address(word):
    found = re.fullmatch(rb"([0-9]+)\.([0-9]+)\.([0-9]+)\.([0-9]+):([0-9]+)", word)
    if not found:
        raise NotUnderstood
    a, b, c, d = (number(it, 256) for it in found.groups()[:4])
    return (a << 24 | b << 16 | c << 8 | d), number(found[5], 65536)


def hexadecimal(word):
    if not re.fullmatch(rb"([0-9a-fA-F]{2})+", word):
        raise NotUnderstood
    return bytes.fromhex(word.decode())


def element(base, word):
    if base in WHOLE:
        form, least, beyond = WHOLE[base]
        if not re.fullmatch(rb"-?[0-9]+", word) or not least <= int(word) < beyond:
            raise NotUnderstood
        return struct.pack(form, int(word))
    text = hexadecimal(word)
    if len(text) > SIZE[base] or base != STRING and len(text) != SIZE[base]:
        raise NotUnderstood
    return text.ljust(SIZE[base], b"\0")


def base_of(word):
    if word.decode("latin-1") not in TYPES:
        raise NotUnderstood
    return TYPES.index(word.decode())


def mask(word):
    found = number(word, 65536)
    if not found & 15:
        raise NotUnderstood
    return found


def record(words):
    """NAME TYPE COUNT quick|slow V ..: the name, and what it is."""
    if len(words) < 4 or words[3] not in (b"quick", b"slow"):
        raise NotUnderstood
    base = base_of(words[1])
    return words[0], base, number(words[2]), words[3] == b"slow", [element(base, it) for it in words[4:]]


def rule(words):
    rights = {b"rw": 3, b"r": 1, b"w": 2, b"-": 0}
    if len(words) != 4 or words[3] not in rights:
        raise NotUnderstood
    return (*words[:3], rights[words[3]])


class Script:
    """The lines of a script: what the world begins with, and its events, each a method's name with its arguments."""

    def __init__(self, text):
        self.clients, self.servers, self.events, self.bases = [], [], [], {}
        for line in (text.removesuffix(b"\n").split(b"\n") if text else []):
            words = line.split(b" ")
            if b"" in words:
                raise NotUnderstood
            self.line(words[0], words[1:])

    def line(self, word, rest):
        if word == b"client" and not self.servers and not self.events and len(rest) >= 2:
            self.clients.append((rest[0], rest[1], [address(it) for it in rest[2:]]))
        elif word == b"server" and not self.events and len(rest) == 1:
            at = address(rest[0])
            if at in [it[0] for it in self.servers]:
                raise NotUnderstood
            self.servers.append((at, {}, []))
        elif word == b"record" and self.servers and not self.events:
            name, base, most, slow, elements = record(rest)
            if len(name) > 60 or b"\0" in name or not 1 <= len(elements) <= most <= 262144 or name in self.servers[-1][1]:
                raise NotUnderstood
            self.servers[-1][1][name] = (base, most, slow, elements)
            self.bases[len(self.servers) - 1, name] = base
        elif word == b"rule" and self.servers and not self.events:
            self.servers[-1][2].append(rule(rest))
        else:
            self.events.append(self.event(word.decode("latin-1"), rest))

    def event(self, word, rest):
        forms = {
            "open": (number, bytes, number), "clear": (number, number), "read": (number,) * 4, "subscribe": (number,) * 4 + (mask,),
            "unsubscribe": (number, number), "collect": (number, number), "give_up": (number, number), "accept": (number,), "up": (number, number),
            "down": (number, number), "sstep": (number,), "cstep": (number,), "pump": (number,), "crestart": (number,), "srestart": (number,),
            "finish": (number, bytes), "remove": (number, bytes), "tick": (number,)}
        if word in forms and len(rest) == len(forms[word]):
            return word, tuple(form(it) for form, it in zip(forms[word], rest))
        if word == "cut" and len(rest) == 2 and rest[1] in (b"client", b"server"):
            return f"cut_{rest[1].decode()}", (number(rest[0]),)
        if word == "dgram" and len(rest) == 4 and rest[0] in (b"client", b"server"):
            return f"dgram_{rest[0].decode()}", (number(rest[1]), address(rest[2]), hexadecimal(rest[3]))
        if word in ("write", "write_notify") and len(rest) >= 3:
            base = number(rest[2], 7)
            return word, (number(rest[0]), number(rest[1]), (base, [element(base, it) for it in rest[3:]], NO_META))
        if word == "add" and len(rest) >= 1:
            name, base, most, slow, elements = record(rest[1:])
            self.bases[number(rest[0]), name] = base
            return word, (number(rest[0]), name, base, most, slow, elements)
        if word == "post" and len(rest) >= 3:
            base = self.bases.get((number(rest[0]), rest[1]))
            if base is None:
                raise NotUnderstood
            return word, (number(rest[0]), rest[1], mask(rest[2]), (base, [element(base, it) for it in rest[3:]], NO_META))
        raise NotUnderstood


# The world


class Life:
    """A client since its last restart: its core, and the numbers of its channels, requests and subscriptions."""

    def __init__(self, core):
        self.core, self.channels, self.requests, self.subscriptions, self.outcomes, self.over = core, [], [], [], {}, set()


class World:
    def __init__(self, script):
        self.script, self.moment, self.circuits = script, 0, []
        self.logs = [[] for _ in script.clients]
        self.lives = [self.life(it) for it in range(len(script.clients))]
        self.servers = [self.server(it) for it in range(len(script.servers))]

    def life(self, c):
        user, host, names = self.script.clients[c]
        return Life(Client(user, host, self.moment, [it[0] for it in self.script.servers], names))

    def server(self, s):
        (_, port), records, rules = self.script.servers[s]
        made = [Record(name, base, most, slow, elements) for name, (base, most, slow, elements) in records.items()]
        return Server(port, self.moment, made, rules)

    # What has a number

    def of(self, things, n):
        if n >= len(things):
            raise BadEvent
        return things[n]

    def circuit(self, k):
        return self.of(self.circuits, k)

    def end_of_client(self, it):
        return it.life.core.end(it.at_client) if it.client_open else None

    def end_of_server(self, it):
        return it.server.end(it.at_server) if it.server_open else None

    def waiting(self, it, is_up):
        end = self.end_of_client(it) if is_up else self.end_of_server(it)
        return (end.out if end else it.left_up if is_up else it.left_down)

    # What a client tells

    def tell(self, c, life, text):
        """Writes the notices of a core's answer, which are separated by commas."""
        for notice in re.findall(r"(live|lost|completed|update|ended|write-refused) ([0-9.]+)(?: ([^,]*))?,", text):
            kind, handle, rest = notice
            handle = tuple(int(it) for it in handle.split("."))
            place = {"completed": life.requests, "update": life.subscriptions, "ended": life.subscriptions}.get(kind, life.channels).index(handle)
            rest = self.outcome(rest) if kind in ("completed", "update") else rest
            if kind == "completed":
                life.outcomes[place] = rest
            self.logs[c].append(f"{c} {kind.replace('-', '_')} {place} {rest}".rstrip(" "))

    @staticmethod
    def outcome(text):
        text = re.sub(r" at [0-9 ]*$", "", text).replace("failed", "status")
        return re.sub(r"unreadable refused ([0-9]+) \w+", r"unreadable \1", text)

    def call(self, c, name, *words):
        """A client's call: what it answers, or None if it was refused, which is told."""
        try:
            return getattr(self.lives[c].core, name)(*words)
        except Refused as refusal:
            self.logs[c].append(f"{c} refused {refusal.args[0].split(' ')[1]}")
            return None

    def given(self, numbers, answer):
        if answer is not None:
            numbers.append(tuple(int(it) for it in answer.split(".")))

    # Events of a client

    def open(self, c, name, priority):
        life = self.of(self.lives, c)
        self.given(life.channels, self.call(c, "open", name, priority, self.moment))

    def clear(self, c, ch):
        life = self.of(self.lives, c)
        self.tell(c, life, self.call(c, "clear", self.of(life.channels, ch)) or "")

    def read(self, c, ch, data_type, count):
        life = self.of(self.lives, c)
        self.given(life.requests, self.call(c, "read", self.of(life.channels, ch), data_type, count))

    def write(self, c, ch, value):
        self.call(c, "write", self.of(self.of(self.lives, c).channels, ch), value)

    def write_notify(self, c, ch, value):
        life = self.of(self.lives, c)
        self.given(life.requests, self.call(c, "write_notify", self.of(life.channels, ch), value))

    def subscribe(self, c, ch, data_type, count, wanted):
        life = self.of(self.lives, c)
        self.given(life.subscriptions, self.call(c, "subscribe", self.of(life.channels, ch), data_type, count, wanted))

    def unsubscribe(self, c, sub):
        self.call(c, "unsubscribe", self.of(self.of(self.lives, c).subscriptions, sub))

    def collect(self, c, r, what="collected"):
        life = self.of(self.lives, c)
        self.of(life.requests, r)
        told = "nothing" if r in life.over else life.outcomes.get(r, "nothing")
        if told != "nothing" or what == "gave_up":
            life.over.add(r)
        self.logs[c].append(f"{c} {what} {r} {told}")

    def give_up(self, c, r):
        self.collect(c, r, "gave_up")

    def dgram_client(self, c, sender, text):
        self.of(self.lives, c).core.datagram(self.moment, sender, text)

    def accept(self, c):
        life = self.of(self.lives, c)
        addresses = [it[0] for it in self.script.servers]
        for handle in life.core.order:
            wanted = life.core.circuits.at(handle)
            if wanted.end is None and wanted.address in addresses:
                server = self.servers[addresses.index(wanted.address)]
                at = tuple(int(it) for it in server.accept().split("."))
                life.core.connected(handle)
                self.circuits.append(Thing(c=c, life=life, at_client=handle, server=server, at_server=at, client_open=True, server_open=True,
                                           left_up=b"", left_down=b""))
                return
        raise BadEvent

    def cstep(self, k):
        it = self.circuit(k)
        if not it.client_open:
            raise BadEvent
        out = self.end_of_client(it)
        told = it.life.core.step(it.at_client)
        if told.startswith("closed"):
            it.client_open, it.left_up = False, out.out
        self.tell(it.c, it.life, told)

    def cut_client(self, k):
        it = self.circuit(k)
        if not it.client_open:
            raise BadEvent
        it.left_up, it.client_open = self.end_of_client(it).out, False
        self.tell(it.c, it.life, it.life.core.cut(it.at_client))

    def crestart(self, c):
        life = self.of(self.lives, c)
        for it in self.circuits:
            if it.life is life and it.client_open:
                it.left_up, it.client_open = self.end_of_client(it).out, False
        self.lives[c] = self.life(c)

    # Events of a server

    def dgram_server(self, s, _sender, text):
        self.of(self.servers, s).datagram(text)

    def sstep(self, k):
        it = self.circuit(k)
        if not it.server_open:
            raise BadEvent
        end = self.end_of_server(it)
        if it.server.step(it.at_server).startswith("closed"):
            it.server_open, it.left_down = False, end.out

    def pump(self, k):
        it = self.circuit(k)
        if not it.server_open:
            raise BadEvent
        it.server.pump(it.at_server)

    def cut_server(self, k):
        it = self.circuit(k)
        if not it.server_open:
            raise BadEvent
        it.left_down, it.server_open = self.end_of_server(it).out, False
        it.server.cut(it.at_server)
        it.server.step(it.at_server)

    def srestart(self, s):
        server = self.of(self.servers, s)
        for it in self.circuits:
            if it.server is server and it.server_open:
                it.left_down, it.server_open = self.end_of_server(it).out, False
        self.servers[s] = self.server(s)

    def quietly(self, s, name, *words):
        server = self.of(self.servers, s)
        try:
            getattr(server, name)(*words)
        except Refused:
            pass

    def post(self, s, name, wanted, value):
        self.quietly(s, "post", name, wanted, value)

    def finish(self, s, name):
        self.quietly(s, "finish", name)

    def remove(self, s, name):
        self.quietly(s, "remove", name)

    def add(self, s, name, base, most, slow, elements):
        self.quietly(s, "add", name, most, "slow" if slow else "quick", (base, elements, NO_META))

    # Bytes and moments

    def up(self, k, n):
        it = self.circuit(k)
        text = self.waiting(it, True)
        if not it.server_open or len(text) < n:
            raise BadEvent
        if it.client_open:
            self.end_of_client(it).out = text[n:]
        else:
            it.left_up = text[n:]
        it.server.give(it.at_server, text[:n])

    def down(self, k, n):
        it = self.circuit(k)
        text = self.waiting(it, False)
        if not it.client_open or len(text) < n:
            raise BadEvent
        if it.server_open:
            self.end_of_server(it).out = text[n:]
        else:
            it.left_down = text[n:]
        it.life.core.give(it.at_client, text[:n], len(text) > n)

    def tick(self, moment):
        if moment < self.moment:
            raise BadEvent
        self.moment = moment
        for c, life in enumerate(self.lives):
            before = [(it, self.end_of_client(it)) for it in self.circuits if it.life is life and it.client_open]
            told = life.core.tick(moment)
            for it, end in before:
                if self.end_of_client(it) is not end:
                    it.client_open, it.left_up = False, end.out
            self.tell(c, life, told)
        for server in self.servers:
            server.moment = moment

    def do(self, event):
        getattr(self, event[0])(*event[1])


class Pcg32:
    """The generator of `--seed`: PCG XSH RR with 64 bits of state, seeded from one number as Rust's `rand_core` does."""

    def __init__(self, seed):
        state, words = seed, []
        for _ in range(4):
            state = (state * 6364136223846793005 + 11634580027462260723) % U64
            words.append(self.output(state))
        self.increment = (words[2] | words[3] << 32) | 1
        self.state = ((words[0] | words[1] << 32) + self.increment) % U64
        self.step()

    @staticmethod
    def output(state):
        word, turn = ((state >> 18 ^ state) >> 27) % 2**32, state >> 59
        return (word >> turn | word << (-turn % 32)) % 2**32

    def step(self):
        self.state = (self.state * 6364136223846793005 + self.increment) % U64

    def next(self):
        state = self.state
        self.step()
        return self.output(state)


def drawn(world, word):
    """The event that a drawn number is, or None if there is no circuit, or the event would be refused."""
    if not world.circuits:
        return None
    k, what, most = word // 8 % len(world.circuits), word % 8, 1 + word // 256 % 64
    it = world.circuits[k]
    if what in (0, 5):
        return ("up", (k, min(most, len(world.waiting(it, True))))) if it.server_open else None
    if what in (1, 6):
        return ("down", (k, min(most, len(world.waiting(it, False))))) if it.client_open else None
    if what in (2, 4):
        return ({2: "sstep", 4: "pump"}[what], (k,)) if it.server_open else None
    name = "cut_client" if what == 7 and word // 65536 % 64 == 0 else "cstep"
    return (name, (k,)) if it.client_open else None


def replayed(text, seed=None):
    try:
        script = Script(text)
    except NotUnderstood:
        return "", "refused: 8 BadText\n", 1
    world, done, refused, generator = World(script), 0, "", None if seed is None else Pcg32(seed)
    try:
        for event in script.events:
            world.do(event)
            done += 1
            for _ in range(WORDS if generator else 0):
                extra = drawn(world, generator.next())
                if extra:
                    world.do(extra)
                    done += 1
    except BadEvent:
        refused = "refused: 22 BadEvent\n"
    report = "".join(f"{line}\n" for log in world.logs for line in log)
    return f"{report}events {done}\n", refused, 1 if refused else 0
