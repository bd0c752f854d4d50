"""A client by the protocol's rules, in the plainest form: lists, and one method for each call. It never lacks memory."""
import struct

from protocol import *


class Client:
    def __init__(self, user, host, now, servers, names):
        self.user, self.host, self.moment, self.servers = user, host, now, servers
        self.channels, self.requests, self.subscriptions, self.circuits = Ids(), Ids(), Ids(), Ids()
        self.issued, self.order, self.searches, self.beacons = [], [], [], {}
        for a in dict.fromkeys(names):
            self.order.append(self.circuits.give(Thing(address=a, priority=0, is_name=True, end=None)))

    # what is where

    def channel(self, h):
        """The channel that the caller's handle names."""
        c = self.channels.at(h)
        return c if c and c.phase not in ("clearing", "doomed") else None

    def live(self, h):
        c = self.channel(h)
        if c is None:
            refuse(10)
        if c.phase != "live":
            refuse(13)
        return c

    def end(self, circuit):
        d = self.circuits.at(circuit)
        return d.end if d else None

    def send(self, circuit, *message, **fields):
        self.end(circuit).out += spelled(*message, **fields)

    def check_output(self, circuit):
        if len(self.end(circuit).out) >= OUTPUT_LIMIT:
            refuse(26)

    def search(self, h):
        return next(s for s in self.searches if s.channel == h)

    def searched(self, h):
        c = self.channels.at(h)
        c.phase, c.circuit = "searching", None
        self.search(h).due, self.search(h).wait = self.moment, 32

    def forget(self, h):
        self.channels.free(h)
        self.searches.remove(self.search(h))

    # calls

    def open(self, name, priority, now):
        if not 1 <= len(name) <= 500 or b"\0" in name:
            refuse(12)
        if priority > 99:
            refuse(25)
        if self.channels.is_full():
            refuse(9)
        self.moment = max(self.moment, now)
        h = self.channels.give(Thing(name=name, priority=priority, phase="searching", circuit=None))
        self.searches.append(Thing(channel=h, due=self.moment, wait=32))
        return handle_text(h)

    def state(self, h):
        c = self.channel(h)
        if c is None:
            refuse(10)
        return f"live {c.data_type} {c.count} {c.rights}" if c.phase == "live" else c.phase

    def ask(self, h, data_type, count, ids, types=range(21)):
        c = self.live(h)
        if data_type not in types:
            refuse(4)
        if not c.rights & 1:
            refuse(14)
        if count > c.count:
            refuse(15)
        self.check_output(c.circuit)
        if ids.is_full():
            refuse(9)
        return c

    def put(self, h, value):
        c = self.live(h)
        base, elements, _ = value
        if not c.rights & 2:
            refuse(14)
        if not 1 <= len(elements) <= c.count or len(elements) * SIZE[base] > PAYLOAD_LIMIT:
            refuse(15)
        self.check_output(c.circuit)
        return c

    def issue(self, h, command, with_display=False):
        circuit = self.channels.at(h).circuit
        q = self.requests.give(Thing(channel=h, circuit=circuit, command=command, open=True, with_display=with_display))
        self.issued.append(q)
        return q

    def read(self, h, data_type, count):
        return self.read_as(h, data_type, count, range(21))

    def read_display(self, h, data_type, count):
        return self.read_as(h, data_type, count, range(21, 35))

    def read_as(self, h, data_type, count, types):
        c = self.ask(h, data_type, count, self.requests, types)
        q = self.issue(h, READ_NOTIFY, types[0] == 21)
        self.send(c.circuit, READ_NOTIFY, data_type, count, c.sid, wire_of(q))
        return handle_text(q)

    def write(self, h, value):
        c = self.put(h, value)
        self.send(c.circuit, WRITE, value[0], len(value[1]), c.sid, 0, b"".join(value[1]))
        return "ok"

    def write_notify(self, h, value):
        c = self.put(h, value)
        if self.requests.is_full():
            refuse(9)
        q = self.issue(h, WRITE_NOTIFY)
        self.send(c.circuit, WRITE_NOTIFY, value[0], len(value[1]), c.sid, wire_of(q), b"".join(value[1]))
        return handle_text(q)

    def subscribe(self, h, data_type, count, mask):
        c = self.ask(h, data_type, count, self.subscriptions)
        s = self.subscriptions.give(Thing(channel=h, data_type=data_type, count=count, mask=mask, stage="stands", circuit=None))
        self.add_event(c, s)
        return handle_text(s)

    def add_event(self, c, s):
        d = self.subscriptions.at(s)
        self.send(c.circuit, EVENT_ADD, d.data_type, d.count, c.sid, wire_of(s), bytes(12) + struct.pack(">HH", d.mask, 0))

    def unsubscribe(self, s):
        d = self.subscriptions.at(s)
        if d is None or d.stage != "stands":
            refuse(10)
        c = self.channel(d.channel)
        if c.phase == "live":
            self.check_output(c.circuit)
            self.send(c.circuit, EVENT_CANCEL, d.data_type, d.count, c.sid, wire_of(s))
            d.stage, d.circuit = "cancelled", c.circuit
        elif c.phase == "leaving":
            d.stage, d.circuit = "ended", c.circuit
        else:
            self.subscriptions.free(s)
        return "ok"

    def disconnect(self, test):
        """Disconnected for each open request that the test names, in order of issue. They are over."""
        over = [q for q in self.issued if test(self.requests.at(q))]
        self.issued = [q for q in self.issued if q not in over]
        for q in over:
            self.requests.at(q).open = False
        return [f"completed {handle_text(q)} disconnected," for q in over]

    def clear(self, h):
        c = self.channel(h)
        if c is None:
            refuse(10)
        told = self.disconnect(lambda q: q.channel == h)
        if c.phase in ("searching", "connecting"):
            self.subscriptions.free_all(lambda d: d.channel == h)
            self.forget(h)
            self.let_unwanted_go(c.circuit)
        elif c.phase == "creating":
            self.subscriptions.free_all(lambda d: d.channel == h)
            c.phase = "doomed"
        else:
            if c.phase == "live":
                self.send(c.circuit, CLEAR, p1=c.sid, p2=wire_of(h))
            for _, d in self.subscriptions.held():
                if d.channel == h and d.stage == "stands":
                    d.stage, d.circuit = "ended", c.circuit
            c.phase = "clearing"
        return " ".join(told) or "ok"

    def let_unwanted_go(self, circuit):
        d = circuit and self.circuits.at(circuit)
        if d and not d.is_name and not any(c.circuit == circuit for _, c in self.channels.held()):
            self.circuits.free(circuit)
            self.order.remove(circuit)

    def wanted(self):
        all_of = [(h, self.circuits.at(h)) for h in self.order]
        return " ".join(f"{handle_text(h)} {address_text(d.address)} {d.priority}" for h, d in all_of if d.end is None) or "ok"

    def connected(self, circuit):
        d = self.circuits.at(circuit)
        if d is None or d.end is not None:
            return "closed cut left nothing"
        d.end = Thing(input=b"", out=b"", heard=self.moment, echoed=False, reads=0, off=False)
        self.send(circuit, VERSION, d.priority, 13)
        self.send(circuit, CLIENT_NAME, payload=named(self.user))
        self.send(circuit, HOST_NAME, payload=named(self.host))
        for h, c in self.channels.held():
            if c.circuit == circuit:
                self.create(h)
        return "ok"

    def create(self, h):
        c = self.channels.at(h)
        c.phase, c.rights = "creating", 0
        self.send(c.circuit, CREATE, p1=wire_of(h), p2=13, payload=named(c.name))

    def give(self, circuit, b, more=False):
        e = self.end(circuit)
        if e is None:
            refuse(17)
        if b:
            e.input, e.heard, e.echoed = e.input + b, self.moment, False
        if not more:
            if e.off:
                self.send(circuit, EVENTS_ON)
            e.reads, e.off = 0, False
        elif not e.off:
            e.reads += 1
            if e.reads == 10:
                e.off = True
                self.send(circuit, EVENTS_OFF)
        return "ok"

    def give_more(self, circuit, b):
        return self.give(circuit, b, True)

    def step(self, circuit):
        e = self.end(circuit)
        if e is None:
            return "closed cut left nothing"
        found = first_in(e.input)
        if found == "more":
            return "needs bytes"
        if isinstance(found, str):
            return self.ended(circuit, found)
        m, e.input = found
        return " ".join(self.heard(circuit, m)) or "ok"

    def hear(self, circuit, b):
        self.give(circuit, b)
        all_told = []
        while True:
            told = self.step(circuit)
            if told == "needs bytes":
                return " ".join(all_told + [self.take(circuit)])
            if told != "ok":
                all_told.append(told)
            if told.startswith("closed"):
                return " ".join(all_told)

    def out(self, circuit):
        e = self.end(circuit)
        return bytes_text(e.out if e else b"")

    def sent(self, circuit, n):
        self.end(circuit).out = self.end(circuit).out[n:]
        return "ok"

    def take(self, circuit):
        text = self.out(circuit)
        if self.end(circuit):
            self.end(circuit).out = b""
        return text

    def ended(self, circuit, why):
        d = self.circuits.at(circuit)
        if d is None:
            return f"closed {why} left nothing"
        left = d.end.out if d.end else b""
        told = self.disconnect(lambda q: q.circuit == circuit)
        on = [(h, c) for h, c in self.channels.held() if c.circuit == circuit]
        told += [f"lost {handle_text(h)}," for h, c in on if c.phase == "live"]
        self.requests.free_all(lambda q: q.circuit == circuit)
        self.subscriptions.free_all(lambda s: s.stage != "stands" and s.circuit == circuit)
        for h, c in on:
            if c.phase in ("clearing", "doomed"):
                self.forget(h)
            else:
                self.searched(h)
        if d.is_name:
            d.end = None
        else:
            self.circuits.free(circuit)
            self.order.remove(circuit)
        return " ".join([f"closed {why}"] + told + [f"left {bytes_text(left)}"])

    def cut(self, circuit):
        return self.ended(circuit, "cut")

    def close(self, circuit):
        return self.ended(circuit, "asked")

    def datagram(self, now, sender, b):
        self.moment = max(self.moment, now)
        for m in datagram_in(b):
            if m.command == SEARCH:
                self.found(sender, m)
            if m.command == BEACON and m.count < 65536:
                self.beacon((m.p2 or sender[0], m.count), m.p1)
        return "ok"

    def found(self, sender, m):
        h = self.channels.by_wire(m.p2)
        c = h and self.channels.at(h)
        if not c or c.phase != "searching":
            return
        address = (sender[0] if m.p1 == 0xFFFFFFFF else m.p1, m.data_type)
        there = [g for g, d in self.circuits.held() if d.address == address and d.priority == c.priority]
        if not there:
            if self.circuits.is_full():
                return
            there = [self.circuits.give(Thing(address=address, priority=c.priority, is_name=False, end=None))]
            self.order.append(there[0])
        c.circuit, c.phase = there[0], "connecting"
        self.search(h).due = None
        if self.end(c.circuit):
            self.create(h)

    def beacon(self, server, number):
        last = self.beacons.get(server)
        if server in self.beacons or len(self.beacons) < 1024:
            self.beacons[server] = number
        if last is None or number != (last + 1) % 2 ** 32:
            for s in self.searches:
                if s.due is not None:
                    s.due, s.wait = self.moment, 32

    def tick(self, now):
        self.moment = max(self.moment, now)
        told = []
        for circuit in list(self.order):
            e = self.end(circuit)
            if e and self.moment - e.heard >= 35000:
                told.append(f"silent {handle_text(circuit)} " + self.ended(circuit, "").replace("closed  ", "", 1))
            elif e and self.moment - e.heard >= 30000 and not e.echoed:
                e.echoed = True
                self.send(circuit, ECHO)
        due = [s for s in self.searches if s.due is not None and s.due <= self.moment]
        asked = [spelled(SEARCH, 5, 13, wire_of(s.channel), wire_of(s.channel), named(self.channels.at(s.channel).name)) for s in due]
        for circuit in self.order:
            e = self.end(circuit)
            for one in asked:
                if e and self.circuits.at(circuit).is_name and len(e.out) < OUTPUT_LIMIT:
                    e.out += one
        for s in due:
            s.due, s.wait = self.moment + s.wait, min(2 * s.wait, 300000)
        return " ".join(told + [f"to {address_text(a)} {bytes_text(b)}" for a in self.servers for b in packed(asked)]) or "ok"

    # messages

    def on(self, circuit, cid):
        h = self.channels.by_wire(cid)
        return h if h and self.channels.at(h).circuit == circuit else None

    def request_of(self, circuit, command, ioid):
        q = self.requests.by_wire(ioid)
        r = q and self.requests.at(q)
        return q if r and r.circuit == circuit and r.command == command else None

    def standing(self, circuit, wire):
        s = self.subscriptions.by_wire(wire)
        d = s and self.subscriptions.at(s)
        if not d or d.stage != "stands":
            return None
        c = self.channels.at(d.channel)
        return s if c.phase == "live" and c.circuit == circuit else None

    def heard(self, circuit, m):
        if m.command == SEARCH:
            self.found(self.circuits.at(circuit).address, m)
            return []
        if m.command in (RIGHTS, CREATE, CREATE_FAIL, CLEAR, DISCONN):
            h = self.on(circuit, m.p2 if m.command == CLEAR else m.p1)
            return self.heard_on(circuit, h, m) if h else []
        if m.command in (READ_NOTIFY, WRITE_NOTIFY):
            return self.answered(circuit, m)
        if m.command == EVENT_ADD:
            return self.updated(circuit, m)
        return self.failed(circuit, m) if m.command == ERROR else []

    def heard_on(self, circuit, h, m):
        c = self.channels.at(h)
        if m.command == RIGHTS and c.phase in ("creating", "live"):
            c.rights = m.p2
        elif m.command == CREATE and c.phase == "creating":
            c.phase, c.sid, c.data_type, c.count = "live", m.p2, m.data_type, m.count
            for s, d in self.subscriptions.held():
                if d.channel == h and d.stage == "stands":
                    self.add_event(c, s)
            return [f"live {handle_text(h)},"]
        elif m.command == CREATE and c.phase == "doomed":
            c.phase = "clearing"
            self.send(circuit, CLEAR, p1=m.p2, p2=wire_of(h))
        elif m.command == CREATE_FAIL and c.phase == "creating":
            self.searched(h)
        elif m.command == CREATE_FAIL and c.phase == "doomed":
            self.forget(h)
        elif m.command == CLEAR and c.phase in ("clearing", "leaving"):
            self.requests.free_all(lambda q: q.channel == h)
            self.subscriptions.free_all(lambda d: d.channel == h and d.stage != "stands" and d.circuit == circuit)
            if c.phase == "clearing":
                self.forget(h)
            else:
                self.searched(h)
        elif m.command == DISCONN and c.phase == "live":
            self.send(circuit, CLEAR, p1=c.sid, p2=wire_of(h))
            c.phase = "leaving"
            return self.disconnect(lambda q: q.channel == h) + [f"lost {handle_text(h)},"]
        return []

    def completed(self, q, what):
        is_open = self.requests.at(q).open
        self.requests.free(q)
        if not is_open:
            return []
        self.issued.remove(q)
        return [f"completed {handle_text(q)} {what},"]

    def answered(self, circuit, m):
        q = self.request_of(circuit, m.command, m.p2)
        if q is None:
            return []
        if m.command == WRITE_NOTIFY:
            return self.completed(q, "done" if m.p1 == NORMAL else f"failed {m.p1}")
        return self.completed(q, outcome(m.data_type, m.count, m.p1, m.payload, self.requests.at(q).with_display))

    def updated(self, circuit, m):
        if not m.payload:
            s = self.subscriptions.by_wire(m.p2)
            d = s and self.subscriptions.at(s)
            if d and d.stage == "cancelled" and d.circuit == circuit:
                self.subscriptions.free(s)
            return []
        s = self.standing(circuit, m.p2)
        return [f"update {handle_text(s)} {outcome(m.data_type, m.count, m.p1, m.payload)},"] if s else []

    def failed(self, circuit, m):
        found = header_in(m.payload)
        if found is None:
            return []
        quoted = found[0]
        if quoted.command == WRITE:
            h = self.on(circuit, m.p1)
            return [f"write-refused {handle_text(h)} {m.p2},"] if h and self.channels.at(h).phase == "live" else []
        if quoted.command == EVENT_ADD:
            s = self.standing(circuit, quoted.p2)
            if s:
                self.subscriptions.free(s)
            return [f"ended {handle_text(s)} {m.p2},"] if s else []
        q = self.request_of(circuit, quoted.command, quoted.p2)
        return self.completed(q, f"failed {m.p2}") if q and self.requests.at(q).open else []


def packed(asked):
    """Datagrams: one VERSION, then searches, at most 1,024 bytes."""
    all_of = []
    for one in asked:
        if not all_of or len(all_of[-1]) + len(one) > 1024:
            all_of.append(spelled(VERSION, 0, 13))
        all_of[-1] += one
    return all_of
