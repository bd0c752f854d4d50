"""A server by the protocol's rules, in the plainest form: lists, and one method for each call. It never lacks memory."""
import struct

from protocol import *


def is_handled(did):
    """Whether a step that is answered so handled a message: then it is its effect, or `ok`."""
    return did not in ("needs bytes", "output full") and not did.startswith("closed ")


def whole_in(base, element):
    """The whole number that an element is: 8 if a text is none."""
    if base != STRING:
        return struct.unpack([None, ">h", None, ">H", ">B", ">i"][base], element)[0]
    text = text_in(element).strip(b" ")
    digits = text[1:] if text[:1] == b"-" else text
    if not digits or any(not 48 <= d <= 57 for d in digits):
        raise Refused(8)
    return int(text)


def converted(base, elements, wanted):
    """6 if there is no conversion, 8 if a text is no number, 7 if a number is out of range."""
    if base == wanted:
        return elements
    if base in (FLOAT, DOUBLE) or wanted in (FLOAT, DOUBLE):
        raise Refused(6)
    made = []
    for element in elements:
        number = whole_in(base, element)
        if wanted == STRING:
            made.append(str(number).encode().ljust(40, b"\0"))
            continue
        try:
            made.append(struct.pack([None, ">h", None, ">H", ">B", ">i"][wanted], number))
        except struct.error:
            raise Refused(7)
    return made


def shown(base, elements, count, wanted):
    """The first elements, converted, and zeros behind the present ones."""
    made = converted(base, elements[:count], wanted)
    return made + [bytes(SIZE[wanted])] * (count - len(made))


def image_size(data_type, count):
    return len(image(data_type, [], NO_META)) + count * SIZE[data_type % 7]


class Server:
    def __init__(self, port, now, records, rules):
        self.port, self.moment, self.rules = port, now, rules
        self.records = {r.name: r for r in records}
        self.circuits, self.stamped, self.number, self.due, self.wait, self.writes = Ids(), (0, 0), 0, now, 20, 0

    # calls

    def accept(self):
        end = Thing(open=True, input=b"", out=b"", greeted=False, user=b"", host=b"", settled=False, channels=Ids(), subscriptions=[],
                    queues=[Thing(keys=[], entries=[]) for _ in range(8)], on=True)
        return handle_text(self.circuits.give(end))

    def end(self, h):
        e = self.circuits.at(h)
        return e if e and e.open else None

    def give(self, h, b):
        e = self.end(h)
        if e is None:
            refuse(17)
        e.input += b
        return "ok"

    def step(self, h):
        e = self.circuits.at(h)
        if e is None:
            return "closed cut left nothing"
        if not e.open:
            self.circuits.free(h)
            return f"closed {e.why} left {bytes_text(e.out)}"
        if len(e.out) >= OUTPUT_LIMIT:
            return "output full"
        found = first_in(e.input)
        if found == "more":
            return "needs bytes"
        if isinstance(found, str):
            self.withdraw(lambda p: p.circuit == h)
            self.circuits.free(h)
            return f"closed {found} left {bytes_text(e.out)}"
        m, e.input = found
        return self.handled(h, e, m) or "ok"

    def handle(self, h, b):
        self.give(h, b)
        while True:
            did = self.step(h)
            if did == "needs bytes":
                self.pump(h)
                return self.take(h)
            if not is_handled(did):
                return did

    def pump(self, h):
        e = self.end(h)
        for q in e.queues if e else []:
            while len(e.out) < OUTPUT_LIMIT and self.may_take(e, q):
                s, value = q.entries.pop(0)
                e.out += self.update(s, value)
        return "ok"

    def may_take(self, e, q):
        keys = [s for s, _ in q.entries]
        return bool(keys) and (e.on or len(set(map(id, keys))) < len(keys))

    def update(self, s, value):
        base, elements, meta = value
        count = s.count or len(elements)
        try:
            b = image(s.data_type, shown(base, elements, count, s.data_type % 7), meta)
            return spelled(EVENT_ADD, s.data_type, count, NORMAL, s.key[1], b)
        except Refused:
            return spelled(EVENT_ADD, s.data_type, count, GETFAIL, s.key[1], bytes(image_size(s.data_type, count)))

    def out(self, h):
        e = self.end(h)
        return bytes_text(e.out if e else b"")

    def sent(self, h, n):
        self.end(h).out = self.end(h).out[n:]
        return "ok"

    def take(self, h):
        text = self.out(h)
        if self.end(h):
            self.end(h).out = b""
        return text

    def cut(self, h):
        e = self.end(h)
        if e:
            e.open, e.why = False, "cut"
            self.withdraw(lambda p: p.circuit == h)
        return "ok"

    def withdraw(self, test):
        for r in self.records.values():
            r.waiting = [p for p in r.waiting if not test(p)]

    def record(self, name):
        if name not in self.records:
            refuse(20)
        return self.records[name]

    def post(self, name, mask, value):
        r = self.record(name)
        if value[0] != r.base:
            refuse(4)
        if not 1 <= len(value[1]) <= r.most:
            refuse(15)
        self.posted(r, value[1], value[2], mask)
        return "ok"

    def posted(self, r, elements, meta, mask):
        r.elements, r.meta = elements, meta
        for _, e in self.circuits.held():
            for s in e.subscriptions if e.open else []:
                if s.name == r.name and s.mask & mask & 15:
                    self.queue(e, s, (r.base, elements, meta))

    def queue(self, e, s, value):
        entries = e.queues[s.queue].entries
        own = [i for i, (t, _) in enumerate(entries) if t is s]
        if own and (144 - len(entries) <= 36 or not e.on):
            entries[own[-1]] = (s, value)
        else:
            entries.append((s, value))

    def written(self, r, elements):
        self.writes += 1
        self.posted(r, elements, (0, 0) + self.stamped, 3)

    def finish(self, name):
        r = self.record(name)
        if r.busy is None:
            refuse(21)
        p, r.busy = r.busy, None
        e = self.end(p.circuit)
        if e and e.channels.at(p.channel):
            e.out += spelled(WRITE_NOTIFY, p.data_type, p.count, NORMAL, p.ioid)
        if r.waiting:
            r.busy = r.waiting.pop(0)
            self.written(r, r.busy.elements)
        return "ok"

    def remove(self, name):
        self.record(name)
        del self.records[name]
        for _, e in self.circuits.held():
            for h, c in e.channels.held() if e.open else []:
                if c.name == name and not c.retired:
                    c.retired = True
                    e.out += spelled(DISCONN, p1=c.cid)
                    self.drop(e, lambda key: key[0] == wire_of(h))
        return "ok"

    def add(self, name, most, pace, value):
        if not 1 <= len(name) <= 60 or b"\0" in name:
            refuse(12)
        if name in self.records:
            refuse(28)
        if not 1 <= len(value[1]) <= most <= 262144:
            refuse(15)
        self.records[bytes(name)] = Record(bytes(name), value[0], most, pace == "slow", value[1])
        return "ok"

    def datagram(self, b):
        replies = [self.found(m) for m in datagram_in(b) if m.command == SEARCH and text_in(m.payload) in self.records]
        texts = [bytes_text(spelled(VERSION, 0, 13) + b"".join(replies[i:i + 42])) for i in range(0, len(replies), 42)]
        return " ".join("datagram " + t for t in texts) or "ok"

    def found(self, m):
        return spelled(SEARCH, self.port, 0, 0xFFFFFFFF, m.p2, b"\0\x0d")

    def beacon(self, now):
        self.moment = max(self.moment, now)
        if self.moment < self.due:
            return "nothing"
        text = bytes_text(spelled(BEACON, 13, self.port, self.number))
        self.number, self.due, self.wait = self.number + 1, self.moment + self.wait, min(2 * self.wait, 15000)
        return text

    def stamp(self, seconds, nanos):
        self.stamped = (seconds, nanos)
        return "ok"

    def applied(self):
        return str(self.writes)

    def waiting(self):
        return str(sum(len(r.waiting) for r in self.records.values()))

    # messages

    def handled(self, h, e, m):
        """Handles a message, and says its effect: None where nobody has to know."""
        if m.command == VERSION:
            e.out += b"" if e.greeted else spelled(VERSION, 0, 13)
            e.greeted = True
        elif m.command in (CLIENT_NAME, HOST_NAME):
            if not e.settled:
                setattr(e, "user" if m.command == CLIENT_NAME else "host", text_in(m.payload))
        elif m.command == ECHO:
            e.out += spelled(ECHO)
        elif m.command == SEARCH:
            if text_in(m.payload) in self.records:
                e.out += self.found(m)
            elif m.data_type == 10:
                e.out += spelled(NOT_FOUND, 10, 13, m.p2, m.p2)
        elif m.command == CREATE:
            return self.create(e, m)
        elif m.command == CLEAR:
            self.clear(h, e, m)
            return f"cleared {m.p1}"
        elif m.command in (READ_NOTIFY, WRITE, WRITE_NOTIFY, EVENT_ADD):
            return self.used(h, e, m)
        elif m.command == EVENT_CANCEL:
            self.drop(e, lambda key: key == (m.p1, m.p2))
            e.out += spelled(EVENT_ADD, m.data_type, m.count, m.p1, m.p2)
            return f"cancelled {m.p1} {m.p2}"
        elif m.command in (EVENTS_OFF, EVENTS_ON):
            e.on = m.command == EVENTS_ON
            return "events on" if e.on else "events off"
        return None

    def drop(self, e, test):
        gone = [s for s in e.subscriptions if test(s.key)]
        e.subscriptions = [s for s in e.subscriptions if s not in gone]
        for q in e.queues:
            q.keys = [k for k in q.keys if not test(k)]
            q.entries = [(s, v) for s, v in q.entries if s not in gone]

    def create(self, e, m):
        r = self.records.get(text_in(m.payload))
        if r is None or e.channels.is_full() or any(c.cid == m.p1 for _, c in e.channels.held()):
            e.out += spelled(CREATE_FAIL, p1=m.p1)
            return "no channel"
        e.settled = True
        c = e.channels.give(Thing(cid=m.p1, name=r.name, retired=False))
        e.out += spelled(RIGHTS, p1=m.p1, p2=self.rights(e, r.name)) + spelled(CREATE, r.base, r.most, m.p1, wire_of(c))
        return f"created {wire_of(c)}"

    def rights(self, e, name):
        for user, host, record, rights in self.rules:
            if user in (b"*", e.user) and host in (b"*", e.host) and record in (b"*", name):
                return rights
        return 3

    def clear(self, h, e, m):
        c = e.channels.by_wire(m.p1)
        if c:
            e.channels.free(c)
            self.drop(e, lambda key: key[0] == m.p1)
            self.withdraw(lambda p: p.circuit == h and p.channel == c)
        e.out += spelled(CLEAR, p1=m.p1, p2=m.p2)

    def used(self, h, e, m):
        """A request on a SID: it is done, or the first fault is its answer."""
        c = e.channels.by_wire(m.p1)
        channel = c and e.channels.at(c)
        try:
            if channel is None or channel.retired:
                raise Refused(BADCHID)
            r = self.records[channel.name]
            return {READ_NOTIFY: self.read, EVENT_ADD: self.subscribe}.get(m.command, self.put)(h, e, c, r, m)
        except Refused as why:
            status = why.args[0]
            if m.command in (READ_NOTIFY, WRITE_NOTIFY):
                e.out += spelled(m.command, m.data_type, m.count, status, m.p2)
            else:
                quoted = header(m.command, m.size, m.data_type, m.count, m.p1, m.p2)
                e.out += spelled(ERROR, 0, 0, channel.cid if channel else 0xFFFFFFFF, status, quoted + bytes(8))
            return f"write refused {m.p1}" if m.command in (WRITE, WRITE_NOTIFY) else None

    def check_read(self, e, r, m):
        if m.data_type > 20:
            raise Refused(BADTYPE)
        if not self.rights(e, r.name) & 1:
            raise Refused(NORDACCESS)

    def check_count(self, r, m, count):
        if count > r.most or image_size(m.data_type, count) > PAYLOAD_LIMIT:
            raise Refused(BADCOUNT)

    def read(self, h, e, c, r, m):
        self.check_read(e, r, m)
        count = m.count or len(r.elements)
        self.check_count(r, m, count)
        try:
            elements = shown(r.base, r.elements, count, m.data_type % 7)
        except Refused as why:
            raise Refused(NOCONVERT if why.args[0] == 6 else GETFAIL)
        e.out += spelled(READ_NOTIFY, m.data_type, count, NORMAL, m.p2, image(m.data_type, elements, r.meta))

    def put(self, h, e, c, r, m):
        if m.data_type > 6:
            raise Refused(BADTYPE)
        if not self.rights(e, r.name) & 2:
            raise Refused(NOWTACCESS)
        try:
            elements = value_in(m.data_type, m.count, m.payload)[1]
        except Refused:
            raise Refused(BADCOUNT)
        if not 1 <= m.count <= r.most:
            raise Refused(BADCOUNT)
        try:
            elements = converted(m.data_type, elements, r.base)
        except Refused as why:
            raise Refused(NOCONVERT if why.args[0] == 6 else PUTFAIL)
        if m.command == WRITE:
            self.written(r, elements)
            return f"wrote {m.p1}"
        p = Thing(circuit=h, channel=c, data_type=m.data_type, count=m.count, ioid=m.p2, elements=elements)
        if r.busy:
            if len(r.waiting) == 16:
                raise Refused(PUTFAIL)
            r.waiting.append(p)
            return f"queued {m.p1}"
        r.busy = p if r.slow else None
        if not r.slow:
            e.out += spelled(WRITE_NOTIFY, m.data_type, m.count, NORMAL, m.p2)
        self.written(r, elements)
        return f"busied {m.p1}" if r.slow else f"wrote {m.p1}"

    def subscribe(self, h, e, c, r, m):
        self.check_read(e, r, m)
        key = (m.p1, m.p2)
        mask = struct.unpack(">H", m.payload[12:14])[0] if len(m.payload) >= 16 else 0
        if not mask & 15 or any(s.key == key for s in e.subscriptions):
            raise Refused(ADDFAIL)
        self.check_count(r, m, m.count or r.most)
        try:
            converted(r.base, r.elements, m.data_type % 7)
        except Refused as why:
            if why.args[0] == 6:
                raise Refused(NOCONVERT)
        place = next((i for i, q in enumerate(e.queues) if len(q.keys) < 36), None)
        if place is None:
            raise Refused(ADDFAIL)
        s = Thing(key=key, data_type=m.data_type, count=m.count, name=r.name, mask=mask, queue=place)
        e.queues[place].keys.append(key)
        e.subscriptions.append(s)
        self.queue(e, s, (r.base, r.elements, r.meta))
        return f"subscribed {m.p1} {m.p2}"


class Record(Thing):
    def __init__(self, name, base, most, slow, elements):
        super().__init__(name=name, base=base, most=most, slow=slow, elements=elements, meta=NO_META, busy=None, waiting=[])
