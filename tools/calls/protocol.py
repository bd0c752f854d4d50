"""What both ends share: messages, values and ids, and how answers are written."""
import struct

NAMES = {1: "OutOfMemory", 4: "BadType", 5: "Short", 9: "ArenaFull", 10: "StaleHandle", 12: "NameLength", 13: "NotLive",
         14: "NoAccess", 15: "BadCount", 17: "CircuitClosed", 20: "UnknownRecord", 21: "NotBusy", 25: "BadPriority",
         26: "OutputFull", 28: "RecordExists"}
OUTPUT_LIMIT = 262144
PAYLOAD_LIMIT = 16777216
(VERSION, EVENT_ADD, EVENT_CANCEL, WRITE, SEARCH, EVENTS_OFF, EVENTS_ON, ERROR, CLEAR, BEACON, NOT_FOUND, READ_NOTIFY, CREATE,
 WRITE_NOTIFY, CLIENT_NAME, HOST_NAME, RIGHTS, ECHO, CREATE_FAIL, DISCONN) = (
    0, 1, 2, 4, 6, 8, 9, 11, 12, 13, 14, 15, 18, 19, 20, 21, 22, 23, 26, 27)
NORMAL, BADTYPE, GETFAIL, PUTFAIL, ADDFAIL, BADCOUNT, NORDACCESS, NOWTACCESS, NOCONVERT, BADCHID = (
    1, 114, 152, 160, 168, 176, 368, 376, 400, 410)
STRING, INT, FLOAT, ENUM, CHAR, LONG, DOUBLE = range(7)
SIZE = [40, 2, 4, 2, 1, 4, 8]
STS_PAD = [0, 0, 0, 0, 1, 0, 4]
TIME_PAD = [0, 2, 0, 2, 3, 0, 4]


class Refused(Exception):
    pass


def refuse(number):
    raise Refused(f"refused {number} {NAMES[number]}")


# ---- text of answers

def bytes_text(b):
    if len(b) > 1024:
        return f"{len(b)} bytes " + bytes_text(b[:64])
    return " ".join(b[i:i + 8].hex() for i in range(0, len(b), 8)) or "nothing"


def handle_text(h):
    return f"{h[0]}.{h[1]}"


def address_text(a):
    return ".".join(str(n) for n in struct.pack(">I", a[0])) + f":{a[1]}"


# ---- messages

def padded(b):
    return b + bytes(-len(b) % 8)


def header(command, size, data_type, count, p1, p2):
    if size < 65535 and count < 65535:
        return struct.pack(">HHHHII", command, size, data_type, count, p1, p2)
    return struct.pack(">HHHHIIII", command, 0xFFFF, data_type, 0, p1, p2, size, count)


def spelled(command, data_type=0, count=0, p1=0, p2=0, payload=b""):
    payload = padded(payload)
    return header(command, len(payload), data_type, count, p1, p2) + payload


class Message:
    pass


def header_in(b):
    """The message of the header at the front of b, without its payload, and how long the header is. None if it is not whole."""
    if len(b) < 16:
        return None
    m = Message()
    m.command, m.size, m.data_type, m.count, m.p1, m.p2 = struct.unpack(">HHHHII", b[:16])
    if m.size != 0xFFFF:
        return m, 16
    if len(b) < 24:
        return None
    m.size, m.count = struct.unpack(">II", b[16:24])
    return m, 24


def first_in(b):
    """The first message of b and what comes after it; 'more'; or 'misaligned' or 'too large'."""
    found = header_in(b)
    if found is None:
        return "more"
    m, start = found
    if m.size % 8:
        return "misaligned"
    if m.size > PAYLOAD_LIMIT:
        return "too large"
    if len(b) < start + m.size:
        return "more"
    m.payload = b[start:start + m.size]
    return m, b[start + m.size:]


def datagram_in(b):
    """The messages of the longest good beginning."""
    while True:
        found = first_in(b)
        if isinstance(found, str):
            return
        m, b = found
        yield m


def text_in(payload):
    return payload.split(b"\0")[0]


def named(name):
    return name + b"\0"


# ---- values: (base type, list of elements as bytes, (status, severity, seconds, nanos))

NO_META = (0, 0, 0, 0)


def image(data_type, elements, meta):
    base, form = data_type % 7, data_type // 7
    front = [b"", struct.pack(">HH", *meta[:2]) + bytes(STS_PAD[base]), struct.pack(">HHII", *meta) + bytes(TIME_PAD[base])][form]
    return front + b"".join(elements)


def value_in(data_type, count, b):
    """The value that an image is: 4 if the type does not exist, 5 if it is too short."""
    if data_type > 20:
        raise Refused(4)
    base, form = data_type % 7, data_type // 7
    front = [0, 4 + STS_PAD[base], 12 + TIME_PAD[base]][form]
    size = SIZE[base]
    if base == STRING and count == 1 and len(b) >= front:
        b = b + bytes(max(0, front + 40 - len(b)))
    if len(b) < front + size * count:
        raise Refused(5)
    meta = [NO_META, struct.unpack(">HH", b[:4]) + (0, 0) if form == 1 else 0, struct.unpack(">HHII", b[:12]) if form == 2 else 0][form]
    return base, [b[front + size * i:front + size * (i + 1)] for i in range(count)], meta


# ---- display data: (units, precision, eight limits as DOUBLEs, names of states), each as bytes but the precision

NO_LIMITS = [bytes(8)] * 8
STATE_LIMIT = 16


def limits_in(base, count, b):
    """The limits of an image as DOUBLEs, in its order; those that it lacks are zero."""
    size = SIZE[base]
    numbers = [struct.unpack([None, ">h", ">f", None, ">B", ">i", ">d"][base], b[size * i:size * (i + 1)])[0] for i in range(count)]
    if base == DOUBLE:
        return [b[8 * i:8 * i + 8] for i in range(count)] + NO_LIMITS[count:]
    # Which NaN it was is lost.
    return [struct.pack(">d", n) if n == n else b"\x7f\xf8" + bytes(6) for n in numbers] + NO_LIMITS[count:]


def display_in(data_type, count, b):
    """The value of an image with display data, and these: 4 if it has none, 5 if it is too short, 15 if it has too many states."""
    if not 21 <= data_type <= 34:
        raise Refused(4)
    base, limits = data_type % 7, 6 if data_type < 28 else 8
    size = [0, 8, 12, 418, 9, 8, 12][base] + (0 if base in (STRING, ENUM) else limits * SIZE[base])
    if len(b) < 4 + size:
        raise Refused(5)
    data, behind = b[4:4 + size], b[4 + size:]
    units, precision, of_limits, states = bytes(8), 0, NO_LIMITS, []
    if base == ENUM:
        number = struct.unpack(">H", data[:2])[0]
        if number > STATE_LIMIT:
            raise Refused(15)
        states = [data[2 + 26 * i:28 + 26 * i] for i in range(number)]
    elif base != STRING:
        if base in (FLOAT, DOUBLE):
            precision, data = struct.unpack(">h", data[:2])[0], data[4:]
        units, of_limits = data[:8], limits_in(base, limits, data[8:])
    # The value behind is that of the plain type.
    _, elements, _ = value_in(base, count, behind)
    return (base, elements, struct.unpack(">HH", b[:4]) + (0, 0)), (units, precision, of_limits, states)


def display_image(data_type, elements, alarm, display):
    """An image with display data. What it pads with, and the names that it does not have, are no zeros: nobody reads them."""
    base, limits = data_type % 7, 6 if data_type < 28 else 8
    units, precision, of_limits, states = display
    front = struct.pack(">HH", *alarm)
    if base == ENUM:
        front += struct.pack(">H", len(states)) + (b"".join(states) + b"?" * 26 * 16)[:26 * 16]
    elif base != STRING:
        front += (struct.pack(">h", precision) + b"??" if base in (FLOAT, DOUBLE) else b"") + units
        front += b"".join(of_limits[:limits]) + (b"?" if base == CHAR else b"")
    return front + b"".join(elements)


def display_text(display):
    units, precision, of_limits, states = display
    words = ["units", bytes_text(units), "precision", str(precision), "limits"] + [bytes_text(b) for b in of_limits]
    return " ".join(words + [f"state {bytes_text(name)}" for name in states])


def value_text(value):
    base, elements, meta = value
    text = f"{base} {len(elements)} {bytes_text(b''.join(elements))}"
    return text if meta == NO_META else text + " at " + " ".join(str(n) for n in meta)


def outcome(data_type, count, status, payload, with_display=False):
    if status != NORMAL:
        return f"failed {status}"
    try:
        if with_display:
            value, display = display_in(data_type, count, payload)
            return f"displayed {value_text(value)} {display_text(display)}"
        return "value " + value_text(value_in(data_type, count, payload))
    except Refused as why:
        return f"unreadable refused {why.args[0]} {NAMES[why.args[0]]}"


# ---- ids

class Ids:
    """Handles by index: a freed index goes first, the last freed before others, and then the next that was never used."""

    def __init__(self):
        self.slots, self.freed = [], []

    def is_full(self):
        return not self.freed and len(self.slots) == 65536

    def give(self, value):
        if self.freed:
            i = self.freed.pop()
        else:
            i = len(self.slots)
            self.slots.append([0, None])
        self.slots[i][0] += 1
        self.slots[i][1] = value
        return i, self.slots[i][0]

    def at(self, h):
        if h[0] < len(self.slots) and self.slots[h[0]][0] == h[1]:
            return self.slots[h[0]][1]
        return None

    def free(self, h):
        self.slots[h[0]][1] = None
        self.freed.append(h[0])

    def free_all(self, test):
        for h, value in self.held():
            if test(value):
                self.free(h)

    def held(self):
        return [((i, g), value) for i, (g, value) in enumerate(self.slots) if value is not None]

    def by_wire(self, wire):
        i = wire % 65536
        if i < len(self.slots) and self.slots[i][1] is not None and wire_of((i, self.slots[i][0])) == wire:
            return i, self.slots[i][0]
        return None


def wire_of(h):
    return h[1] % 65536 * 65536 + h[0]


class Thing:
    def __init__(self, **fields):
        self.__dict__.update(fields)
