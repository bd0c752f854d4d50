"""libcuvezhin by ctypes: where it is, its structs and its calls, as include/cuvezhin.h has them. Nothing else in the package uses ctypes' types."""
import ctypes
import os
from ctypes import POINTER, c_bool, c_char_p, c_int32, c_size_t, c_uint16, c_uint32, c_uint64, c_void_p
from typing import Any

from .errors import LibraryMissing, Refused

NAME = "libcuvezhin.so.1"
# The interface that the package needs: one with this first number, and at least this second one.
MAJOR, MINOR = 1, 4

NEEDS_BYTES, HANDLED, OUTPUT_FULL, CLOSED = range(4)
QUIET, WROTE, BUSIED, QUEUED, REFUSED, CREATED, CLEARED, SUBSCRIBED, CANCELLED, EVENTS_OFF, EVENTS_ON, WRITE_REFUSED = range(12)
NOTICE_LIVE, NOTICE_LOST, NOTICE_COMPLETED, NOTICE_UPDATE, NOTICE_ENDED, NOTICE_WRITE_REFUSED = range(1, 7)
VALUE, DONE, FAILED, UNREADABLE, LOST = range(5)
TIME, CONTROL = 14, 28
# Bytes that an object hands over at once, or more after a larger value.
ROOM = 1 << 16


class Object(ctypes.Structure):
    """A cvz_server or a cvz_client."""
    _fields_ = [("at", c_void_p)]


class Step(ctypes.Structure):
    _fields_ = [("effect", c_uint32), ("sid", c_uint32), ("subscription", c_uint32), ("cause", c_uint32)]


class Address(ctypes.Structure):
    _fields_ = [("host", c_uint32), ("port", c_uint16)]


class Wanted(ctypes.Structure):
    _fields_ = [("circuit", c_uint64), ("host", c_uint32), ("port", c_uint16), ("priority", c_uint16)]


class ChannelState(ctypes.Structure):
    _fields_ = [("state", c_uint32), ("type", c_uint32), ("greatest", c_uint32), ("rights", c_uint32)]


class Notice(ctypes.Structure):
    _fields_ = [("of", c_uint64), ("kind", c_uint32), ("outcome", c_uint32), ("status", c_uint32), ("type", c_uint32), ("count", c_uint64)]


# Bytes that go in or come out, and their number.
BYTES = (c_char_p, c_size_t)
IMAGE = (c_uint16, c_uint32, *BYTES)

SERVER: dict[str, tuple[Any, ...]] = {
    "load": (c_int32, c_uint16, c_uint64, *BYTES),
    "free": (None,),
    "add": (c_int32, *BYTES, c_uint32, c_bool, *IMAGE),
    "remove": (c_int32, *BYTES),
    "post": (c_int32, *BYTES, c_uint16, *IMAGE),
    "set_display": (c_int32, *BYTES, *IMAGE),
    "stamp": (c_int32, c_uint32, c_uint32),
    "first": (c_int32, *BYTES, POINTER(c_uint64)),
    "finish": (c_int32, *BYTES),
    "value": (c_int32, *BYTES, c_uint16, POINTER(c_uint32), *BYTES, POINTER(c_size_t)),
    "accept": (c_int32, POINTER(c_uint64)),
    "give": (c_int32, c_uint64, *BYTES),
    "step": (c_int32, c_uint64, POINTER(Step)),
    "pump": (c_int32, c_uint64),
    "output": (c_size_t, c_uint64, *BYTES),
    "sent": (c_int32, c_uint64, c_size_t),
    "left": (c_size_t, *BYTES),
    "name": (c_size_t, c_uint64, c_uint32, *BYTES),
    "user": (c_size_t, c_uint64, *BYTES),
    "host": (c_size_t, c_uint64, *BYTES),
    "cut": (c_int32, c_uint64),
    "datagram": (c_int32, *BYTES),
    "answer": (c_size_t, *BYTES),
    "beacon": (c_size_t, c_uint64, *BYTES),
    "applied": (c_uint64,),
    "waiting": (c_uint64,),
}

CLIENT: dict[str, tuple[Any, ...]] = {
    "new": (c_int32, *BYTES, *BYTES, POINTER(Address), c_size_t, POINTER(Address), c_size_t, c_uint64),
    "free": (None,),
    "open": (c_int32, *BYTES, c_uint16, c_uint64, POINTER(c_uint64)),
    "channel": (c_int32, c_uint64, POINTER(ChannelState)),
    "clear": (c_int32, c_uint64),
    "read": (c_int32, c_uint64, c_uint16, c_uint32, POINTER(c_uint64)),
    "write": (c_int32, c_uint64, *IMAGE),
    "put": (c_int32, c_uint64, *IMAGE, POINTER(c_uint64)),
    "subscribe": (c_int32, c_uint64, c_uint16, c_uint32, c_uint16, POINTER(c_uint64)),
    "unsubscribe": (c_int32, c_uint64),
    "wanted": (c_int32, c_size_t, POINTER(Wanted)),
    "connected": (c_int32, c_uint64, POINTER(c_uint32)),
    "give": (c_int32, c_uint64, *BYTES, c_bool),
    "step": (c_int32, c_uint64, POINTER(c_uint32)),
    "cut": (c_int32, c_uint64),
    "close": (c_int32, c_uint64),
    "output": (c_size_t, c_uint64, *BYTES),
    "sent": (c_int32, c_uint64, c_size_t),
    "left": (c_size_t, *BYTES),
    "tick": (c_int32, c_uint64),
    "search": (c_size_t, POINTER(Address), *BYTES),
    "ended": (c_int32, POINTER(c_uint64)),
    "datagram": (c_int32, c_uint64, POINTER(Address), *BYTES),
    "next": (c_int32, POINTER(Notice)),
    "value": (c_int32, c_uint16, *BYTES, POINTER(c_size_t)),
}


def paths() -> list[str]:
    """Where the library is looked for, in order; the last is a name, for the system's loader."""
    named = os.environ.get("CUVEZHIN_LIBRARY")
    if named:
        return [named]
    here = os.path.dirname(os.path.abspath(__file__))
    top = os.path.dirname(os.path.dirname(here))
    found = [os.path.join(here, NAME)]
    if os.path.exists(os.path.join(top, "include", "cuvezhin.h")):
        # In the build tree, or in an unpacked archive.
        found += [os.path.join(top, folder, NAME) for folder in ("target/lib", "lib")]
    # Installed as PREFIX/lib/python3/dist-packages/cuvezhin, beside PREFIX/lib/libcuvezhin.so.1.
    found.append(os.path.join(os.path.dirname(top), NAME))
    return [*filter(os.path.exists, found), NAME]


def load() -> ctypes.PyDLL:
    """The library, with its calls declared. `PyDLL`, since one call at a time is made on an object: no other thread runs during one."""
    path = paths()[0]
    try:
        library = ctypes.PyDLL(path)
    except OSError as error:
        raise LibraryMissing(f"{error}; build it by tools/build lib, or name it in CUVEZHIN_LIBRARY") from error
    library.cvz_version.restype = c_uint32
    library.cvz_version.argtypes = []
    major, minor = divmod(library.cvz_version(), 1 << 16)
    if major != MAJOR or minor < MINOR:
        raise LibraryMissing(f"{path} has interface {major}.{minor}, and this package needs {MAJOR}.{MINOR}")
    for end, calls in (("server", SERVER), ("client", CLIENT)):
        for name, (result, *arguments) in calls.items():
            call = getattr(library, f"cvz_{end}_{name}")
            call.restype, call.argtypes = result, [POINTER(Object), *arguments]
    return library


library = load()


def room(size: int) -> Any:
    """Room for so many bytes, into which the library and sockets write."""
    return ctypes.create_string_buffer(size)


class End:
    """One object of the library, with room for what comes out of it."""

    def __init__(self, calls: dict[str, tuple[Any, ...]], end: str) -> None:
        self.at = Object()
        self._set_room(ROOM)
        self.number, self.size, self.many = c_uint64(), c_size_t(), c_uint32()
        for name in calls:
            setattr(self, f"call_{name}", getattr(library, f"cvz_{end}_{name}"))

    def __getattr__(self, name: str) -> Any:
        raise AttributeError(name)

    def _set_room(self, size: int) -> None:
        self.room = room(size)
        self.view = memoryview(self.room)

    def taken(self, call: Any, *given: Any) -> bytes:
        """What a call writes into the room that it gets last."""
        return self.view[:call(self.at, *given, self.room, len(self.room))].tobytes()

    def text(self, call: Any, *given: Any) -> str:
        """The same, as a text."""
        return self.taken(call, *given).decode("utf-8", "surrogateescape")

    def handle(self, of: str, call: Any, *given: Any) -> int:
        """The handle that a call writes."""
        checked(call(self.at, *given, self.number), of)
        return self.number.value

    def output(self, circuit: int) -> bytes:
        """The next bytes to be sent on a circuit, which count as sent from now on; none if nothing waits."""
        found = self.taken(self.call_output, circuit)
        if found:
            self.call_sent(self.at, circuit, len(found))
        return found

    def left(self) -> bytes:
        """All that is left of the circuit that was closed last."""
        return b"".join(iter(lambda: self.taken(self.call_left), b""))

    def image(self, *given: Any) -> memoryview:
        """The image of a value: that of the last notice, or a record's, of this type. It is there until the next call."""
        checked(self.call_value(self.at, *given, self.room, len(self.room), self.size))
        if self.size.value > len(self.room):
            self._set_room(self.size.value)
            checked(self.call_value(self.at, *given, self.room, len(self.room), self.size))
        return self.view

    def free(self) -> None:
        self.call_free(self.at)


def checked(answer: int, of: str = "") -> int:
    """The answer of a call. Raises `Refused` if it is a refusal."""
    if answer < 0:
        raise Refused(-answer, of)
    return answer
