"""The bytes on a server's circuit that no step has handled: in them stands what a put wanted to write that was refused."""
import struct
from typing import Optional

from .values import EPOCH, FORMATS, TEXT, Type, Value, reading, stamped

# A message's command, size, type, count and two parameters. If the size is SIZE_FOLLOWS, its size and its count come after these.
HEADER, FOLLOWING, SIZE_FOLLOWS = struct.Struct(">HHHHII"), struct.Struct(">II"), 0xFFFF


class Unhandled:
    """What came on a circuit, from the first message on that no step has handled: no more than the library keeps of it itself."""

    def __init__(self) -> None:
        self._bytes = bytearray()

    def came(self, data: bytes) -> None:
        self._bytes += data

    def handled(self) -> None:
        """A step has handled the first message."""
        _, _, begin, size = self._first()
        del self._bytes[:begin + size]

    def put(self, is_one: bool) -> tuple[Optional[Type], Optional[Value]]:
        """What the first message, a put, wanted to write: its type, None if that is above 6, and its value, None if it has none. `is_one` as in `reading`."""
        number, count, begin, size = self._first()
        if number > Type.DOUBLE:
            return None, None
        kind = Type(number)
        width = TEXT if kind == Type.STRING else struct.calcsize(FORMATS[kind])
        # One STRING alone may be cut off behind its text.
        if not 0 < count * width <= size and (kind, count) != (Type.STRING, 1):
            return kind, None
        image = stamped(kind, bytes(self._bytes[begin:begin + size]), 0, 0, EPOCH, 0)
        return kind, reading("", kind, count, memoryview(image), is_one).value

    def _first(self) -> tuple[int, int, int, int]:
        """The first message's type and count, and where its payload begins and how long it is."""
        _, size, number, count, _, _ = HEADER.unpack_from(self._bytes)
        if size != SIZE_FOLLOWS:
            return number, count, HEADER.size, size
        size, count = FOLLOWING.unpack_from(self._bytes, HEADER.size)
        return number, count, HEADER.size + FOLLOWING.size, size
