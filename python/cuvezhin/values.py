"""Values of records, and their images: the big-endian bytes that cross the library's border."""
import struct
import sys
from array import array
from collections.abc import Iterable
from enum import IntEnum, IntFlag
from typing import Any, NamedTuple, Union

#: A record's value. One with a greatest count of 1 is an int, a float or a str; an array is a memoryview in the machine's byte order, which
#: NumPy takes without a copy (`numpy.asarray`), and an array of STRING a list of str.
Value = Union[int, float, str, memoryview, list[str]]

#: Seconds from 1970 to 1990, where Channel Access begins to count.
EPOCH = 631_152_000


class Type(IntEnum):
    """The types of Channel Access, by their numbers."""
    STRING = 0
    INT = 1
    FLOAT = 2
    ENUM = 3
    CHAR = 4
    LONG = 5
    DOUBLE = 6


class Mask(IntFlag):
    """Which changes a subscription is told of."""
    VALUE = 1
    LOG = 2
    ALARM = 4
    PROPERTY = 8


FORMATS = {Type.INT: "h", Type.FLOAT: "f", Type.ENUM: "H", Type.CHAR: "B", Type.LONG: "i", Type.DOUBLE: "d"}
# Bytes between the time stamp and the value.
PADDING = {Type.STRING: 0, Type.INT: 2, Type.FLOAT: 0, Type.ENUM: 2, Type.CHAR: 3, Type.LONG: 0, Type.DOUBLE: 4}
TEXT = 40
HEAD = struct.Struct(">HHII")
ONE = {kind: struct.Struct(f">HHII{PADDING[kind]}x{FORMATS[kind]}") for kind in FORMATS}
TYPES = tuple(Type)


class Reading(NamedTuple):
    """A value with what came with it."""
    name: str
    value: Value
    type: Type
    #: The alarm's status and severity (0 none, 1 minor, 2 major, 3 invalid).
    status: int
    severity: int
    #: The time stamp: whole seconds since 1970-01-01 00:00:00 UTC, and nanoseconds.
    seconds: int
    nanoseconds: int

    @property
    def time(self) -> float:
        """The time stamp in seconds since 1970."""
        return self.seconds + self.nanoseconds / 1e9


def text_bytes(text: Any) -> bytes:
    """A STRING's bytes. Raises ValueError if they are more than 40."""
    if not isinstance(text, (str, bytes)):
        raise ValueError(f"{text!r} is no text")
    found = text.encode("utf-8", "surrogateescape") if isinstance(text, str) else text
    if len(found) > TEXT or b"\0" in found:
        raise ValueError(f"a STRING has at most {TEXT} bytes, and none is zero: {text!r}")
    return found


def text_of(image: bytes) -> str:
    return image.split(b"\0", 1)[0].decode("utf-8", "surrogateescape")


def is_number(value: Any) -> bool:
    """Whether it is one number, NumPy's too, and no array, which may have the same methods."""
    return isinstance(value, (int, float)) or not hasattr(value, "__len__") and (hasattr(value, "__index__") or hasattr(value, "__float__"))


def number_of(kind: Type, value: Any) -> Any:
    """A number as struct and array take it for a type."""
    if kind in (Type.FLOAT, Type.DOUBLE):
        return float(value)
    if isinstance(value, float):
        if not value.is_integer():
            raise ValueError(f"{value!r} is no whole number")
        return int(value)
    return value


def numbers(kind: Type, value: Any) -> "array[Any]":
    """The elements of an array in a type, from whatever has a buffer of numbers, or can be gone through."""
    form = FORMATS[kind]
    try:
        view = memoryview(value)
    except TypeError:
        found = list(value)
    else:
        if view.ndim != 1:
            raise ValueError("an array has one dimension")
        if view.format.lstrip("@") == form and view.contiguous:
            return array(form, view.tobytes())
        try:
            found = view.tolist()
        except NotImplementedError:
            # Of the other byte order.
            found = list(value)
    try:
        return array(form, found)
    except TypeError:
        return array(form, [number_of(kind, it) for it in found])


def elements(kind: Type, value: Any) -> tuple[int, bytes]:
    """How many elements a value has in a type, and their image. Raises ValueError if it is none of that type."""
    try:
        if kind == Type.STRING:
            texts = [value] if isinstance(value, (str, bytes)) or not isinstance(value, Iterable) else list(value)
            return len(texts), b"".join(text_bytes(it).ljust(TEXT, b"\0") for it in texts)
        if isinstance(value, str):
            raise ValueError(f"{value!r} is no number")
        if is_number(value):
            return 1, struct.pack(">" + FORMATS[kind], number_of(kind, value))
        found = numbers(kind, value)
    except (struct.error, OverflowError, TypeError) as error:
        raise ValueError(f"{value!r} is no {kind.name}: {error}") from error
    if sys.byteorder == "little":
        found.byteswap()
    return len(found), found.tobytes()


def stamped(kind: Type, image: bytes, status: int, severity: int, seconds: int, nanoseconds: int) -> bytes:
    """The image with an alarm and a time stamp before it."""
    return HEAD.pack(status, severity, seconds - EPOCH & 0xFFFF_FFFF, nanoseconds) + bytes(PADDING[kind]) + image


def reading(name: str, number: int, count: int, image: memoryview, is_one: bool) -> Reading:
    """What bytes say that begin with an image with an alarm and a time stamp; `is_one` if the record has a greatest count of 1."""
    kind = TYPES[number]
    if is_one and count == 1 and kind != Type.STRING:
        status, severity, seconds, nanoseconds, value = ONE[kind].unpack_from(image)
        return Reading(name, value, kind, status, severity, EPOCH + seconds, nanoseconds)
    status, severity, seconds, nanoseconds = HEAD.unpack_from(image)
    found = value_of(kind, count, image[HEAD.size + PADDING[kind]:], is_one)
    return Reading(name, found, kind, status, severity, EPOCH + seconds, nanoseconds)


def value_of(kind: Type, count: int, image: memoryview, is_one: bool) -> Value:
    """The value whose elements bytes begin with."""
    found: Any
    if kind == Type.STRING:
        found = [text_of(image[at:at + TEXT].tobytes()) for at in range(0, count * TEXT, TEXT)]
    else:
        found = array(FORMATS[kind])
        found.frombytes(image[:count * found.itemsize])
        if sys.byteorder == "little":
            found.byteswap()
    return found[0] if is_one and count == 1 else found if kind == Type.STRING else memoryview(found)


def kind_of(value: Any) -> Type:
    """The type of a record whose first value this is."""
    if isinstance(value, (str, bytes)):
        return Type.STRING
    if isinstance(value, float):
        return Type.DOUBLE
    if is_number(value):
        return Type.LONG if hasattr(value, "__index__") else Type.DOUBLE
    try:
        form = memoryview(value).format.lstrip("@")
        return next((kind for kind, its in FORMATS.items() if its == form), Type.LONG if form in "bBhHiIlLqQ" else Type.DOUBLE)
    except TypeError:
        kinds = {kind_of(it) for it in value}
        if not kinds or Type.STRING in kinds and len(kinds) > 1:
            raise ValueError(f"{value!r} has no type of its own: name one") from None
        return max(kinds)


def plain(value: Value) -> Any:
    """A value as a list, if it is an array."""
    return value.tolist() if isinstance(value, memoryview) else value
