"""Display data of records: what a screen shows beside a value, and how images of control types have it."""
import math
import struct
from collections.abc import Sequence
from typing import Any, NamedTuple, Optional

from .values import FORMATS, TYPES, Type, Value, elements, text_of, value_of

UNITS, STATE, STATES = 8, 26, 16
REALS = (Type.FLOAT, Type.DOUBLE)
NUMBERS = (Type.INT, Type.CHAR, Type.LONG, *REALS)

#: A lower and an upper limit.
Range = tuple[float, float]


class Limits(NamedTuple):
    """The limits of a record, each a pair of the lower and the upper one. Clients are shown them, and a client's put has its alarm by them.

    What is None is shown as zeros, by which no value has an alarm, but `alarm` and `warning` of a FLOAT or DOUBLE as no numbers (NaN)."""
    display: Optional[Range] = None
    alarm: Optional[Range] = None
    warning: Optional[Range] = None
    control: Optional[Range] = None


class Display(NamedTuple):
    """A value with what a screen shows beside it; what a value of its type does not have is None."""
    name: str
    value: Value
    type: Type
    #: The alarm's status and severity (0 none, 1 minor, 2 major, 3 invalid).
    status: int
    severity: int
    #: Of a number.
    units: Optional[str] = None
    #: Of a FLOAT or DOUBLE: how many digits are shown after the point.
    precision: Optional[int] = None
    #: Of a number: as the server sends them, so that none of the four is None.
    limits: Optional[Limits] = None
    #: Of an ENUM: the names of its states, from 0 on.
    states: Optional[list[str]] = None


def display_image(kind: Type, display: bool, units: Optional[str], precision: Optional[int], limits: Optional[Limits],
                  states: Optional[Sequence[str]]) -> Optional[bytes]:
    """What an image of a control type has between the severity and the value; None if nothing is given and none is wanted all the same. Raises ValueError if
    the type has no such."""
    if not display and units is None and precision is None and limits is None and states is None:
        return None
    for name, it, kinds in (("units", units, NUMBERS), ("precision", precision, REALS), ("limits", limits, NUMBERS), ("states", states, (Type.ENUM,))):
        if it is not None and kind not in kinds:
            raise ValueError(f"a {kind.name} has no {name}")
    if kind == Type.STRING:
        return b""
    if kind == Type.ENUM:
        return _states(() if states is None else states)
    begin = b""
    if kind in REALS:
        try:
            begin = struct.pack(">hxx", precision or 0)
        except struct.error as error:
            raise ValueError(f"{precision!r} is no precision: {error}") from error
    none = math.nan if kind in REALS else 0
    its = Limits() if limits is None else limits
    if not isinstance(its, Limits):
        raise ValueError(f"{its!r} is no Limits")
    low, high = _pair("display", its.display, 0)
    lolo, hihi = _pair("alarm", its.alarm, none)
    below, above = _pair("warning", its.warning, none)
    least, most = _pair("control", its.control, 0)
    image = elements(kind, [high, low, hihi, above, below, lolo, most, least])[1]
    return begin + _field("units", units or "", UNITS) + image + bytes(kind == Type.CHAR)


def display_of(name: str, number: int, count: int, image: memoryview, is_one: bool) -> Display:
    """What bytes say that begin with an image of a control type; `is_one` if the record has a greatest count of 1."""
    kind = TYPES[number]
    status, severity = struct.unpack_from(">HH", image)
    rest, found = image[4:], Display(name, 0, kind, status, severity)
    if kind == Type.ENUM:
        many, = struct.unpack_from(">H", rest)
        found = found._replace(states=[text_of(rest[at:at + STATE].tobytes()) for at in range(2, 2 + many * STATE, STATE)])
        rest = rest[2 + STATES * STATE:]
    elif kind in NUMBERS:
        if kind in REALS:
            found = found._replace(precision=struct.unpack_from(">h", rest)[0])
            rest = rest[4:]
        form = struct.Struct(f">8{FORMATS[kind]}")
        high, low, hihi, above, below, lolo, most, least = form.unpack_from(rest, UNITS)
        found = found._replace(units=text_of(rest[:UNITS].tobytes()), limits=Limits((low, high), (lolo, hihi), (below, above), (least, most)))
        rest = rest[UNITS + form.size + (kind == Type.CHAR):]
    return found._replace(value=value_of(kind, count, rest, is_one))


def _states(names: Sequence[str]) -> bytes:
    if isinstance(names, (str, bytes)) or not isinstance(names, Sequence) or len(names) > STATES:
        raise ValueError(f"states are at most {STATES} names: {names!r}")
    return struct.pack(">H", len(names)) + b"".join(_field("a state", it, STATE) for it in names).ljust(STATES * STATE, b"\0")


def _field(what: str, text: Any, size: int) -> bytes:
    if not isinstance(text, str):
        raise ValueError(f"{text!r} is no text")
    found = text.encode("utf-8", "surrogateescape")
    if len(found) >= size or b"\0" in found:
        raise ValueError(f"{what} may have {size - 1} bytes, and none is zero: {text!r}")
    return found.ljust(size, b"\0")


def _pair(what: str, its: Optional[Range], none: float) -> Range:
    if its is None:
        return none, none
    try:
        low, high = its
    except (TypeError, ValueError) as error:
        raise ValueError(f"limits of {what} are a lower and an upper one: {its!r}") from error
    return low, high
