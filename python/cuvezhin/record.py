"""Records: values that clients read, write and monitor."""
import asyncio
import inspect
import time
from collections import Counter, deque
from collections.abc import Awaitable, Callable, Sequence
from typing import Any, NamedTuple, Optional, Union

from .display import Limits, display_image
from .values import Mask, Type, Value, elements, kind_of, plain, reading, stamped


class Put(NamedTuple):
    """What a client wrote."""
    record: "Record"
    value: Value
    #: The value before.
    old: Value
    #: The client's address, as "HOST:PORT".
    host: str
    #: The user and the host that the client says it is, by which rules go.
    user: str
    host_name: str
    #: When it was applied, in seconds since 1970.
    time: float


class RefusedPut(NamedTuple):
    """What a client wanted to write, and was refused."""
    #: The record; None if the client's channel was not open.
    record: Optional["Record"]
    #: What was to be written; None if what came is no value of a type from STRING to DOUBLE.
    value: Optional[Value]
    #: The type in which it came; None if it is none of these.
    type: Optional[Type]
    host: str
    user: str
    host_name: str
    #: When it was refused, in seconds since 1970.
    time: float


OnPut = Callable[[Put], Union[None, Awaitable[None]]]


class Record:
    """A record: a value that clients read, write and monitor.

    name     1 to 60 bytes
    value    an int (LONG), a float (DOUBLE), a str (STRING), or a sequence or a buffer of such
    type     its type, if not that of the value
    count    the greatest count of elements, if not the count of the value
    on_put   is called with a Put after each put of a client. If it is a coroutine function the record is slow: a put with notification is answered
             when the coroutine is done, and the next such put is applied then. What it raises goes to the loop's exception handler
    slow     says whether it is slow, if `on_put` does not

    Its display data, which clients read in graphic and control types:

    units      of a number: 7 bytes at most
    precision  of a FLOAT or DOUBLE: how many digits are shown after the point
    limits     of a number: Limits
    states     of an ENUM, which is the type then if no other is given: the names of its states from 0 on, 16 at most, of 25 bytes at most
    display    says that it has some though none of these is given: a STRING has none of them, and is read in these types then

    Raises ValueError if the value is of no type, or not of this one, and if its type has no such display data, or they do not fit.
    """

    def __init__(self, name: str, value: Any, *, type: Optional[Type] = None, count: Optional[int] = None, on_put: Optional[OnPut] = None,
                 slow: Optional[bool] = None, units: Optional[str] = None, precision: Optional[int] = None, limits: Optional[Limits] = None,
                 states: Optional[Sequence[str]] = None, display: bool = False) -> None:
        self.name, self._has_display = name, display
        if type is None:
            type = kind_of(value) if states is None else Type.ENUM
        self.type = Type(type)
        self.on_put = on_put
        self.slow = _is_coroutine(on_put) if slow is None else slow
        many, image = elements(self.type, value)
        self.count = many if count is None else count
        if not 0 < many <= self.count:
            raise ValueError(f"{name}: {many} elements, of {self.count} at most")
        self._set_display(units, precision, limits, states)
        self._server: Any = None
        self._take(many, memoryview(stamped(self.type, image, 0, 0, *now())))
        # The circuits that subscribed to it, how often, and puts that wait for its callback.
        self._peers: Counter[Any] = Counter()
        self._puts: deque[Waiting] = deque()
        self._task: Optional[asyncio.Task[None]] = None

    def __repr__(self) -> str:
        return f"Record({self.name!r}, {plain(self.value)!r})"

    @property
    def value(self) -> Value:
        """The value now, whoever wrote it."""
        return self.reading.value

    def set(self, value: Any, *, status: int = 0, severity: int = 0, stamp: Optional[float] = None, mask: Optional[int] = None) -> None:
        """As `post`, and does not wait until the updates are on their way."""
        count, image = elements(self.type, value)
        if not 0 < count <= self.count:
            raise ValueError(f"{self.name}: {count} elements, of {self.count} at most")
        seconds, nanoseconds = now() if stamp is None else (int(stamp), int(stamp % 1 * 1e9))
        if mask is None:
            is_new = (status, severity) != (self.reading.status, self.reading.severity)
            mask = Mask.VALUE | Mask.LOG | (Mask.ALARM if is_new else 0)
        full = stamped(self.type, image, status, severity, seconds, nanoseconds)
        if self._server:
            self._server._post(self, mask, count, full)
        self._take(count, memoryview(full))

    async def post(self, value: Any, *, status: int = 0, severity: int = 0, stamp: Optional[float] = None, mask: Optional[int] = None) -> None:
        """The record has this value from now on, and its subscribers are told.

        status, severity   of its alarm (severity 0 none, 1 minor, 2 major, 3 invalid)
        stamp              its time in seconds since 1970; now by default
        mask               which subscriptions are told; VALUE and LOG by default, and ALARM if the alarm changed

        Raises ValueError if the value is not of the record's type or has too many elements."""
        self.set(value, status=status, severity=severity, stamp=stamp, mask=mask)
        await asyncio.sleep(0)

    def show(self, *, units: Optional[str] = None, precision: Optional[int] = None, limits: Optional[Limits] = None,
             states: Optional[Sequence[str]] = None) -> None:
        """Clients are shown these display data from now on, and subscribers with Mask.PROPERTY are told. What is not given stays;
        `limits` replaces all limits. The alarm stays until the next put.

        Raises ValueError as for a new record."""
        self._set_display(self.units if units is None else units, self.precision if precision is None else precision, self.limits if limits is None else limits,
                          self.states if states is None else states)
        if self._server and self._display is not None:
            self._server._show(self)

    def _set_display(self, units: Optional[str], precision: Optional[int], limits: Optional[Limits], states: Optional[Sequence[str]]) -> None:
        try:
            self._display = display_image(self.type, self._has_display, units, precision, limits, states)
        except ValueError as error:
            raise ValueError(f"{self.name}: {error}") from error
        self.units, self.precision, self.limits, self.states = units, precision, limits, states

    def _leave(self) -> None:
        """No server has it any more."""
        self._server, self._task = None, None
        self._peers.clear()
        self._puts.clear()

    def _take(self, count: int, image: memoryview) -> None:
        self.reading = reading(self.name, self.type, count, image, self.count == 1)


class Waiting(NamedTuple):
    """A put that waits for the record's callback, whether its answer waits for that too, and on which circuit it came."""
    put: Put
    is_busy: bool
    peer: Any


def now() -> tuple[int, int]:
    """The time in seconds since 1970, and nanoseconds."""
    return divmod(time.time_ns(), 1_000_000_000)


def _is_coroutine(call: Any) -> bool:
    return inspect.iscoroutinefunction(call) or inspect.iscoroutinefunction(getattr(call, "__call__", None))
