"""A client on asyncio: its calls, its channels and what the library reports of them. Everything here runs in the loop's thread."""
import asyncio
import logging
import os
import socket
from collections.abc import Awaitable, Callable, Iterable, Sequence
from types import TracebackType
from typing import Any, NamedTuple, Optional, Union

from . import _library as lib
from . import addresses
from ._channels import Channel, Spread
from ._circuits import Circuit, Circuits, wake
from ._searches import Searches
from .display import Display, display_of
from .errors import Error, Lost, Refused, ServerRefused, TimedOut, Unreadable
from .monitor import Feed, Monitor
from .values import Mask, Reading, Type, Value, elements, reading

log = logging.getLogger("cuvezhin")

OUTPUT_IS_FULL = -26


class Info(NamedTuple):
    """What the server says of a channel: its type, its greatest count of elements, and what this client may do."""
    name: str
    type: Type
    count: int
    readable: bool
    writable: bool


class _Default:
    """Stands for the client's own time-out, where None is none."""


_DEFAULT = _Default()
Timeout = Union[float, None, _Default]
# When a call has to be done, by the loop's clock, and how many seconds it had; None if it has any time.
Limit = Optional[tuple[float, float]]


class Client:
    """A client of Channel Access.

        async with Client() as ca:
            value = await ca.get("TEMP")

    servers        where it searches by datagrams: "HOST" or "HOST:PORT" each, broadcast addresses too
    name_servers   where it searches on circuits
                   if neither is given: EPICS_CA_ADDR_LIST, EPICS_CA_AUTO_ADDR_LIST, EPICS_CA_NAME_SERVERS and EPICS_CA_SERVER_PORT say
    user, host     what it calls itself, for a server's rules; by default the user and the host that the system names
    timeout        seconds for each call that names none; None waits for ever
    repeater       whether the host's repeater is asked for beacons, so that a server that starts again is found sooner
    write_refused  is called with a channel's name and a ServerRefused for a put without notification that the server refused;
                   by default such a one is logged

    A channel is opened as it is first named, and stays open. All calls are made in the thread of the loop in which it was entered.
    """

    def __init__(self, *, servers: Optional[Sequence[addresses.Place]] = None, name_servers: Optional[Sequence[addresses.Place]] = None,
                 user: Optional[str] = None, host: Optional[str] = None, timeout: Optional[float] = 5.0, repeater: bool = True,
                 write_refused: Optional[Callable[[str, ServerRefused], None]] = None) -> None:
        self._places = (servers, name_servers)
        self._user = addresses.user() if user is None else user
        self._host = socket.gethostname() if host is None else host
        self._timeout = timeout
        self._asks_repeater = repeater
        self._write_refused = write_refused
        self._is_open = False
        self._names: dict[str, list[Channel]] = {}
        self._channels: dict[int, Channel] = {}
        # How many channels are searched for, or not live yet.
        self._unsettled = 0
        # What each request that is open is to bring, and how the value that comes is read.
        self._requests: dict[int, tuple[asyncio.Future[Any], Channel, Callable[[Channel, lib.Notice], Any]]] = {}
        self._feeds: dict[int, Feed] = {}
        self._spread = Spread()

    # ---- its life

    async def __aenter__(self) -> "Client":
        loop = self._loop = asyncio.get_running_loop()
        servers, names = await loop.run_in_executor(None, self._found)
        core = self._core = lib.End(lib.CLIENT, "client")
        self._notice, self._cause, self._state = lib.Notice(), lib.c_uint32(), lib.ChannelState()
        self._circuits, self._searches = Circuits(self), Searches(self, self._asks_repeater)
        user, host = self._user.encode(), self._host.encode()
        lib.checked(core.call_new(core.at, user, len(user), host, len(host), _addresses(servers), len(servers), _addresses(names), len(names), 0))
        if servers:
            await self._searches.open()
        self._is_open = True
        self._circuits.connect()
        return self

    async def __aexit__(self, kind: Optional[type[BaseException]], error: Optional[BaseException], trace: Optional[TracebackType]) -> None:
        await self.close()

    async def close(self) -> None:
        """Ends all circuits. Calls that wait raise `Lost`, and so do monitors."""
        if not self._is_open:
            return
        self._is_open = False
        self._searches.close()
        circuits = list(self._circuits.all.values())
        for circuit in circuits:
            self._core.call_close(self._core.at, circuit.handle)
            self._hear(circuit)
            circuit.end(self._core.left())
        for channel in self._channels.values():
            channel.leave()
        await asyncio.gather(*[it.task for it in circuits if it.task], return_exceptions=True)
        await asyncio.sleep(0)
        self._core.free()

    # ---- what it can do

    async def get(self, name: str, *, type: Optional[Type] = None, count: int = 0, timeout: Timeout = _DEFAULT) -> Value:
        """The value of a channel, as `read` gets it."""
        return (await self.read(name, type=type, count=count, timeout=timeout)).value

    async def read(self, name: str, *, type: Optional[Type] = None, count: int = 0, timeout: Timeout = _DEFAULT) -> Reading:
        """The value of a channel with its alarm and time stamp, as a type (its own), and with so many elements (0: those that there are).

        Raises TimedOut, Lost, ServerRefused, Unreadable, or Refused: NoAccess, BadCount."""
        found: Reading = await self._read(name, lib.TIME, type, count, timeout, self._value)
        return found

    async def read_display(self, name: str, *, type: Optional[Type] = None, count: int = 0, timeout: Timeout = _DEFAULT) -> Display:
        """The value of a channel with its alarm and its display data: units, precision, limits and states. As `read`; such a value has no time stamp.

        A server that has no display data refuses it: ServerRefused, with the status 114."""
        found: Display = await self._read(name, lib.CONTROL, type, count, timeout, self._display)
        return found

    async def _read(self, name: str, form: int, kind: Optional[Type], count: int, timeout: Timeout, read: Callable[[Channel, lib.Notice], Any]) -> Any:
        channel, limit = self._channel(name), self._limit(timeout)
        await self._ready(channel, limit)
        await self._asked(channel, limit, self._core.call_read, form + (channel.type if kind is None else kind), count, self._core.number)
        return await self._until(self._requested(channel, read), channel, limit)

    async def get_many(self, names: Iterable[str], *, timeout: Timeout = _DEFAULT) -> dict[str, Union[Value, Error]]:
        """The values of many channels at once, by their names; the error in place of a value that could not be got."""
        self._check_open()
        limit, core = self._limit(timeout), self._core
        found: dict[str, Any] = dict.fromkeys(names)
        asked: dict[str, tuple[Channel, asyncio.Future[Optional[Reading]]]] = {}
        tasks: dict[str, asyncio.Task[Reading]] = {}
        for name in found:
            its = self._names.get(name)
            if its and its[0].is_live and self._ask(its[0], core.call_read, lib.TIME + its[0].type, 0, core.number) >= 0:
                asked[name] = its[0], self._requested(its[0])
            else:
                tasks[name] = self._loop.create_task(self.read(name, timeout=timeout))
        try:
            for name, (channel, future) in asked.items():
                found[name] = await _outcome(self._until(future, channel, limit))
            for name, task in tasks.items():
                found[name] = await _outcome(task)
        finally:
            for it in [*(future for _, future in asked.values()), *tasks.values()]:
                it.cancel()
        return found

    async def put(self, name: str, value: Any, *, wait: bool = True, type: Optional[Type] = None, timeout: Timeout = _DEFAULT) -> None:
        """Writes a channel, and waits until that is done; with `wait=False` until it is handed to the socket alone.

        A number or an array goes as the channel's own type; a text goes as a STRING, which the server converts, but for a decimal to FLOAT or
        DOUBLE, and for a text to an array of CHAR. Raises as `read`, and ValueError if the value does not fit the type. After TimedOut or Lost it
        may be done all the same."""
        channel, limit, core = self._channel(name), self._limit(timeout), self._core
        await self._ready(channel, limit)
        kind, count, image = _written(channel, value, type)
        given = (kind, count, image, len(image))
        if wait:
            await self._asked(channel, limit, core.call_put, *given, core.number)
            await self._until(self._requested(channel), channel, limit)
        else:
            await self._asked(channel, limit, core.call_write, *given)
            channel.flush_soon()

    async def info(self, name: str, *, timeout: Timeout = _DEFAULT) -> Info:
        """What the server says of a channel. Raises TimedOut."""
        channel = self._channel(name)
        await self._ready(channel, self._limit(timeout))
        return Info(name, channel.type, channel.greatest, bool(channel.rights & 1), bool(channel.rights & 2))

    def monitor(self, name: str, *, mask: int = Mask.VALUE | Mask.ALARM, type: Optional[Type] = None, count: int = 0,
                timeout: Optional[float] = None, follow: bool = True, limit: int = 1000) -> Monitor:
        """Subscribes to a channel: `async for update in ca.monitor("TEMP")`. The first update is the value that is there.

        mask      which changes are told
        timeout   seconds for each update, after which TimedOut is raised; the monitor can be asked again then
        follow    whether it goes on at the server's restart, with the value of then; else it raises Lost
        limit     how many updates wait at most

        The iteration raises ServerRefused or Refused, too."""
        if limit < 1:
            raise ValueError("a monitor has room for one update at least")
        channel = next((it for it in self._names.get(name, []) if not it.feed), None) or self._open_channel(name)
        channel.feed = Feed(channel, type, count, mask, follow, limit)
        self._subscribe(channel)
        return Monitor(self, channel.feed, timeout)

    def forget(self, name: str) -> None:
        """Closes the channels of a name. Calls that wait for one raise `Lost`."""
        for channel in self._names.pop(name, []):
            self._clear(channel)

    # ---- channels

    def _found(self) -> tuple[list[addresses.Found], list[addresses.Found]]:
        servers, names = self._places
        if servers is None and names is None:
            return addresses.searched(os.environ), addresses.name_servers(os.environ)
        port = addresses.port_of(os.environ, ["EPICS_CA_SERVER_PORT"], addresses.SERVER_PORT)
        return [addresses.address(it, port) for it in servers or []], [addresses.address(it, port) for it in names or []]

    def _channel(self, name: str) -> Channel:
        found = self._names.get(name)
        return found[0] if found else self._open_channel(name)

    def _check_open(self) -> None:
        if not self._is_open:
            raise RuntimeError("the client is not open")

    def _open_channel(self, name: str) -> Channel:
        self._check_open()
        its, priority = name.encode("utf-8", "surrogateescape"), self._spread.take(name)
        try:
            handle = self._core.handle(name, self._core.call_open, its, len(its), priority, self._searches.now())
        except Refused:
            self._spread.free(priority)
            raise
        channel = self._channels[handle] = Channel(name, handle, priority)
        self._names.setdefault(name, []).append(channel)
        self._unsettled += 1
        self._searches.again()
        return channel

    def _clear(self, channel: Channel) -> None:
        self._core.call_clear(self._core.at, channel.handle)
        self._hear(channel.circuit)
        del self._channels[channel.handle]
        self._spread.free(channel.priority)
        if not channel.is_live:
            self._unsettled -= 1
        if channel.feed:
            self._feeds.pop(channel.feed.subscription or 0, None)
        channel.leave()
        channel.flush_soon()

    # ---- what calls wait for

    def _limit(self, timeout: Timeout) -> Limit:
        seconds = self._timeout if isinstance(timeout, _Default) else timeout
        return None if seconds is None else (self._loop.time() + seconds, seconds)

    async def _until(self, future: "asyncio.Future[Any]", channel: Channel, limit: Limit) -> Any:
        """What a future brings for a channel. Raises TimedOut if that is not by the limit."""
        if limit is None or future.done():
            return await future
        timer = self._loop.call_at(limit[0], _late, future, channel, limit[1])
        try:
            return await future
        finally:
            timer.cancel()

    async def _ready(self, channel: Channel, limit: Limit) -> None:
        """Waits until the channel is live."""
        while not channel.is_live:
            waiter = self._loop.create_future()
            channel.waiters[waiter] = None
            try:
                await self._until(waiter, channel, limit)
            finally:
                channel.waiters.pop(waiter, None)

    def _ask(self, channel: Channel, call: Callable[..., int], *given: Any) -> int:
        """What a call on a live channel answers: OUTPUT_IS_FULL if its circuit has no room, or others wait for that."""
        circuit = channel.circuit
        assert circuit
        answer = OUTPUT_IS_FULL
        while not circuit.room and (answer := call(self._core.at, channel.handle, *given)) == OUTPUT_IS_FULL and circuit.flush():
            pass
        return answer

    async def _asked(self, channel: Channel, limit: Limit, call: Callable[..., int], *given: Any) -> None:
        """Makes a call on a live channel, once there is room for it on its circuit."""
        while (answer := self._ask(channel, call, *given)) == OUTPUT_IS_FULL:
            waiter = self._loop.create_future()
            channel.circuit.room.append(waiter)
            await self._until(waiter, channel, limit)
            await self._ready(channel, limit)
        lib.checked(answer, channel.name)

    def _requested(self, channel: Channel, read: Optional[Callable[[Channel, lib.Notice], Any]] = None) -> "asyncio.Future[Any]":
        """What the request that was just made is to bring. It goes out at once if it is the only one, else with others of this turn of the loop."""
        future: asyncio.Future[Any] = self._loop.create_future()
        circuit, is_only = channel.circuit, not self._requests
        assert circuit
        self._requests[self._core.number.value] = future, channel, read or self._value
        if is_only:
            circuit.flush()
        else:
            circuit.flush_soon()
        return future

    # ---- subscriptions

    def _subscribe(self, channel: Channel) -> None:
        """Subscribes for the feed of a channel, if that is live and not done yet, once there is room on its circuit."""
        feed = channel.feed
        if not feed or feed.error or feed.subscription is not None or not channel.is_live:
            return
        kind = channel.type if feed.kind is None else feed.kind
        answer = self._ask(channel, self._core.call_subscribe, lib.TIME + kind, feed.count, feed.mask, self._core.number)
        if answer == OUTPUT_IS_FULL:
            self._later(channel, self._subscribe, channel)
        elif answer < 0:
            feed.fail(Refused(-answer, channel.name))
        else:
            feed.subscription = self._core.number.value
            self._feeds[feed.subscription] = feed
            channel.flush_soon()

    def _unsubscribe(self, channel: Channel, subscription: int) -> None:
        """Ends a subscription, if it is there still, once there is room on its channel's circuit."""
        if self._core.call_unsubscribe(self._core.at, subscription) == OUTPUT_IS_FULL:
            self._later(channel, self._unsubscribe, channel, subscription)
        else:
            channel.flush_soon()

    def _later(self, channel: Channel, call: Callable[..., None], *given: Any) -> None:
        """Makes a call when a live channel's circuit has been written out, or has ended."""
        assert channel.circuit
        waiter = self._loop.create_future()
        waiter.add_done_callback(lambda _: call(*given))
        channel.circuit.room.append(waiter)
        channel.flush_soon()

    def _unfeed(self, feed: Feed) -> None:
        channel = feed.channel
        if not self._is_open or channel.feed is not feed or channel.handle not in self._channels:
            return
        channel.feed = None
        its = self._names.get(channel.name, [])
        subscription = feed.subscription if self._feeds.pop(feed.subscription or 0, None) else None
        if channel in its[1:]:
            # That ends its subscription too.
            its.remove(channel)
            self._clear(channel)
        elif subscription is not None:
            self._unsubscribe(channel, subscription)

    # ---- what the library reports

    def _hear(self, circuit: Optional[Circuit]) -> None:
        """Takes the notices of the call that reported, which are about channels of this circuit."""
        notice, core = self._notice, self._core
        while core.call_next(core.at, notice) == 1:
            kind = notice.kind
            if kind == lib.NOTICE_COMPLETED:
                self._completed(notice)
            elif kind == lib.NOTICE_UPDATE:
                feed = self._feeds.get(notice.of)
                if feed:
                    if notice.outcome == lib.VALUE:
                        feed.add(self._value(feed.channel, notice))
                    else:
                        feed.fail(_failure(feed.channel.name, notice))
            elif kind == lib.NOTICE_LIVE:
                self._live(self._channels[notice.of], circuit)
            elif kind == lib.NOTICE_LOST:
                self._gone(self._channels[notice.of])
            elif kind == lib.NOTICE_ENDED:
                feed = self._feeds.pop(notice.of, None)
                if feed:
                    feed.fail(ServerRefused(notice.status, feed.channel.name))
            elif kind == lib.NOTICE_WRITE_REFUSED:
                name = self._channels[notice.of].name
                error = ServerRefused(notice.status, name)
                if self._write_refused:
                    self._loop.call_soon(self._write_refused, name, error)
                else:
                    log.warning("%s", error)

    def _completed(self, notice: lib.Notice) -> None:
        future, channel, read = self._requests.pop(notice.of)
        if future.done():
            return
        if notice.outcome == lib.VALUE:
            future.set_result(read(channel, notice))
        elif notice.outcome == lib.DONE:
            future.set_result(None)
        else:
            future.set_exception(_failure(channel.name, notice))

    def _value(self, channel: Channel, notice: lib.Notice) -> Reading:
        return reading(channel.name, notice.type, notice.count, self._core.image(lib.TIME + notice.type), channel.greatest == 1)

    def _display(self, channel: Channel, notice: lib.Notice) -> Display:
        return display_of(channel.name, notice.type, notice.count, self._core.image(lib.CONTROL + notice.type), channel.greatest == 1)

    def _live(self, channel: Channel, circuit: Optional[Circuit]) -> None:
        state = self._state
        self._core.call_channel(self._core.at, channel.handle, state)
        channel.type, channel.greatest, channel.rights = Type(state.type), state.greatest, state.rights
        channel.is_live, channel.circuit = True, circuit
        self._unsettled -= 1
        wake(channel.waiters)
        self._subscribe(channel)

    def _gone(self, channel: Channel) -> None:
        channel.is_live, channel.circuit = False, None
        self._unsettled += 1
        feed = channel.feed
        if feed:
            if feed.subscription is not None:
                # The library would make it again by itself, of the type that the channel had.
                self._core.call_unsubscribe(self._core.at, feed.subscription)
                self._feeds.pop(feed.subscription, None)
                feed.subscription = None
            if not feed.follow:
                feed.fail(Lost(channel.name))
        self._searches.again()


def _addresses(found: Sequence[addresses.Found]) -> Any:
    made = (lib.Address * max(len(found), 1))()
    for at, (host, port) in enumerate(found):
        made[at] = lib.Address(addresses.number(host), port)
    return made


def _late(future: "asyncio.Future[Any]", channel: Channel, seconds: float) -> None:
    if not future.done():
        future.set_exception(TimedOut(channel.name, seconds, channel.is_live))


async def _outcome(reading: Awaitable[Reading]) -> Union[Value, Error]:
    try:
        return (await reading).value
    except Error as error:
        return error


def _failure(name: str, notice: lib.Notice) -> Error:
    if notice.outcome == lib.FAILED:
        return ServerRefused(notice.status, name)
    if notice.outcome == lib.UNREADABLE:
        return Unreadable(notice.status, name)
    return Lost(name)


def _written(channel: Channel, value: Any, kind: Optional[Type]) -> tuple[Type, int, bytes]:
    """The type, the count and the image with which a value is written."""
    if kind is None:
        kind = channel.type
        if isinstance(value, (str, bytes)) and kind != Type.STRING:
            if kind == Type.CHAR and channel.greatest > 1:
                value = (value.encode("utf-8", "surrogateescape") if isinstance(value, str) else value) + b"\0"
            elif kind in (Type.FLOAT, Type.DOUBLE) and _is_decimal(value):
                value = float(value)
            else:
                kind = Type.STRING
    return kind, *elements(kind, value)


def _is_decimal(text: Union[str, bytes]) -> bool:
    try:
        float(text)
        return True
    except ValueError:
        return False
