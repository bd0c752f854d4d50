"""A server on asyncio: sockets and timers round the library's server. Everything here runs in the loop's thread."""
import asyncio
import inspect
import os
import time
from collections.abc import Callable, Iterable, Sequence
from types import TracebackType
from typing import Any, Optional

from . import _library as lib
from . import addresses
from ._replies import WHOLE, Replies, Stats
from ._unhandled import Unhandled
from .errors import Refused
from .record import Put, Record, RefusedPut, Waiting, now
from .values import EPOCH, elements, stamped

EVERY_CHANGE = 15
# Milliseconds between the first two beacons, and between later ones at most.
FIRST_BEACON, LONGEST_BEACON = 20, 15_000


class _Peer(asyncio.Protocol):
    """A circuit and its socket."""

    def __init__(self, server: "Server") -> None:
        self.server = server
        self.handle = 0
        self.host = ""
        self.is_paused = self.is_full = self.is_over = False
        self.records: dict[int, Record] = {}
        self.subscribed: dict[int, set[int]] = {}
        # Kept only if somebody wants to know what is refused.
        self.unhandled = Unhandled() if server.on_refused else None
        # What is still to come of the last reply that was counted.
        self.begun = WHOLE

    def connection_made(self, transport: asyncio.BaseTransport) -> None:
        assert isinstance(transport, asyncio.Transport)
        self.transport = transport
        host, port = transport.get_extra_info("peername")[:2]
        self.host = f"{host}:{port}"
        self.server._accept(self)

    def data_received(self, data: bytes) -> None:
        if not self.is_over:
            self.server._came(self, data)

    def pause_writing(self) -> None:
        self.is_paused = True

    def resume_writing(self) -> None:
        self.is_paused = False
        if self.is_over:
            return
        self.server._flush(self)
        if self.is_full and not self.is_paused:
            self.is_full = False
            self.transport.resume_reading()
            self.server._serve(self)

    def connection_lost(self, exc: Optional[Exception]) -> None:
        self.server._lost(self)


class _Searches(asyncio.DatagramProtocol):
    def __init__(self, server: "Server") -> None:
        self.server = server

    def datagram_received(self, data: bytes, addr: Any) -> None:
        self.server._search(data, addr)

    def error_received(self, exc: Exception) -> None:
        """An answer or a beacon that reached nobody is not missed."""


class Server:
    """A server of Channel Access.

        async with Server([Record("TEMP", 21.0)]) as server:
            await server.serve_forever()

    records   what it serves; `add` and `remove` change that
    host      the address at which it listens; by default EPICS_CAS_INTF_ADDR_LIST, or all of this host
    port      the port for circuits (TCP) and searches (UDP); by default EPICS_CAS_SERVER_PORT, EPICS_CA_SERVER_PORT, or 5064. 0 has the system choose
    beacons   where beacons go; by default to this host's repeater, and to EPICS_CAS_BEACON_ADDR_LIST
    on_put, on_refused
              are called with a Put after each put of a client to any record, before the record's own callback, and with a RefusedPut after each that was
              refused
    counts    whether `stats` counts what is seen of a reply alone, as reads and updates: each reply is looked at then
    rules     of access, "USER HOST RECORD RIGHTS" each, with rw, r, w or - as rights and * for any: the first that fits decides, and what fits none
              may be read and written. User and host are what a client says of itself

    `port` and `host` say where it listens once it was entered. Entering raises OSError if that place is taken, and Refused if a record is refused:
    RecordExists, NameLength, or BadCount for over 262,144 elements.
    """

    def __init__(self, records: Iterable[Record] = (), *, host: Optional[str] = None, port: Optional[int] = None,
                 beacons: Optional[Sequence[addresses.Place]] = None, on_put: Optional[Callable[[Put], None]] = None,
                 on_refused: Optional[Callable[[RefusedPut], None]] = None, rules: Sequence[str] = (), counts: bool = False) -> None:
        listens, at = addresses.served(os.environ)
        self.host = listens if host is None else host
        self.port = at if port is None else port
        self.on_put, self.on_refused = on_put, on_refused
        self._replies = Replies() if counts else None
        self._rules = list(rules)
        self._beacons = addresses.beacons(os.environ) if beacons is None else [addresses.address(it, addresses.REPEATER_PORT) for it in beacons]
        self._given = list(records)
        self._records: dict[str, Record] = {}
        self._peers: dict[int, _Peer] = {}
        self._dirty: dict[_Peer, None] = {}
        self._is_open = False

    # ---- its life

    async def __aenter__(self) -> "Server":
        loop = self._loop = asyncio.get_running_loop()
        self._stopped: asyncio.Future[None] = loop.create_future()
        await self._listen()
        self._core = lib.End(lib.SERVER, "server")
        self._did = lib.Step()
        self._began = loop.time()
        self._stamp = (0, 0)
        self._is_open = True
        try:
            text = "".join(f"rule {it}\n" for it in self._rules).encode()
            lib.checked(self._core.call_load(self._core.at, self.port, 0, text, len(text)), "rules")
            for record in self._given:
                self.add(record)
        except BaseException:
            await self.close()
            raise
        self._wait = FIRST_BEACON
        self._timer: Optional[asyncio.TimerHandle] = None
        self._beacon()
        await self._server.start_serving()
        return self

    async def _listen(self) -> None:
        """Binds both sockets; if the system chooses the port, one that is free for both."""
        for left in reversed(range(1 if self.port else 20)):
            self._server = await self._loop.create_server(lambda: _Peer(self), self.host, self.port, start_serving=False)
            port = self._server.sockets[0].getsockname()[1]
            try:
                self._datagrams, _ = await self._loop.create_datagram_endpoint(lambda: _Searches(self), (self.host, port), allow_broadcast=True)
                self.port = port
                return
            except OSError:
                self._server.close()
                if not left:
                    raise

    async def __aexit__(self, kind: Optional[type[BaseException]], error: Optional[BaseException], trace: Optional[TracebackType]) -> None:
        await self.close()

    async def close(self) -> None:
        """Closes all sockets. Callbacks that run are cancelled."""
        if not self._is_open:
            return
        self._is_open = False
        self._server.close()
        self._datagrams.close()
        if getattr(self, "_timer", None):
            self._timer.cancel()
        for peer in list(self._peers.values()):
            peer.is_over = True
            peer.transport.close()
        tasks = [it._task for it in self._records.values() if it._task]
        for task in tasks:
            task.cancel()
        await asyncio.gather(*tasks, return_exceptions=True)
        await asyncio.sleep(0)
        for record in self._records.values():
            record._leave()
        self._core.free()
        if not self._stopped.done():
            self._stopped.set_result(None)

    async def serve_forever(self) -> None:
        """Waits until the server is closed."""
        await asyncio.shield(self._stopped)

    @property
    def stats(self) -> Stats:
        """What the server has, and did so far."""
        replies = self._replies or Replies()
        return Stats(len(self._peers), sum(len(it.records) for it in self._peers.values()), replies.searches, replies.reads,
                     self._core.call_applied(self._core.at) if self._is_open else 0, replies.updates, replies.refused)

    # ---- records

    def __getitem__(self, name: str) -> Record:
        return self._records[name]

    def add(self, record: Record) -> None:
        """Serves one more record. Raises Refused: RecordExists, NameLength or BadCount."""
        if record._server:
            raise ValueError(f"{record.name} is served already")
        core, name, value = self._core, record.name.encode("utf-8", "surrogateescape"), record.reading
        many, image = elements(record.type, value.value)
        kind, first = _shown(record, image)
        lib.checked(core.call_add(core.at, name, len(name), record.count, record.slow, kind, many, first, len(first)), record.name)
        full = stamped(record.type, image, value.status, value.severity, value.seconds, value.nanoseconds)
        core.call_post(core.at, name, len(name), EVERY_CHANGE, lib.TIME + record.type, many, full, len(full))
        self._records[record.name] = record
        record._server = self

    def remove(self, record: Record) -> None:
        """Serves the record no more: its channels are told, and its puts that wait are never applied. Raises Refused (UnknownRecord)."""
        name = record.name.encode("utf-8", "surrogateescape")
        lib.checked(self._core.call_remove(self._core.at, name, len(name)), record.name)
        del self._records[record.name]
        record._leave()
        for peer in self._peers.values():
            self._flush_soon(peer)

    def _post(self, record: Record, mask: int, count: int, image: bytes) -> None:
        core, name = self._core, record.name.encode("utf-8", "surrogateescape")
        lib.checked(core.call_post(core.at, name, len(name), mask, lib.TIME + record.type, count, image, len(image)), record.name)
        self._tell(record)

    def _show(self, record: Record) -> None:
        core, name = self._core, record.name.encode("utf-8", "surrogateescape")
        many, image = elements(record.type, record.value)
        kind, first = _shown(record, image)
        lib.checked(core.call_set_display(core.at, name, len(name), kind, many, first, len(first)), record.name)
        self._tell(record)

    def _tell(self, record: Record) -> None:
        for peer in record._peers:
            self._flush_soon(peer)

    # ---- puts

    def _applied(self, record: Record, peer: _Peer, is_busy: bool) -> None:
        """A put of this client was applied."""
        core, name, old = self._core, record.name.encode("utf-8", "surrogateescape"), record.value
        image = core.image(name, len(name), lib.TIME + record.type, core.many)
        record._take(core.many.value, image)
        put = Put(record, record.value, old, peer.host, *self._names(peer), record.reading.time)
        self._tell(record)
        if self.on_put:
            self._called(record, self.on_put, put)
        if record.slow:
            record._puts.append(Waiting(put, is_busy, peer))
            if not record._task:
                record._task = self._loop.create_task(self._process(record))
        elif record.on_put:
            answer = self._called(record, record.on_put, put)
            if inspect.isawaitable(answer):
                asyncio.ensure_future(answer)

    def _refused(self, record: Optional[Record], peer: _Peer) -> None:
        if self.on_refused and peer.unhandled:
            kind, value = peer.unhandled.put(record is None or record.count == 1)
            self._called(record, self.on_refused, RefusedPut(record, value, kind, peer.host, *self._names(peer), time.time()))

    def _names(self, peer: _Peer) -> tuple[str, str]:
        """The user and the host that a client says it is."""
        core = self._core
        return core.text(core.call_user, peer.handle), core.text(core.call_host, peer.handle)

    def _called(self, record: Optional[Record], call: Callable[[Any], Any], put: Any) -> Any:
        try:
            return call(put)
        except Exception as error:
            self._complain(record, error)
            return None

    def _complain(self, record: Optional[Record], error: Exception) -> None:
        of = record.name if record else "a put that was refused"
        self._loop.call_exception_handler({"message": f"the callback of {of} failed", "exception": error})

    async def _process(self, record: Record) -> None:
        """Runs the callback for each put to a slow record, one after another."""
        while record._puts and record._server is self:
            waiting = record._puts.popleft()
            try:
                answer = record.on_put(waiting.put) if record.on_put else None
                if inspect.isawaitable(answer):
                    await answer
            except Exception as error:
                self._complain(record, error)
            if waiting.is_busy and record._server is self:
                self._finish(record, waiting.peer)
        if record._server is self:
            record._task = None

    def _finish(self, record: Record, peer: _Peer) -> None:
        """The put that makes the record busy is done; the next one that waits is applied by that."""
        core, name = self._core, record.name.encode("utf-8", "surrogateescape")
        following = self._peers[core.number.value] if core.call_first(core.at, name, len(name), core.number) == 1 else None
        self._set_stamp()
        core.call_finish(core.at, name, len(name))
        self._flush_soon(peer)
        if following:
            self._applied(record, following, True)

    def _set_stamp(self) -> None:
        """Puts that are applied from now on have this moment's time stamp, or that of the last, if the clock went back."""
        self._stamp = max(self._stamp, now())
        self._core.call_stamp(self._core.at, self._stamp[0] - EPOCH, self._stamp[1])

    # ---- circuits

    def _accept(self, peer: _Peer) -> None:
        if not self._is_open:
            peer.is_over = True
            peer.transport.abort()
            return
        try:
            peer.handle = self._core.handle("", self._core.call_accept)
        except Refused:
            peer.is_over = True
            peer.transport.abort()
            return
        self._peers[peer.handle] = peer
        self._flush(peer)

    def _came(self, peer: _Peer, data: bytes) -> None:
        if peer.unhandled:
            peer.unhandled.came(data)
        if self._core.call_give(self._core.at, peer.handle, data, len(data)) < 0:
            self._core.call_cut(self._core.at, peer.handle)
        self._serve(peer)

    def _serve(self, peer: _Peer) -> None:
        """Handles what came, message by message."""
        core, did, handle = self._core, self._did, peer.handle
        self._set_stamp()
        while True:
            answer = core.call_step(core.at, handle, did)
            if answer == lib.HANDLED:
                if did.effect:
                    self._follow(peer, did)
                if peer.unhandled:
                    peer.unhandled.handled()
            elif answer == lib.NEEDS_BYTES:
                self._flush(peer)
                return
            elif answer == lib.OUTPUT_FULL:
                self._flush(peer)
                if peer.is_paused:
                    peer.is_full = True
                    peer.transport.pause_reading()
                    return
            else:
                self._end(peer, core.left())
                return

    def _follow(self, peer: _Peer, did: lib.Step) -> None:
        """What a message did, beside its replies."""
        core, effect, sid = self._core, did.effect, did.sid
        if effect in (lib.WROTE, lib.BUSIED):
            self._applied(peer.records[sid], peer, effect == lib.BUSIED)
        elif effect == lib.WRITE_REFUSED:
            self._refused(peer.records.get(sid), peer)
        elif effect == lib.CREATED:
            peer.records[sid] = self._records[core.text(core.call_name, peer.handle, sid)]
        elif effect == lib.SUBSCRIBED:
            peer.subscribed.setdefault(sid, set()).add(did.subscription)
            peer.records[sid]._peers[peer] += 1
        elif effect == lib.CANCELLED:
            if did.subscription in peer.subscribed.get(sid, ()):
                peer.subscribed[sid].remove(did.subscription)
                self._unsubscribe(peer, sid, 1)
        elif effect == lib.CLEARED:
            self._unsubscribe(peer, sid, len(peer.subscribed.pop(sid, ())))
            peer.records.pop(sid, None)

    def _unsubscribe(self, peer: _Peer, sid: int, many: int) -> None:
        record = peer.records.get(sid)
        if record and many:
            record._peers[peer] -= many
            if record._peers[peer] <= 0:
                del record._peers[peer]

    def _flush_soon(self, peer: _Peer) -> None:
        if not self._dirty:
            self._loop.call_soon(self._flush_dirty)
        self._dirty[peer] = None

    def _flush_dirty(self) -> None:
        dirty, self._dirty = self._dirty, {}
        for peer in dirty:
            self._flush(peer)

    def _flush(self, peer: _Peer) -> None:
        """Sends what waits, updates too, as far as the socket takes it."""
        core = self._core
        while not peer.is_paused and not peer.is_over:
            core.call_pump(core.at, peer.handle)
            data = core.output(peer.handle)
            if not data:
                return
            if self._replies:
                peer.begun = self._replies.count(data, peer.begun)
            peer.transport.write(data)

    def _lost(self, peer: _Peer) -> None:
        if not peer.is_over:
            self._core.call_cut(self._core.at, peer.handle)
            self._core.call_step(self._core.at, peer.handle, self._did)
            self._end(peer, b"")

    def _end(self, peer: _Peer, left: bytes) -> None:
        """The library has ended the circuit."""
        peer.is_over = True
        del self._peers[peer.handle]
        for record in peer.records.values():
            record._peers.pop(peer, None)
        if left:
            if self._replies:
                self._replies.count(left, peer.begun)
            peer.transport.write(left)
        peer.transport.close()

    # ---- datagrams

    def _search(self, data: bytes, peer: Any) -> None:
        if self._is_open and self._core.call_datagram(self._core.at, data, len(data)) >= 0:
            while (answer := self._core.taken(self._core.call_answer)):
                if self._replies:
                    self._replies.count(answer)
                self._datagrams.sendto(answer, peer)

    def _beacon(self) -> None:
        moment = int((self._loop.time() - self._began) * 1000)
        beacon = self._core.taken(self._core.call_beacon, moment)
        if beacon:
            for place in self._beacons:
                self._datagrams.sendto(beacon, place)
            self._timer = self._loop.call_later(self._wait / 1000 + 0.002, self._beacon)
            self._wait = min(2 * self._wait, LONGEST_BEACON)
        else:
            self._timer = self._loop.call_later(0.002, self._beacon)


def _shown(record: Record, image: bytes) -> tuple[int, bytes]:
    """The type and the bytes of an image with the record's display data and these elements, or of the elements alone if it has none."""
    if record._display is None:
        return record.type, image
    # A control image begins with status and severity.
    return lib.CONTROL + record.type, bytes(4) + record._display + image
