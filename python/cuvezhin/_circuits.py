"""A client's circuits, and their sockets."""
import asyncio
from collections.abc import Iterable
from typing import TYPE_CHECKING, Any, Optional, Union

from . import _library as lib
from . import addresses

if TYPE_CHECKING:
    from .client import Client

# Seconds: until a connection is made, and until one that ended is made again.
CONNECT, REST = 5.0, 1.0
# A socket is read by at most so many bytes at once.
READ = 256 * 1024


class Circuit(asyncio.BufferedProtocol):
    """A circuit and its socket."""

    def __init__(self, client: "Client", handle: int) -> None:
        self.client, self.core, self.handle = client, client._core, handle
        self.transport: Optional[asyncio.Transport] = None
        self.task: Optional[asyncio.Task[None]] = None
        self.is_paused = self.is_flushing = self.is_over = self.is_echoed = False
        # The moment at which something came last.
        self.heard = 0
        # Calls that wait for room on it.
        self.room: list[asyncio.Future[None]] = []

    # ---- what asyncio calls

    def connection_made(self, transport: asyncio.BaseTransport) -> None:
        assert isinstance(transport, asyncio.Transport)
        client, core = self.client, self.core
        self.transport = transport
        if self.is_over:
            transport.abort()
            return
        # The library counts the circuit as heard at the moment that it was told last.
        client._searches.tick()
        self.heard, self.is_echoed = client._searches.moment, False
        if core.call_connected(core.at, self.handle, client._cause) == lib.CLOSED:
            client._hear(self)
            self.end(core.left())
            return
        client._circuits.rests.pop(self.handle, None)
        self.flush()
        client._searches.arm()

    def get_buffer(self, sizehint: int) -> Any:
        return self.client._circuits.input

    def buffer_updated(self, nbytes: int) -> None:
        if self.is_over:
            return
        client, core, handle = self.client, self.core, self.handle
        self.heard, self.is_echoed = client._searches.moment, False
        if core.call_give(core.at, handle, client._circuits.input, nbytes, nbytes == READ) < 0:
            self.lose()
            return
        step, at, cause, hear = core.call_step, core.at, client._cause, client._hear
        while (did := step(at, handle, cause)) == lib.HANDLED:
            hear(self)
        if did != lib.NEEDS_BYTES:
            hear(self)
            self.end(core.left())
        elif client._unsettled:
            client._circuits.follow()
        else:
            self.flush()

    def pause_writing(self) -> None:
        self.is_paused = True

    def resume_writing(self) -> None:
        self.is_paused = False
        self.flush()

    def connection_lost(self, exc: Optional[Exception]) -> None:
        self.lose()

    # ---- what is sent, and its end

    def flush_soon(self) -> None:
        if not self.is_flushing:
            self.is_flushing = True
            self.client._loop.call_soon(self.flush)

    def flush(self) -> bool:
        """Sends what waits, as far as the socket takes it. Whether there was something."""
        self.is_flushing, is_sent = False, False
        transport = self.transport
        if self.is_over or transport is None:
            return False
        while not self.is_paused and (data := self.core.output(self.handle)):
            transport.write(data)
            is_sent = True
            if len(data) < lib.ROOM:
                break
        if not self.is_paused:
            wake(self.room)
        return is_sent

    def lose(self) -> None:
        """It was lost, or could not be connected."""
        if not self.is_over:
            self.core.call_cut(self.core.at, self.handle)
            self.client._hear(self)
            self.end(b"")

    def end(self, left: bytes) -> None:
        """The library has ended it; this is left to be sent."""
        self.is_over = True
        wake(self.room)
        if self.transport:
            if left:
                self.transport.write(left)
            self.transport.close()
        elif self.task and not self.client._is_open:
            self.task.cancel()
        self.client._circuits.ended(self)


class Circuits:
    """All circuits of a client that are connected, or about to be."""

    def __init__(self, client: "Client") -> None:
        self._client, self._told = client, lib.Wanted()
        self.all: dict[int, Circuit] = {}
        # Until when those rest that are wanted again.
        self.rests: dict[int, float] = {}
        # Where each socket is read into.
        self.input = lib.room(READ)

    def connect(self) -> None:
        """Connects the circuits that are wanted."""
        client, now = self._client, self._client._loop.time()
        for told in self._wanted():
            if told.circuit not in self.all and self.rests.get(told.circuit, 0) <= now:
                circuit = self.all[told.circuit] = Circuit(client, told.circuit)
                circuit.task = client._loop.create_task(self._reach(circuit, addresses.dotted(told.host), told.port))

    def _wanted(self) -> Iterable[lib.Wanted]:
        core, place = self._client._core, 0
        while core.call_wanted(core.at, place, self._told) == 1:
            place += 1
            yield self._told

    async def _reach(self, circuit: Circuit, host: str, port: int) -> None:
        try:
            async with asyncio.timeout(CONNECT):
                await self._client._loop.create_connection(lambda: circuit, host, port)
        except OSError:
            circuit.lose()
        except asyncio.CancelledError:
            circuit.lose()
            raise

    def follow(self) -> None:
        """Channels may have been found: their circuits are connected, or asked for them."""
        self.connect()
        for circuit in list(self.all.values()):
            circuit.flush()

    def ended(self, circuit: Circuit) -> None:
        """One of them has ended."""
        self.all.pop(circuit.handle, None)
        if self._client._is_open:
            # A name server's circuit is wanted again, under the same handle. It rests first.
            if any(it.circuit == circuit.handle for it in self._wanted()):
                self.rests[circuit.handle] = self._client._loop.time() + REST
                self._client._loop.call_later(REST + 0.01, self._retry)
            self._client._searches.register()
            self.connect()

    def _retry(self) -> None:
        if self._client._is_open:
            self.connect()


def wake(waiters: Union[list["asyncio.Future[None]"], dict["asyncio.Future[None]", None]]) -> None:
    """Those that wait go on."""
    for it in waiters:
        if not it.done():
            it.set_result(None)
    waiters.clear()
