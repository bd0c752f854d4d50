"""A client's searches: its socket for datagrams, and the one timer that it has, for ECHOs and silences too."""
import asyncio
import contextlib
import os
import socket
from typing import TYPE_CHECKING, Any, Optional

from . import _library as lib
from . import addresses

if TYPE_CHECKING:
    from .client import Client

# Milliseconds: between the first two searches of a channel, between later ones at most, until an ECHO, and until a silent circuit ends.
FIRST_WAIT, LONGEST_WAIT, ECHO, SILENCE = 32, 300_000, 30_000, 35_000
# Seconds. A timer that fires later than this finds a process that stood still, and what it slept is no silence of a server.
LATE = 1.0


class Searches(asyncio.DatagramProtocol):
    """What a client does at moments, and the datagrams that it sends and hears."""

    def __init__(self, client: "Client", repeater: bool) -> None:
        self._client, self._loop, self._asks_repeater = client, client._loop, repeater
        self._to = lib.Address()
        self._began, self._missed, self._due = self._loop.time(), 0.0, float("inf")
        # The moment of the last tick. The library counts bytes that come as heard then.
        self.moment = 0
        self._wait = FIRST_WAIT
        self._timer: Optional[asyncio.TimerHandle] = None
        self._transport: Optional[asyncio.DatagramTransport] = None

    async def open(self) -> None:
        """Opens the socket."""
        self._socket = socket.socket(socket.AF_INET, socket.SOCK_DGRAM)
        self._socket.setsockopt(socket.SOL_SOCKET, socket.SO_BROADCAST, 1)
        self._socket.setblocking(False)
        self._transport, _ = await self._loop.create_datagram_endpoint(lambda: self, sock=self._socket)
        self.register()

    def close(self) -> None:
        if self._timer:
            self._timer.cancel()
        if self._transport:
            self._transport.close()

    # ---- moments

    def now(self) -> int:
        """The moment, in milliseconds, without what the process stood still."""
        now = self._loop.time()
        if now - self._due > LATE:
            self._missed += now - self._due - LATE
            self._due = now - LATE
        return int((now - self._began - self._missed) * 1000)

    def again(self) -> None:
        """A channel is searched for from now on."""
        self._wait = FIRST_WAIT
        if self._client._is_open and (not self._timer or self._due > self._loop.time()):
            self._set_timer(0)

    def arm(self) -> None:
        """Sets the timer for the next moment that the library needs, from the last one: a search's, or that of a silence."""
        circuits = self._client._circuits.all.values()
        waits = [it.heard + (SILENCE if it.is_echoed else ECHO) - self.moment for it in circuits if it.transport]
        if self._client._unsettled:
            waits.append(self._wait)
        # Two milliseconds more, so that it is not a moment before.
        seconds = max(min(waits, default=0), 0) / 1000 + 0.002
        if waits and self._loop.time() + seconds < self._due:
            self._set_timer(seconds)

    def _set_timer(self, seconds: float) -> None:
        if self._timer:
            self._timer.cancel()
        self._due = self._loop.time() + seconds
        self._timer = self._loop.call_later(seconds, self._timed)

    def _timed(self) -> None:
        """A moment for which the timer was set."""
        self.now()
        self._timer, self._due = None, float("inf")
        self.tick()
        self.arm()
        self._wait = min(2 * self._wait, LONGEST_WAIT)

    def tick(self) -> None:
        """Tells the library the moment, and does what it asks: searches, ECHOs, and ends of circuits that were silent too long."""
        client, to = self._client, self._to
        core, circuits = client._core, client._circuits
        self.moment = self.now()
        core.call_tick(core.at, self.moment)
        while (searches := core.taken(core.call_search, to)):
            if self._transport:
                self._transport.sendto(searches, (addresses.dotted(to.host), to.port))
        while core.call_ended(core.at, core.number) == 1:
            circuit = circuits.all.get(core.number.value)
            client._hear(circuit)
            if circuit:
                circuit.end(core.left())
        for circuit in list(circuits.all.values()):
            circuit.is_echoed = circuit.is_echoed or self.moment - circuit.heard >= ECHO
            circuit.flush()
        circuits.connect()

    # ---- datagrams

    def register(self) -> None:
        """An empty datagram to the repeater asks for beacons. It goes by the socket itself: asyncio sends none that is empty."""
        if self._asks_repeater and self._transport and not self._transport.is_closing():
            port = addresses.port_of(os.environ, ["EPICS_CA_REPEATER_PORT"], addresses.REPEATER_PORT)
            with contextlib.suppress(OSError):
                self._socket.sendto(b"", ("127.0.0.1", port))

    def datagram_received(self, data: bytes, addr: Any) -> None:
        client = self._client
        if not client._is_open:
            return
        core, came = client._core, lib.Address(addresses.number(addr[0]), addr[1])
        core.call_datagram(core.at, self.now(), came, data, len(data))
        if client._unsettled:
            client._circuits.follow()
            if self._wait > 1000:
                self.again()

    def error_received(self, exc: Exception) -> None:
        """A search that reached nobody is made again."""
