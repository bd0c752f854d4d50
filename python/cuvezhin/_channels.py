"""A client's channels, and how they are spread over circuits."""
import asyncio
from typing import Optional

from ._circuits import Circuit
from .errors import Lost, Refused
from .monitor import Feed
from .values import Type

# A circuit of a server takes so many subscriptions, and a client has one circuit to a server for each of so many priorities.
EACH, PRIORITIES = 288, 100
BAD_PRIORITY = 25


class Channel:
    """A channel of the library, and those that wait for it."""
    __slots__ = ("name", "handle", "priority", "circuit", "is_live", "type", "greatest", "rights", "waiters", "feed")

    def __init__(self, name: str, handle: int, priority: int) -> None:
        self.name, self.handle, self.priority = name, handle, priority
        self.circuit: Optional[Circuit] = None
        self.is_live = False
        self.type, self.greatest, self.rights = Type.STRING, 0, 0
        self.waiters: dict[asyncio.Future[None], None] = {}
        self.feed: Optional[Feed] = None

    def flush_soon(self) -> None:
        if self.circuit:
            self.circuit.flush_soon()

    def leave(self) -> None:
        """It is over: those that wait for it are told."""
        for waiter in self.waiters:
            if not waiter.done():
                waiter.set_exception(Lost(self.name))
        if self.feed:
            self.feed.fail(Lost(self.name))


class Spread:
    """How many channels, with a subscription each at most, are at each priority."""

    def __init__(self) -> None:
        self._channels = [0] * PRIORITIES

    def take(self, name: str) -> int:
        """The lowest priority with room for one more. Raises Refused (BadPriority) if there is none."""
        for priority, many in enumerate(self._channels):
            if many < EACH:
                self._channels[priority] += 1
                return priority
        raise Refused(BAD_PRIORITY, name)

    def free(self, priority: int) -> None:
        self._channels[priority] -= 1
