"""The updates of a channel, as they wait for whoever goes through them."""
import asyncio
from collections import deque
from collections.abc import AsyncIterator
from typing import Any, Optional

from .errors import Error
from .values import Reading, Type


class Feed:
    """A subscription, over as many circuits as come and go, and its updates that wait."""

    def __init__(self, channel: Any, kind: Optional[Type], count: int, mask: int, follow: bool, limit: int) -> None:
        self.channel, self.kind, self.count, self.mask, self.follow, self.limit = channel, kind, count, mask, follow, limit
        self.subscription: Optional[int] = None
        self.updates: deque[Reading] = deque()
        self.error: Optional[Error] = None
        self.waiter: Optional[asyncio.Future[None]] = None

    def add(self, update: Reading) -> None:
        if self.error:
            return
        if len(self.updates) >= self.limit:
            self.updates.pop()
        self.updates.append(update)
        self.wake()

    def fail(self, error: Error) -> None:
        self.error = self.error or error
        self.wake()

    def wake(self) -> None:
        if self.waiter and not self.waiter.done():
            self.waiter.set_result(None)


class Monitor(AsyncIterator[Reading]):
    """The updates of a channel, in order: `async for update in monitor`. It ends with `close`, with its last reference, or as it raises.

    If more than `limit` updates wait, the newest takes the place of the one before it, so the newest of all is never left out."""

    def __init__(self, client: Any, feed: Feed, timeout: Optional[float]) -> None:
        self._client, self._feed = client, feed
        #: Seconds for each update, or None.
        self.timeout = timeout
        self._is_closed = False

    @property
    def connected(self) -> bool:
        """Whether the channel is there now."""
        return self._feed.channel.is_live

    def __aiter__(self) -> "Monitor":
        return self

    async def __anext__(self) -> Reading:
        feed = self._feed
        if not feed.updates and not feed.error and not self._is_closed:
            feed.waiter = asyncio.get_running_loop().create_future()
            try:
                await self._client._until(feed.waiter, feed.channel, self._client._limit(self.timeout))
            finally:
                feed.waiter = None
        if feed.updates:
            return feed.updates.popleft()
        if feed.error:
            self.close()
            raise feed.error
        raise StopAsyncIteration

    def close(self) -> None:
        """Ends the subscription. What waits can be taken still; the iteration ends then."""
        if not self._is_closed:
            self._is_closed = True
            self._client._unfeed(self._feed)
            self._feed.wake()

    async def __aenter__(self) -> "Monitor":
        return self

    async def __aexit__(self, *_: Any) -> None:
        self.close()

    def __del__(self) -> None:
        # The collector calls it in the middle of anything, also while notices of the library are taken, and in any thread.
        loop = self._client._loop
        if not self._is_closed and not loop.is_closed():
            loop.call_soon_threadsafe(self._client._unfeed, self._feed)
