"""What a server has done, as its replies tell."""
import struct
from typing import NamedTuple

HEAD = struct.Struct(">HH4xI")
SIZE = struct.Struct(">I")
# Messages, by their commands, and a status.
EVENT_ADD, SEARCH, ERROR, READ_NOTIFY, WRITE_NOTIFY, CREATE_CH_FAIL = 1, 6, 11, 15, 19, 26
NORMAL = 1
# Nothing of a reply that was counted is still to come, and none was cut.
WHOLE = (0, b"")


class Stats(NamedTuple):
    """What a server has, and what it did so far. Without `counts` it is 0 but for circuits, channels and writes."""
    # Circuits and channels that are open.
    circuits: int
    channels: int
    # Searches that were answered by its port, reads that were answered by a value, and writes that were applied.
    searches: int
    reads: int
    writes: int
    # Updates that were sent, the first of each subscription too.
    updates: int
    # Channels, reads, writes and subscriptions that were refused, each by its reply.
    refused: int


class Replies:
    """Counts replies."""

    def __init__(self) -> None:
        self.searches = self.reads = self.updates = self.refused = 0

    def count(self, data: bytes, begun: tuple[int, bytes] = WHOLE) -> tuple[int, bytes]:
        """Counts the replies that begin in these bytes. What it gives is to be handed over with the next: how much of the last is to come, and its header, if that was cut."""
        at, head = begun
        if head:
            data = head + data
        size, unpack, reads = len(data), HEAD.unpack_from, 0
        while at + 16 <= size:
            command, payload, status = unpack(data, at)
            if payload == 0xFFFF:
                if at + 24 > size:
                    break
                payload = 8 + SIZE.unpack_from(data, at + 16)[0]
            at += 16 + payload
            if command == READ_NOTIFY and status == NORMAL:
                reads += 1
            elif command == EVENT_ADD:
                # One without a payload confirms a cancel.
                self.updates += payload > 0
            elif command == SEARCH:
                self.searches += 1
            elif command in (READ_NOTIFY, WRITE_NOTIFY):
                self.refused += status != NORMAL
            elif command in (ERROR, CREATE_CH_FAIL):
                self.refused += 1
        self.reads += reads
        return (at - size, b"") if at > size else (0, data[at:])
