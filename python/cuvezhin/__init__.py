"""EPICS Channel Access for asyncio: a server whose records are objects, and a client.

All of the protocol is the library's, libcuvezhin, whose calls are proved; this package has the sockets, the timers and the objects. It needs the
standard library alone. docs/PYTHON.md begins with ten lines of each."""
from .client import Client, Info
from .display import Display, Limits
from .errors import Error, LibraryMissing, Lost, Refused, ServerRefused, TimedOut, Unreadable
from .monitor import Monitor
from .record import Put, Record, RefusedPut
from .server import Server, Stats
from .values import Mask, Reading, Type, Value

__all__ = [
    "Client", "Display", "Error", "Info", "LibraryMissing", "Limits", "Lost", "Mask", "Monitor", "Put", "Reading", "Record", "Refused", "RefusedPut", "Server", "ServerRefused",
    "Stats", "TimedOut", "Type", "Unreadable", "Value",
]
