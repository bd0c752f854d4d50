"""What may go wrong, as exceptions: each is an `Error`, and each kind has a class of its own."""

# The library's refusals, by their numbers: docs/USAGE.md and include/cuvezhin.h say when each comes.
REFUSALS = {
    1: "OutOfMemory", 2: "Misaligned", 3: "TooLarge", 4: "BadType", 5: "Short", 6: "NoConvert", 7: "OutOfRange", 8: "BadText", 9: "ArenaFull",
    10: "StaleHandle", 11: "Draining", 12: "NameLength", 13: "NotLive", 14: "NoAccess", 15: "BadCount", 16: "Disconnected", 17: "CircuitClosed",
    18: "TooManySubscriptions", 19: "DatagramTooLong", 20: "UnknownRecord", 21: "NotBusy", 22: "BadEvent", 23: "Device", 24: "NoCell",
    25: "BadPriority", 26: "OutputFull", 27: "ServerRefused", 28: "RecordExists", 100: "NoObject",
}

# The statuses of Channel Access that servers answer with.
STATUSES = {
    1: "ECA_NORMAL", 48: "ECA_ALLOCMEM", 72: "ECA_TOLARGE", 80: "ECA_TIMEOUT", 114: "ECA_BADTYPE", 142: "ECA_INTERNAL", 152: "ECA_GETFAIL",
    160: "ECA_PUTFAIL", 168: "ECA_ADDFAIL", 176: "ECA_BADCOUNT", 186: "ECA_BADSTR", 192: "ECA_DISCONN", 194: "ECA_DBLCHNL", 242: "ECA_BADCHID",
    368: "ECA_NORDACCESS", 376: "ECA_NOWTACCESS", 400: "ECA_NOCONVERT", 410: "ECA_BADCHID",
}


class Error(Exception):
    """Any of the errors below."""


class Refused(Error):
    """A call was refused on this side, and changed nothing.

    `number` is the refusal's number, such as 14, and `name` its name, such as "NoAccess"."""

    def __init__(self, number: int, of: str = "") -> None:
        self.number = number
        self.name = REFUSALS.get(number, "Unknown")
        super().__init__(f"{of}: refused: {number} {self.name}" if of else f"refused: {number} {self.name}")


class ServerRefused(Error):
    """The server refused a request. `number` is its status, such as 160, and `name` that status's name, such as "ECA_PUTFAIL"."""

    def __init__(self, number: int, of: str) -> None:
        self.number = number
        self.name = STATUSES.get(number, f"ECA_{number}")
        super().__init__(f"{of}: the server refused: {number} {self.name}")


class TimedOut(Error, TimeoutError):
    """No answer came within the seconds that were given. A put may be done all the same. `found` says whether the channel was there."""

    def __init__(self, of: str, seconds: float, found: bool) -> None:
        self.found = found
        what = "no answer" if found else "no server has this channel, or none was reached"
        super().__init__(f"{of}: {what}, within {seconds:g} s")


class Lost(Error, ConnectionError):
    """The circuit ended, or the record was removed, before the answer came. A put may be done all the same."""

    def __init__(self, of: str) -> None:
        super().__init__(f"{of}: the circuit was lost")


class Unreadable(Error):
    """The server's answer was no value that can be read. `number` and `name` are those of the refusal that says why."""

    def __init__(self, number: int, of: str) -> None:
        self.number = number
        self.name = REFUSALS.get(number, "Unknown")
        super().__init__(f"{of}: the answer cannot be read: {number} {self.name}")


class LibraryMissing(Error, ImportError):
    """libcuvezhin.so.1 was not found, or is of another interface than this package."""
