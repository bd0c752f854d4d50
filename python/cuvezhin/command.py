"""The command line: python3 -m cuvezhin get|put|monitor|serve."""
import argparse
import asyncio
import contextlib
import json
import math
import signal
import struct
import sys
import time
import tomllib
from collections.abc import Callable
from typing import Any, Optional, TextIO, Union

from . import Client, Error, Limits, Put, Reading, Record, RefusedPut, Server, Type
from .values import Value, plain

EXAMPLE = """a file of records, in TOML (or the same in JSON):

  rules = ["operator * * rw", "* * * r"]     USER HOST RECORD RIGHTS, the first that fits; without rules all may read and write
  [records.TEMP]
  value = 21.5              a number, a text, or a list of such
  [records."LAB:WAVE"]
  type = "DOUBLE"           STRING, INT, FLOAT, ENUM, CHAR, LONG or DOUBLE; that of the value by default
  value = [1, 2, 3]
  count = 100               the greatest count of elements
  units = "mm"              shown beside a number, as precision (of FLOAT and DOUBLE) and limits
  precision = 2
  limits = { display = [0, 50], alarm = [5, 45], warning = [10, 40], control = [0, 40] }
  [records.MODE]
  value = 1
  states = ["off", "on"]    the names of an ENUM
  [records.NOTE]
  value = "all is well"
  display = true            a STRING, too, is read in graphic and control types
"""
ENVIRONMENT = """without --server and --name-server the variables of EPICS say where is searched: EPICS_CA_ADDR_LIST, EPICS_CA_AUTO_ADDR_LIST,
EPICS_CA_NAME_SERVERS and EPICS_CA_SERVER_PORT. The status is 0 if all was done, 1 if something failed, and 2 if the words are not understood.
"""


def decimal(value: Any, kind: Optional[Type]) -> str:
    """An element as a decimal that reads back as the same: as few digits as that takes."""
    if kind == Type.FLOAT and math.isfinite(value):
        return next(text for text in (f"{value:.{digits}g}" for digits in range(1, 10)) if digits_are(text, value))
    return str(value)


def digits_are(text: str, value: float) -> bool:
    try:
        return bool(struct.unpack("f", struct.pack("f", float(text)))[0] == value)
    except OverflowError:
        return False


def texts(value: Value, kind: Type) -> list[str]:
    found = plain(value)
    return [decimal(it, kind) for it in (found if isinstance(found, list) else [found])]


def stamp(seconds: int, nanoseconds: int) -> str:
    return time.strftime("%Y-%m-%dT%H:%M:%S", time.gmtime(seconds)) + f".{nanoseconds:09d}Z"


def for_json(value: Any, kind: Optional[Type]) -> Any:
    """A value as JSON has it: FLOATs in as few digits as they take, and what is no number as a text."""
    if isinstance(value, (list, memoryview)):
        return [for_json(it, kind) for it in plain(value)]
    if isinstance(value, float):
        return float(decimal(value, kind)) if math.isfinite(value) else str(value)
    return value


class Out:
    """Where lines go: the answer on standard output, and what failed on standard error, or all as JSON on standard output."""

    def __init__(self, words: argparse.Namespace) -> None:
        self.is_json, self.has_time = words.json, getattr(words, "time", False)
        self.failed = False

    def line(self, **found: Any) -> None:
        print(json.dumps(found, ensure_ascii=False), flush=True)

    def reading(self, it: Reading) -> None:
        if self.is_json:
            self.line(name=it.name, value=for_json(it.value, it.type), type=it.type.name, time=stamp(it.seconds, it.nanoseconds), status=it.status, severity=it.severity)
        else:
            moment = [stamp(it.seconds, it.nanoseconds)] if self.has_time else []
            print(" ".join([it.name, *moment, *texts(it.value, it.type)]), flush=True)

    def done(self, name: str) -> None:
        if self.is_json:
            self.line(name=name, done=True)
        else:
            print(f"{name} done", flush=True)

    def error(self, name: str, error: Exception) -> None:
        self.failed = True
        if self.is_json:
            number = {"number": error.number, "status": error.name} if hasattr(error, "number") and hasattr(error, "name") else {}
            self.line(name=name, error=type(error).__name__, **number, text=str(error))
        else:
            text = str(error)
            print(text if text.startswith(f"{name}:") else f"{name}: {text}", file=sys.stderr, flush=True)


def client_of(words: argparse.Namespace) -> Client:
    return Client(servers=words.server, name_servers=words.name_server, timeout=words.timeout)


async def each(words: argparse.Namespace, names: list[str], one: Callable[[Client, str, Out], Any]) -> int:
    """Does something for all names at once, and tells the outcomes in the order of the names."""
    out = Out(words)
    async with client_of(words) as ca:
        tasks = [asyncio.ensure_future(one(ca, name, out)) for name in names]
        for name, task in zip(names, tasks):
            try:
                found = await task
            except (Error, ValueError, OSError) as error:
                out.error(name, error)
            else:
                if isinstance(found, Reading):
                    out.reading(found)
                elif found is not None:
                    out.done(name)
    return int(out.failed)


async def get(words: argparse.Namespace) -> int:
    kind = Type[words.type] if words.type else None

    async def one(ca: Client, name: str, _: Out) -> Reading:
        return await ca.read(name, type=kind, count=words.count)
    return await each(words, words.names, one)


def assignments(words: list[str]) -> dict[str, list[str]]:
    """NAME=VALUE,VALUE.. each, or NAME VALUE .. alone."""
    if "=" in words[0]:
        if not all("=" in it for it in words):
            raise ValueError("either all words are NAME=VALUE, or the first is a name")
        return {name: its.split(",") for name, _, its in (it.partition("=") for it in words)}
    if len(words) == 1:
        raise ValueError("a value is missing")
    return {words[0]: words[1:]}


def parsed(given: list[str], kind: Type) -> Any:
    """What is put, as a number if the type is one and all are decimals; else texts, which the server judges."""
    read: Callable[[str], Any] = float if kind in (Type.FLOAT, Type.DOUBLE) else int
    try:
        found = given if kind == Type.STRING else [read(it) for it in given]
    except ValueError:
        found = given
    return found[0] if len(found) == 1 else found


async def put(words: argparse.Namespace) -> int:
    wanted = assignments(words.words)

    async def one(ca: Client, name: str, _: Out) -> bool:
        kind = (await ca.info(name)).type
        value = parsed(wanted[name], kind)
        is_text = isinstance(value, str) or isinstance(value, list) and isinstance(value[0], str)
        await ca.put(name, value, type=Type.STRING if is_text else None, wait=not words.plain)
        return True
    return await each(words, list(wanted), one)


async def monitor(words: argparse.Namespace) -> int:
    kind = Type[words.type] if words.type else None

    async def one(ca: Client, name: str, out: Out) -> None:
        left = words.number
        # A time-out is for the first update alone: later ones come when they come.
        async with ca.monitor(name, type=kind, count=words.count, mask=words.mask, timeout=words.timeout) as updates:
            async for update in updates:
                updates.timeout = None
                out.reading(update)
                left -= 1
                if left == 0:
                    return
    return await each(words, words.names, one)


def records_of(path: str) -> tuple[list[Record], list[str]]:
    """The records and the rules of a file. Raises ValueError if it is none."""
    with open(path, "rb") as it:
        read = it.read()
    given = json.loads(read) if path.endswith(".json") else tomllib.loads(read.decode())
    extra, rules = set(given) - {"records", "rules"}, given.get("rules", [])
    if extra or not isinstance(given.get("records"), dict) or not isinstance(rules, list):
        raise ValueError(f"{path}: it has {', '.join(sorted(extra)) or 'no records'}: there are records, by their names, and rules, a list")
    return [record_of(path, name, row) for name, row in given["records"].items()], rules


def record_of(path: str, name: str, row: Any) -> Record:
    try:
        given = row.get("limits", {})
        extra = set(row) - {"type", "value", "count", "units", "precision", "limits", "states", "display"} | set(given) - set(Limits._fields)
        if extra:
            raise ValueError(f"{', '.join(sorted(extra))} is not understood")
        if not isinstance(row.get("display", False), bool):
            raise ValueError("display is true or false")
        kind = Type[row["type"]] if "type" in row else None
        limits = Limits(**given) if "limits" in row else None
        return Record(name, row["value"], type=kind, count=row.get("count"), units=row.get("units"), precision=row.get("precision"), limits=limits,
                      states=row.get("states"), display=row.get("display", False))
    except (KeyError, TypeError, ValueError) as error:
        what = f"no {error}" if isinstance(error, KeyError) else error
        raise ValueError(f"{path}: {name}: {what}") from error


def logged(it: Union[Put, RefusedPut], log: TextIO) -> None:
    """A put as a line of JSON."""
    record, moment = it.record, stamp(*divmod(int(it.time * 1_000_000) * 1000, 1_000_000_000))
    old: Optional[Value]
    kind: Optional[Type]
    if isinstance(it, Put):
        old, kind, outcome = it.old, it.record.type, "done"
    else:
        old, kind, outcome = record.value if record else None, it.type, "refused"
    line = {"time": moment, "user": it.user, "host": it.host, "host_name": it.host_name, "record": record.name if record else None,
            "old": for_json(old, record.type if record else None), "new": for_json(it.value, kind), "outcome": outcome}
    log.write(json.dumps(line, ensure_ascii=False) + "\n")
    log.flush()


async def serve(words: argparse.Namespace) -> int:
    host, port = words.listen or (None, None)
    with contextlib.ExitStack() as files:
        log = files.enter_context(open(words.log, "a", encoding="utf-8", errors="backslashreplace")) if words.log else None
        told = (lambda it: logged(it, log)) if log else None
        records, rules = records_of(words.file)
        async with Server(records, host=host, port=port, on_put=told, on_refused=told, rules=rules) as server:
            loop, ended = asyncio.get_running_loop(), asyncio.Event()
            for number in (signal.SIGINT, signal.SIGTERM):
                loop.add_signal_handler(number, ended.set)
            print(f"serving {server.host}:{server.port}", flush=True)
            await ended.wait()
    return 0


def place(text: str) -> tuple[str, int]:
    host, _, port = text.rpartition(":")
    if not host or not port.isdigit() or int(port) > 65535:
        raise argparse.ArgumentTypeError(f"{text} is not HOST:PORT")
    return host, int(port)


def seconds(text: str) -> float:
    found = float(text)
    if not found > 0 or math.isinf(found):
        raise argparse.ArgumentTypeError(f"{text} is no time in seconds")
    return found


def natural(text: str) -> int:
    found = int(text)
    if found < 0:
        raise argparse.ArgumentTypeError(f"{text} is below 0")
    return found


def parser() -> argparse.ArgumentParser:
    all_of = argparse.ArgumentParser(prog="python3 -m cuvezhin", description="A client and a server of EPICS Channel Access.", epilog=ENVIRONMENT)
    orders = all_of.add_subparsers(dest="order", required=True, metavar="get|put|monitor|serve")

    def order(name: str, what: str, run: Callable[[argparse.Namespace], Any], **more: Any) -> argparse.ArgumentParser:
        made = orders.add_parser(name, help=what, description=what, **more)
        made.set_defaults(run=run)
        return made

    def client(name: str, what: str, run: Callable[[argparse.Namespace], Any]) -> argparse.ArgumentParser:
        made = order(name, what, run, epilog=ENVIRONMENT)
        made.add_argument("--server", action="append", metavar="HOST[:PORT]", help="where is searched by datagrams; may be given again")
        made.add_argument("--name-server", action="append", metavar="HOST[:PORT]", help="where is searched on a circuit; may be given again")
        made.add_argument("--timeout", type=seconds, default=5.0, metavar="SECONDS", help="how long each channel is waited for (5)")
        made.add_argument("--json", action="store_true", help="a line of JSON for each outcome, failures too, on standard output")
        return made

    def reader(name: str, what: str, run: Callable[[argparse.Namespace], Any]) -> argparse.ArgumentParser:
        made = client(name, what, run)
        made.add_argument("names", nargs="+", metavar="NAME")
        made.add_argument("--time", action="store_true", help="the time stamp before the value, in UTC")
        made.add_argument("--count", type=natural, default=0, metavar="N", help="so many elements; those that there are by default")
        made.add_argument("--type", choices=[it.name for it in Type], help="as this type; the channel's own by default")
        return made

    reader("get", "prints the values of channels", get)
    writer = client("put", "writes channels, and waits until that is done", put)
    writer.add_argument("words", nargs="+", metavar="NAME VALUE ..", help="or NAME=VALUE[,VALUE..] for each of several channels")
    writer.add_argument("--plain", action="store_true", help="without notification: what the server does is not waited for")
    watcher = reader("monitor", "prints the updates of channels, until it is ended", monitor)
    watcher.add_argument("--number", type=natural, default=0, metavar="N", help="ends after so many updates of each")
    watcher.add_argument("--mask", type=natural, default=5, metavar="N", help="the sum of 1 value, 2 log, 4 alarm (5)")
    server = order("serve", "serves the records of a file, until it is ended", serve, epilog=EXAMPLE, formatter_class=argparse.RawDescriptionHelpFormatter)
    server.add_argument("file", metavar="FILE")
    server.add_argument("--listen", type=place, metavar="HOST:PORT", help="where; by default what EPICS_CAS_INTF_ADDR_LIST and EPICS_CAS_SERVER_PORT say, or 0.0.0.0:5064")
    server.add_argument("--log", metavar="FILE", help="appends a line of JSON for each put: time, user, host, host_name, record, old, new, outcome")
    return all_of


def main(given: Optional[list[str]] = None) -> int:
    all_of = parser()
    words = all_of.parse_args(given)
    try:
        if words.order == "put":
            assignments(words.words)
    except ValueError as error:
        all_of.error(str(error))
    try:
        return int(asyncio.run(words.run(words)))
    except KeyboardInterrupt:
        return 130
    except BrokenPipeError:
        return 1
    except (Error, ValueError, OSError) as error:
        print(f"{words.order}: {error}", file=sys.stderr)
        return 1
