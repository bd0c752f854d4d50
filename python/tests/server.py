"""A server of the package cuvezhin for tools/python: it prints `serving PORT`, and then a line of JSON for each put. It ends at the end of its input.

usage: server.py PORT [RULE..]

A text that is put to DO is an order: `NAME VALUE MASK SEVERITY STAMP` posts, and `restart` ends the server, which begins again after half a second at the
same port, with 77 in LONG. SLOW takes 0.3 s for a put, and adds 1 to DONE then.
"""
import asyncio
import json
import sys

from cuvezhin import Limits, Put, Record, Server, Type
from cuvezhin.values import plain

# A record of each type and an array of each: tools/python has what they are to be.
SCALARS = {"LONG": 21, "INT": -7, "CHAR": 200, "ENUM": 3, "DOUBLE": 1.5, "FLOAT": 0.1, "STRING": "ready"}
ARRAYS = {"LONG": [1, -2, 3], "INT": [4, -5], "CHAR": [6, 255], "ENUM": [7, 65535], "DOUBLE": [0.5, -0.25], "FLOAT": [2.5, -8.0], "STRING": ["one", "two"]}


async def slow(put: Put) -> None:
    await asyncio.sleep(0.3)
    await done.post(done.value + 1)


async def wrong(put: Put) -> None:
    raise RuntimeError("a callback that fails")


def order(put: Put) -> None:
    if put.value == "restart":
        ended.set()
        return
    name, value, mask, severity, stamp = put.value.split()
    record = all_records[name]
    new = value if record.type == Type.STRING else float(value) if record.type in (Type.FLOAT, Type.DOUBLE) else int(value)
    record.set(new, mask=int(mask), severity=int(severity), status=int(severity) and 3, stamp=float(stamp) or None)


def told(put: Put) -> None:
    print(json.dumps({"put": put.record.name, "value": plain(put.value), "old": plain(put.old), "host": put.host}), flush=True)


done = Record("DONE", 0)
records = [Record(name, value, type=Type[name]) for name, value in SCALARS.items()]
records += [Record(f"{name}_ARRAY", value, type=Type[name], count=5) for name, value in ARRAYS.items()]
records += [Record("WAVE", [7], count=1000), Record("SLOW", 3, on_put=slow), Record("WRONG", 3, on_put=wrong), Record("MASKED", 1), Record("FIXED", 1)]
records += [Record(f"SHOWN_{name}", 7, type=Type[name], units="mA/s", limits=Limits((0, 100), (5, 90), (10, 80), (1, 95))) for name in ("INT", "CHAR", "LONG")]
wide = Limits(display=(-20.25, 100.5), alarm=(-15.75, 90.5), warning=(-10.5, 80.25), control=(-18.0625, 95.125))
records += [Record(f"SHOWN_{name}", 2.75, type=Type[name], units="mA/s", precision=3, limits=wide) for name in ("FLOAT", "DOUBLE")]
records += [Record("SHOWN_PRECISION", 1.26, precision=1), Record("SHOWN_STATES", 1, states=["off", "on", "failed, but still running"])]
records += [Record("TEXT", b"hi", type=Type.CHAR, count=100), done, Record("DO", "nothing", on_put=order)]
all_records = {it.name: it for it in records}
ended = asyncio.Event()


async def main() -> None:
    port, rules = int(sys.argv[1]), sys.argv[2:]
    loop = asyncio.get_running_loop()
    loop.set_exception_handler(lambda _, context: print(json.dumps({"failed": str(context["message"])}), flush=True))
    over = loop.run_in_executor(None, sys.stdin.read)
    while not over.done():
        ended.clear()
        async with Server(records, host="127.0.0.1", port=port, beacons=[], on_put=told, rules=rules) as server:
            port = server.port
            print(f"serving {port}", flush=True)
            waiting = asyncio.ensure_future(ended.wait())
            await asyncio.wait([over, waiting], return_when=asyncio.FIRST_COMPLETED)
            waiting.cancel()
        if not over.done():
            await asyncio.sleep(0.5)
            all_records["LONG"].set(77)


asyncio.run(main())
