"""A server of the package cuvezhin for tools/channels: it serves the LONGs of a record file, logs each put, and at SIGTERM prints `applied N`.

usage: channels.py --log FILE [--fault NAME] --records FILE --listen HOST:PORT

With a fault it does wrong on purpose: `puts_twice` has a put's value come once more, soon after, and `logs_less` leaves puts out of the log.
A put to a slow record takes 20 ms.
"""
import argparse
import asyncio
import signal

from cuvezhin import Put, Record, RefusedPut, Server
from cuvezhin.command import logged


async def slow(_: Put) -> None:
    await asyncio.sleep(0.02)


def records_of(path: str) -> tuple[list[Record], list[str]]:
    with open(path, encoding="utf-8") as it:
        rows = [row.split() for row in it]
    records = [Record(row[1], int(row[5]), on_put=slow if row[4] == "slow" else None) for row in rows if row[0] == "record"]
    return records, [" ".join(row[1:]) for row in rows if row[0] == "rule"]


async def main() -> None:
    parser = argparse.ArgumentParser()
    for name in ("--log", "--fault", "--records", "--listen"):
        parser.add_argument(name)
    words = parser.parse_args()
    host, _, port = words.listen.rpartition(":")
    records, rules = records_of(words.records)
    ended, loop, done = asyncio.Event(), asyncio.get_running_loop(), 0
    loop.add_signal_handler(signal.SIGTERM, ended.set)
    with open(words.log, "a", encoding="utf-8") as log:
        def put(it: Put) -> None:
            nonlocal done
            done += 1
            if words.fault == "puts_twice":
                loop.call_later(0.05, it.record.set, it.value)
            if words.fault != "logs_less" or done % 5:
                logged(it, log)

        def refused(it: RefusedPut) -> None:
            logged(it, log)

        async with Server(records, host=host, port=int(port), beacons=[], on_put=put, on_refused=refused, rules=rules) as server:
            print(f"serving {server.host}:{server.port}", flush=True)
            await ended.wait()
            print(f"applied {server._core.call_applied(server._core.at)}", flush=True)


asyncio.run(main())
