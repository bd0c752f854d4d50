"""A client for bench/python: on standard input it is told what to do, and prints how much it did, once that is done.

usage: python_caller.py ours|pyepics CHANNELS

  reads N, puts N         of the record R0, one by one; `pv-reads`, `pv-puts`: by a PV of pyepics
  many N                  reads all channels at once, N times
  watch VALUE, updates VALUE
                          waits until the monitor of SETP has shown this value, and prints how many updates there were since it was told to watch
"""
import asyncio
import sys


class Ours:
    """The client of the package cuvezhin."""

    def __init__(self, names):
        self.names, self.loop, self.seen = names, asyncio.new_event_loop(), []
        self.loop.run_until_complete(self.start())

    async def start(self):
        import cuvezhin
        self.ca = await cuvezhin.Client(repeater=False, timeout=20).__aenter__()
        assert set((await self.ca.get_many(self.names)).values()) == {21}
        self.monitor = self.ca.monitor("SETP", limit=100_000)
        await anext(self.monitor)

    def do(self, word, number):
        return self.loop.run_until_complete(getattr(self, word)(number))

    async def reads(self, count):
        for _ in range(count):
            await self.ca.get("R0")
        return count

    async def puts(self, count):
        for value in range(count):
            await self.ca.put("R0", value)
        return count

    async def many(self, count):
        for _ in range(count):
            assert len(await self.ca.get_many(self.names)) == len(self.names)
        return count

    async def watch(self, _):
        return 0

    async def updates(self, last):
        count = 0
        async for update in self.monitor:
            count += 1
            if update.value == last:
                return count


class Pyepics:
    """Debian's pyepics."""

    def __init__(self, names):
        import epics
        import threading
        self.epics, self.names = epics, names
        assert set(epics.caget_many(names)) == {21}
        self.channel = epics.ca.create_channel("R0", connect=True)
        self.pv = epics.PV("R0", auto_monitor=False)
        assert self.pv.wait_for_connection(20)
        self.count, self.last, self.is_last = 0, None, threading.Event()
        self.watched = epics.PV("SETP", callback=self.updated, auto_monitor=True)
        assert self.watched.wait_for_connection(20)

    def updated(self, value=None, **_):
        self.count += 1
        if value == self.last:
            self.is_last.set()

    def do(self, word, number):
        return getattr(self, word.replace("-", "_"))(number)

    def reads(self, count):
        for _ in range(count):
            assert self.epics.ca.get(self.channel) is not None
        return count

    def pv_reads(self, count):
        for _ in range(count):
            assert self.pv.get(use_monitor=False) is not None
        return count

    def puts(self, count):
        for value in range(count):
            assert self.epics.ca.put(self.channel, value, wait=True) == 1
        return count

    def pv_puts(self, count):
        for value in range(count):
            assert self.pv.put(value, wait=True) == 1
        return count

    def many(self, count):
        for _ in range(count):
            assert None not in self.epics.caget_many(self.names)
        return count

    def watch(self, last):
        self.is_last.clear()
        self.count, self.last = 0, last
        return 0

    def updates(self, last):
        self.is_last.wait()
        return self.count


kind, channels = sys.argv[1], int(sys.argv[2])
caller = {"ours": Ours, "pyepics": Pyepics}[kind]([f"R{it}" for it in range(channels)])
print("ready", flush=True)
for line in sys.stdin:
    word, number = line.split()
    print(caller.do(word, int(number)), flush=True)
