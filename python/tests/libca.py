"""EPICS Base's libca, by Debian's python3-pyepics, at the server of server.py: it prints what it found, as one object of JSON.

usage: libca.py [--restart]       on standard input is a list of JSON: rows of a name and what is put. With --restart the server is started again
"""
import json
import sys
import time

import epics
from epics import ca

found = {}
VALUE, LOG, ALARM = epics.dbr.DBE_VALUE, epics.dbr.DBE_LOG, epics.dbr.DBE_ALARM


def note(name, call):
    try:
        found[name] = call()
    except Exception as error:
        found[name] = f"{type(error).__name__}: {error}"


def opened(name):
    channel = ca.create_channel(name, connect=True, auto_cb=False)
    if not ca.connect_channel(channel, timeout=20):
        raise OSError(f"{name}: not connected")
    return channel


def plain(value):
    return value.tolist() if hasattr(value, "tolist") else list(value) if isinstance(value, tuple) else value


def put(channel, value):
    return ca.put(channel, value, wait=True, timeout=20)


def until(holds, seconds=20):
    limit = time.time() + seconds
    while not holds() and time.time() < limit:
        ca.poll(0.01, 0.1)
    return bool(holds())


def watched(channel, mask):
    """What a subscription with this mask brings, and how it is ended."""
    seen = []

    def heard(value=None, severity=None, timestamp=None, **_):
        seen.append([plain(value), severity, timestamp])
    subscription = ca.create_subscription(channel, callback=heard, use_time=True, use_ctrl=False, mask=mask)
    until(lambda: seen)
    return seen, subscription


def masks():
    """Subscriptions with each mask to MASKED, which is 1, and posts with each mask."""
    channel = opened("MASKED")
    heard = {mask: watched(channel, mask) for mask in (VALUE, LOG, ALARM, VALUE | ALARM)}
    for value, mask in [(2, VALUE), (3, LOG), (4, ALARM), (5, VALUE | LOG | ALARM)]:
        put(order, f"MASKED {value} {mask} 0 0")
    until(lambda: all(seen[-1][0] == 5 for seen, _ in heard.values()))
    for _, subscription in heard.values():
        ca.clear_subscription(subscription[2])
    return [[it[0] for it in seen] for seen, _ in heard.values()]


def stamped():
    """A post with an alarm and a time stamp, and how it is read and monitored."""
    channel = opened("DOUBLE")
    seen, subscription = watched(channel, VALUE)
    put(order, "DOUBLE 6.5 7 2 1600000000.25")
    until(lambda: seen[-1][0] == 6.5)
    ca.clear_subscription(subscription[2])
    metadata = ca.get_with_metadata(channel, ftype=epics.dbr.TIME_DOUBLE, timeout=20)
    return [seen[-1], metadata["value"], metadata["status"], metadata["severity"], metadata["timestamp"]]


def its_own():
    """A subscriber hears puts in order, up to the last."""
    channel = opened("LONG")
    put(channel, 0)
    seen, subscription = watched(channel, VALUE)
    for value in range(1, 11):
        put(channel, value)
    until(lambda: seen[-1][0] == 10)
    ca.clear_subscription(subscription[2])
    values = [it[0] for it in seen]
    return [values[0], values[-1], values == sorted(set(values))]


def slow():
    """A put to a slow record is answered when its coroutine is done."""
    began = time.time()
    answer = put(opened("SLOW"), 5)
    took = time.time() - began
    return [answer, plain(ca.get(opened("DONE"), timeout=20)), took >= 0.3, plain(ca.get(opened("SLOW"), timeout=20))]


def two_slow():
    """Two puts at once: the second waits for the first."""
    channel, answers = opened("SLOW"), []
    for value in (6, 7):
        ca.put(channel, value, wait=False, callback=lambda *_, **__: answers.append(value))
    is_done = until(lambda: len(answers) == 2)
    return [is_done, plain(ca.get(opened("DONE"), timeout=20)), plain(ca.get(channel, timeout=20))]


def restarted():
    """The server ends and begins again with another value: a PV loses its connection, and hears the new value then."""
    seen, connections = [], []
    pv = epics.PV("LONG", callback=lambda value=None, **_: seen.append(value), connection_callback=lambda conn=None, **_: connections.append(conn))
    pv.wait_for_connection(20)
    until(lambda: seen)
    put(order, "restart")
    until(lambda: False in connections)
    is_back = until(lambda: connections and connections[-1] and seen[-1] == 77, 60)
    return [is_back, connections[-2:], pv.put(78, wait=True, timeout=20), pv.get(timeout=20, use_monitor=False)]


def shown(name):
    """What a PV says of limits, units and precision, or of states: no number is None."""
    pv = epics.PV(name)
    pv.wait_for_connection(20)
    its = pv.get_ctrlvars(timeout=20)
    limits = [its.get(f"{end}_{of}_limit") for of in ("disp", "alarm", "warning", "ctrl") for end in ("lower", "upper")]
    return [pv.units, pv.precision, [None if it != it else it for it in limits], list(pv.enum_strs or []), pv.get(as_string=True, timeout=20)]


def state_by_name():
    """A state is put by its name, and read as a number and as a text."""
    pv = epics.PV("SHOWN_STATES")
    pv.wait_for_connection(20)
    return [pv.put("off", wait=True, timeout=20), pv.get(timeout=20, use_monitor=False), pv.get(as_string=True, timeout=20)]


order = opened("DO")
for name, new in json.load(sys.stdin):
    channel = opened(name)
    note(f"{name} type", lambda: ca.field_type(channel))
    note(f"{name} count", lambda: ca.element_count(channel))
    note(f"{name} rights", lambda: [ca.read_access(channel), ca.write_access(channel)])
    note(f"{name} first", lambda: plain(ca.get(channel, timeout=20)))
    note(f"{name} put", lambda: put(channel, new))
    note(f"{name} then", lambda: plain(ca.get(channel, timeout=20)))
wave = opened("WAVE")
note("WAVE count", lambda: ca.element_count(wave))
note("WAVE put", lambda: put(wave, list(range(1000))))
note("WAVE then", lambda: plain(ca.get(wave, count=1000, timeout=20)) == list(range(1000)))
note("masks", masks)
note("stamped", stamped)
note("its own", its_own)
note("slow", slow)
note("two slow", two_slow)
note("a callback that fails", lambda: [put(opened("WRONG"), 9), plain(ca.get(opened("WRONG"), timeout=20))])
note("a put without callback", lambda: [ca.put(opened("MASKED"), 9), until(lambda: plain(ca.get(opened("MASKED"), timeout=20)) == 9)])
note("a LONG as text", lambda: ca.get(opened("MASKED"), as_string=True, timeout=20))
for name in ("INT", "CHAR", "LONG", "FLOAT", "DOUBLE", "PRECISION", "STATES"):
    note(f"{name} shown", lambda: shown(f"SHOWN_{name}"))
note("a state by its name", state_by_name)
note("FIXED", lambda: [ca.read_access(opened("FIXED")), ca.write_access(opened("FIXED"))])
note("nobody", lambda: ca.connect_channel(ca.create_channel("NOBODY", auto_cb=False), timeout=0.5))
if "--restart" in sys.argv:
    note("restart", restarted)
print(json.dumps(found))
