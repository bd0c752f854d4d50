"""`ca answer` by the protocol's rules, over the server beside it: one circuit's bytes, with the records of a file."""
from protocol import *
from server import Record, Server, is_handled
from world import NotUnderstood, Script

# The records that it has without a file.
STANDING = b"""record TEMP LONG 1 quick 21
record SETP LONG 1 quick 0
record GAIN DOUBLE 1 quick 3FF0000000000000
record NOTE STRING 1 quick 4F4B
record WAVE LONG 20000 quick 7
record SLOW LONG 1 slow 0
"""
REFUSED = {"closed misaligned": "refused: 2 Misaligned\n", "closed too large": "refused: 3 TooLarge\n"}


def answered(file, given):
    """Standard output, standard error and the status."""
    try:
        script = Script(b"server 0.0.0.0:0\n" + file)
    except NotUnderstood:
        script = None
    if script is None or script.events or len(script.servers) > 1:
        return b"", "refused: 8 BadText\n", 1
    _, records, rules = script.servers[0]
    server = Server(5064, 0, [Record(name, base, most, slow, elements) for name, (base, most, slow, elements) in records.items()], rules)
    circuit = tuple(int(it) for it in server.accept().split("."))
    server.give(circuit, given)
    end, written = server.end(circuit), b""
    while True:
        did = server.step(circuit)
        if did == "needs bytes":
            return written, "", 0
        if not is_handled(did):
            return written, REFUSED[did.partition(" left ")[0]], 1
        for name, record in server.records.items():
            while record.busy:
                server.finish(name)
        server.pump(circuit)
        written, end.out = written + end.out, b""
