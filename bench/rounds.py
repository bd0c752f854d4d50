"""What the benchmarks share: programs, times, rounds in which several times take turns, and verdicts.

A benchmark is a program with CRATES, the crates of its programs, and lines(paths), which yields in the order in which it is told
  Line    a time, and the peers that are measured beside it in the same rounds
  Check   what else has to hold
  str     what else is to be known
`main(CRATES, lines)` runs one: `bench/NAME [--instructions] [--proved] [PROGRAM..]`. A program that is not given is the one that ./ca would run, or with --proved
the one that `./test` left. A ratio is one time by the other of the same round; it prints the median of the rounds, the least and the most, and judges the median.
The last line is 'N passed, M failed', and the status 1 if something failed. With --instructions it prints what a message takes by callgrind.
"""
import contextlib
import os
import re
import resource
import shutil
import statistics
import subprocess
import sys
import tempfile
import time
from collections import namedtuple
from importlib.machinery import SourceFileLoader
from importlib.util import module_from_spec, spec_from_loader

TOP = os.path.dirname(os.path.dirname(os.path.realpath(__file__)))
BENCHMARKS = ["answer", "conduct", "replay", "serve", "circuits", "fan_out", "library", "client_threads", "channels", "client", "server", "calls", "parts", "board", "python"]
# What the library for C is called among the crates of a benchmark.
LIBRARY = "lib"
ROUNDS = 11
CALLGRIND = ("valgrind", "--tool=callgrind", "--callgrind-out-file=/dev/null")

# A time is a tuple, a function and its arguments, which gives seconds; a count is one which gives instructions a message.
# A time that is only there as a bound's other side is a peer: the ratio is at most, or at least, a number.
Peer = namedtuple("Peer", "name time most least count", defaults=(None, None, None))
Check = namedtuple("Check", "well text")


class Line:
    """A time of so many messages, with its peers."""

    def __init__(self, name, time_taken, messages, *peers, count=None):
        self.name, self.time, self.messages, self.peers, self.count = name, time_taken, messages, peers, count


def run(measure):
    """What a time or a count gives."""
    function, *arguments = measure
    return function(*arguments)


def in_turns(times, rounds=ROUNDS):
    """The seconds of each time in so many rounds, in which they take turns; every other round goes backwards."""
    taken = [[] for _ in times]
    order = list(range(len(times)))
    for _ in range(rounds):
        for place in order:
            taken[place].append(run(times[place]))
        order.reverse()
    return taken


def spread(ones, others):
    """The median, the least and the most of the ratios of two times in the same rounds."""
    ratios = [one / other for one, other in zip(ones, others)]
    return statistics.median(ratios), min(ratios), max(ratios)


class Verdicts:
    """Prints what passes and what fails, and counts both."""

    def __init__(self):
        self.passed = self.failed = 0

    def judge(self, well, text):
        self.passed, self.failed = self.passed + bool(well), self.failed + (not well)
        print(f"{'PASS' if well else 'FAIL'}: {text}", flush=True)

    def end(self):
        """Prints both counts, and gives the exit status."""
        print(f"{self.passed} passed, {self.failed} failed")
        return 1 if self.failed else 0


def told_time(seconds):
    """A time in the unit that suits it."""
    for size, unit in ((1, "s"), (1e-3, "ms"), (1e-6, "us")):
        if seconds >= size:
            return f"{seconds / size:.3g} {unit}"
    return f"{seconds * 1e9:.3g} ns"


def tell_line(line, verdicts):
    """Measures a line beside its peers, and judges the ratios that have a bound."""
    ours, *others = in_turns([line.time] + [peer.time for peer in line.peers])
    print(f"{line.name}: {told_time(statistics.median(ours) / line.messages)} each", flush=True)
    for peer, theirs in zip(line.peers, others):
        median, least, most = spread(ours, theirs)
        text = f"{line.name}, beside {peer.name}: {median:.2f} ({least:.2f} to {most:.2f})"
        bounds = [f"{word} {bound:.3g}" for word, bound in (("at most", peer.most), ("at least", peer.least)) if bound]
        if bounds:
            well = median <= (peer.most or median) and median >= (peer.least or median)
            verdicts.judge(well, ", ".join([text] + bounds))
        else:
            print(text, flush=True)


def tell(items):
    """Runs a benchmark: measures and prints what it yields, and gives the exit status."""
    verdicts = Verdicts()
    for item in items:
        if isinstance(item, Line):
            tell_line(item, verdicts)
        elif isinstance(item, Check):
            verdicts.judge(*item)
        else:
            print(item, flush=True)
    return verdicts.end()


def tell_instructions(items):
    """Prints the instructions a message of each line that is counted, and of its peers that are; each count once."""
    if not shutil.which("valgrind"):
        print("MISSING: valgrind (apt-get install valgrind)")
        return 1
    seen = set()
    for line in (item for item in items if isinstance(item, Line) and item.count and item.count not in seen):
        seen.add(line.count)
        ours = run(line.count)
        others = [(peer.name, run(peer.count)) for peer in line.peers if peer.count]
        beside = "".join(f"; {name} {count:,.0f}, {ours / count:.2f} times" for name, count in others)
        print(f"{line.name}: {ours:,.0f} instructions{beside}", flush=True)
    return 0


def main(crates, lines):
    """A benchmark's command."""
    options = {word for word in sys.argv[1:] if word.startswith("--")}
    given = [os.path.abspath(word) for word in sys.argv[1:] if word not in options]
    if options - {"--instructions", "--proved"} or len(given) > len(crates):
        print(f"usage: bench/{os.path.basename(sys.argv[0])} [--instructions] [--proved] [PROGRAM..], programs of {', '.join(crates)}")
        return 2
    find = proved if "--proved" in options else program
    paths = given + [find(crate) for crate in crates[len(given):]]
    return (tell_instructions if "--instructions" in options else tell)(lines(paths))


def loaded(name):
    """A benchmark as a module."""
    return module_at(os.path.join(TOP, "bench", name))


def module_at(path):
    """A program in Python as a module."""
    loader = SourceFileLoader(os.path.basename(path), path)
    module = module_from_spec(spec_from_loader(loader.name, loader))
    loader.exec_module(module)
    return module


def build(crate, option, top=TOP):
    """What tools/build prints as it builds the program of a crate."""
    words = [os.path.join(top, "tools", "build"), *filter(None, [option]), crate]
    done = subprocess.run(words, stdin=subprocess.DEVNULL, stdout=subprocess.PIPE, text=True, check=False)
    if done.returncode != 0:
        sys.exit(f"{crate} was not built")
    return done.stdout.strip()


def program(crate):
    """The program that ./ca would run: the proved one if it is current, else the unproved one, which is built if need be. One that only measures is never proved."""
    return os.path.join(TOP, build(crate, "--program")) if crate == "ca_main" else aligned(crate, TOP)


def aligned(crate, top):
    """The unproved program of a crate of a tree, with branches aligned; the library as tools/build makes it."""
    if crate == LIBRARY:
        build(crate, "", top)
        return os.path.join(top, "target", "lib", "libcuvezhin.so.1")
    build(crate, "--aligned", top)
    return os.path.join(top, "target", "aligned", crate, crate)


def proved(crate):
    """The program that `./test` proved, built and left. One that only measures is never proved."""
    if crate not in ("ca_main", LIBRARY):
        return aligned(crate, TOP)
    path = aligned(crate, TOP) if crate == LIBRARY else os.path.join(TOP, "crates", crate, "out", crate)
    return path if is_proved(path) else sys.exit(f"there is no {path} that was proved: ./test makes it")


def is_proved(path):
    """Whether tools/build has it that a program was proved."""
    with contextlib.suppress(OSError), open(f"{path}.built", encoding="utf-8") as it:
        return it.readline() == "proved\n"
    return False


def compiled(folder, source, *flags):
    """A C program or library of bench/, or None if there is no gcc."""
    if not shutil.which("gcc"):
        return None
    made = os.path.join(folder, os.path.basename(source).removesuffix(".c") + ".out")
    subprocess.run(["gcc", "-O2", "-o", made, os.path.join(TOP, "bench", source), *flags], check=True)
    return made


def processor(words, source=os.devnull):
    """Seconds of the processor that a run over a file takes: other work on the machine then counts least."""
    with open(source, "rb") as given:
        before = resource.getrusage(resource.RUSAGE_CHILDREN)
        subprocess.run(words, stdin=given, stdout=subprocess.DEVNULL, check=True)
        after = resource.getrusage(resource.RUSAGE_CHILDREN)
    return after.ru_utime + after.ru_stime - before.ru_utime - before.ru_stime


def clock(words):
    """Seconds by the clock that a run takes, for programs of several threads."""
    start = time.perf_counter()
    subprocess.run(words, stdin=subprocess.DEVNULL, stdout=subprocess.DEVNULL, check=True)
    return time.perf_counter() - start


def instructions(words, source=os.devnull):
    """The instructions that a run over a file takes, by callgrind."""
    with open(source, "rb") as given:
        done = subprocess.run([*CALLGRIND, *words], stdin=given, stdout=subprocess.DEVNULL, stderr=subprocess.PIPE, check=True, text=True, errors="replace")
    return collected(done.stderr)


def collected(said):
    """The instructions of a run, by what callgrind says at its end."""
    return int(re.search(r"Collected : (\d+)", said)[1])


def most_memory(words, source=os.devnull):
    """The greatest resident set of a run in KiB, by GNU time, or None if that is missing; the least of three runs, since the loader touches pages."""
    if not os.access("/usr/bin/time", os.X_OK):
        return None
    held = []
    for _ in range(3):
        with tempfile.NamedTemporaryFile() as said, open(source, "rb") as given:
            subprocess.run(["/usr/bin/time", "-f", "%M", "-o", said.name, *words], stdin=given, stdout=subprocess.DEVNULL, check=True)
            held.append(int(said.read().split()[-1]))
    return min(held)


def a_round(measure, path, what, size, rounds):
    """What a round of `ca_bench` takes by a measure of runs, without what comes before the rounds."""
    many, none = (measure((path, what, str(size), str(count))) for count in (rounds, 0))
    return (many - none) / rounds


class Core:
    """A core that `ca_calls` calls: the program makes the call of each line, and answers it."""

    def __init__(self, path):
        self.process = subprocess.Popen([path], stdin=subprocess.PIPE, stdout=subprocess.PIPE)

    def __enter__(self):
        return self

    def __exit__(self, *_):
        self.process.stdin.close()
        self.process.wait()

    def ask(self, line, answer="ok"):
        """Makes a call, whose answer has to begin like this."""
        self.process.stdin.write(f"{line}\n".encode())
        self.process.stdin.flush()
        told = self.process.stdout.readline().decode()
        if not told.startswith(f"{line} -> {answer}"):
            sys.exit(f"not answered by {answer}: {told[:200]}")

    def time(self, line):
        """Seconds of the processor that a call takes."""
        start = processor_of(self.process.pid)
        self.ask(line)
        return processor_of(self.process.pid) - start


def processor_of(process):
    """Seconds of the processor that a process took so far, by the clock that clock_getcpuclockid names."""
    return time.clock_gettime(~process << 3 | 2)


class Written:
    """The lines of a core's calls, which are written down only."""

    def __init__(self):
        self.text = ""

    def ask(self, line, _answer="ok"):
        self.text += f"{line}\n"


def call_instructions(path, prepare, call, less, more):
    """The instructions of a call that `ca_calls` repeats as often as its line says, each time."""
    written, taken = Written(), []
    function, *arguments = prepare
    function(written, *arguments)
    for count in (less, more):
        with tempfile.NamedTemporaryFile("w") as table:
            table.write(written.text + call(count) + "\n")
            table.flush()
            taken.append(instructions((path,), table.name))
    return (taken[1] - taken[0]) / (more - less)


class Server:
    """A program as a server, which is stopped at the end."""

    def __init__(self, *words):
        # The example server in C ends at the end of its input.
        self.run = subprocess.Popen(words, stdin=subprocess.PIPE, stdout=subprocess.PIPE, text=True)
        self.port = int(re.fullmatch(r"serving (?:127\.0\.0\.1:)?(\d+)\n", self.run.stdout.readline())[1])

    def __enter__(self):
        return self

    def __exit__(self, *_fault):
        self.run.kill()
        self.run.wait()
        self.run.stdin.close()
        self.run.stdout.close()


def served(program_path, folder, *settings, options=()):
    """`ca serve` with two records of one LONG, which is 21, these settings in its environment or a tool that it runs by, and these options."""
    file = os.path.join(folder, "records")
    with open(file, "w", encoding="ascii") as out:
        out.write("record TEMP LONG 1 quick 21\nrecord SETP LONG 1 quick 21\n")
    return Server("env", *settings, program_path, "serve", "--records", file, "--listen", "127.0.0.1:0", *options)
