"""kit: the kit's command rt, or a tool of this folder, as a module; and commands that count what passed and failed."""
import functools
import importlib.machinery
import importlib.util
import os
import re
import shutil
import subprocess
import sys

# What the last line of a command that counts says.
COUNT = re.compile(r"(\d+) passed, (\d+) failed(?:, (\d+) skipped)?")


def load(path):
    """A program in Python, as a module."""
    sys.dont_write_bytecode = True
    loader = importlib.machinery.SourceFileLoader(os.path.basename(path), path)
    made = importlib.util.module_from_spec(importlib.util.spec_from_loader(loader.name, loader))
    sys.modules[loader.name] = made
    loader.exec_module(made)
    return made


def load_rt():
    """rt itself: by its own functions crates are proved, and by its own rules an edit is refused."""
    rt = load(os.path.realpath(shutil.which("rt") or sys.exit(f"{os.path.basename(sys.argv[0])}: there is no rt on the PATH")))
    # It asks for the crates below one so often that to gather them anew took 20 s of processor time before the first check of all.
    rt.rtlib.Crate.below = functools.cache(rt.rtlib.Crate.below)
    return rt


def added(counts):
    return tuple(sum(it) for it in zip((0, 0, 0), *counts))


def begun(command, folder=None, env=None, is_session=False):
    """Starts a command, whose output `follow` reads."""
    return subprocess.Popen(command, cwd=folder, env={**os.environ, **(env or {})}, stdin=subprocess.DEVNULL, stdout=subprocess.PIPE,
                            stderr=subprocess.STDOUT, text=True, errors="replace", start_new_session=is_session)


def follow(ran, log, hear):
    """Reads a command to its end, with each line into the log and handed on, and returns what its last line with a count says: passed, failed, skipped."""
    last = ""
    for line in ran.stdout:
        log.write(line)
        log.flush()
        last = line.strip() if COUNT.match(line.strip()) else last
        hear(line.rstrip("\n"))
    found = COUNT.match(last)
    passed, failed, skipped = (int(it or 0) for it in found.groups()) if found else (0, 1, 0)
    return passed, failed + (ran.wait() != 0 and failed == 0), skipped
