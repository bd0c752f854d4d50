"""The messages that the benchmarks send, the circuits of bench/answer and bench/conduct, and the plain Rust programs beside these."""
import os
import shutil
import subprocess
from rounds import TOP

VERSION = bytes.fromhex("0000 0000 0000 000D 00000000 00000000")
# CREATE_CHAN with CID 00010000; the first channel's SID is 00010000 too.
CREATE_TEMP = bytes.fromhex("0012 0008 0000 0000 00010000 0000000D 54454D50 00000000")
CREATE_WAVE = bytes.fromhex("0012 0008 0000 0000 00010000 0000000D 57415645 00000000")
READ_ONE = bytes.fromhex("000F 0000 0005 0001 00010000 00010000")
READ_WAVE = bytes.fromhex("000F 0000 0005 3FFE 00010000 00010000")

CREATE_SETP = bytes.fromhex("0012 0008 0000 0000 00010000 0000000D 53455450 00000000")
WRITE = bytes.fromhex("0004 0008 0005 0001 00010000 00010000 0000002A 00000000")
WRITE_NOTIFY = bytes.fromhex("0013 0008 0005 0001 00010000 00010000 0000002A 00000000")
SUBSCRIBE = bytes.fromhex("0001 0010 0005 0001 00010000 00010000 00000000 00000000 00000000 00010000")

MANY = (100_000, 200_000, 400_000)
# What the messages are, what stands before them, one of them, how many there are, and the bytes of output: of what
# stands before, and of one.
KINDS = [
    ("reads of one element", VERSION + CREATE_TEMP, READ_ONE, MANY, 48, 24),
    ("reads of 16,382 elements", VERSION + CREATE_WAVE, READ_WAVE, (1_000, 2_000, 4_000), 48, 16 + 4 * 16_382),
    ("writes", VERSION + CREATE_SETP, WRITE, MANY, 48, 0),
    ("writes with notification", VERSION + CREATE_SETP, WRITE_NOTIFY, MANY, 48, 16),
    ("updates", VERSION + CREATE_SETP + SUBSCRIBE, WRITE, MANY, 72, 24),
]


def built_by_rustc(folder, name, words):
    """A program in plain Rust, or None where there is no rustc."""
    if not shutil.which("rustc"):
        return None
    program = os.path.join(folder, name)
    subprocess.run(["rustc", "-O", "-o", program] + words, check=True)
    return program


def build_bare(folder):
    """The plain Rust program that is stripped down to what bench/answer asks of it."""
    return built_by_rustc(folder, "bare", [os.path.join(TOP, "bench", "baseline.rs")])


def build_plain(folder):
    """The plain Rust program of the same conduct as `ca answer`. It has several modules, which are compiled as one."""
    source = os.path.join(TOP, "bench", "plain", "main.rs")
    return built_by_rustc(folder, "plain", ["--edition", "2024", "-C", "codegen-units=1", source])
