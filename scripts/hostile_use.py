#!/usr/bin/env python3
"""Uses the built program as nobody should, and prints how each use ends, its time and its memory.

usage: scripts/hostile_use.py PROGRAM [SECONDS] [MEGABYTES]

PROGRAM is the built `hp16c`. A use that isn't over after SECONDS, 60 at first, is ended and said to be
slow: no time is promised. A use of the judge gets at most MEGABYTES of memory, 4,000 at first, and past
that it must answer status 8. Exits 1 where a use ends with a status that isn't wanted.
"""

import os
import resource
import subprocess
import sys
import tempfile
import time
from pathlib import Path

EXAMPLES = Path(__file__).resolve().parent.parent / "examples"
ENDED_BY_US = "slow"


def problem(word, observed, first, second):
    """A problem with the greatest numbers of steps, paths and lines."""
    head = f"problem 1\nword {word}\nmode 0\nbase 16\nsteps 1000\npaths 65536\nbudget 1048576\nobserve {observed}\n"
    return (head + "\n".join(["first", *first, "second", *second, "end"]) + "\n").encode()


def called(operations, times):
    """Some 190 lines of operations, done so many times: at most 203 lines, and 1,000 steps for five."""
    body = (operations * 190)[: 190 // len(operations) * len(operations)]
    return [*["GSB A"] * times, "RTN", "LBL A", *body, "RTN"]


def ones(word):
    """Counts the ones of X, and asks at each bit."""
    turns = ["SR", "F? 4", "GSB 1"] * word
    return ["0", "x<>y", *turns, "x<>y", "RTN", "LBL 1", "x<>y", "1", "+", "x<>y", "RTN"]


def hostile_problems():
    yield "a path for each of 8 bits", problem(8, "X", ones(8), ["#B"])
    yield "a path for each of 12 bits", problem(12, "X", ones(12), ["#B"])
    yield "a path for each of 16 bits", problem(16, "X", ones(16), ["#B"])
    both = ["STO 0", "RDN", "x<>y", "STO 1", "*", "RCL 0", "RCL 1", "*", "+"]
    yield "a product of a sum, and the sum of both products", problem(64, "X", ["+", "*"], both)
    products = called(["DBL*"], 5)
    yield "950 double products in either order", problem(64, "X Y", products, ["x<>y", *products])
    yield "950 double quotients, each of which may err", problem(64, "X Y", called(["DBL/"], 5), called(["DBLR"], 5))
    recalls = called(["RCL (i)", "STO I"], 5)
    yield "recalls by an index that was recalled", problem(16, "X", recalls, called(["RCL (i)", "x<>I"], 5))


def no_more_than(megabytes):
    """What a process does before it becomes the program: it lets it have so much memory."""
    def limit():
        if megabytes:
            resource.setrlimit(resource.RLIMIT_AS, (megabytes << 20, megabytes << 20))
    return limit


class Uses:
    def __init__(self, program, seconds):
        self.program = program
        self.seconds = seconds
        self.wrong = 0

    def use(self, title, words, source, wanted, output=subprocess.DEVNULL, megabytes=None):
        """Runs the program over an open file, and prints a line."""
        begun = time.monotonic()
        process = subprocess.Popen(
            [self.program, *words], stdin=source, stdout=output, preexec_fn=no_more_than(megabytes)
        )
        status, used = self.wait(process, begun)
        good = status in wanted or status == ENDED_BY_US
        self.wrong += not good
        seconds = time.monotonic() - begun
        verdict = "as wanted" if good else f"wanted {wanted}"
        print(f"{' '.join(words)}: {title}: status {status}, {verdict}, {seconds:.1f} s, {used} MB", flush=True)

    def wait(self, process, begun):
        """The status, and the greatest memory in megabytes."""
        while True:
            pid, code, usage = os.wait4(process.pid, os.WNOHANG)
            if pid:
                process.returncode = os.waitstatus_to_exitcode(code)
                return process.returncode, usage.ru_maxrss >> 10
            if time.monotonic() - begun > self.seconds:
                process.kill()
                usage = os.wait4(process.pid, 0)[2]
                process.returncode = -9
                return ENDED_BY_US, usage.ru_maxrss >> 10
            time.sleep(0.05)


def file_of(folder, name, pieces):
    path = folder / name
    with path.open("wb") as file:
        for piece in pieces:
            file.write(piece)
    return path


def bad_streams(uses):
    """Streams that fail."""
    for words, name in [(["keys"], "sum.keys"), (["judge"], "doubling.problem"), (["lrat"], "four-clauses.lrat")]:
        path = EXAMPLES / name
        reader, writer = os.pipe()
        os.close(reader)
        with path.open("rb") as source:
            uses.use("a closed pipe to write to", words, source, [7], output=writer)
        os.close(writer)
        with path.open("rb") as source, open("/dev/full", "wb") as full:
            uses.use("a full disk to write to", words, source, [7], output=full)
    for word in ["keys", "asm", "list", "replay", "judge", "check", "lrat"]:
        folder = os.open(EXAMPLES, os.O_RDONLY)
        uses.use("a folder to read", [word], folder, [6])
        os.close(folder)


def long_inputs(uses, folder):
    """Inputs at their limits and past them."""
    cases = [
        ("judge", "65,536 blanks", [b" " * 65_536], [4]),
        ("judge", "65,537 blanks", [b" " * 65_537], [5]),
        ("check", "268,500,992 bytes of lines", [b"1\n" * 2_048] * 65_552, [4]),
        ("check", "268,500,992 bytes of one line", [b"1" * 4_096] * 65_552, [4]),
        ("check", "a byte more than it reads", [b"1\n" * 2_048] * 65_552 + [b"1"], [5]),
        ("lrat", "268,435,456 bytes of lines", [b"1\n" * 2_048] * 65_536, [4]),
        ("lrat", "a byte more than it reads", [b"1\n" * 2_048] * 65_536 + [b"1"], [5]),
        ("keys", "a million blanks", [b" " * 1_000_000], [0]),
        ("keys", "endless runs", [b"g R/S g GTO 0 GTO 0 g R/S\n"] + [b"R/S\n"] * 200_000, [0]),
    ]
    for word, title, pieces, wanted in cases:
        path = file_of(folder, "input", pieces)
        with path.open("rb") as source:
            uses.use(title, [word], source, wanted)
        path.unlink()


def main():
    program = str(Path(sys.argv[1]).resolve())
    seconds = float(sys.argv[2]) if len(sys.argv) > 2 else 60
    megabytes = int(sys.argv[3]) if len(sys.argv) > 3 else 4_000
    uses = Uses(program, seconds)
    with tempfile.TemporaryDirectory() as name:
        folder = Path(name)
        bad_streams(uses)
        long_inputs(uses, folder)
        for title, text in hostile_problems():
            path = file_of(folder, "problem", [text])
            with path.open("rb") as source:
                uses.use(title, ["judge"], source, [0, 1, 2, 8, 10], megabytes=megabytes)
    sys.exit(1 if uses.wrong else 0)


if __name__ == "__main__":
    main()
