#!/usr/bin/env python3
"""Times the searches of the built program try_provers beside other solvers, in one run.

usage, at the top of the repository:
    scripts/searches/times.py PROGRAM

Prints a line for each CNF: processor seconds of the learning search, of minisat and of cadical, the
best of five runs each, and the lines of its log beside cadical's conflicts. A program's time has its
reading in it, the learning search's also the text of its log.
"""

import os
import re
import resource
import subprocess
import sys
import tempfile

from cnfs import adders, pigeonhole, random_3sat, text

BUDGET = 1 << 20
RUNS = 5


def cnfs():
    for holes in (5, 6, 7, 8):
        yield f"pigeonhole {holes}", pigeonhole(holes)
    for variables, seeds in ((50, 4), (100, 4), (150, 2)):
        for seed in range(seeds):
            yield f"random {variables}, {seed}", random_3sat(variables, seed)
    for width in (16, 32):
        yield f"adders {width}, apart", adders(width)
        yield f"adders {width}, interleaved", adders(width, interleaved=True)
    yield "adders 16, wrong", adders(16, wrong=True)


def run(command, file):
    """The least processor time of some runs, and the output."""
    best, out = None, b""
    for _ in range(RUNS):
        before = resource.getrusage(resource.RUSAGE_CHILDREN)
        with open(file, "rb") as source:
            out = subprocess.run(command, stdin=source, stdout=subprocess.PIPE).stdout
        after = resource.getrusage(resource.RUSAGE_CHILDREN)
        spent = after.ru_utime - before.ru_utime + after.ru_stime - before.ru_stime
        best = spent if best is None else min(best, spent)
    return best, out.decode()


def row(program, name, cnf, file):
    ours, log = run([program, "learning", str(BUDGET)], file)
    minisat, _ = run(["minisat", "-verb=0", file], os.devnull)
    cadical, told = run(["cadical", file], os.devnull)
    conflicts = re.search(r"^c conflicts: +(\d+)", told, re.M)
    conflicts = int(conflicts.group(1)) if conflicts else 0
    model = log.startswith("c model")
    lines = 0 if model else log.count("\n")
    answer = "model" if model else "refuted"
    print(f"| {name} | {answer} | {ours:.4f} | {minisat:.4f} | {cadical:.4f} | {ours / minisat:.1f} | {lines} | {conflicts} |", flush=True)


def main():
    print("| CNF | answer | learning | minisat | cadical | to minisat | lines | cadical's conflicts |")
    print("|---|---|---|---|---|---|---|---|")
    with tempfile.TemporaryDirectory() as folder:
        for name, cnf in cnfs():
            file = os.path.join(folder, "clauses.cnf")
            with open(file, "w") as out:
                out.write(text(cnf))
            row(sys.argv[1], name, cnf, file)


if __name__ == "__main__":
    if len(sys.argv) != 2:
        sys.exit(__doc__)
    main()
