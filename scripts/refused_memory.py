#!/usr/bin/env python3
"""Refuses memory to commands, one allocation at a time, and prints how they end.

usage: scripts/refused_memory.py [COUNT [CERTIFIED]]

COUNT allocations of each command are refused, 400 at first. CERTIFIED is a file that `judge` wrote: a
problem and its certificate, which `check` then takes line by line, with many derivations where it is
`./hp16c judge < examples/pairs/bit-count.problem`.

Each run is one of `try_commands`, unproved, with the allocation with the number BEFORE refused. A row on
its standard input has it make other allocations first, so that the refused one is any of the command's
own. The status of the command must be 8, with nothing written, or the one that it ends with anyway, with
its whole output. A run whose refused allocation comes before the command or after it counts apart. The
program is built once for all runs. Exits 1 where a command ends otherwise, or where COUNT is too small
for the last of its allocations.
"""

import re
import subprocess
import sys
import tempfile
from collections import Counter
from pathlib import Path

ROOT = Path(__file__).resolve().parent.parent
BEFORE = 30_000
REFUSED = "status 8, 0 bytes, not as due"
BESIDE = "refused beside the command"


def commands(certified):
    """A name for each command, its word, its input, and the output that is due."""
    problem = (ROOT / "examples/doubling.problem").read_text()
    certificate = problem + "certificate 1\nleaf\nend\n"
    clauses = (ROOT / "examples/four-clauses.lrat").read_text()
    yield "judge", "judge", problem, certificate
    yield "check", "check", certificate, "equal\n"
    yield "lrat", "lrat", clauses, "refuted\n"
    script = "g R/S g GTO A 1 + GTO A g R/S\n:break 4\nGTO A\n:go\n:back\n"
    yield "debug", "debug", script, "0 h\n0 h\n0 h\nbreak 004 1 h\n003 1 h\n"
    head = "spec 1\nword 8\nmode 0\nbase 16\nmemory 203\nsteps 5\npaths 1\nbudget 65536\n"
    yield "spec", "spec", f"{head}give X mod 8 + X X\nroutine\nSL\nend\n", "certificate 1\nleaf\nend\n"
    source, shorter = problem.split("second\n")[0].replace("SL\n", "ENTER\n+\n"), "second\nSL\nend\n"
    yield "short", "short", f"{source}second\nend\n", f"{source}{shorter}certificate 1\nleaf\nend\n"
    if certified:
        yield "derivations", "check", Path(certified).read_text(), "equal\n"


def row(word, text, output, before):
    lines = [f"row {word}", f"words {word}", f"input {text}", "status 0", f"output {output}"]
    return "".join(line.replace("\n", "\\n") + "\n" for line in [*lines, f"before {before}"])


def run_all(folder):
    # One step lets the interpreter give up at once, so that the compiled program alone is asked.
    call = ["rt", "try", "--steps", "1", "--seconds", "300", "--fail-alloc", str(BEFORE), "--cases", str(folder)]
    return subprocess.run(call, cwd=ROOT / "crates/try_commands", capture_output=True, text=True).stdout


def ends(text):
    """How the command of each case ended, or that it didn't come to its end."""
    found = {}
    for case in re.findall(r"^case=(\S+) ", text, re.M):
        found[case] = BESIDE
    pattern = r"^== (\S+)\n\w+: (status \d+, \d+ bytes, [a-z ]+), after"
    found.update(re.findall(pattern, text, re.M))
    return found


def main():
    count = int(sys.argv[1]) if len(sys.argv) > 1 else 400
    certified = sys.argv[2] if len(sys.argv) > 2 else None
    with tempfile.TemporaryDirectory() as name:
        folder = Path(name)
        for command, word, text, output in commands(certified):
            for own in range(count):
                (folder / f"{command}-{own:06}").write_text(row(word, text, output, BEFORE - own))
        printed = run_all(folder)
    found = ends(printed)
    wrong = False
    for command, _, _, due in commands(certified):
        tally = Counter(end for case, end in found.items() if case.startswith(command + "-"))
        for end, times in sorted(tally.items()):
            print(f"{command}: {end}: {times} runs")
        good = f"status 0, {len(due)} bytes, as due"
        wrong |= any(end not in (BESIDE, good, REFUSED) for end in tally)
        wrong |= tally[REFUSED] == 0 or tally[good] == 0
    sys.exit(1 if wrong else 0)


if __name__ == "__main__":
    main()
