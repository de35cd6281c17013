#!/usr/bin/env python3
"""The inputs of the program try_provers, whose answers other solvers give.

usage, at the top of the repository:
    scripts/searches/inputs.py write                  writes the crate's stdin and stdout
    scripts/searches/inputs.py pipe PROGRAM HP16C     lets the built PROGRAM prove each input, and HP16C check what it wrote

`write` asks minisat, cadical and picosat, which must agree. `pipe` also checks logs and models here.
"""

import pathlib
import subprocess
import sys
import tempfile

from cnfs import adders, pigeonhole, random_3sat, text

CRATE = pathlib.Path(__file__).resolve().parents[2] / "crates" / "try_provers"
BETWEEN = b"\x01"
BUDGET = 1 << 20

EIGHT = (3, [[a, b, c] for a in (1, -1) for b in (2, -2) for c in (3, -3)])


def cnfs():
    """Fifty CNFs that the plain search decides within its budget too."""
    yield EIGHT
    yield 3, EIGHT[1][:7]
    yield 1, [[1]]
    yield 1, [[1], [-1]]
    yield 0, [[]]
    yield 2, [[1, 1], [-1, 2, 2], [-2, -1, -2]]
    yield 1, [[1, -1]]
    yield 0, []
    for holes in range(2, 7):
        yield pigeonhole(holes)
    for seed in range(20):
        yield random_3sat(10 + seed, seed)
    for seed in range(8):
        yield random_3sat(50, seed)
    for width in (2, 4, 6):
        for interleaved in (False, True):
            yield adders(width, interleaved)
    for width in (4, 8, 16):
        yield adders(width, width == 4, wrong=True)


def answer_of(command, file):
    """What another solver answers, by its status."""
    status = subprocess.run(command + [file], stdout=subprocess.DEVNULL).returncode
    return {10: "model", 20: "refuted"}[status]


def outside(cnf):
    with tempfile.NamedTemporaryFile("w", suffix=".cnf") as file:
        file.write(text(cnf))
        file.flush()
        answers = {answer_of(c, file.name) for c in (["minisat", "-verb=0"], ["cadical", "-q"], ["picosat"])}
    assert len(answers) == 1, (cnf, answers)
    return answers.pop()


def write():
    all_cnfs = list(cnfs())
    (CRATE / "stdin").write_bytes(BETWEEN.join(text(cnf).encode() for cnf in all_cnfs))
    answers = [outside(cnf) for cnf in all_cnfs]
    (CRATE / "stdout").write_text("".join(f"plain {a}\nlearning {a}\n" for a in answers))
    print(len(all_cnfs), "inputs,", answers.count("refuted"), "refuted")


def follows(store, clause, hints):
    """Whether a clause follows by the hints: each gives a literal, and the last is false."""
    trues = {-l for l in clause}
    for hint in hints:
        left = {l for l in store[hint] if -l not in trues}
        if not left:
            return True
        if len(left) > 1:
            return False
        trues |= left
    return False


def is_refutation(cnf, lines):
    store = dict(enumerate(cnf[1], 1))
    for line in lines:
        number, *words = map(int, line.split())
        end = words.index(0)
        if number <= max(store, default=0) or not follows(store, words[:end], words[end + 1 : -1]):
            return False
        store[number] = words[:end]
    return [] in store.values()


def is_model(cnf, bits):
    return all(any((bits[abs(l) - 1] == "1") == (l > 0) for l in clause) for clause in cnf[1])


def pipe(program, hp16c):
    counts = {"refuted": 0, "model": 0}
    for cnf in cnfs():
        due = outside(cnf)
        clauses = text(cnf).encode()
        for search in ("plain", "learning"):
            out = subprocess.run([program, search, str(BUDGET)], input=clauses, stdout=subprocess.PIPE, check=True).stdout
            verdict = subprocess.run([hp16c, "lrat"], input=clauses + out, stdout=subprocess.PIPE).stdout
            lines = out.decode().splitlines()
            if due == "refuted":
                assert verdict == b"refuted\n" and is_refutation(cnf, lines), (search, cnf)
            else:
                assert lines[0].startswith("c model") and is_model(cnf, (lines[0] + " ").split(" ")[2]), (search, cnf)
            counts[due] += 1
    print(counts)


if __name__ == "__main__":
    if sys.argv[1:] == ["write"]:
        write()
    elif sys.argv[1:2] == ["pipe"] and len(sys.argv) == 4:
        pipe(*sys.argv[2:])
    else:
        sys.exit(__doc__)
