#!/usr/bin/env python3
"""Writes crates/try_debug/data/scripts.txt: scripts for the debugger, with what is to be written for each line.

The long ones follow from a rule beside each that can be worked by hand; nothing here runs the calculator. The
session of docs/DEBUGGER.md comes from examples/finds-the-loop.debug, whose displays were worked by hand too.

usage: scripts/write_debug_cases.py     at the top of the repository; it replaces the file it wrote before
"""
from pathlib import Path

CASES = Path("crates/try_debug/data/scripts.txt")
SESSION = Path("examples/finds-the-loop.debug")
DEPTH = 256

HEAD = """\
# Scripts for the debugger, with what is to be written for each line. scripts/write_debug_cases.py wrote them
# from rules worked by hand.
# A case is a script; each line is a line of the script, ' => ' and what is written for it.
"""


def x_is(number):
    return f"{number:X} h"


def back_over(states):
    """Steps back over the last states, each a line's number and X, and one more."""
    kept = reversed(states[-DEPTH:])
    return [(":back", f"{line:03} {x_is(x)}") for line, x in kept] + [(":back", "no history")]


def keys_past_the_depth():
    """Each of 150 lines presses two keys, so X is 1 before the + of each."""
    lines = [("1 +", x_is(k)) for k in range(1, 151)]
    states = [state for k in range(150) for state in ((0, k), (0, 1))]
    return [*lines, *back_over(states), ("RDN", "0 h")]


def late_run():
    """A turn is LBL A, 1, +, GTO A: before its lines X is k, k, 1 and k + 1. 100,000 lines are 25,000 turns."""
    program = [("g R/S g GTO A 1 + GTO A g R/S", "0 h"), ("GTO A", "0 h")]
    turns = range(25_000 - DEPTH, 25_000)
    states = [state for k in turns for state in ((1, k), (2, k), (3, 1), (4, k + 1))]
    first_kept = 25_000 - DEPTH // 4
    return [*program, (":go", "late 001 Error 8"), *back_over(states), (":step", f"002 {x_is(first_kept)}")]


def increments(machine, count):
    """A program of so many lines of ISZ, and the machine at its beginning: I counts the lines done."""
    return " ".join([*machine, "g R/S", *["g DEC"] * count, "g R/S", "GTO . 0 0 0"]), "0 h"


def session():
    return list(zip(SESSION.read_text().splitlines(), SESSION.with_suffix(".displays").read_text().splitlines()))


SCRIPTS = [
    (
        "breakpoints and steps back",
        "",
        [
            ("g R/S g GTO A 1 + GTO A g R/S", "0 h"),
            (":break 4", "0 h"),
            ("GTO A", "0 h"),
            (":go", "break 004 1 h"),
            (":go", "break 004 2 h"),
            (":back", "003 1 h"),
            (":back", "002 1 h"),
        ],
    ),
    (
        "program mode, and the key before it",
        "",
        [(":back", "no history"), ("g R/S", "000 PRGM"), (":go", "not run"), (":back", "000 0 h g")],
    ),
    ("300 keys, of which the last 256 states are kept", "After 256 steps back X is 22.", keys_past_the_depth()),
    ("a late run, and back over the 256 states that are kept", "X is 25,000 = 61A8.", late_run()),
    (
        "a late run, and on from it",
        "Error 8 is a view: a step goes on from the line that comes next.",
        [
            ("g R/S g GTO A GTO A g R/S", "0 h"),
            ("GTO A", "0 h"),
            (":go", "late 001 Error 8"),
            ("", "Error 8"),
            (":step", "002 0 h"),
            (":back", "001 Error 8"),
            (":back", "002 0 h"),
        ],
    ),
    (
        "breakpoints at the first line, past the last, and at the last number",
        "A run doesn't stop before its own first line.",
        [
            increments([], 24),
            (":break 1", "0 h"),
            (":break 25", "0 h"),
            (":break 609", "0 h"),
            (":go", "break 025 0 h"),
            ("RCL SST", x_is(24)),
            (":go", f"end 000 {x_is(24)}"),
            (":back", f"025 {x_is(24)}"),
            (":clear 25", x_is(24)),
            ("GTO . 0 0 0", x_is(24)),
            (":go", f"end 000 {x_is(24)}"),
            ("RCL SST", x_is(48)),
        ],
    ),
    (
        "a program past line 203 in the larger memory",
        "",
        [
            increments(["M609"], 300),
            (":break 204", "0 h"),
            (":go", "break 204 0 h"),
            (":break 301", "0 h"),
            (":go", "break 301 0 h"),
            (":back", "300 0 h"),
            ("RCL SST", x_is(299)),
            (":step", f"301 {x_is(299)}"),
        ],
    ),
    (
        "a larger memory that is full: line 609 may have a breakpoint, line 610 none",
        "",
        [
            increments(["M609"], 609),
            (":break 609", "0 h"),
            (":go", "break 609 0 h"),
            (":step", "610 0 h"),
            (":back", "609 0 h"),
            (":go", "end 000 0 h"),
            ("RCL SST", x_is(609)),
        ],
    ),
    (
        "the last nibble of the larger memory comes back",
        "I is 1217, and words have 4 bits: STO (i) writes register 1217, the last.",
        [
            ("M609 4 C 1 STO SST 4 f STO", "1 h"),
            ("7 STO R/S", "7 h"),
            ("8 STO R/S", "8 h"),
            (":back", "000 8 h"),
            (":back", "000 8 h"),
            (":back", "000 7 h"),
            ("BSP RCL R/S", "7 h"),
        ],
    ),
    ("a bad line after good ones", "", ["1 +", ":break 610", "bad line 2"]),
    ("the session that finds a loop", "", session()),
]


def written(title, why, lines):
    yield f"case {title}"
    if why:
        yield f"# {why}"
    for line in lines:
        yield line if isinstance(line, str) else f"{line[0]} => {line[1]}"


def main():
    CASES.write_text(HEAD + "".join("\n" + "\n".join(written(*script)) + "\n" for script in SCRIPTS))


if __name__ == "__main__":
    main()
