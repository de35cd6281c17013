#!/usr/bin/env python3
"""Runs each command of README.md and docs/ that is written with `./hp16c`, and compares what it prints.

usage: scripts/doc_commands.py     at the top of the repository, where the program is proved and built

In a fenced block a line that begins with `$ ` is a command, and the lines up to the next one are what it
prints. In a line of prose "`COMMAND` prints `TEXT`" says the same. The commands of a file run in one new
folder, in which `hp16c` and `examples` stand. The key files and scripts for the debugger of `examples/` with
displays run too, and the problems of the gallery are judged: their status, and the numbers of leaves, cuts
and lines that a row tells. Exits 1 where something else is printed.
"""

import re
import subprocess
import sys
import tempfile
from pathlib import Path

ROOT = Path(__file__).resolve().parent.parent


def blocks(text):
    """The commands of the fenced blocks, each with what it prints."""
    for block in re.findall(r"^```\n(.*?)^```", text, re.M | re.S):
        for piece in re.split(r"^\$ ", block, flags=re.M)[1:]:
            command, _, printed = piece.partition("\n")
            yield command, printed


def in_prose(text):
    """The commands that a line says to print something, and those of which it doesn't say what."""
    for command, printed in re.findall(r"`(\./hp16c [^`]*)`(?: prints `([^`]*)`)?", text):
        yield command.replace("\\|", "|"), printed + "\n" if printed else None


def commands(text):
    for command, printed in blocks(text):
        if "./hp16c" in command:
            yield command, printed
    for command, printed in in_prose(re.sub(r"^```\n.*?^```", "", text, flags=re.M | re.S)):
        if ("<" in command or " gen " in command) and "NAME" not in command:
            yield command, printed


def runs_as_said(folder, command, printed):
    run = subprocess.run(["sh", "-c", command], cwd=folder, stdin=subprocess.DEVNULL, capture_output=True, text=True)
    good = printed is None or run.stdout == printed
    print(f"{'as said' if good else 'NOT as said'}: {command}")
    if not good:
        print(f"said:\n{printed}printed:\n{run.stdout}")
    return good


STATUSES = {"equal": 0, "different": 1, "unknown": 2, "paths": 10}
NUMBERS = {"without": 0, "a": 1, "one": 1, "two": 2, "ten": 10}
PARTS = {"leaf": r"^leaf$", "leaves": r"^leaf$", "cut": r"^cut$", "cuts": r"^cut$", "lines": r"^\d+ "}


def gallery(text):
    """The problems of the gallery, each with its answer."""
    return re.findall(r"^\| `([^`]*\.problem)` \|.*\| (.*) \|$", text, re.M)


def is_judged_as_said(problem, answer):
    with open(ROOT / "examples" / problem) as source:
        run = subprocess.run([ROOT / "hp16c", "judge"], stdin=source, capture_output=True, text=True)
    good = run.returncode == STATUSES[re.match(r"`?(\w+)", answer)[1]]
    if run.returncode == 0:
        certificate = run.stdout[run.stdout.index("certificate 1\n"):]
        for number, part in re.findall(r"(\w+) (leaf|leaves|cuts?|lines)\b", answer):
            told = int(number) if number.isdigit() else NUMBERS[number]
            good &= told == len(re.findall(PARTS[part], certificate, re.M))
    print(f"{'as said' if good else 'NOT as said'}: {problem}: {answer}")
    return good


def main():
    good = True
    for problem, answer in gallery((ROOT / "docs" / "PAIRS.md").read_text()):
        good &= is_judged_as_said(problem, answer)
    for displays in sorted((ROOT / "examples").glob("*.displays")):
        is_script = displays.with_suffix(".debug").exists()
        command = "debug" if is_script else "keys"
        source = f"examples/{displays.stem}.{command}"
        good &= runs_as_said(ROOT, f"./hp16c {command} < {source}", displays.read_text())
    for path in [ROOT / "README.md", *sorted((ROOT / "docs").glob("*.md"))]:
        with tempfile.TemporaryDirectory() as folder:
            for name in ["hp16c", "examples"]:
                (Path(folder) / name).symlink_to(ROOT / name)
            for command, printed in commands(path.read_text()):
                good &= runs_as_said(folder, command, printed)
    sys.exit(0 if good else 1)


if __name__ == "__main__":
    main()
