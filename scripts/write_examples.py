#!/usr/bin/env python3
"""Writes the key files for teachers, and their displays, from crates/try_cases/data/teaching.txt.

Each case becomes examples/NAME.keys, to be given to `./hp16c keys`, and examples/NAME.displays, what
that prints. The gate runs the cases themselves.

usage: scripts/write_examples.py     at the top of the repository; it replaces the files it wrote before
"""
from pathlib import Path

CASES = Path("crates/try_cases/data/teaching.txt")
EXAMPLES = Path("examples")


def main():
    name = None
    files = {}
    for line in CASES.read_text().splitlines():
        if line.startswith("case "):
            name = "-".join(line.split()[2:])
            files[name] = ([], [])
        elif " => " in line and not line.startswith("#"):
            keys, display = line.split(" => ")
            files[name][0].append(keys)
            files[name][1].append(display)
    for name, (keys, displays) in files.items():
        (EXAMPLES / f"{name}.keys").write_text("\n".join(keys) + "\n")
        (EXAMPLES / f"{name}.displays").write_text("\n".join(displays) + "\n")


main()
