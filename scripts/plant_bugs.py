#!/usr/bin/env python3
"""Plants a bug in each of twenty operations of a copy of the Python machine, and gives the copy to conformance/run as a
command: prints which files of the suite find each bug, and ends with status 1 where one isn't found.

usage: scripts/plant_bugs.py     at the top of the repository
"""
import re
import subprocess
import sys
import tempfile
from pathlib import Path
from shutil import copytree

MODEL = Path("scripts/model")
# The operation, the file, what stands there, and the bug.
BUGS = [
    ("+ without the carry that comes around", "machine", "if m.mode == ONES and carry:\n        pattern += around", "if m.mode == ONES and carry:\n        pass"),
    ("- with the borrow at equality", "machine", "m.y - m.x, m.y < m.x,", "m.y - m.x, m.y <= m.x,"),
    ("* that clears the carry", "machine", "    m.flags[OUT_OF_RANGE] = not m.fits(number)\n    m.drop(m.low(number))", "    m.flags[CARRY], m.flags[OUT_OF_RANGE] = False, not m.fits(number)\n    m.drop(m.low(number))"),
    ("/ that rounds down", "machine", "return magnitude if (dividend < 0) == (divisor < 0) else -magnitude", "return dividend // divisor"),
    ("RMD that sets the carry", "machine", 'if name == "/":\n', 'if name in ("/", "RMD"):\n'),
    ("DBL* with the words exchanged", "machine", "m.x, m.y = divmod(number, m.patterns)", "m.y, m.x = divmod(number, m.patterns)"),
    ("DBL/ that drops once", "machine", "self.x, self.y, self.z = x, self.t, self.t", "self.x, self.y, self.z = x, self.z, self.t"),
    ("SQRT that leaves out of range", "machine", "m.x * m.x < number, False", "m.x * m.x < number, m.flags[OUT_OF_RANGE]"),
    ("CHS of the least number in range", "machine", 'number = -m.value(m.x) if name == "CHS"', 'number = -m.value(m.x) % m.patterns // 2 if name == "CHS"'),
    ("ASR that loses the sign", "machine", '"ASR": top if m.mode != UNSIGNED else 0', '"ASR": 0'),
    ("RLC that forgets the carry", "machine", '"RLC": carry', '"RLC": top'),
    ("RRN of w places as none", "machine", "times = m.count(m.size)", "times = m.count(m.size) % m.size"),
    ("LJ of zero", "machine", "m.size - m.x.bit_length() if m.x else 0", "m.size - m.x.bit_length()"),
    ("MASKL of no bits", "machine", "m.patterns - (1 << m.size - ones)", "m.patterns - (1 << m.size - max(ones, 1))"),
    ("B? at bit w", "machine", "bit = 1 << m.count(m.size - 1)", "bit = 1 << m.count(m.size)"),
    ("DSZ that goes on below zero by one", "machine", "if m.mode == ONES and not 0 <= count < m.patterns:", "if m.mode == ONES and not 0 <= count <= m.patterns:"),
    ("WSIZE that leaves LAST X", "machine", "m.x, m.y, m.z, m.t, m.last = (pattern % m.patterns for pattern in (m.y, m.z, m.t, m.t, m.last))", "m.x, m.y, m.z, m.t = (pattern % m.patterns for pattern in (m.y, m.z, m.t, m.t))"),
    ("STO that leaves the nibble above the word", "machine", "for j in range(self.width):\n            self.nibbles", "for j in range(self.size // 4 or 1):\n            self.nibbles"),
    ("GSB to three levels", "machine", "if len(m.returns) == 4:", "if len(m.returns) == 3:"),
    ("x<=y as x<y", "machine", '"x<=y": x <= y', '"x<=y": x < y'),
    ("WINDOW that counts from 1", "calculator", "end = max(len(digits) - 8 * window, 0)", "end = max(len(digits) - 8 * max(window - 1, 0), 0)"),
    ("BSP that enables stack lift", "calculator", "m.x, m.entry, m.lift = 0, None, False", "m.x, m.entry, m.lift = 0, None, True"),
]


def files_that_differ(folder):
    done = subprocess.run(["conformance/run", sys.executable, f"{folder}/calculator.py"], stdout=subprocess.PIPE, text=True, check=False)
    return re.findall(r"(?m)^differs (\S+): line (\d+)", done.stdout)


def main():
    missed = 0
    for says, name, old, new in BUGS:
        with tempfile.TemporaryDirectory() as room:
            folder = copytree(MODEL, f"{room}/model")
            file = Path(folder) / f"{name}.py"
            text = file.read_text()
            if text.count(old) != 1:
                sys.exit(f"{says}: its text stands {text.count(old)} times in {name}.py")
            file.write_text(text.replace(old, new))
            found = files_that_differ(folder)
        missed += not found
        files = ", ".join(f"{file} (line {line})" for file, line in found[:4]) or "nothing"
        print(f"{says}: {len(found)} files differ: {files}{', ..' if len(found) > 4 else ''}", flush=True)
    print(f"{len(BUGS)} bugs, {len(BUGS) - missed} found")
    sys.exit(missed > 0)


if __name__ == "__main__":
    main()
