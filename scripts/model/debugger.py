#!/usr/bin/env python3
"""Scripts for the debugger made at random, and what each prints by the Python machine beside this file.

The calculator's keys are here only as far as the scripts need them: 16 bits in two's complement and HEX, with labels,
jumps, tests, registers, flags and edits. Breakpoints, recorded states and steps back are whole.

usage, at the top of the repository:
    scripts/model/debugger.py COUNT SEED     prints so many scripts in the form of crates/try_debug/data/scripts.txt
"""
import sys
from copy import copy
from random import Random
from types import SimpleNamespace

from machine import HEX_DIGITS, MEMORY_NIBBLES, TWOS, Machine, MachineError, blocks_of

LINES_PER_KEY = 100_000
DEPTH = 256
AFTER_F = dict(zip("ABCDEF9", ["SL", "SR", "RL", "RR", "RLN", "RRN", "RMD"]))
AFTER_G = {
    "GSB": "RTN", "R/S": "P/R", "SST": "BST", "+": "x=0", ".": "x!=0", "1": "x<=y", "3": "x>y",
    "HEX": "DSZ", "DEC": "ISZ", "BSP": "CLX", "A": "LJ", "7": "#B",
}
BEGUN_BY_G = {"GTO": "LBL", "4": "SF", "5": "CF", "6": "F?"}
TAKES_A_NUMBER = {"STO": 16, "RCL": 16, "GTO": 16, "GSB": 16, "LBL": 16, "SF": 6, "CF": 6, "F?": 6}


def new_machine():
    start = SimpleNamespace(numbers=[0] * 6, flags=[False] * 6, nibbles=[0] * MEMORY_NIBBLES)
    machine = Machine(16, TWOS, 16, [], 0, start)
    machine.line = 0
    return machine


def copied(machine):
    other = copy(machine)
    for name in ("program", "returns", "flags", "nibbles"):
        setattr(other, name, list(getattr(machine, name)))
    return other


class Calculator:
    def __init__(self):
        self.machine, self.prefix, self.programming, self.error = new_machine(), "", False, None

    def copy(self):
        other = copy(self)
        other.machine = copied(self.machine)
        return other

    # ---- the display

    def display(self):
        m = self.machine
        if self.error is not None:
            return f"Error {self.error}"
        shift = f" {self.prefix}" if self.prefix in ("f", "g") else ""
        if self.programming:
            return f"{m.line:03}" + (f" {m.program[m.line - 1]}" if m.line else "") + shift + " PRGM"
        return f"{m.x:X} h" + " C" * m.flags[4] + " G" * m.flags[5] + shift

    # ---- keys

    def press(self, word):
        self.error = None
        prefix, self.prefix = self.prefix, ""
        if prefix in ("f", "g") and word in ("f", "g"):
            self.prefix = word
        elif prefix == "f":
            self.command(AFTER_F[word])
        elif prefix == "g" and word in BEGUN_BY_G:
            self.prefix = BEGUN_BY_G[word]
        elif prefix == "g":
            self.command(AFTER_G[word])
        elif prefix.startswith("GTO ."):
            self.line_digit(prefix, word)
        elif prefix:
            self.operand(prefix, word)
        elif word in ("f", "g", "STO", "RCL", "GTO", "GSB"):
            self.prefix = word
        else:
            self.command(word)

    def operand(self, prefix, word):
        if word in HEX_DIGITS and HEX_DIGITS.index(word) < TAKES_A_NUMBER[prefix]:
            self.command(f"{prefix} {word}")
        elif (prefix, word) == ("GTO", "."):
            self.prefix = "GTO ."
        elif word == "f" and prefix in ("STO", "RCL", "GTO", "GSB"):
            self.prefix = prefix

    def line_digit(self, prefix, word):
        digits = prefix[5:] + word
        if word in "0123456789" and len(digits) < 3:
            self.prefix = "GTO ." + digits
        elif word in "0123456789":
            self.go_to_line(int(digits))

    def command(self, text):
        if text == "P/R":
            self.switch_mode()
        elif text == "BST":
            self.end_entry()
            self.machine.line = self.machine.line - 1 if self.machine.line else len(self.machine.program)
        elif text == ".":
            self.end_entry()
            self.error = 1
        elif self.programming:
            self.edit(text)
        elif text == "SST":
            self.end_entry()
            self.machine.line = max(self.machine.line, 1)
            self.shows(self.machine.done_line())
        elif text == "BSP":
            self.erase()
        elif text[:4] in ("GTO ", "GSB "):
            self.search(text)
        elif text == "RTN":
            self.machine.returns.clear()
            self.machine.do(text)
        elif text == "R/S":
            self.begin_run()
            self.run()
        else:
            self.operate(text)

    # ---- in run mode

    def end_entry(self):
        self.machine.entry = None

    def shows(self, end):
        self.error = int(end.split()[1]) if end and end.startswith("error") else None

    def operate(self, text):
        line = self.machine.line
        try:
            self.machine.do(text)
        except MachineError as error:
            self.end_entry()
            self.error = error.args[0]
        self.machine.line = line

    def search(self, text):
        before = copied(self.machine)
        m = self.machine
        m.line = min(m.line + 1, len(m.program) + 1)
        m.returns.clear()
        try:
            m.do("GTO " + text[4:])
        except MachineError as error:
            self.machine = before
            self.end_entry()
            self.error = error.args[0]
            return
        if text.startswith("GSB"):
            self.run()

    def go_to_line(self, line):
        self.end_entry()
        if line > len(self.machine.program):
            self.error = 4
        else:
            self.machine.line = line
            self.machine.returns.clear()

    def erase(self):
        m = self.machine
        if m.entry is not None and m.entry >= m.base:
            m.entry //= m.base
            m.x = m.entry
        else:
            m.x, m.entry, m.lift = 0, None, False

    def switch_mode(self):
        self.end_entry()
        if not self.programming and self.machine.line > len(self.machine.program):
            self.machine.line = 0
        self.programming = not self.programming

    def begin_run(self):
        self.end_entry()
        self.machine.line = max(self.machine.line, 1)

    def run(self):
        end = self.machine.run(LINES_PER_KEY)
        self.shows(end)
        if end is None:
            self.error = 8

    # ---- in program mode

    def edit(self, text):
        m = self.machine
        if text == "SST":
            self.end_entry()
            m.line = m.line + 1 if m.line < len(m.program) else 0
        elif text == "BSP":
            if m.line:
                del m.program[m.line - 1]
                m.line -= 1
                m.returns.clear()
        else:
            m.program.insert(m.line, text)
            m.line += 1
            m.returns.clear()
        m.blocks = blocks_of(len(m.program))


class Debugger:
    def __init__(self):
        self.present, self.history, self.breakpoints = Calculator(), [], set()

    def record(self, state=None):
        self.history.append(state or self.present.copy())
        del self.history[:-DEPTH]

    def numbered(self):
        return f"{self.present.machine.line:03} {self.present.display()}"

    def do(self, line):
        words = line.split()
        if words[:1] == [":break"]:
            self.breakpoints.add(int(words[1]))
        elif words[:1] == [":clear"]:
            self.breakpoints.discard(int(words[1]))
        elif words == [":back"]:
            return self.back()
        elif words == [":step"] or words == [":go"]:
            if self.present.programming or self.present.prefix:
                return "not run"
            return self.go() if words == [":go"] else self.step()
        else:
            for word in words:
                self.record()
                self.present.press(word)
        return self.present.display()

    def back(self):
        if not self.history:
            return "no history"
        self.present = self.history.pop()
        return self.numbered()

    def step(self):
        self.record()
        self.present.press("SST")
        return self.numbered()

    def go(self):
        state = self.present.copy()
        self.present.error = None
        self.present.begin_run()
        for _ in range(LINES_PER_KEY):
            self.record(state)
            end = self.present.machine.done_line()
            if end:
                self.present.shows(end)
                return "end " + self.numbered()
            if self.present.machine.line in self.breakpoints:
                return "break " + self.numbered()
            state = self.present.copy()
        self.present.error = 8
        return "late " + self.numbered()


# ---- scripts at random


def operation(random):
    digit = random.choice("0123456789ABCDEF")
    return random.choice(
        [digit, digit, "+", "-", "ENTER", "x<>y", "RDN", "f A", "f B", "f 9", "g +", "g .", "g 1", "g 3", "g HEX", "g DEC"]
        + [f"STO {random.choice('0123')}", f"RCL {random.choice('0123')}", f"g 6 {random.choice('04')}", f"g 4 {random.choice('04')}"]
    )


def program(random):
    """A routine A of some operations, with a jump back or a call among them."""
    lines = [operation(random) for _ in range(random.randint(2, 9))]
    lines.insert(random.randint(0, len(lines)), random.choice(["GSB B", "GTO B", "R/S", "GTO A"]))
    tail = random.choice([["g GSB"], ["GTO A"], []])
    return ["g GTO A", *lines, *tail, "g GTO B", operation(random), "g GSB"]


def next_line(random, prefix):
    """A line of a script. A pending shift is followed by a key that has such a function, or by a command."""
    commands = [":go"] * 6 + [":step"] * 4 + [":back"] * 8
    if prefix in ("f", "g"):
        return random.choice(["9", "A", "A", *commands] if prefix == "f" else ["+", "1", "GTO 3", *commands])
    if random.random() < 0.05:
        return random.choice(["f", "g", "STO", "GTO ."])
    keys = [operation(random), " ".join(operation(random) for _ in range(3)), "GTO A", "BSP", "R/S", "GSB A", "GTO . 0 0 3"]
    modes = ["g R/S", "SST", "g SST", "", f":break {random.randint(1, 14)}", f":clear {random.randint(1, 14)}"]
    return random.choice(keys + modes + commands)


def script(random):
    """A script, and what is printed for each line."""
    debugger = Debugger()
    begin = [" ".join(["g R/S", *program(random), "g R/S"]), "GTO A"]
    for number in range(random.randint(10, 32)):
        line = begin[number] if number < len(begin) else next_line(random, debugger.present.prefix)
        yield line, debugger.do(line)


def main():
    count, seed = int(sys.argv[1]), sys.argv[2]
    print("# Scripts made at random, with what scripts/model/debugger.py prints for each line.")
    for number in range(1, count + 1):
        print(f"\ncase {number} of seed {seed}")
        for line, text in script(Random(f"{seed} {number}")):
            print(f"{line} => {text}")


if __name__ == "__main__":
    main()
