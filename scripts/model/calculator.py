#!/usr/bin/env python3
"""The calculator in Python, written from the table of keys and the rules of pressed keys alone: prefixes, programs entered,
edited and run, views and displays, on top of the machine beside this file.

It shares nothing with the definitions in crates/hp_model or with the program.

usage: scripts/model/calculator.py < FILE.keys     prints the display after each line of a key file
"""
import re
import sys
from types import SimpleNamespace

from machine import BASES, HEX_DIGITS, MEMORY_BYTES, ONES, TWOS, Machine, MachineError, blocks_of

LINES_PER_KEY = 100_000
EXTENTS = {"M203": MEMORY_BYTES, "M609": 609}
DECIMAL_DIGITS = "0123456789"

# What each key does alone, after f and after g.
KEYS = {
    "0": ("0", "MEM", "x!=y"), "1": ("1", "1'S", "x<=y"), "2": ("2", "2'S", "x<0"), "3": ("3", "UNSGN", "x>y"),
    "4": ("4", "SB", "SF"), "5": ("5", "CB", "CF"), "6": ("6", "B?", "F?"), "7": ("7", "MASKL", "#B"),
    "8": ("8", "MASKR", "ABS"), "9": ("9", "RMD", "DBLR"), "A": ("A", "SL", "LJ"), "B": ("B", "SR", "ASR"),
    "C": ("C", "RL", "RLC"), "D": ("D", "RR", "RRC"), "E": ("E", "RLN", "RLCN"), "F": ("F", "RRN", "RRCN"),
    "+": ("+", "OR", "x=0"), "-": ("-", "NOT", "x>0"), "*": ("*", "AND", "DBL*"), "/": ("/", "XOR", "DBL/"),
    "ENTER": ("ENTER", "WINDOW", "LSTX"), "CHS": ("CHS", "EEX", "x=y"), ".": (".", "STATUS", "x!=0"),
    "GSB": ("GSB", "x<>(i)", "RTN"), "GTO": ("GTO", "x<>I", "LBL"), "HEX": ("HEX", "SHOW HEX", "DSZ"),
    "DEC": ("DEC", "SHOW DEC", "ISZ"), "OCT": ("OCT", "SHOW OCT", "SQRT"), "BIN": ("BIN", "SHOW BIN", "1/X"),
    "R/S": ("R/S", None, "P/R"), "SST": ("SST", None, "BST"), "RDN": ("RDN", "CLEAR PRGM", "RUP"),
    "x<>y": ("x<>y", "CLREG", "PSE"), "BSP": ("BSP", "CLEAR PREFIX", "CLX"), "STO": ("STO", "WSIZE", "<"),
    "RCL": ("RCL", "FLOAT", ">"), "ON": ("ON", "ON", "ON"), "f": (None, None, None), "g": (None, None, None),
}
# The functions that wait for an operand, and the keys that are one by themselves.
OPERANDS = {
    "STO": HEX_DIGITS, "RCL": HEX_DIGITS, "GTO": HEX_DIGITS, "GSB": HEX_DIGITS, "LBL": HEX_DIGITS, "SF": "012345", "CF": "012345",
    "F?": "012345", "WINDOW": "01234567",
}
KEEPS_ENTRY = {"CLEAR PREFIX", "BSP"}
ERROR_1 = {"FLOAT", "EEX", "1/X", "."}
VIEWS = {"MEM", "STATUS", "SHOW HEX", "SHOW DEC", "SHOW OCT", "SHOW BIN"}
BITS_A_DIGIT = {16: 4, 8: 3, 2: 1}


class Calculator:
    """A calculator after a full reset, with so many bytes of memory."""

    def __init__(self, memory_bytes):
        zeros = SimpleNamespace(numbers=[0] * 6, flags=[False] * 6, nibbles=[0] * (2 * memory_bytes))
        self.machine = Machine(16, TWOS, 16, [], 0, zeros, memory_bytes)
        self.machine.line = 0
        self.pending, self.programming, self.view = [], False, None

    # ---- keys and prefixes

    def press(self, key):
        self.view = None
        function = self.completed(key)
        if function is None:
            return
        if function not in KEEPS_ENTRY and function not in HEX_DIGITS:
            self.machine.entry = None
        try:
            self.do(function)
        except MachineError as error:
            self.view = f"Error {error.args[0]}"

    def completed(self, key):
        """The function that a key completes; None where the keys so far want another, or are dropped."""
        pending, self.pending = self.pending, []
        if key == "ON":
            return key
        if pending and pending[0] not in ("f", "g"):
            return self.with_operand(pending, key)
        if key in ("f", "g"):
            self.pending = [key]
            return None
        function = KEYS[key][{(): 0, ("f",): 1, ("g",): 2}[tuple(pending)]]
        if function in OPERANDS:
            self.pending = [function]
            return None
        return function

    def with_operand(self, pending, key):
        name, *given = pending
        if given:
            return self.after_point(name, given, key)
        if key == "f" and name in ("STO", "RCL", "GTO", "GSB") or key == "." and name in ("STO", "RCL", "GTO"):
            self.pending = pending if key == "f" else [name, "."]
            return None
        if key == "SST" and name in ("STO", "RCL", "GTO", "GSB"):
            return f"{name} I"
        if key == "R/S" and name in ("STO", "RCL"):
            return f"{name} (i)"
        return f"{name} {key}" if key in OPERANDS[name] else None

    def after_point(self, name, given, key):
        if name != "GTO":
            return f"{name} .{key}" if key in HEX_DIGITS else None
        if key in DECIMAL_DIGITS:
            if len(given) == 3:
                return "GTO " + "".join(given) + key
            self.pending = [name, *given, key]
        return None

    # ---- functions

    def do(self, function):
        m = self.machine
        if function in VIEWS:
            self.view = function
        elif function in ERROR_1:
            raise MachineError(1)
        elif function == "ON":
            self.programming = False
        elif function.startswith("GTO ."):
            self.go_to_line(int(function[5:]))
        elif function == "P/R":
            self.programming = not self.programming
            if self.programming and m.line > len(m.program):
                m.line = 0
        elif function == "BST":
            m.line = m.line - 1 if m.line > 0 else len(m.program)
        elif function != "CLEAR PREFIX":
            (self.edit if self.programming else self.do_at_once)(function)

    def go_to_line(self, line):
        if line > len(self.machine.program):
            raise MachineError(4)
        self.machine.returns, self.machine.line = [], line

    # ---- in program mode

    def edit(self, function):
        m = self.machine
        if function == "SST":
            m.line = m.line + 1 if m.line < len(m.program) else 0
        elif function == "BSP":
            if m.line > 0:
                self.put_program(m.program[: m.line - 1] + m.program[m.line :], m.line - 1)
        elif function == "CLEAR PRGM":
            self.put_program([], 0)
        elif len(m.program) == m.memory_bytes:
            raise MachineError(4)
        else:
            self.put_program([*m.program[: m.line], function, *m.program[m.line :]], m.line + 1)

    def put_program(self, program, line):
        """Another program: the bytes that change hands become zero, and no return is pending."""
        m = self.machine
        blocks = blocks_of(len(program))
        places = sorted(2 * m.memory_bytes - 14 * count for count in (m.blocks, blocks))
        m.nibbles[places[0] : places[1]] = [0] * (places[1] - places[0])
        m.program, m.blocks, m.line, m.returns = program, blocks, line, []

    # ---- in run mode

    def do_at_once(self, function):
        m = self.machine
        name = function.split()[0]
        if function == "SST":
            m.line = max(m.line, 1)
            self.ended(m.done_line())
        elif function == "BSP":
            self.take_digit_back()
        elif function == "CLEAR PRGM":
            m.line, m.returns = 0, []
        elif name in ("GTO", "GSB"):
            self.jump(function)
            if name == "GSB":
                self.run()
        elif function == "RTN":
            m.returns = []
            m.do(function)
        elif function == "R/S":
            m.line, m.window = max(m.line, 1), 0
            self.run()
        else:
            line = m.line
            m.do(function)
            m.line = line

    def jump(self, function):
        """A pressed GTO or GSB: it searches from the line after the one shown, and keeps no return."""
        m = self.machine
        line = m.line
        m.line += 1
        try:
            m.do(function.replace("GSB", "GTO"))
        except MachineError:
            m.line = line
            raise
        m.returns = []

    def run(self):
        end = self.machine.run(LINES_PER_KEY)
        self.ended("error 8" if end is None else end)

    def ended(self, end):
        if end and end.startswith("error"):
            self.view = end.capitalize()

    def take_digit_back(self):
        m = self.machine
        if m.entry is not None and m.entry >= m.base:
            m.x = m.entry = m.entry // m.base
        else:
            m.x, m.entry, m.lift = 0, None, False

    # ---- displays

    def display(self):
        m = self.machine
        if self.view == "MEM":
            return f"P-{7 * m.blocks - len(m.program)} r-{m.registers}"
        if self.view == "STATUS":
            flags = "".join(str(int(m.flags[flag])) for flag in (3, 2, 1, 0))
            return f"{m.mode}-{m.size:02}-{flags}"
        if self.view in VIEWS:
            return self.number_shown(BASES[self.view.split()[1]], 0)
        if self.view:
            return self.view
        return self.line_shown() if self.programming else self.number_shown(m.base, m.window)

    def shift_shown(self):
        return "".join(f" {key}" for key in self.pending if key in ("f", "g"))

    def line_shown(self):
        m = self.machine
        text = " " + m.program[m.line - 1] if m.line > 0 else ""
        return f"{m.line:03}{text}{self.shift_shown()} PRGM"

    def number_shown(self, base, window):
        m = self.machine
        digits = digits_of(abs(m.value(m.x)) if base == 10 else m.x, base)
        if base != 10 and m.flags[3]:
            digits = digits.zfill(-(-m.size // BITS_A_DIGIT[base]))
        is_minus_zero = m.mode == ONES and m.x == m.patterns - 1
        minus = "-" if base == 10 and (m.value(m.x) < 0 or is_minus_zero) else ""
        end = max(len(digits) - 8 * window, 0)
        letter = {16: "h", 10: "d", 8: "o", 2: "b"}[base]
        point = "." if end > 8 else "", "." if window > 0 else ""
        marks = (" C" if m.flags[4] else "") + (" G" if m.flags[5] else "")
        return f"{minus}{digits[max(end - 8, 0):end]} {point[0]}{letter}{point[1]}{marks}{self.shift_shown()}"


def digits_of(number, base):
    digits = ""
    while number or not digits:
        number, digit = divmod(number, base)
        digits = HEX_DIGITS[digit] + digits
    return digits


class BadWord(Exception):
    """A word is no key's, with the number of its line."""


def displays(lines):
    """The display after each line of a key file."""
    calculator = Calculator(MEMORY_BYTES)
    for number, line in enumerate(lines, 1):
        words = [word for word in re.split("[ \t\r]+", line) if word]
        if number == 1 and words and words[0] in EXTENTS:
            calculator = Calculator(EXTENTS[words.pop(0)])
        for word in words:
            if word not in KEYS:
                raise BadWord(number)
            calculator.press(word)
        yield calculator.display()


def main():
    lines = sys.stdin.read().split("\n")
    if lines[-1] == "":
        lines.pop()
    try:
        for text in displays(lines):
            print(text)
    except BadWord as bad:
        print(f"bad line {bad.args[0]}")
        sys.exit(4)


if __name__ == "__main__":
    main()
