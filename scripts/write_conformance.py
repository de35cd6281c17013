#!/usr/bin/env python3
"""Writes the conformance suite for emulators: key files by theme, and the displays that each must give.

The keys are chosen here, one function a theme; the displays are those of the Python machine in scripts/model, which shares
nothing with the program. They go to crates/try_conformance/data, where the gate gives the same keys to the program, and the
table of files goes into conformance/README.md.

usage: scripts/write_conformance.py     at the top of the repository; it replaces the files it wrote before
"""
import sys
from math import isqrt
from pathlib import Path

sys.path.insert(0, "scripts/model")
from calculator import KEYS, OPERANDS, displays  # noqa: E402
from machine import TEXTS  # noqa: E402

CRATE = Path("crates/try_conformance")
FILES = CRATE / "data"
README = Path("conformance/README.md")
TABLE_BEGINS, TABLE_ENDS = "<!-- the table of files begins -->\n", "<!-- the table of files ends -->\n"

SIZES = [1, 4, 8, 16, 32, 64]
MODES = {"unsigned": "f 3", "ones": "f 1", "twos": "f 2"}
MODE_NAMES = {"unsigned": "unsigned", "ones": "one's complement", "twos": "two's complement"}

# Where the mode matters little, it is tried at these sizes and unsigned at all of them.
FEW_SIZES = [1, 8, 64]

# The parts of the Owner's Handbook that the themes belong to, by the titles of its sections.
START = "Section 1: getting started"
STACK = "Section 2: the automatic memory stack"
CONTROL = "Section 3: number and display control"
FUNCTIONS = "Section 4: arithmetic and bit manipulation functions"
STORAGE = "Section 6: memory and storage"
PROGRAMS = "Section 7: programming basics"
EDITING = "Section 8: program editing"
BRANCHING = "Section 9: program branching and controls"
SUBROUTINES = "Section 10: subroutines"
ERRORS = "Appendix A: error messages and flags"
NONE = "none: this project's own"


# ---- keys


def keys_of_functions():
    """The keys of each function, by the text that a program line has for it."""
    found = {}
    for key, functions in KEYS.items():
        for shift, function in zip(("", "f ", "g "), functions):
            if function:
                found.setdefault(function, shift + key)
    return found


KEYS_OF = keys_of_functions()


def keys(text):
    """The keys of an operation, a command or several, separated by commas, or of digits put together after a `#`."""
    return " ".join(map(keys_of_one, text.split(", ")))


def keys_of_one(text):
    if text.startswith("#"):
        return " ".join(text[1:])
    name, _, operand = text.partition(" ")
    if text in KEYS_OF:
        return KEYS_OF[text]
    special = {"I": "SST", "(i)": "R/S"}
    operand = special.get(operand) or " ".join(operand)
    return f"{KEYS_OF[name]} {operand}"


def number(pattern):
    """The digits of a pattern in HEX."""
    return " ".join(f"{pattern:X}")


def numbers(*patterns):
    return " ENTER ".join(map(number, patterns))


def size(bits):
    """Makes the words so long, whatever they are."""
    return "HEX 0 f STO" + ("" if bits == 64 else f" {number(bits)} f STO")


def program(*lines):
    """Enters a program after the line that is shown, and leaves program mode."""
    return f"g R/S {keys(', '.join(lines))} g R/S"


def each_mode_and_size():
    """Each mode and word size, with the keys that set both: unsigned at all sizes, signed modes at few."""
    for mode, keys_of_mode in MODES.items():
        for bits in SIZES if mode == "unsigned" else FEW_SIZES:
            yield mode, bits, f"{keys_of_mode} {size(bits)}"


class Sheet:
    """The lines of a key file."""

    def __init__(self):
        self.lines = []

    def add(self, *lines):
        self.lines += lines

    def functions(self, *texts):
        """A line for each text of functions."""
        self.add(*map(keys, texts))

    def result(self, bits, line):
        """A line, and where its words have more than eight digits one for the upper ones."""
        self.add(line)
        if bits > 32:
            self.add("f ENTER 1")


THEMES = []


def theme(name, says, topic):
    """A theme: a name, what it tests, the handbook's topic, and the function that writes its lines."""

    def keep(write):
        THEMES.append((name, says, topic, write))
        return write

    return keep


# ---- patterns


def different(pairs, bits):
    """The pairs as patterns of so many bits, each once, in their order."""
    return list(dict.fromkeys(tuple(pattern % (1 << bits) for pattern in pair) for pair in pairs))


def negative(magnitude, mode, bits):
    patterns = 1 << bits
    return magnitude if mode == "unsigned" else patterns - magnitude - (mode == "ones")


def corner_pairs(bits):
    patterns, half = 1 << bits, 1 << bits - 1
    pairs = [
        (0, 0), (0, 1), (1, 1), (half - 1, 1), (half - 1, half - 1), (half, 1), (half, half), (patterns - 1, 1), (1, patterns - 1),
        (patterns - 1, patterns - 1), (half, patterns - 1), (half - 1, half), (0, patterns - 1), (0, half), (patterns - 2, 2),
    ]
    return different(pairs, bits)


def factor_pairs(bits, mode):
    root, half = 1 << bits // 2, 1 << bits - 1
    pairs = [(root, root), (root, root // 2), (root - 1, root + 1), (3, negative(2, mode, bits)), (negative(3, mode, bits), negative(2, mode, bits))]
    pairs += [(root, negative(root // 2, mode, bits)), (half // 2, 2), (half // 2, negative(2, mode, bits))]
    return different(corner_pairs(bits) + pairs, bits)


def division_pairs(bits, mode):
    patterns, half = 1 << bits, 1 << bits - 1
    minus = lambda magnitude: negative(magnitude, mode, bits)  # noqa: E731
    pairs = [(7, 3), (minus(7), 3), (7, minus(3)), (minus(7), minus(3)), (6, 3), (minus(6), 3), (1, 2), (minus(1), 2), (patterns - 1, 2)]
    pairs += [(half, patterns - 1), (half, 3), (half - 1, half), (1, 1), (0, 1), (0, patterns - 1), (1, 0), (patterns - 1, 0), (half, half)]
    pairs += [(1, patterns - 1), (half - 1, 1), (half, 1), (patterns - 1, 1)]
    return different(pairs, bits)


def words_of(bits):
    """Patterns of so many bits that tell operations on one word apart."""
    patterns, half = 1 << bits, 1 << bits - 1
    mixed = int("9A3C5E7182F4B6D0"[: max(1, bits // 4)], 16)
    return [word for (word,) in different([(w,) for w in (0, 1, 2, half - 1, half, half + 1, patterns - 2, patterns - 1, mixed)], bits)]


# ---- arithmetic


def write_arithmetic(sheet, mode, operation, pairs_of, at_each_size=()):
    for bits in SIZES:
        sheet.add(f"{MODES[mode]} {size(bits)}", "g 5 4 g 5 5")
        for y, x in pairs_of(bits):
            sheet.result(bits, f"{numbers(y, x)} {keys(operation)}")
        sheet.functions("LSTX", "RDN", *at_each_size)


def lines_of_arithmetic():
    pairs_by_operation = {
        "+": ("add", lambda bits, mode: corner_pairs(bits), "the sum, carry (C) and out of range (G)"),
        "-": ("subtract", lambda bits, mode: corner_pairs(bits), "the difference, borrow (C) and out of range (G)"),
        "*": ("multiply", factor_pairs, "the product, out of range (G); the carry stays"),
        "/": ("divide", division_pairs, "the quotient cut towards zero, a remainder left (C), out of range (G), Error 0"),
        "RMD": ("remainder", division_pairs, "the remainder with the dividend's sign, Error 0; both flags stay"),
    }
    for operation, (name, pairs_of, says) in pairs_by_operation.items():
        for mode in MODES:
            write = lambda sheet, o=operation, p=pairs_of, m=mode: write_arithmetic(sheet, m, o, lambda bits: p(bits, m))  # noqa: E731
            theme(f"{name}-{mode}", f"`{operation}` {MODE_NAMES[mode]} at 1, 4, 8, 16, 32 and 64 bits: {says}", FUNCTIONS)(write)


lines_of_arithmetic()


@theme("flags-of-arithmetic", "which arithmetic operations set, clear and leave C and G, from both states of both flags", FUNCTIONS)
def flags_of_arithmetic(sheet):
    sheet.add(f"f 2 {size(8)}")
    cases = [(7, 2), (0x7F, 1), (0xFF, 2), (0x80, 0xFF), (0x40, 3), (4, 2), (0xF9, 2)]
    for operation in ("+", "-", "*", "/", "RMD", "CHS", "ABS", "SQRT", "DBL*"):
        for flags in ("CF 4, CF 5", "SF 4, SF 5"):
            for y, x in cases[:4] if operation == "RMD" else cases:
                sheet.add(f"{numbers(y, x)} {keys(flags)} {keys(operation)}")
    for operation in ("DBL/", "DBLR"):
        for flags in ("CF 4, CF 5", "SF 4, SF 5"):
            for lower, upper, x in ((7, 0, 2), (8, 0, 2), (0xF9, 0xFF, 2)):
                sheet.add(f"{numbers(lower, upper, x)} {keys(flags)} {keys(operation)}")


@theme("square-root", "`SQRT` in each mode at each size: the whole root, C where it isn't exact, G cleared, Error 0 of a negative number", FUNCTIONS)
def square_root(sheet):
    for keys_of_mode in MODES.values():
        for bits in SIZES:
            sheet.add(f"{keys_of_mode} {size(bits)}", "g 4 5")
            greatest = isqrt((1 << bits - 1) - 1) if bits > 1 else 0
            corners = [greatest * greatest, greatest * greatest - 1, 3, 4, 8]
            for word in dict.fromkeys(words_of(bits) + [corner % (1 << bits) for corner in corners]):
                sheet.add(f"{number(word)} {keys('SQRT')}")
            sheet.functions("LSTX")


@theme("absolute-value", "`ABS` in each mode at each size: out of range (G) for the least number of two's complement; C stays", FUNCTIONS)
def absolute_value(sheet):
    for keys_of_mode in MODES.values():
        for bits in SIZES:
            sheet.add(f"{keys_of_mode} {size(bits)}", "g 4 4" if bits % 8 else "g 5 4")
            for word in words_of(bits):
                sheet.result(bits, f"{number(word)} {keys('ABS')}")
            sheet.functions("LSTX")


@theme("change-sign", "`CHS` in each mode at each size: the pattern, out of range (G); C and LAST X stay, and digit entry ends", FUNCTIONS)
def change_sign(sheet):
    for keys_of_mode in MODES.values():
        for bits in SIZES:
            sheet.add(f"{keys_of_mode} {size(bits)}", "g 4 4" if bits % 8 else "g 5 4", "1 ENTER 2 + g BSP")
            for word in words_of(bits):
                sheet.result(bits, f"{number(word)} CHS")
            sheet.functions("LSTX", "#1, CHS, #1")


# ---- double functions


@theme("double-multiply", "`DBL*` in each mode at each size: the upper word in X, the lower in Y; Z and T stay, G is cleared", FUNCTIONS)
def double_multiply(sheet):
    for mode, keys_of_mode in MODES.items():
        for bits in SIZES:
            sheet.add(f"{keys_of_mode} {size(bits)}", "g 4 5")
            for y, x in factor_pairs(bits, mode)[:: 1 if bits in (1, 8) else 4]:
                sheet.result(bits, f"{numbers(y, x)} {keys('DBL*')}")
                sheet.result(bits, "x<>y")
            sheet.functions("LSTX")
        sheet.add(size(8), numbers(0x11, 0x22, 0x33, 0x44), "g *", "RDN", "RDN", "RDN", "g ENTER")


def double_cases(bits, mode):
    """Lower word, upper word and divisor."""
    patterns, half = 1 << bits, 1 << bits - 1
    minus = lambda magnitude: negative(magnitude, mode, bits)  # noqa: E731
    most = patterns - 1
    cases = [
        (0, 0, 1), (1, 0, 1), (most, 0, 1), (half, 0, 1), (half - 1, 0, 1), (0, 1, 1), (0, 1, 2), (most, 1, 2), (7, 0, 3), (7, 0, minus(3)),
        (minus(7), minus(0) if mode != "unsigned" else 0, 3), (minus(7), most, minus(3)), (half, most, 1), (half - 1, most, 1),
        (half + 1, most, 1), (0, half, half), (1, 0, most), (most, most - 1, most), (most, half - 1, half), (1, half - 1, half - 1), (0, 0, most),
        (most, most, 1), (5, 0, 0), (0, half // 2, half), (0, half, most),
    ]
    return list(dict.fromkeys(tuple(pattern % patterns for pattern in case) for case in cases))


def write_double_division(sheet, operation):
    for mode, keys_of_mode in MODES.items():
        for bits in SIZES:
            sheet.add(f"{keys_of_mode} {size(bits)}", "g 5 4")
            for case in double_cases(bits, mode)[:: 1 if bits in (1, 8) else 2]:
                sheet.result(bits, f"{numbers(*case)} {keys(operation)}")
            sheet.functions("LSTX")
        sheet.add(size(8), f"g 4 5 {numbers(0x11, 0x22, 0x02, 0x33)}", keys(operation), "RDN", "RDN", "RDN", "g ENTER")


@theme("double-divide", "`DBL/` in each mode at each size: quotient, C and G, the stack dropped twice, Error 0 of a zero divisor or a quotient that doesn't fit", FUNCTIONS)
def double_divide(sheet):
    write_double_division(sheet, "DBL/")


@theme("double-remainder", "`DBLR` in each mode at each size: the remainder with the dividend's sign, Error 0 as for `DBL/`; both flags stay", FUNCTIONS)
def double_remainder(sheet):
    write_double_division(sheet, "DBLR")


# ---- shifts, rotations and bits


def write_moves(sheet, operations):
    for _, bits, setting in each_mode_and_size():
        sheet.add(setting)
        for operation in operations:
            for word in words_of(bits)[:: 1 if bits in (1, 8) else 2]:
                sheet.result(bits, f"{number(word)} {keys(operation)}")
    sheet.add("g 4 5", f"1 {keys(operations[0])}", "g ENTER")


@theme("shifts", "`SL`, `SR` and `ASR` in each mode at each size: what is shifted in, and the bit shifted out in C; G stays", FUNCTIONS)
def shifts(sheet):
    write_moves(sheet, ["SL", "SR", "ASR"])


@theme("rotations", "`RL` and `RR` in each mode at each size: the bit that goes round, and C; G stays", FUNCTIONS)
def rotations(sheet):
    write_moves(sheet, ["RL", "RR"])


@theme("rotations-through-the-carry", "`RLC` and `RRC` at each size from both states of the carry, and round all w + 1 places", FUNCTIONS)
def rotations_through_the_carry(sheet):
    for _, bits, setting in each_mode_and_size():
        sheet.add(setting)
        for operation in ("RLC", "RRC"):
            for word in words_of(bits)[:: 1 if bits == 8 else 3]:
                for carry in ("CF 4", "SF 4"):
                    sheet.result(bits, f"{number(word)} {keys(carry)} {keys(operation)}")
    sheet.add(size(4), "9 g 4 4", *["g C"] * 5, *["g D"] * 5, "g ENTER")


def write_repeated(sheet, operations):
    for mode, bits, setting in each_mode_and_size():
        sheet.add(setting)
        counts = [0, 1, bits // 2, bits - 1, bits, bits + 1, negative(1, mode, bits), negative(2, mode, bits), (1 << bits) - 1, 1 << bits - 1]
        for operation in operations:
            for count in dict.fromkeys(count % (1 << bits) for count in counts):
                carry = keys("SF 4" if count in (0, 3) else "CF 4")
                sheet.result(bits, f"{numbers(words_of(bits)[-1], count)} {carry} {keys(operation)}")
        sheet.functions("LSTX", "RDN")
    sheet.add(size(8), "8 1 ENTER 0 g 4 4", keys(operations[0]), "g 5 4 8 1 ENTER 0", keys(operations[1]))
    sheet.add("8 ENTER 8 1 ENTER 8 g 4 4", keys(operations[0]), "RDN", "g 4 4 8 1 ENTER 9", keys(operations[0]), "RDN", "RDN")


@theme("repeated-rotations", "`RLN` and `RRN`: counts 0, 1, w - 1, w and w + 1 (Error 2), negative counts, C of the last step or as before", FUNCTIONS)
def repeated_rotations(sheet):
    write_repeated(sheet, ["RLN", "RRN"])


@theme("repeated-rotations-through-the-carry", "`RLCN` and `RRCN`: counts 0, 1, w - 1, w and w + 1 (Error 2), negative counts, the carry as a place more", FUNCTIONS)
def repeated_rotations_through_the_carry(sheet):
    write_repeated(sheet, ["RLCN", "RRCN"])


@theme("left-justify", "`LJ` at each size: the count in X, the word in Y, the stack pushed; 0 gives the count 0", FUNCTIONS)
def left_justify(sheet):
    for bits in SIZES:
        sheet.add(f"f 3 {size(bits)}", "g 4 4 g 4 5" if bits == 8 else "g 5 4 g 5 5")
        for word in words_of(bits):
            sheet.add(f"{number(word)} {keys('LJ')}")
            sheet.result(bits, "x<>y")
    sheet.add(size(8), numbers(0x11, 0x22, 0x33, 0x14), "g A", "RDN", "RDN", "RDN", "RDN", "g ENTER", "0 g BSP 1 g A", "1")


@theme("masks", "`MASKL` and `MASKR` at each size: counts 0, 1, w - 1, w and w + 1 (Error 2), negative counts; flags stay", FUNCTIONS)
def masks(sheet):
    for mode, bits, setting in each_mode_and_size():
        sheet.add(setting, "g 4 4 g 5 5" if bits % 8 else "g 5 4 g 4 5")
        counts = [0, 1, bits // 2, bits - 1, bits, bits + 1, negative(1, mode, bits), negative(3, mode, bits), (1 << bits) - 1]
        for operation in ("MASKL", "MASKR"):
            for count in dict.fromkeys(count % (1 << bits) for count in counts):
                sheet.result(bits, f"{number(count)} {keys(operation)}")
        sheet.functions("LSTX", "RDN")


@theme("bit-count", "`#B` at each size; flags stay, the stack too", FUNCTIONS)
def bit_count(sheet):
    for bits in SIZES:
        sheet.add(f"f 2 {size(bits)}", "g 4 4 g 5 5" if bits % 8 else "g 5 4 g 4 5")
        for word in words_of(bits):
            sheet.add(f"{number(word)} {keys('#B')}")
        sheet.functions("LSTX", "RDN")


@theme("set-and-clear-bits", "`SB` and `CB` at each size: bits 0, w - 1 and w (Error 2), negative bit numbers, bits that are so already", FUNCTIONS)
def set_and_clear_bits(sheet):
    for mode, bits, setting in each_mode_and_size():
        sheet.add(setting, "g 4 4 g 5 5" if bits % 8 else "g 5 4 g 4 5")
        places = [0, 1, bits // 2, bits - 1, bits, bits + 1, negative(1, mode, bits), (1 << bits) - 1]
        for place in dict.fromkeys(place % (1 << bits) for place in places):
            for operation, words in (("SB", [0, 0x5A]), ("CB", [(1 << bits) - 1, 0xA5])):
                for word in words if bits == 8 else words[:1]:
                    sheet.result(bits, f"{numbers(word, place)} {keys(operation)}")
        sheet.functions("LSTX", "RDN")


@theme("test-bits", "`B?` in a program at each size: skips where the bit is 0, drops the stack, Error 2 from bit w on; pressed it skips nothing", FUNCTIONS)
def test_bits(sheet):
    sheet.add(program("LBL A", "CF 0", "B?", "SF 0", "RTN"))
    for mode, bits, setting in each_mode_and_size():
        sheet.add(setting)
        word = words_of(bits)[-1]
        for place in dict.fromkeys(place % (1 << bits) for place in (0, 1, 2, bits - 2, bits - 1, bits, negative(1, mode, bits))):
            sheet.add(f"{numbers(word, place)} GSB A", "f .")
        sheet.functions("LSTX", "RDN", "RDN")
    sheet.add(size(8), "5 ENTER 1 f 6", "f .", "g R/S", "g R/S")


@theme("logic", "`AND`, `OR`, `XOR` and `NOT` at each size: flags stay, LAST X is kept", FUNCTIONS)
def logic(sheet):
    for bits in SIZES:
        patterns = 1 << bits
        sheet.add(f"f 1 {size(bits)}", "g 4 4 g 5 5" if bits % 8 else "g 5 4 g 4 5")
        mixed = words_of(bits)[-1]
        for y, x in different([(0, 0), (0, 1), (1, 0), (1, 1), (mixed, patterns // 3), (patterns - 1, mixed), (mixed, 0), (patterns // 2, patterns - 1)], bits):
            for operation in ("AND", "OR", "XOR"):
                sheet.result(bits, f"{numbers(y, x)} {keys(operation)}")
        for word in words_of(bits):
            sheet.result(bits, f"{number(word)} {keys('NOT')}")
        sheet.functions("LSTX", "RDN", "RDN")


# ---- word size, bases, modes, digits


@theme("word-size-and-stack", "`WSIZE` cuts the stack and LAST X to the low bits or fills with zeros, moves the stack down, takes 0 for 64; Error 2 above 64", CONTROL)
def word_size_and_stack(sheet):
    for keys_of_mode in MODES.values():
        sheet.add(f"{keys_of_mode} {size(16)}", numbers(0x1234, 0x8765) + " +", numbers(0x9111, 0x9222, 0x93F5, 8), "f STO", "RDN", "RDN", "RDN", "RDN", "g ENTER")
        sheet.add("1 0 f STO", "RDN", "RDN", "RDN", "RDN", "g ENTER", numbers(0x9111, 0x9222, 0x93F5, 5), "f STO", "RDN", "RDN", "RDN", "RDN", size(16))
        sheet.add("f .", "0 f STO", "f .", "4 0 f STO", "f .", "4 1 f STO", "f .", "g BSP F F f STO", "1 f STO", "f .", "1 f STO", "f .", "0 f STO", "f .")
        sheet.add("4 f STO", "F f STO", "f .", "8 f STO", "f .", "7 f STO", "f .", "0 f STO 2 4 f STO F F F F F 8 f STO", "f .")
    sheet.add("f 3 0 f STO F F F F F F F F F F F F F F F F ENTER ENTER ENTER", "4 0 f STO", "RDN", "2 0 f STO", "RDN", "RDN", "RDN", "0 f STO", "f ENTER 1")
    sheet.add("1 4 f STO g 4 4 g 4 5", "1 5 f STO", "g 5 4", "1 6 f STO 2", "RDN", "f 2 1 0 f STO", "F F C 0 f STO", "f .", f"{size(16)} F F B F f STO", "f .")


def bits_up_and_down():
    return [8, 4, 16, 12, 1, 3, 5, 32, 64, 33, 7, 16]


@theme("word-size-and-registers", "a change of word size leaves memory as it is and divides it anew: nibbles of every register, also of words that fill no whole nibble", STORAGE)
def word_size_and_registers(sheet):
    sheet.add("f 3 1 2 3 4 STO 0", "5 6 7 8 STO 1", "9 A B C STO 2", "D E F 0 STO 3")
    for bits in bits_up_and_down():
        sheet.add(size(bits), "f 0", *(keys(f"RCL {register}") for register in "01237"))
        if bits > 32:
            sheet.add("RCL 0", "f ENTER 1")
    sheet.add(f"{size(8)} F F STO 0", "6 f STO", "RCL 0", "8 f STO", "RCL 0", "6 f STO", "3 F STO 0", "8 f STO", "RCL 0", "5 6 STO 1", "1 0 f STO", "RCL 0")
    sheet.add("F F F F STO 0", "9 f STO", "RCL 0", "RCL 1", "1 5 5 STO 0", "1 0 f STO", "RCL 0", "1 f STO", "RCL 0", "RCL 1", "1 STO 1 STO 2 0 STO 0", "HEX 0 f STO 1 0 f STO RCL 0")
    sheet.add("f 0", size(1), "f 0", size(4), "f 0", size(5), "f 0", size(64), "f 0", size(61), "f 0", size(60), "f 0")


def write_entry(sheet, base, digits, sizes):
    for mode, keys_of_mode in MODES.items():
        for bits in sizes if base == "DEC" or mode == "unsigned" else sizes[-1:]:
            sheet.add(f"{keys_of_mode} {size(bits)} {base}", *digits)


@theme("entry-hex", "digit entry in HEX: digits past the word are ignored", CONTROL)
def entry_hex(sheet):
    write_entry(sheet, "HEX", ["0 1 2 3", *"456789ABCDEF", "BSP", "BSP BSP", "ENTER", *"F0F", "g BSP F F", *"FFF"], [1, 5, 8, 32])
    sheet.add("0 f STO 8 9 A B C D E F 0 1 2 3 4 5 6 7", "8", "f ENTER 1", "BSP", "f ENTER 0", "F", "F")


@theme("entry-dec", "digit entry in DEC: A to F are ignored, and digits past the greatest number of the mode", CONTROL)
def entry_dec(sheet):
    write_entry(sheet, "DEC", ["A", "9", "F", "g BSP", *"12345", "BSP", "9", "g BSP 0 0 3 2 7", *"670", "g BSP 3 2 7", *"68", "g BSP 1 2", "7", "ENTER 1 2", *"8"], [1, 4, 8, 16])
    sheet.add("HEX 0 f STO DEC", " ".join("9223372036854775807"), "8", "f ENTER 1", "f ENTER 2", "g BSP", " ".join("9223372036854775808"), "f ENTER 1", "f 3")
    sheet.add("g BSP", " ".join("18446744073709551615"), "f ENTER 1", "f ENTER 2", "HEX", "DEC g BSP", " ".join("18446744073709551616"), "f ENTER 1")
    sheet.add("f 2 HEX 8 f STO DEC 1 2 8", "1 2 7", "g BSP f 1 1 2 7", "f 3", "g BSP 2 5 5", "g BSP 2 5 6")


@theme("entry-oct", "digit entry in OCT: 8, 9 and A to F are ignored, and digits past the word", CONTROL)
def entry_oct(sheet):
    write_entry(sheet, "OCT", ["8", "7", "9", "A", "F", "7", "7", "7", "BSP", "g BSP 1 2", *"345", "ENTER 3", *"77", "4"], [1, 4, 8, 16])
    sheet.add("HEX 0 f STO OCT", " ".join("1777777777777777777777"), "7", "f ENTER 1", "f ENTER 2", "g BSP", " ".join("2777777777777777777777"), "f ENTER 1")


@theme("entry-bin", "digit entry in BIN: digits from 2 on are ignored, and digits past the word", CONTROL)
def entry_bin(sheet):
    write_entry(sheet, "BIN", ["2", "F", "1", "0", "1", "1", "9", "1 0 0", "1", "1", "BSP", "BSP", "0", "ENTER", "1", "g BSP", "1"], [1, 4, 9])


@theme("ignored-digits", "an ignored digit changes nothing: entry, window and stack lift stay as they were", CONTROL)
def ignored_digits(sheet):
    sheet.add("f 3 HEX 8 f STO", "OCT 7 8", "1", "9 ENTER 8", "6", "RDN", "DEC 2 5 5 ENTER 9 A 9", "RDN", "RDN", "HEX 1 0 f STO 1 2 3 4 5", "BIN f ENTER 1", "2", "f ENTER 1 2", "0")
    sheet.add("f ENTER 1 1", "DEC 5 ENTER", "A", "6", "RDN", "BIN 1 ENTER", "2", "1", "RDN", "1 g BSP 3", "1", "RDN", "g ENTER 9 1", "f BIN 2", "1 1 f BIN", "2", "1", "f RCL 7", "7 1")


@theme("backspace", "`BSP` takes the last digit back, or clears X where no digit is left, and then the next number doesn't lift the stack", START)
def backspace(sheet):
    for base, digits in (("HEX", "1 2 F"), ("DEC", "1 2 9"), ("OCT", "1 2 7"), ("BIN", "1 0 1")):
        sheet.add(f"{base} g BSP", digits, "BSP", "BSP", "BSP", "BSP", "1", "ENTER", "BSP", digits, "RDN", "RDN")
        sheet.add("1 ENTER 1 BSP", "1", "RDN", "1 1 BSP", "ENTER 1 BSP 0", "RDN", "1 0 BSP", "BSP", "1", "RDN")
    sheet.add("HEX 1 0 BSP", "BSP", "3 ENTER 4 +", "BSP", "5", "RDN", "F 0 BSP 0", "BSP BSP 1 2", "RDN", "7 STO 1 BSP", "8", "RDN", "1 2 CHS BSP", "RDN", "0 BSP 1 RDN")
    sheet.add("DEC 9 BSP 1 1", "HEX A BSP", "1 0 BSP BSP", "BIN 1 0 BSP", "1", "f ENTER 1 BSP", "f ENTER 0", "1 0 f ENTER 1 BSP", "f ENTER 0", "HEX 1 2 g 4 0 BSP", "5 g BSP BSP 6")


@theme("bases-and-modes", "a change of base or mode changes no bit, no flag and no lift; numbers are shown as the base and the mode have them", CONTROL)
def bases_and_modes(sheet):
    for bits in (1, 4, 8):
        for word in words_of(bits)[:: 1 if bits < 8 else 3]:
            sheet.add(f"{size(bits)} {number(word)}", "f 1 DEC", "f 2", "f 3", "OCT", "BIN", "HEX")
    sheet.add("HEX 0 f STO 8 0 0 0 0 0 0 0 0 0 0 0 0 0 0 0", "DEC", "f ENTER 1", "f ENTER 2", "f ENTER 3", "f 2", "f ENTER 1", "f ENTER 2", "f ENTER 3", "f 1", "f ENTER 2", "OCT f ENTER 2")
    sheet.add("BIN f ENTER 7", "f ENTER 6", "HEX 8 f STO g 4 4 g 4 5 f 1", "DEC", "5 ENTER DEC 6", "RDN", "5 ENTER f 2 6", "RDN", "5 OCT 6", "RDN", "5 BSP HEX 7", "RDN", "1 f 3 2", "RDN")
    sheet.add("ENTER OCT 7", "RDN", "ENTER BIN 1", "RDN", "ENTER f 1 0", "RDN", "ENTER f 3 1", "RDN", "RDN")


# ---- the display


@theme("windows", "windows 0 to 7 of eight digits, `<` and `>` with their ends, the marks for digits on both sides, and what sets the window back", CONTROL)
def windows(sheet):
    sheet.add("f 3 0 f STO 1 2 3 4 5 6 7 8 9 A B C D E F 0")
    for base in ("HEX", "DEC", "OCT", "BIN"):
        sheet.add(base, *(f"f ENTER {window}" for window in range(8)), *["g RCL"] * 8, *["g STO"] * 8)
    sheet.add("f ENTER 3 HEX", "g STO", "g STO", "ENTER", "g STO", "x<>y", "g STO", "STO 1", "g STO", "RCL 1", "g STO", "g 4 0", "g STO", "F", "g STO", "0")
    sheet.add("F F F F F F F F 1", "g STO", "f .", "f BSP", "f 0", "f HEX", "f BIN", "f BSP", "BSP", "f BSP", "f f g", "f BSP", "9 9 9 9", "f ENTER 1 f ENTER 8", "f BSP", "/", "g STO 0 /", "f BSP")
    sheet.add("f ENTER 1 GTO 5", "f BSP", "f ENTER 1 GTO . 0 0 0", "f ENTER 1 f RDN", "f ENTER 1 g SST", "f ENTER 1 f RCL", "f BSP", "f ENTER 1 ON", "f ENTER 1 g R/S", "g R/S")
    sheet.add("f ENTER 1 SST", "f ENTER 1 g GSB", "f ENTER 1 R/S", "f ENTER 1 g 4 1", "f ENTER 1 f 3", "f ENTER 1 f HEX", "f BSP", "f ENTER 1 g x<>y", "f ENTER 1 g 0", "f ENTER 1 g GTO 0")
    sheet.add(program("LBL A", "WINDOW 1", "RTN", "LBL B", "WINDOW 2", "R/S", "LBL C", "<", "R/S"), "GSB A", "GSB B", "GSB C", "R/S", "GTO B SST", "SST", "GTO A SST SST", "SST", "f 2 f ENTER 1", "DEC f ENTER 2", "f ENTER 3")
    sheet.add("HEX 8 f STO f ENTER 1", "g 4 3 f ENTER 1", "F F f ENTER 1", "DEC f ENTER 1", "BIN f ENTER 1", "BIN", "g STO", "g RCL", "g RCL")


@theme("windows-after-operations", "every operation that isn't `WINDOW`, `<` or `>` sets the window to 0; one that errs leaves it, and so do commands", CONTROL)
def windows_after_operations(sheet):
    sheet.add("f 3 g 4 0 F STO 3 STO . 3", program("LBL A", "R/S"))
    for text in [*functions_that_leave_lift(), *"0123456789ABCDEF"]:
        sheet.add(f"HEX f 3 0 {keys('STO I')} 9 ENTER 0 ENTER 5 ENTER 1 f ENTER 1 {keys(text)}")
    sheet.add("HEX f 3 1 0 ENTER f ENTER 1 f STO", "f ENTER 1 g R/S g R/S", "0 g BSP f ENTER 1 /", "f BSP", "f ENTER 1 GTO B", "f BSP", "f ENTER 1 GSB B", "f BSP", "g R/S f RDN g R/S")
    sheet.add(program("/", "WINDOW 2", "GSB 1", "LBL 1", "WINDOW 1", "GTO 1"), "1 ENTER 0 GTO . 0 0 0 f ENTER 1 R/S", "f BSP", "GTO . 0 0 1 f ENTER 1 SST", "f BSP", "GTO . 0 0 2 SST", "SST", "SST", "SST", "SST")


@theme("leading-zeros", "flag 3 fills HEX, OCT and BIN with zeros to the word size, not DEC; zeros filled in count for windows", CONTROL)
def leading_zeros(sheet):
    for bits in (1, 2, 3, 4, 5, 9, 16, 33, 63, 64):
        sheet.add(f"f 3 {size(bits)} 1 g 4 3")
        for base in ("HEX", "DEC", "OCT", "BIN"):
            sheet.add(base, "g STO", "f ENTER 7")
        sheet.add("g 5 3", "HEX f .")
    sheet.add("f 2 8 f STO 5 CHS g 4 3", "DEC", "OCT", "g 5 3", "g 4 3 f DEC", "f OCT", "f BIN", "f HEX", "HEX 1", "1", "BSP", "ENTER 0 f STO", "f ENTER 1", "f ENTER 2")


@theme("show", "`SHOW` in four bases: window 0, and for one display; it ends digit entry and keeps the window", CONTROL)
def show(sheet):
    for keys_of_mode in MODES.values():
        sheet.add(f"{keys_of_mode} {size(8)} 9 6")
        for base in ("HEX", "DEC", "OCT", "BIN"):
            sheet.add(base, *(keys(f"SHOW {other}") for other in ("HEX", "DEC", "OCT", "BIN")), "f BSP")
        sheet.add("HEX F F f DEC", "8 0 f DEC", "7 F f BIN", "0 f DEC", "1 f HEX", "2", "RDN")
    sheet.add("f 3 0 f STO 1 2 3 4 5 6 7 8 9 A B C", "f ENTER 1", "f HEX", "f BSP", "f BIN", "f OCT", "f DEC", "f BSP", "f HEX f", "f BSP", "f HEX g", "f BSP", "f HEX STO", "f HEX ENTER", "f HEX CHS")
    sheet.add("g 4 4 g 4 5 f DEC", "g 4 3 f HEX", "g R/S f HEX", "+", "f BIN", "f BSP", "g R/S", "5 ENTER f HEX 6", "RDN", "5 f HEX 6", "RDN", "g BSP f HEX 6", "RDN")


@theme("status", "`STATUS` shows mode, word size and flags 3 to 0, and ends digit entry", CONTROL)
def status(sheet):
    for keys_of_mode in MODES.values():
        for bits in (1, 4, 9, 10, 16, 32, 63, 64):
            sheet.add(f"{keys_of_mode} {size(bits)} f .")
    for flag in range(6):
        sheet.add(f"g 4 {flag} f .", "f BSP", f"g 5 {flag} f .")
    sheet.add("g 4 0 g 4 2 f .", "g 4 1 g 5 0 f .", "g 4 3 g 5 2 f .", "1 f . 2", "RDN", "1 g R/S f .", "2", "f .", "g R/S", "f .", "f f .", "g f .", "f g .", "f .")


@theme("memory-view", "`MEM` shows program bytes left in the last block and the number of registers, at every word size's nibbles and with programs of 0, 1, 7, 8 and 14 lines", STORAGE)
def memory_view(sheet):
    sheet.add("f 0", "1 f 0 2", "RDN")
    for bits in (1, 4, 5, 8, 9, 12, 13, 16, 17, 20, 28, 32, 36, 40, 48, 52, 56, 60, 61, 64):
        sheet.add(f"{size(bits)} f 0")
    sheet.add(size(16), "g R/S f 0")
    for _ in range(16):
        sheet.add("+", "f 0")
    for _ in range(16):
        sheet.add("BSP", "f 0")
    sheet.add("+ - f RDN", "f 0", "g R/S f 0", size(4) + " f 0", "g R/S + g R/S f 0", size(64) + " f 0", "f RDN f 0", "g R/S f RDN f 0 g R/S", "f 0")


# ---- the stack


@theme("stack-moves", "`ENTER`, `RDN`, `RUP`, `x<>y`, `CLX` and `LSTX`, seen through all four registers", STACK)
def stack_moves(sheet):
    sheet.add("1 ENTER 2 ENTER 3 ENTER 4", *["RDN"] * 5, *["g RDN"] * 5, "x<>y", *["RDN"] * 4, "ENTER", *["RDN"] * 4, "+", *["RDN"] * 4, "g ENTER", *["RDN"] * 4)
    sheet.add("g BSP", *["RDN"] * 4, "7 ENTER", "8 +", *["RDN"] * 4, "-", *["RDN"] * 4, "*", *["RDN"] * 4, "1 ENTER 2 ENTER 3 ENTER 4 f *", *["RDN"] * 4, "f +", *["RDN"] * 4)


def functions_that_leave_lift():
    """Each kind of operation, with what prepares it."""
    return [
        *("+ - * / RMD CHS ABS RDN RUP x<>y LSTX SL SR ASR RL RR RLC RRC RLN RRN RLCN RRCN LJ MASKL MASKR #B SB CB B? NOT AND OR XOR "
          "SQRT DBL* DBL/ DBLR ENTER CLX HEX 1'S 2'S UNSGN CLREG x<=y x<0 x>y x>0 x!=y x!=0 x=y x=0 DSZ ISZ PSE < >").split(),
        *"SF 0,CF 0,F? 0,LBL 0,WINDOW 0,STO 3,RCL 3,STO .3,RCL .3,STO I,RCL I,STO (i),RCL (i),x<>I,x<>(i),GTO A,GSB A,RTN,R/S".split(","),
    ]


@theme("stack-lift", "which operations enable, disable and leave stack lift, each from both states: the number entered next pushes the stack or doesn't", STACK)
def stack_lift(sheet):
    sheet.add("f 3 g 4 0", program("LBL A", "R/S"))
    for text in functions_that_leave_lift():
        for state in ("ENTER", "x<>y x<>y"):
            sheet.add(f"0 {keys('STO I')} 9 ENTER 5 ENTER 0 ENTER 1 {state} {keys(text)} HEX 6", "RDN", "RDN")


@theme("stack-lift-of-commands", "stack lift after commands, views, prefixes, runs and errors: they leave it, but for `BSP`", STACK)
def stack_lift_of_commands(sheet):
    sheet.add(program("LBL A", "RTN"))
    others = ["f .", "f 0", "f HEX", "f BSP", "f RCL", ".", "GTO . 0 0 0", "GTO . 9 9 9", "GTO A", "GTO B", "GSB A", "g GSB", "R/S", "SST", "g SST", "f RDN", "ON", "STO +", "g R/S g R/S", "BSP", "/", "f 0 f STO"]
    for other in others:
        for state in ("ENTER", "x<>y x<>y"):
            sheet.add(f"9 ENTER 5 ENTER 0 {state} {other} 6", "RDN", "RDN")
    sheet.add(size(16), "9 ENTER 8 ENTER f STO 5", "RDN", "9 ENTER 8 x<>y x<>y f STO 5", "RDN")


@theme("last-x", "which operations save LAST X and which leave it; one that errs leaves it", STACK)
def last_x(sheet):
    sheet.add("f 3 g 4 0", program("LBL A", "R/S"))
    for text in functions_that_leave_lift():
        sheet.add(f"0 {keys('STO I')} 3 ENTER 4 + 7 ENTER 5 ENTER 0 ENTER 1 {keys(text)} HEX", "g ENTER")
    for text in ("/", "RMD", "DBL/", "DBLR"):
        sheet.add(f"3 ENTER 4 + 7 ENTER 0 {keys(text)}", "g ENTER")
    sheet.add("f 2 3 ENTER 4 + 1 CHS g OCT", "g ENTER", "f 3 F F F F f 7", "g ENTER", "F F g ENTER", "8 f STO", "g ENTER", "1 0 f STO g ENTER", "GTO . 1 1 1 g ENTER")


# ---- flags and tests


@theme("flags", "`SF`, `CF` and `F?` of flags 0 to 5: what each shows, and that `F?` skips where the flag is clear", BRANCHING)
def flags(sheet):
    sheet.add(program("LBL A", *(line for flag in range(6) for line in (f"F? {flag}", f"GSB {flag}")), "RTN", *(line for flag in range(6) for line in (f"LBL {flag}", f"RCL {flag}", "OR", "RTN"))))
    for flag in range(6):
        sheet.add(f"{number(1 << flag)} STO {flag}")
    for flag in range(6):
        sheet.add(f"g 4 {flag}", "g BSP GSB A", f"g 5 {flag}", "g BSP GSB A", f"g 4 {flag}", f"g 4 {flag} f .")
    for flag in range(6):
        sheet.add(f"g 5 {flag}", "g BSP GSB A", f"g 6 {flag}", "f .")
    sheet.add("g 4 4 7 F F F ENTER 1 +", "7 F F F ENTER 1 +", "g 6 6", "g 4 6", "g 5 F", "g 4 f 1", "f .")


TEST_PROGRAMS = {
    "tests-of-two-numbers": ("`x<=y`, `x>y`, `x!=y` and `x=y` on values of each mode: flags 0 to 3 show which are true; -0 equals 0", ["x<=y", "x>y", "x!=y", "x=y"]),
    "tests-against-zero": ("`x<0`, `x>0`, `x!=0` and `x=0` in each mode: flags 0 to 3 show which are true; -0 is zero", ["x<0", "x>0", "x!=0", "x=0"]),
}


def write_tests(sheet, tests):
    lines = [line for flag, text in enumerate(tests) for line in (f"CF {flag}", text, f"SF {flag}")]
    sheet.add(program("LBL A", *lines, "RTN"))
    for keys_of_mode in MODES.values():
        for bits in (1, 4, 8, 64):
            sheet.add(f"{keys_of_mode} {size(bits)}")
            for y, x in corner_pairs(bits):
                sheet.add(f"{numbers(y, x)} GSB A f .")
    sheet.add("f BSP", *map(keys, tests), "f .")


def lines_of_tests():
    for name, (says, tests) in TEST_PROGRAMS.items():
        theme(name, says, BRANCHING)(lambda sheet, t=tests: write_tests(sheet, t))


lines_of_tests()


# ---- registers


@theme("registers", "`STO` and `RCL` of registers 0 to F and .0 to .F, at 16 and 8 bits", STORAGE)
def registers(sheet):
    names = [*"0123456789ABCDEF", *(f".{digit}" for digit in "0123456789ABCDEF")]
    for bits in (16, 8):
        sheet.add(size(bits))
        for place, name in enumerate(names):
            sheet.add(f"{number(0x51 + place * 5)} {keys(f'STO {name}')}")
        sheet.functions(*(f"RCL {name}" for name in names))
    sheet.add(size(64), "STO F", "STO . 8", "STO . 9", "RCL . 8", "RCL . 9", "STO f 3", "RCL f f 3", "STO f . 3", "RCL . f 3", "RCL . 3", "f RDN RCL g 3")
    sheet.add("1 2 STO 3 ENTER", "RCL 3", "RDN", "RDN", "RDN", "1 STO 2 3", "RDN")


@theme("registers-through-the-index", "`STO (i)`, `RCL (i)` and `x<>(i)`: the whole of RI names the register, Error 3 from the number of registers on", STORAGE)
def registers_through_the_index(sheet):
    for bits in (16, 4, 1, 12):
        count = 406 // ((bits + 3) // 4)
        for register in (1, 32, count - 1, count, 256, 512):
            word = (register * 7 + 5) % (1 << bits)
            sheet.add(f"{size(64)} {number(register)} {keys('STO I')} {size(bits)} {number(word)}", keys("STO (i)"), f"g BSP {keys('RCL (i)')}")
            sheet.add(f"{number((word + 1) % (1 << bits))} {keys('x<>(i)')}", keys("RCL (i)"))
    sheet.add(f"{size(64)} 1 0 0 0 0 0 0 0 0 0 0 0 0 0 0 1 STO SST", size(16), "RCL SST", "STO R/S", "RCL R/S", "f GSB", f"{size(64)} 1 STO SST {size(16)}", "7 STO R/S", "RCL 1", "STO f R/S", "RCL f R/S")
    sheet.add("3 STO SST 5 ENTER 6 STO R/S", "9 f GSB", "RDN", "RDN", "RCL R/S", "1 f GSB 2", "RDN")


@theme("index-register", "`STO I`, `RCL I` and `x<>I`: RI has 64 bits, is cut to the word on recall, and keeps its upper bits until it is written", STORAGE)
def index_register(sheet):
    for bits in (64, 32, 16, 8, 4, 1):
        word = 0xFEDCBA9876543210 % (1 << bits)
        sheet.add(f"{size(64)} F 0 F 1 F 2 F 3 F 4 F 5 F 6 F 7 STO SST", f"{size(bits)} RCL SST", f"{number(word)} f GTO")
        sheet.result(bits, "RCL SST")
        sheet.result(bits, f"{size(64)} RCL SST")
        sheet.add("f ENTER 1", f"{size(64)} F F F F F F F F F F F F F F F F STO SST", f"{size(bits)} 1 STO SST", f"{size(64)} RCL SST", "f ENTER 1")
    sheet.add(size(16), "5 STO SST 6", "RCL SST", "RDN", "RDN", "9 f GTO", "RDN", "RDN", "RCL SST", "1 f GTO 2", "RDN", "RCL f SST", "STO f SST 4", "f x<>y RCL SST")


@theme("clear-registers", "`CLREG` clears every register and leaves RI, the stack, the program and the flags", STORAGE)
def clear_registers(sheet):
    sheet.add("1 2 STO 0 STO 1 STO . F", "6 4 STO SST 3 3 STO R/S", program("LBL A", "1", "RTN"), "6 1 STO SST 3 4 STO R/S", "RCL R/S", "g 4 1 g 4 4 f x<>y", "RCL 0", "RCL 1", "RCL . F", "RCL R/S", "RCL SST", "f .", "GSB A", "5 f x<>y 6", "RDN")
    sheet.add("F F F F STO 0", "4 f STO f x<>y", "RCL 3", "HEX 0 f STO 1 0 f STO RCL 0", "RCL 1")


# ---- prefixes and the keyboard


@theme("prefixes", "shift keys, pending prefixes, keys that are dropped with them, `CLEAR PREFIX` and `ON`", START)
def prefixes(sheet):
    sheet.add("f", "f", "g", "g", "f", "f BSP", "f g", "f BSP", "g f", "f BSP", "f R/S", "f SST", "1 2", "f R/S", "3")
    dropped = {
        "STO": "+ g . ENTER BSP RCL", "STO f": "+ g GSB", "STO .": "+ . SST R/S f g", "RCL": "ENTER g STO", "RCL .": "g SST R/S f .",
        "GTO": "+ R/S g GTO", "GTO .": "A F f . SST", "GTO . 0": "A f .", "GTO . 0 0": "A f SST", "GSB": "GSB R/S . g", "g GTO": "f g SST . +",
        "g 4": "6 7 9 A F f . SST", "g 5": "6 A f .", "g 6": "6 A f .", "f ENTER": "8 9 A F f . SST", "f": "R/S SST BSP",
    }
    for prefix, others in dropped.items():
        for other in others.split():
            sheet.add(f"g BSP 3 {prefix} {other}", "4")
    sheet.add("g BSP 1 STO 2 STO f 3 STO f f f 4", "RCL f 4", "5 STO", "f", "5", "RCL 5", "RCL 2", "STO SST f BSP", "E")
    for pending in ("f", "g", "STO", "STO f", "STO .", "RCL", "RCL .", "GTO", "GTO .", "GTO . 0", "GTO . 0 0", "GSB", "g GTO", "g 4", "g 5", "g 6", "f ENTER"):
        sheet.add(f"g BSP 3 {pending} ON", "4", f"g BSP 3 {pending} f BSP", "5", f"g R/S {pending}", "ON")
        sheet.add(f"g BSP 2 {pending} f", "f", "1", "f BSP ON")
    sheet.add("STO STO 1 2", "RCL STO 1 2", "g R/S", "+ f", "g", "f BSP", "STO", "f BSP", "f R/S", "GTO .", "STO", "f SST", "g BSP", "ON", "RCL f f SST")


@theme("listing", "each of the 225 operations entered as a program line and shown as text", PROGRAMS)
def listing(sheet):
    sheet.add("g R/S")
    for place, text in enumerate(TEXTS):
        sheet.add(keys(text))
        if place == 199:
            sheet.add("f RDN", "ON", "g R/S")
    sheet.add("STO f SST", "RCL f R/S", "GTO f SST", "GSB f SST", "GTO f 3", "STO f 3", "ON", "f 0")


@theme("pressed-keys", "each operation pressed once from a filled stack: X, and what a pressed test or `LBL` doesn't do", START)
def pressed_keys(sheet):
    for text in TEXTS:
        if text.split()[0] not in ("GTO", "GSB", "R/S", "RTN"):
            sheet.add(f"HEX f 2 1 5 f STO g 5 3 g 5 4 g 5 5 2 STO SST 6 ENTER 9 ENTER 5 ENTER 3 {keys(text)}")


@theme("on", "`ON` drops the prefix, ends digit entry and leaves program mode; all else stays", START)
def on(sheet):
    sheet.add("1 ON 2", "RDN", "g R/S ON", "g R/S + ON", "g R/S", "ON", "f ON", "g ON", "STO ON 1", "5 ENTER ON 6", "RDN", "f ENTER 1 ON", "g 4 4 ON", "DEC ON", "HEX 8 f STO f 3 ON f .", "f . ON", "/ ON", "0 / ON")
    sheet.add(program("LBL A", "GSB B", "7", "R/S", "LBL B", "R/S", "9", "RTN"), "GSB A", "ON R/S", "1 0 BSP ON BSP", "2", "RDN")


# ---- programs


@theme("program-runs", "`R/S`, `GSB`, `RTN`, `PSE` and `SST` over whole programs: where a run begins and ends, and the line after it", PROGRAMS)
def program_runs(sheet):
    sheet.add("R/S", "SST", "g R/S", "g R/S", program("LBL A", "1", "PSE", "2", "R/S", "3", "RTN", "4"))
    sheet.add("R/S", "g R/S", "g R/S", "R/S", "g R/S", "g R/S", "GTO . 0 0 7 R/S", "g R/S", "g R/S", "GTO . 0 0 8 R/S", "g R/S", "g R/S", "R/S", "g R/S g R/S", "GSB A", "g R/S", "g R/S", "g GSB", "g R/S", "g R/S")
    sheet.add("GTO . 0 0 0", *["SST"] * 9, "g R/S", "g R/S", "GTO . 0 0 8 SST", "g R/S", "g R/S", "GTO . 0 0 8 SST SST", "g R/S", "g R/S", "5 R/S", "RDN", "5 6 SST", "RDN", "GTO A 1 R/S 2", "RDN")
    sheet.add("g R/S f RDN g R/S", "7 R/S 8", "RDN", "7 SST 8", "RDN", "7 ENTER R/S 8", "RDN", "g BSP SST 8", "RDN", program("1", "2"), "R/S", "5 R/S", "GTO . 0 0 0 5 SST", "RDN", "GTO . 0 0 0 g BSP SST SST", "SST", "g R/S g R/S", "g BSP R/S", "GTO . 0 0 1 R/S", "GTO . 0 0 2 R/S")
    sheet.add("g R/S f RDN g R/S", program("+", "-"), "1 ENTER 2 ENTER 3 R/S", "RDN", "g R/S g R/S", "1 ENTER 2 ENTER 3 SST 4", "RDN", "SST", "SST", "SST")


@theme("labels", "GTO and GSB search from the line number to the end and then from the top; the nearest of two equal labels; labels 0 to F", BRANCHING)
def labels(sheet):
    sheet.add(program("LBL A", "1", "R/S", "LBL A", "2", "R/S", "LBL A", "3", "R/S", "LBL B", "4", "R/S"))
    for line in range(13):
        sheet.add(f"GTO . {' '.join(f'{line:03}')}", "GTO A g R/S", "g R/S", f"GTO . {' '.join(f'{line:03}')} g BSP GSB A", "GSB B")
    sheet.add("GTO . 0 0 0 GTO C", "GSB C", "g R/S", "g R/S", "GTO B GTO B g R/S", "g R/S", "GTO . 0 1 2 SST", "GTO B g R/S", "g R/S", "GTO . 0 1 2 SST GTO C", "g R/S", "g R/S")
    sheet.add("g R/S f RDN g R/S", program("LBL 0", "1", "GTO 1", "LBL 2", "3", "RTN", "LBL 1", "2", "GTO 2"), "GSB 0", "RDN", "RDN", "GTO 1 SST", "SST", "SST g R/S", "g R/S")
    sheet.add("g R/S f RDN g R/S", program(*(line for digit in "0123456789ABCDEF" for line in (f"LBL {digit}", digit, "RTN"))))
    for digit in "0123456789ABCDEF":
        sheet.add(f"GSB {digit}", f"GTO {digit} g R/S", "g R/S")
    sheet.add("g R/S f RDN g R/S", program("LBL 3", "GTO 3"), "GTO 3", "SST SST g R/S", "g R/S", "GTO . 0 0 2 SST", "g R/S", "g R/S")
    sheet.add("g R/S f RDN g R/S", program("LBL 3", "1", "RTN", "GTO 3", "LBL 3", "2", "RTN"), "GTO . 0 0 4 R/S", "GTO . 0 0 3 R/S", "GTO . 0 0 1 GSB 3", "GTO . 0 0 0 GSB 3", "GTO . 0 0 5 GSB 3", "GTO . 0 0 7 GSB 3")


@theme("labels-through-the-index", "`GTO I` and `GSB I`: RI from 0 to 15 names the label, Error 4 above it or with no such label", BRANCHING)
def labels_through_the_index(sheet):
    sheet.add(program("LBL 0", "3", "RTN", "LBL F", "4", "RTN", "LBL 9", "GSB I", "6", "RTN", "LBL 8", "GTO I"))
    for index in ("0", "F", "1 0", "1", "1 F", "F F F F", "1 0 0"):
        sheet.add(f"{index} STO SST", "GSB SST", "GTO SST g R/S", "g R/S", "GSB 9", "g R/S", "g R/S", "GSB 8", "g R/S", "g R/S")
    sheet.add(f"{size(64)} 1 0 0 0 0 0 0 0 0 0 0 0 0 0 0 0 STO SST", size(16), "RCL SST", "GSB SST", "GTO f SST", "0 STO SST GTO f SST", "GSB f SST", "GSB SST 5", "RDN")


@theme("subroutines", "pending returns: four deep, Error 5 for the fifth, looked at after Error 4; what clears them and what keeps them", SUBROUTINES)
def subroutines(sheet):
    sheet.add(program("LBL 0", "0", "GSB 1", "A", "R/S", "LBL 1", "1", "GSB 2", "B", "RTN", "LBL 2", "2", "GSB 3", "C", "RTN", "LBL 3", "3", "GSB 4", "D", "RTN", "LBL 4", "4", "F? 0", "GSB 5", "E", "RTN", "LBL 5", "5", "F? 1", "GSB 6", "F", "RTN"))
    sheet.add("GSB 0", "RDN", "RDN", "g R/S", "g R/S", "g 4 0 GSB 0", "RDN", "g R/S", "g R/S", "g 4 1 GSB 0", "g R/S", "g R/S", "GSB 1", "g R/S", "g R/S", "GSB 2", "g R/S g R/S", "g 5 1 GSB 1", "GSB 2")
    sheet.add("g R/S f RDN g R/S g 5 0", program("LBL 0", "GSB 0"), "GSB 0", "g R/S", "g R/S", "R/S", "SST", "GTO 0", "SST SST", "SST SST", "SST SST", "SST SST", "SST SST", "f BSP", "GSB 0")
    pending = ["LBL A", "GSB B", "7", "R/S", "LBL B", "R/S", "9", "RTN"]
    others = ["f BSP", "GTO B", "GTO 5", "GTO . 0 0 6", "GTO . 9 9 9", "g GSB", "g SST", "f RDN", "ON", "g R/S g R/S", "g R/S BSP g R/S", "g R/S + g R/S", "SST", "f .", "1", "CHS", "g R/S GTO . 0 0 0 BSP g R/S", "GSB B", "GSB 5", "g R/S SST g R/S", "g R/S g SST g R/S"]
    for other in others:
        sheet.add(f"g R/S f RDN g R/S {program(*pending)} g BSP GSB A {other}", "GTO . 0 0 7" if other == "none" else "f BSP", "R/S", "g R/S", "g R/S R/S", "g R/S", "g R/S")
    sheet.add("g R/S f RDN g R/S", program("GSB 1", "RTN", "LBL 1", "1", "RTN"), "GTO . 0 0 0 R/S", "g R/S g R/S", "SST SST SST", "g R/S g R/S", "SST g R/S", "g R/S", "SST g R/S", "g R/S")


@theme("program-errors", "an error in a run stops it at its line, changes nothing else and ends digit entry; `SST` and `R/S` from there", BRANCHING)
def program_errors(sheet):
    sheet.add(program("LBL A", "1", "ENTER", "0", "/", "3", "R/S", "LBL B", "GTO C", "LBL D", "SQRT", "LBL E", "STO .F", "LBL F", "MASKL"))
    sheet.add("GSB A", "f BSP", "g R/S", "g R/S", "SST", "g R/S", "g R/S", "R/S", "5", "R/S", "RDN", "GSB B", "g R/S", "g R/S", "f 2 1 CHS GSB D", "g R/S", "g R/S", "0 f STO GSB E", "g R/S", "g R/S", "RCL . 8", "1 0 f STO 7 0 GSB F", "g R/S", "g R/S")
    sheet.add("GTO . 0 0 0 g BSP 1", "2", "GTO A", "2", "GTO 9", "2", "RDN", "1 GTO 9 2", "RDN", f"{size(64)} 1 STO . F", "2", "RDN", f"{size(16)} 1 ENTER 0 / 2", "RDN", "1 ENTER 0 / BSP", "1 ENTER 0 / CHS", "g R/S f RDN / g R/S", "1 ENTER 0 SST", "g R/S g R/S", "1 ENTER 0 R/S", "SST", "f BSP", "5 SST", "g R/S g R/S")
    sheet.add("g R/S f RDN 1 2 g R/S R/S", "g R/S f RDN 1 STO . F 2 g R/S", f"{size(64)} 7 R/S", "3", "RDN", "GTO . 0 0 0 8 R/S", "3", "RDN", "RDN", "GTO . 0 0 0 9 SST SST", "3", "RDN", "RDN", "g R/S g R/S")


@theme("conditional-skips", "tests, `F?`, `B?`, `DSZ` and `ISZ` skip one line, over the last line to the `RTN` past the end too", BRANCHING)
def conditional_skips(sheet):
    sheet.add(program("LBL A", "x=0", "7", "x=0"), "0 GSB A", "g R/S g R/S", "GTO A", "SST", "SST", "SST g R/S", "g R/S", "1 GSB A", "GTO A 1 SST SST g R/S", "g R/S", "1 SST g R/S", "g R/S", "SST g R/S", "g R/S", "SST", "g R/S g R/S")
    sheet.add("1 GTO . 0 0 3 SST SST g SST", "g R/S", "g R/S", "1 GTO . 0 0 3 SST SST g SST g SST", "g R/S", "g R/S")
    for text in ("x=0", "x!=0", "F? 0", "B?", "DSZ", "ISZ"):
        sheet.add(f"g R/S f RDN g R/S {program('LBL A', text)}", "1 STO SST 4 ENTER 2 GSB A", "g R/S", "g R/S", "1 STO SST 4 ENTER 1 GTO A SST SST", "g R/S", "g R/S", "R/S", "g R/S g R/S", "GTO . 0 0 2 SST SST", "g R/S g R/S")
    sheet.add(f"g R/S f RDN g R/S {program('LBL A', 'x=0', 'x!=0', '5', '6', 'RTN')}", "0 GSB A", "1 GSB A", "RDN", "0 GTO A SST SST SST g R/S", "g R/S")


@theme("loops", "`DSZ` and `ISZ` in each mode: RI modulo the word, less or plus one, the skip where the value is 0 (-0 too), 1 and w bits", BRANCHING)
def loops(sheet):
    sheet.add(program("LBL 0", "CF 0", "DSZ", "SF 0", "RTN", "LBL 1", "CF 0", "ISZ", "SF 0", "RTN"))
    for keys_of_mode in MODES.values():
        for bits in (1, 8, 64):
            patterns = 1 << bits
            sheet.add(f"{keys_of_mode} {size(bits)}")
            for index in dict.fromkeys(index % patterns for index in (0, 1, 2, patterns - 1, patterns - 2, patterns // 2, patterns // 2 - 1)):
                for label in "01":
                    sheet.add(f"{number(index)} STO SST GSB {label} f .", "RCL SST")
    sheet.add(f"f 3 {size(64)} 1 0 1 STO SST", f"{size(8)} GSB 0 f .", "RCL SST", f"{size(64)} RCL SST", "1 F F STO SST", f"{size(8)} GSB 1 f .", f"{size(64)} RCL SST", "1 0 0 STO SST", f"{size(8)} GSB 0 f .", f"{size(64)} RCL SST")
    sheet.add("g HEX", "RCL SST", "g DEC", "RCL SST", f"{size(16)} g R/S f RDN g R/S", program("LBL A", "1", "+", "DSZ", "GTO A", "RTN"), "5 STO SST 0 GSB A", "RCL SST", "0 STO SST 1 GTO A SST SST SST SST", "RCL SST", "g 4 4 g 4 5 0 STO SST g HEX", "g DEC", "f .")


@theme("editing", "program lines inserted after the line shown, deleted with `BSP`, walked with `SST` and `BST`, and `CLEAR PRGM` in both modes", EDITING)
def editing(sheet):
    sheet.add("g R/S", "SST", "g SST", "BSP", "f RDN", "1", "SST", "SST", "g SST", "g SST", "BSP", "BSP", "+", "-", "*", "/", *["g SST"] * 5, *["SST"] * 6, "ENTER", "SST", "BSP", "SST", "BSP", "BSP", "BSP", "BSP", "BSP", "BSP")
    sheet.add("1", "2", "3", "g SST", "BSP", "4", "g SST", "g SST", "5", "g R/S", "R/S", "g R/S", "SST SST", "BSP BSP", "SST", "SST", "g R/S", "g R/S", "g R/S g SST", "g SST", "g R/S", "g R/S", "g SST g SST", "g R/S", "g R/S", "GTO . 0 0 1 g SST", "g R/S g R/S")
    sheet.add("GTO . 0 0 2 f RDN", "g R/S", "g R/S", "g R/S f RDN", "f 0", "g R/S", "f 0", "g SST", "g R/S", "g R/S")
    sheet.add("g R/S 0 STO 1 g GTO 2 GSB 3 g R/S", "g SST", "g R/S", "SST", "BSP", "BSP", "SST", "ON", "7 g SST 8", "RDN", "7 f RDN 8", "RDN", "7 g R/S g R/S 8", "RDN", "7 GTO . 0 0 0 8", "RDN", "7 GTO . 9 9 9", "8", "RDN")
    sheet.add("g R/S SST SST SST SST g R/S", "SST", "g R/S", "g R/S", "5 g R/S 6 g R/S 7", "RDN")


@theme("go-to-line", "`GTO . nnn` in both modes: the line, Error 4 past the last line, digits in all three places", EDITING)
def go_to_line(sheet):
    lines = [f"STO {digit}" for digit in "0123456789ABCDEF"] * 8
    sheet.add(program(*lines))
    for line in ("000", "001", "002", "009", "010", "011", "099", "100", "101", "127", "128", "129", "200", "203", "204", "999", "120", "012"):
        sheet.add(f"GTO . {' '.join(line)}", "g R/S", f"GTO . {' '.join(line)}", "g SST", "g R/S")
    sheet.add("g R/S GTO .", "0", "0", "5", "GTO . 1 f BSP", "BSP", "GTO . ON", "GTO . 0 0 5 4", "RDN")


@theme("full-memory", "203 lines fill memory: one more is Error 4 and changes nothing, no register is left (Error 3), and bytes come back in blocks of seven", EDITING)
def full_memory(sheet):
    sheet.add("g R/S")
    sheet.add(*["+ - + - + - +"] * 28, "+ - + - + -", "f 0", "*", "f 0", "*", "f BSP", "STO 1", "g SST", "ENTER", "f 0", "GTO . 0 0 0", "/", "f BSP", "GTO . 2 0 3", "GTO . 2 0 4", "g R/S", "STO 0", "RCL 0", "1 STO SST RCL R/S")
    sheet.add("f GSB", "f x<>y", "g R/S", "BSP", "f 0", "/", "f 0", "BSP BSP BSP BSP BSP BSP BSP", "f 0", "g R/S RCL 0", "STO 0", "RCL 0", "STO 3", "f STO", size(64) + " f 0", "RCL 0", size(4) + " f 0", size(16), "g R/S + + + + + + + + g R/S f 0", "STO 0")
    sheet.add("g R/S GTO . 0 0 1", "f 0", "BSP", "f 0", "GTO . 2 0 2", "f RDN", "f 0", "g R/S", "STO 0", "RCL . F", "f 0")


@theme("bytes-that-change-owner", "registers whose bytes become the program's are Error 3, and read as zero when the bytes come back", STORAGE)
def bytes_that_change_owner(sheet):
    sheet.add("4 f STO f 3", size(64) + " 1 9 5 STO SST " + size(4), "F STO R/S", "RCL R/S", size(64) + " 1 8 7 STO SST " + size(4), "E STO R/S")
    for index in ("1 8 7", "1 8 8", "1 8 9", "1 9 5", "1 8 6"):
        sheet.add(f"{size(64)} {index} STO SST {size(4)} 9 STO R/S", "RCL R/S")
    sheet.add("g R/S + g R/S f 0")
    for index in ("1 8 6", "1 8 7", "1 8 8", "1 8 9", "1 9 5"):
        sheet.add(f"{size(64)} {index} STO SST {size(4)} RCL R/S")
    sheet.add("g R/S + + + + + + g R/S f 0", f"{size(64)} 1 8 7 STO SST {size(4)} RCL R/S", "5 STO R/S g R/S + g R/S f 0", "RCL R/S", "g R/S BSP g R/S f 0", "RCL R/S", "6 STO R/S", "g R/S BSP BSP BSP BSP BSP BSP BSP g R/S f 0", "RCL R/S")
    for index in ("1 8 6", "1 8 7", "1 8 8", "1 8 9", "1 9 5"):
        sheet.add(f"{size(64)} {index} STO SST {size(4)} RCL R/S", "7 STO R/S")
    sheet.add("g R/S + + + + + + + + f RDN g R/S f 0")
    for index in ("1 7 9", "1 7 A", "1 7 B", "1 8 6", "1 8 7", "1 8 8", "1 8 9", "1 9 5"):
        sheet.add(f"{size(64)} {index} STO SST {size(4)} RCL R/S")
    sheet.add("F STO 0 g R/S + g R/S RCL 0", "f x<>y RCL 0")


@theme("run-limit", "a run of 100,000 lines without an end is Error 8: the line is the next one, and what was done stays", NONE)
def run_limit(sheet):
    sheet.add(program("LBL 0", "GTO 0"), "GSB 0", "f BSP", "g R/S", "g R/S", "g R/S f RDN g R/S")
    sheet.add(program("LBL 0", "ISZ", "GTO 0"), size(64), "0 STO SST GSB 0", "RCL SST", "g R/S", "g R/S g R/S f RDN g R/S")
    sheet.add(program("LBL 0", "DSZ", "GTO 0", "R/S"), "8 2 3 5 STO SST GSB 0", "g R/S g R/S", "8 2 3 6 STO SST GSB 0", "RCL SST", "g R/S", "f RDN g R/S")
    sheet.add(program("LBL 1", "LBL 0", "DSZ", "GTO 0", "R/S"), "8 2 3 5 STO SST GSB 1", "g R/S g R/S f RDN g R/S", program("LBL 1", "LBL 2", "LBL 0", "DSZ", "GTO 0", "R/S"))
    sheet.add("8 2 3 5 STO SST GSB 1", "RCL SST", "g R/S", "g R/S", "R/S", "g R/S f RDN g R/S", program("LBL 0", "7", "GTO 0"), "GSB 0", "f BSP", "8")


@theme("pressed-jumps", "pressed `GTO`, `GSB`, `RTN`, `R/S`, tests and `LBL`: they end digit entry, keep the line where they should, and clear pending returns", BRANCHING)
def pressed_jumps(sheet):
    sheet.add(program("LBL A", "1", "RTN", "LBL B", "x=0", "2", "3", "R/S"))
    for text in ("x=0", "x!=0", "F? 0", "LBL A", "PSE", "DSZ", "ISZ", "B?", "CHS", "ENTER"):
        sheet.add(f"GTO B 1 ENTER 1 {keys(text)}", "g R/S", "g R/S")
    sheet.add("4 GTO A 5", "RDN", "4 g GSB 5", "RDN", "4 GSB A", "4 GSB A 5", "RDN", "RDN", "4 R/S 5", "RDN", "GTO B R/S", "g GSB g R/S", "g R/S", "GTO 7 g R/S", "g R/S", "1 GTO 7 5", "RDN", "GSB 7", "f BSP", "GTO B GSB 7", "g R/S", "g R/S", "GTO B SST SST", "g R/S", "g R/S")


# ---- errors


@theme("error-0", "Error 0 by each of its causes, and that it changes nothing but digit entry", ERRORS)
def error_0(sheet):
    for mode, keys_of_mode in MODES.items():
        sheet.add(f"{keys_of_mode} {size(8)} g 4 4 g 4 5")
        zeros = ["0", "F F"] if mode == "ones" else ["0"]
        for zero in zeros:
            for text in ("/", "RMD", "DBL/", "DBLR"):
                sheet.add(f"1 ENTER 2 ENTER 3 ENTER {zero} {keys(text)}", "f BSP", "RDN", "RDN", "RDN", "RDN", "1 ENTER 0 " + keys(text) + " 5", "RDN")
        for word in ("8 0", "F E", "F F", "7 F"):
            sheet.add(f"{word} {keys('SQRT')}", "f BSP")
        for text in ("DBL/", "DBLR"):
            for case in ((0, 1, 1), (0, 2, 2), (0, 0x40, 0x80), (0x80, 0, 1), (0x7F, 0xFF, 1), (0x80, 0xFF, 0xFF), (0x7F, 0, 0xFF)):
                sheet.add(f"{numbers(*case)} {keys(text)}", "f BSP")


@theme("error-1", "Error 1: `FLOAT`, `EEX`, `1/X` and `.`; they end digit entry and change nothing", NONE)
def error_1(sheet):
    for cause in ("f RCL", "f CHS", "g BIN", "."):
        sheet.add(f"3 ENTER 5 {cause}", "f BSP", f"5 {cause} 6", "RDN", "RDN", "ENTER " + cause + " 7", "RDN", f"f ENTER 1 {cause}", "f BSP", f"g R/S {cause}", "f BSP", "+", cause, "f BSP", "BSP", "g R/S", f"g 4 4 {cause}", "f BSP", "g 5 4")


@theme("error-2", "Error 2 by each of its causes: counts above w, bits from w on, word sizes above 64", ERRORS)
def error_2(sheet):
    for mode, keys_of_mode in MODES.items():
        for bits in (4, 8) if mode == "unsigned" else (8,):
            sheet.add(f"{keys_of_mode} {size(bits)}")
            for text in ("RLN", "RRN", "RLCN", "RRCN", "MASKL", "MASKR", "SB", "CB", "B?"):
                for count in dict.fromkeys(count % (1 << bits) for count in (bits, bits + 1, negative(bits, mode, bits), negative(bits + 1, mode, bits))):
                    sheet.add(f"1 ENTER {number(count)} {keys(text)}")
        for count in (0x40, 0x41, 0x42, 0x80, 0xFF, 0x100, negative(0x40, mode, 16), negative(0x41, mode, 16)):
            sheet.add(f"{size(16)} {number(count)} f STO", "f .")
    sheet.add("f 3 8 f STO 1 ENTER 9 f E", "f BSP", "RDN", "1 ENTER 9 f E 5", "RDN", "1 ENTER 9 f 7 BSP", "6")


@theme("error-3", "Error 3: a register that isn't there, directly and through RI, at several word sizes and with a program", ERRORS)
def error_3(sheet):
    for bits, lines in ((64, 0), (56, 0), (48, 0), (64, 100), (16, 150), (32, 175)):
        sheet.add("g R/S f RDN", *([" ".join(["+"] * lines)] if lines else []), f"g R/S {size(bits)} f 0")
        count = (406 - 14 * ((lines + 6) // 7)) // ((bits + 3) // 4)
        for register in (count - 1, count, count + 1):
            if register < 32:
                name = "." * (register > 15) + f"{register % 16:X}"
                sheet.functions(f"STO {name}", f"RCL {name}")
            sheet.add(f"{number(register)} STO SST 7", "STO R/S", "RCL R/S", "f GSB", "f BSP")
    sheet.add("5 STO . F 6", "RDN", "5 RCL . F 6", "RDN", "f BSP", "9 ENTER RCL . F 8", "RDN")


@theme("error-4", "Error 4: labels and lines that aren't there, RI above 15, and that a jump that errs clears no pending return", ERRORS)
def error_4(sheet):
    sheet.add("GTO 0", "GSB 0", "5 GTO 0 6", "RDN", "5 GSB 0 6", "RDN", "GTO SST", "GSB SST", "GTO . 0 0 0", "GTO . 0 0 1", "g R/S GTO . 0 0 1", "GTO . 0 0 0", "g R/S", program("LBL 1", "GTO 2", "LBL 3", "GSB 2", "LBL 4", "GTO I", "LBL 5", "GSB I", "LBL 6", "GSB 7", "R/S", "LBL 7", "R/S"))
    for label in "1345":
        for index in ("2", "1 0"):
            sheet.add(f"{index} STO SST GSB {label}", "f BSP", "g R/S", "g R/S")
    for jump in ("GTO 2", "GSB 2", "GTO . 9 9 9", "GTO SST", "GSB SST"):
        sheet.add(f"1 0 STO SST GSB 6 {jump}", "R/S", "g R/S", "g R/S")
    sheet.add("GTO . 0 1 4", "GTO . 0 1 3", "GTO . 0 1 3 GTO 2 5", "RDN", "GTO 2 R/S", "g R/S", "g R/S")


# ---- programs that do something


@theme("worked-programs", "programs that count bits, find a greatest common divisor, multiply by shifts and find parity, over several inputs", PROGRAMS)
def worked_programs(sheet):
    sheet.add(program("LBL A", "0", "x<>y", "LBL 0", "x=0", "GTO 1", "SR", "F? 4", "GSB 2", "GTO 0", "LBL 1", "x<>y", "RTN", "LBL 2", "x<>y", "1", "+", "x<>y", "RTN"))
    sheet.add("f 3", *(f"{word} GSB A" for word in ("0", "1", "F F F F", "8 0 0 0", "A 5 A 5", "1 2 3 4")), "g R/S f RDN g R/S")
    sheet.add(program("LBL A", "x=0", "GTO 1", "STO 0", "RMD", "RCL 0", "x<>y", "GTO A", "LBL 1", "x<>y", "RTN"))
    sheet.add("DEC", *(f"{' '.join(str(y))} ENTER {' '.join(str(x))} GSB A" for y, x in ((12, 18), (17, 5), (0, 9), (9, 0), (1000, 625), (65535, 255))), "HEX g R/S f RDN g R/S")
    sheet.add(program("LBL A", "ENTER", "ENTER", "#8", "RRN", "XOR", "ENTER", "ENTER", "#4", "RRN", "XOR", "ENTER", "ENTER", "#2", "RRN", "XOR", "ENTER", "ENTER", "#1", "RRN", "XOR", "#1", "AND", "RTN"))
    sheet.add(*(f"{word} GSB A" for word in ("0", "1", "3", "7", "F F F F", "8 0 0 1", "8 0 0 0", "1 2 3 4")), "g R/S f RDN g R/S")
    sheet.add(program("LBL A", "x<>y", "STO 0", "CLX", "STO 1", "x<>y", "LBL 0", "x=0", "GTO 1", "SR", "F? 4", "GSB 2", "RCL 0", "SL", "STO 0", "RDN", "GTO 0", "LBL 1", "RCL 1", "RTN", "LBL 2", "RCL 0", "RCL 1", "+", "STO 1", "RDN", "RTN"))
    sheet.add(*(f"{y} ENTER {x} GSB A" for y, x in (("3", "5"), ("F F", "F F"), ("1 0 0", "1 0 0"), ("0", "7"), ("7", "0"))))


# ---- the larger memory


@theme("larger-memory-registers", "`M609`: the registers of 609 bytes at several word sizes, and Error 3 past them", NONE)
def larger_memory_registers(sheet):
    sheet.add("M609 f 0")
    for bits in (4, 8, 16, 64):
        count = 1218 // ((bits + 3) // 4)
        sheet.add(f"f 3 {size(bits)} f 0")
        for register in (0, 101, 405, 406, count - 1, count):
            sheet.add(f"{size(64)} {number(register)} STO SST {size(bits)} 1 STO R/S", "RCL R/S", "0 f GSB", "RCL R/S")
    sheet.add(size(64), "STO . F", "RCL . F", f"{size(4)} F STO . F", "f x<>y RCL . F")


@theme("larger-memory-program", "`M609`: a program longer than 203 lines, its lines, blocks and registers, and Error 4 at 609 lines", NONE)
def larger_memory_program(sheet):
    sheet.add("M609 g R/S", *["+ - + - + - + - + -"] * 20, "+", "*", "/", "f 0", "g GTO 0", "1", "g GSB", "f 0", "g R/S", "GSB 0", "GTO . 2 0 4", "GTO 0 g R/S", "GTO . 2 0 6", "GTO . 2 0 7")
    sheet.add(*["+ - + - + - + - + -"] * 40, "+ -", "f 0", "g GTO 1", "f 0", "g GTO 2", "f BSP", "g SST", "SST SST", "g SST", "g R/S f 0", "STO 0", "GSB 1", "GTO . 6 0 9", "GTO . 6 1 0", "g R/S BSP BSP BSP BSP BSP BSP BSP BSP g R/S f 0", "RCL 0", "5 STO 0", "RCL 0", "6 STO 3", "g R/S 1 2 g R/S RCL 0", "f 0", "g R/S BSP BSP g R/S RCL 0", "RCL 2")


@theme("standard-memory-by-name", "`M203` names the HP-16C's memory", NONE)
def standard_memory_by_name(sheet):
    sheet.add("M203", "f 0", "1 2", "f .")


@theme("key-file-lines", "key files: empty lines show the display again, and blanks, tabs and CR separate words", NONE)
def key_file_lines(sheet):
    sheet.add("", "1", "", "f .", "", "STO", "", "2", "\t3 ", "  4\t5\r", "\r", " ", "1 0 f STO 0 /", "", "f", "", "1", "g R/S", "", "+", "")


# ---- writing


def table_of_files(written):
    rows = [f"| `{name}` | {count} | {says} | {topic} |\n" for name, says, topic, count in written]
    return "| File | Lines | What it tests | Handbook |\n|---|---|---|---|\n" + "".join(rows)


def write_readme(table):
    text = README.read_text()
    before, rest = text.split(TABLE_BEGINS)
    _, after = rest.split(TABLE_ENDS)
    README.write_text(before + TABLE_BEGINS + table + TABLE_ENDS + after)


def main():
    FILES.mkdir(parents=True, exist_ok=True)
    for old in FILES.iterdir():
        old.unlink()
    written = []
    for name, says, topic, write in THEMES:
        sheet = Sheet()
        write(sheet)
        shown = list(displays(sheet.lines))
        (FILES / f"{name}.keys").write_bytes("".join(line + "\n" for line in sheet.lines).encode())
        (FILES / f"{name}.displays").write_text("".join(line + "\n" for line in shown))
        written.append((name, says, topic, len(shown)))
    (FILES / "names.txt").write_text("".join(name + "\n" for name, *_ in written))
    (CRATE / "stdout").write_text("".join(f"{name}: {count} lines as wanted\n" for name, _, _, count in written))
    write_readme(table_of_files(written))
    print(f"{len(written)} files, {sum(count for *_, count in written)} lines")


if __name__ == "__main__":
    main()
