"""Problems and starts as text, in Python: read by the tables of docs/PROBLEMS.md alone, up to the first bad line."""
import re
from dataclasses import dataclass, field

from machine import MEMORY_NIBBLES, TEXTS, blocks_of

NUMBER_PARTS = ["X", "Y", "Z", "T", "L", "I"]
FLAG_PARTS = ["F0", "F1", "F2", "F3", "C", "G"]
PARTS = [*NUMBER_PARTS, *FLAG_PARTS, "M"]
RANGES = {
    "problem": (1, 1), "word": (1, 64), "mode": (0, 2), "base": (2, 16), "steps": (1, 1000), "paths": (1, 65_536),
    "budget": (1, 1_048_576),
}
HEADERS = [*RANGES, "observe"]
SECTIONS = ["first", "second", "end"]
FIRST_WORDS = {text.split()[0] for text in TEXTS}
OPERATION_OF = {tuple(text.split()): text for text in TEXTS}


class BadLine(Exception):
    """The first bad line: its number, counted from 1, and its cause."""


@dataclass
class Problem:
    numbers: dict = field(default_factory=dict)
    observed: list = field(default_factory=list)
    fixed: dict = field(default_factory=dict)
    first: list = field(default_factory=list)
    second: list = field(default_factory=list)

    @property
    def blocks(self):
        return max(blocks_of(len(self.first)), blocks_of(len(self.second)))

    @property
    def nibbles(self):
        return MEMORY_NIBBLES - 14 * self.blocks

    def limit_of(self, part):
        """What a part is below."""
        return 1 << (64 if part == "I" else self.numbers["word"] if part in NUMBER_PARTS else 1)


@dataclass
class Start:
    numbers: list
    flags: list
    nibbles: list


def lines_of(text):
    """The lines of a text, each a list of words. What follows the last line feed is a line if it has a byte."""
    lines = text.split("\n")
    if lines[-1] == "":
        lines.pop()
    return [[word for word in re.split("[ \t\r]+", line) if word] for line in lines]


def decimal_number(word):
    return int(word) if re.fullmatch("[0-9]{1,10}", word) else None


def hexadecimal_number(word):
    return int(word, 16) if re.fullmatch("[0-9A-Fa-f]{1,16}", word) else None


def only(words):
    return words[0] if len(words) == 1 else ""


class ProblemReader:
    """Takes the lines of a problem one after another."""

    def __init__(self):
        self.problem, self.given = Problem(), []

    def cause_of_assembly(self, words):
        if "first" not in self.given:
            return "Syntax"
        routine = self.problem.second if "second" in self.given else self.problem.first
        if words[0] in ("FLOAT", "EEX", "1/X", "."):
            return "FloatKey"
        if words[0] not in FIRST_WORDS:
            return "UnknownWord"
        if tuple(words) not in OPERATION_OF:
            return "BadOperand"
        if len(routine) == 203:
            return "TooManyLines"
        routine.append(OPERATION_OF[tuple(words)])
        return None

    def is_formed(self, kind, words):
        if kind in RANGES:
            return decimal_number(only(words)) is not None
        if kind == "observe":
            return all(word in PARTS for word in words)
        if kind == "fix":
            return "first" not in self.given and len(words) == 2 and words[0] in PARTS and hexadecimal_number(words[1]) is not None
        return not words

    def is_repeated(self, kind, words):
        if kind == "fix":
            return words[0] in self.problem.fixed
        return kind in self.given or kind == "observe" and len(set(words)) < len(words)

    def is_too_early(self, kind):
        order = [*HEADERS, *SECTIONS]
        before = HEADERS if kind == "fix" else order[: order.index(kind)]
        return any(other not in self.given for other in before)

    def is_in_range(self, kind, words):
        if kind == "base":
            return decimal_number(words[0]) in (2, 8, 10, 16)
        if kind in RANGES:
            least, most = RANGES[kind]
            return least <= decimal_number(words[0]) <= most
        if kind == "fix":
            return hexadecimal_number(words[1]) < (1 if words[0] == "M" else self.problem.limit_of(words[0]))
        return True

    def take(self, kind, words):
        if kind in RANGES:
            self.problem.numbers[kind] = decimal_number(words[0])
        elif kind == "observe":
            self.problem.observed = words
        elif kind == "fix":
            self.problem.fixed[words[0]] = hexadecimal_number(words[1])
        if kind != "fix":
            self.given.append(kind)

    def cause_of(self, words):
        """Takes a line, or gives the cause why it is bad."""
        kind, *rest = words
        if kind not in [*HEADERS, *SECTIONS, "fix"]:
            return self.cause_of_assembly(words)
        if not self.is_formed(kind, rest):
            return "Syntax"
        if self.is_repeated(kind, rest):
            return "Repeated"
        if self.is_too_early(kind):
            return "Missing"
        if not self.is_in_range(kind, rest):
            return "Range"
        self.take(kind, rest)
        return None


def read_problem(lines):
    """The problem at the beginning of some lines, and how many lines it has."""
    reader = ProblemReader()
    for number, words in enumerate(lines, 1):
        cause = reader.cause_of(words) if words else None
        if cause:
            raise BadLine(number, cause)
        if "end" in reader.given:
            return reader.problem, number
    raise BadLine(len(lines) + 1, "Missing")


class StartReader:
    """Takes the lines of a start one after another."""

    DUE = ["start", *NUMBER_PARTS, "flags", "M", "end"]

    def __init__(self, problem):
        self.problem, self.given = problem, 0
        self.start = Start([], [], [])

    def is_fixed_otherwise(self, part, number):
        return self.problem.fixed.get(part, number) != number

    def cause_of_number(self, part, words):
        number = hexadecimal_number(only(words))
        if number is None:
            return "Syntax"
        if number >= self.problem.limit_of(part) or self.is_fixed_otherwise(part, number):
            return "Range"
        self.start.numbers.append(number)
        return None

    def cause_of_flags(self, words):
        if not re.fullmatch("[01]{6}", only(words)):
            return "Syntax"
        flags = [int(digit) for digit in reversed(words[0])]
        if any(self.is_fixed_otherwise(part, number) for part, number in zip(FLAG_PARTS, flags)):
            return "Range"
        self.start.flags = [number == 1 for number in flags]
        return None

    def cause_of_nibbles(self, words):
        if len(words) > 1 or not all(re.fullmatch("[0-9A-Fa-f]+", word) for word in words):
            return "Syntax"
        nibbles = [int(digit, 16) for word in words for digit in word]
        if len(nibbles) > self.problem.nibbles or "M" in self.problem.fixed and any(nibbles):
            return "Range"
        self.start.nibbles = nibbles + [0] * (self.problem.nibbles - len(nibbles))
        return None

    def cause_of(self, words):
        """Takes a line, or gives the cause why it is bad."""
        if self.given == len(self.DUE) or words[0] != self.DUE[self.given]:
            return "Syntax"
        name, *rest = words
        self.given += 1
        if name in ("start", "end"):
            return "Syntax" if rest else None
        if name == "flags":
            return self.cause_of_flags(rest)
        return self.cause_of_nibbles(rest) if name == "M" else self.cause_of_number(name, rest)


def read_start(problem, lines, before):
    """The start that lines say after so many others."""
    reader = StartReader(problem)
    for number, words in enumerate(lines, before + 1):
        cause = reader.cause_of(words) if words else None
        if cause:
            raise BadLine(number, cause)
    if reader.given < len(reader.DUE):
        raise BadLine(before + len(lines) + 1, "Missing")
    return reader.start
