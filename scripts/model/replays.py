#!/usr/bin/env python3
"""Problems and starts made at random, and what a replay of each prints by the Python machine beside this file.

usage, at the top of the repository:
    scripts/model/replays.py write                         writes crates/try_cases/data/replays.txt
    scripts/model/replays.py compare PROGRAM SEED COUNT    compares a built program with the Python machine on so many random ones
"""
import subprocess
import sys
from pathlib import Path
from random import Random

from machine import HEX_DIGITS, TEXTS, Machine
from texts import FLAG_PARTS, NUMBER_PARTS, PARTS, BadLine, Problem, Start, lines_of, read_problem, read_start

DATA = Path("crates/try_cases/data/replays.txt")
WRITTEN = 300


# ---- what a replay prints


def state_of(machine):
    numbers = [machine.x, machine.y, machine.z, machine.t, machine.last, machine.index]
    return dict(zip(PARTS, [*numbers, *map(int, machine.flags), machine.nibbles]))


def words_of_part(part, value):
    if part != "M":
        return [part, f"{value:X}"]
    digits = "".join(f"{nibble:X}" for nibble in value).rstrip("0")
    return ["M", digits] if digits else ["M"]


def line_of_run(name, end, state, observed):
    if end is None:
        return f"{name} late\n"
    parts = [word for part in PARTS if part in observed for word in words_of_part(part, state[part])]
    return " ".join([name, end, *parts]) + "\n"


def replay(problem, start):
    runs = []
    for routine in (problem.first, problem.second):
        numbers = problem.numbers
        machine = Machine(numbers["word"], numbers["mode"], numbers["base"], routine, problem.blocks, start)
        runs.append((machine.run(numbers["steps"]), state_of(machine)))
    (end, state), (other_end, other) = runs
    agreed = end is not None and end == other_end and all(state[part] == other[part] for part in problem.observed)
    lines = [line_of_run(name, *run, problem.observed) for name, run in zip(("first", "second"), runs)]
    return "".join(lines) + ("agree\n" if agreed else "differ\n")


def answer(text):
    lines = lines_of(text)
    try:
        problem, count = read_problem(lines)
        return replay(problem, read_start(problem, lines[count:], count))
    except BadLine as bad:
        return f"bad line {bad.args[0]}\n"


# ---- problems and starts at random

ARITHMETIC = [*HEX_DIGITS, *HEX_DIGITS, *TEXTS[16:62]]
DIVISION = [*HEX_DIGITS, "ENTER", "+", "-", "*", "/", "RMD", "SQRT", "DBL*", "DBL/", "DBLR"]
MEMORY = [*HEX_DIGITS, *TEXTS[62:74], *TEXTS[145:215]]
CONTROL = [*TEXTS[92:143], *TEXTS[64:92], "0", "1", "2", "3", "ENTER", "x<>y", "-"]


def random_routine(random):
    length = random.choice([0, 1, 2, 3, 5, 8, 13, 30, 60, 203])
    operations = random.choice([TEXTS, ARITHMETIC, DIVISION, MEMORY, CONTROL])
    return [random.choice(operations) for _ in range(length)]


def random_number(random, size):
    patterns = 1 << size
    special = [0, 1, 2, patterns - 1, patterns // 2, patterns // 2 - 1]
    drawn = [random.randrange(min(patterns, limit)) for limit in (8, 64, patterns, patterns)]
    return max(0, random.choice([*special, *drawn])) % patterns


def random_problem(random):
    problem = Problem(first=random_routine(random), second=random_routine(random))
    if random.random() < 0.3:
        problem.second = list(problem.first)
    size = random.choice([1, 2, 3, 4, 5, 7, 8, 12, 16, 17, 31, 32, 33, 60, 63, 64, random.randint(1, 64)])
    problem.numbers = {
        "problem": 1, "word": size, "mode": random.randrange(3), "base": random.choice([16, 10, 8, 2]),
        "steps": random.choice([1, 2, 5, 20, 100, 1000]), "paths": random.choice([1, 65_536]), "budget": random.choice([1, 1_048_576]),
    }
    problem.observed = random.sample(PARTS, random.randrange(len(PARTS) + 1))
    for part in random.sample(PARTS, random.choice([0, 0, 1, 2, 5])):
        limit = 1 if part == "M" else problem.limit_of(part)
        problem.fixed[part] = random.randrange(min(limit, random.choice([2, 256, limit])))
    return problem


def random_start(random, problem):
    size = problem.numbers["word"]
    index = random.choice([random_number(random, size), random.randrange(64), random.randrange(410), random.randrange(1 << 64)])
    numbers = [*(random_number(random, size) for _ in range(5)), index]
    flags = [random.random() < 0.5 for _ in FLAG_PARTS]
    zeros = random.random() < 0.3 or "M" in problem.fixed
    nibbles = [0 if zeros else random.randrange(16) for _ in range(problem.nibbles)]
    start = Start([problem.fixed.get(part, number) for part, number in zip(NUMBER_PARTS, numbers)], [], nibbles)
    start.flags = [problem.fixed.get(part, number) == 1 for part, number in zip(FLAG_PARTS, flags)]
    return start


def problem_lines(problem):
    numbers = [f"{name} {number}" for name, number in problem.numbers.items()]
    fixed = [f"fix {part} {number:x}" for part, number in problem.fixed.items()]
    observed = " ".join(["observe", *problem.observed])
    return [*numbers, observed, *fixed, "first", *problem.first, "second", *problem.second, "end"]


def start_lines(start):
    numbers = [f"{part} {number:x}" for part, number in zip(NUMBER_PARTS, start.numbers)]
    flags = "flags " + "".join(str(int(flag)) for flag in reversed(start.flags))
    nibbles = "M " + "".join(f"{nibble:x}" for nibble in start.nibbles).rstrip("0")
    return ["start", *numbers, flags, nibbles, "end"]


# ---- and with a fault or some

STRAY_LINES = """|+|STO|STO 1|sto 1|FLOAT|EEX 1|1/X|.|x|fix X 0|fix X 0 0|fix M 0|fix M 1|fix C 2|fix Q 1|fix|word 8|word 0|word 65
word 00000000008|word 0000000008|mode 3|mode|mode 1 1|base 3|base 16|steps 0|steps 1001|paths 65537|budget 0|budget 1048577
observe X X|observe q|observe|first|second|end|first 1|end end|start|X 0|X 00000000000000000|X 0000000000000000|X g
flags 01010|flags 0101012|flags 010101|flags|M 0|M|M 0 0|M g|I ffffffffffffffff|I 10000000000000000|problem 2|problem 1
problem 99999999999|GTO 0 1|R/S|WINDOW 8|WINDOW 7|STO .F|RCL (i)|x<>(i)|LBL G""".replace("\n", "|").split("|")


def changed_line(random, line):
    if random.random() < 0.5:
        words = line.split(" ")
        words.insert(random.randrange(len(words) + 1), random.choice(["X", "0", "1", "F", "", "fix"]))
        return " ".join(words)
    letters = list(line or " ")
    letters[random.randrange(len(letters))] = random.choice("0123456789ABCDEFabXYZ .\t+-")
    return "".join(letters)


def change(random, lines):
    """Changes lines in one of several ways."""
    at = random.randrange(len(lines))
    stray = random.choice(STRAY_LINES)
    way = random.randrange(6)
    lines[at : at + 1] = {
        0: [], 1: [stray], 2: [stray, lines[at]], 3: [lines[at], lines[at]], 4: [changed_line(random, lines[at])], 5: [lines[at].lower()],
    }[way]
    if random.random() < 0.1:
        del lines[at:]


def random_text(random):
    problem = random_problem(random)
    lines = problem_lines(problem) + start_lines(random_start(random, problem))
    for _ in range(random.choice([0, 0, 0, 1, 1, 2])):
        if lines:
            change(random, lines)
    return "".join(line + "\n" for line in lines)


# ---- writing and comparing


def write():
    """Writes short cases without empty lines: the lines of the input, and each printed line after `=> `."""
    random, cases = Random(1982), []
    while len(cases) < WRITTEN:
        text = random_text(random)
        if len(text) < 900 and "\n\n" not in text:
            printed = "".join(f"=> {line}\n" for line in answer(text).splitlines())
            cases.append(f"case {len(cases) + 1}\n{text}{printed}\n")
    head = "# Problems, each with a start, and what a replay prints, by the Python machine in scripts/model.\n\n"
    DATA.write_text(head + "".join(cases).rstrip("\n") + "\n")


def compare(program, seed, count):
    random, differing = Random(seed), 0
    for _ in range(count):
        text = random_text(random)
        done = subprocess.run([program, "replay"], input=text.encode(), stdout=subprocess.PIPE, check=False)
        due = answer(text)
        status = 4 if due.startswith("bad line") else 1 if due.endswith("differ\n") else 0
        if (done.stdout.decode(), done.returncode) != (due, status):
            differing += 1
            print(f"{text}--- printed, status {done.returncode}\n{done.stdout.decode()}--- due, status {status}\n{due}")
    print(f"{count} compared, {differing} differ")


if __name__ == "__main__":
    if sys.argv[1:] == ["write"]:
        write()
    elif len(sys.argv) == 5 and sys.argv[1] == "compare":
        compare(sys.argv[2], int(sys.argv[3]), int(sys.argv[4]))
    else:
        sys.exit(__doc__)
