"""The machine in Python, written from the operation table alone: a peer to compare the program with.

It shares nothing with the definitions in crates/hp_model or with the program. Words are whole numbers, memory is a
list of nibbles, and each operation is told by its listing text.
"""
from math import isqrt

MEMORY_BYTES = 203
MEMORY_NIBBLES = 2 * MEMORY_BYTES
UNSIGNED, ONES, TWOS = range(3)
HEX_DIGITS = "0123456789ABCDEF"
BASES = {"HEX": 16, "DEC": 10, "OCT": 8, "BIN": 2}
MODES = {"UNSGN": UNSIGNED, "1'S": ONES, "2'S": TWOS}
CARRY, OUT_OF_RANGE = 4, 5


def listing_texts():
    """The texts of the 225 operations in the order of their codes."""
    plain = (
        "+ - * / ENTER CHS RDN RUP x<>y CLX LSTX HEX DEC OCT BIN SL SR ASR RL RR RLC RRC RLN RRN RLCN RRCN LJ MASKL MASKR #B "
        "SB CB B? NOT AND OR XOR ABS RMD SQRT DBL* DBL/ DBLR 1'S 2'S UNSGN WSIZE CLREG "
        "x<=y x<0 x>y x>0 x!=y x!=0 x=y x=0 DSZ ISZ"
    ).split()
    flags = [f"{name} {flag}" for name in ("SF", "CF", "F?") for flag in range(6)]
    labels = ["LBL " + label for label in HEX_DIGITS]
    jumps = [f"{name} {label}" for name in ("GTO", "GSB") for label in [*HEX_DIGITS, "I"]]
    direct = [*HEX_DIGITS, *("." + digit for digit in HEX_DIGITS), "I", "(i)"]
    registers = [f"{name} {register}" for name in ("STO", "RCL") for register in direct]
    windows = [f"WINDOW {window}" for window in range(8)]
    return [*HEX_DIGITS, *plain, *flags, *labels, *jumps, "RTN", "PSE", "R/S", *registers, "x<>I", "x<>(i)", *windows, "<", ">"]


TEXTS = listing_texts()


class MachineError(Exception):
    """An operation errs, with the error's number."""


def blocks_of(lines):
    return (lines + 6) // 7


class Machine:
    """A machine with a program, which is a list of listing texts, at the start of a run."""

    def __init__(self, size, mode, base, program, blocks, start, memory_bytes=MEMORY_BYTES):
        self.size, self.mode, self.base = size, mode, base
        self.memory_bytes, self.program, self.blocks = memory_bytes, program, blocks
        self.line, self.returns, self.lift, self.entry, self.window = 1, [], True, None, 0
        self.x, self.y, self.z, self.t, self.last, self.index = start.numbers
        self.flags, self.nibbles = list(start.flags), list(start.nibbles)

    # ---- words

    @property
    def patterns(self):
        return 1 << self.size

    def value(self, pattern, size=None):
        size = size or self.size
        if self.mode == UNSIGNED or pattern < 1 << size - 1:
            return pattern
        return pattern - (1 << size) + (1 if self.mode == ONES else 0)

    def low(self, number, size=None):
        patterns = 1 << (size or self.size)
        if self.mode == ONES and number < 0:
            return patterns - 1 - -number % patterns
        return number % patterns

    def fits(self, number):
        half = 1 << self.size - 1
        least, most = {UNSIGNED: (0, 2 * half - 1), ONES: (1 - half, half - 1), TWOS: (-half, half - 1)}[self.mode]
        return least <= number <= most

    def count(self, most):
        """The magnitude of X, which is at most so great."""
        magnitude = abs(self.value(self.x))
        if magnitude > most:
            raise MachineError(2)
        return magnitude

    # ---- memory

    @property
    def width(self):
        return (self.size + 3) // 4

    @property
    def registers(self):
        """How many registers there are beside the program."""
        return (2 * self.memory_bytes - 14 * self.blocks) // self.width

    def register(self, number):
        first = self.width * number
        return sum(self.nibbles[first + j] << 4 * j for j in range(self.width)) % self.patterns

    def store(self, number, pattern):
        for j in range(self.width):
            self.nibbles[self.width * number + j] = pattern >> 4 * j & 15

    def register_named(self, name):
        number = self.index if name == "(i)" else HEX_DIGITS.index(name[-1]) + (16 if name[0] == "." else 0)
        if number >= self.registers:
            raise MachineError(3)
        return number

    # ---- the stack

    def drop(self, x):
        self.x, self.y, self.z = x, self.z, self.t

    def drop_two(self, x):
        self.x, self.y, self.z = x, self.t, self.t

    def push(self, x):
        if self.lift:
            self.y, self.z, self.t = self.x, self.y, self.z
        self.x = x

    def digit(self, digit):
        number = digit if self.entry is None else self.entry * self.base + digit
        signed = self.base == 10 and self.mode != UNSIGNED
        if digit >= self.base or number >= (self.patterns >> 1 if signed else self.patterns):
            return
        if self.entry is None:
            self.push(number)
        self.x = self.entry = number
        self.lift, self.window = True, 0

    # ---- one operation

    def skip_unless(self, condition):
        if not condition:
            self.line = min(self.line + 1, len(self.program) + 1)

    def do(self, text):
        """Does an operation; gives the end of the run or None."""
        if text in HEX_DIGITS:
            return self.digit(HEX_DIGITS.index(text))
        name, _, operand = text.partition(" ")
        kept = self.x
        end = OPERATIONS[name](self, name, operand)
        if name in SAVES_LAST:
            self.last = kept
        if name in ENABLES_LIFT:
            self.lift = True
        elif name in DISABLES_LIFT:
            self.lift = False
        if name not in KEEPS_WINDOW:
            self.window = 0
        self.entry = None
        return end

    def done_line(self):
        """Does the next line; gives the end of the run or None."""
        at, lines = self.line, len(self.program)
        text = self.program[at - 1] if at <= lines else "RTN"
        self.line = min(at + 1, lines + 1)
        try:
            return self.do(text)
        except MachineError as error:
            self.line, self.entry = at, None
            return f"error {error.args[0]}"

    def run(self, bound):
        """Does at most so many lines; gives the end, or None where the run is late."""
        for _ in range(bound):
            end = self.done_line()
            if end:
                return end
        return None


# ---- the operations by groups, each a function of the machine, the operation's name and its operand


def quotient(dividend, divisor):
    magnitude = abs(dividend) // abs(divisor)
    return magnitude if (dividend < 0) == (divisor < 0) else -magnitude


def sum_or_difference(m, name, _):
    values = m.value(m.y), m.value(m.x)
    if name == "+":
        pattern, carry, number = m.y + m.x, m.y + m.x >= m.patterns, values[0] + values[1]
        around = 1
    else:
        pattern, carry, number = m.y - m.x, m.y < m.x, values[0] - values[1]
        around = -1
    if m.mode == ONES and carry:
        pattern += around
    m.flags[CARRY], m.flags[OUT_OF_RANGE] = carry, not m.fits(number)
    m.drop(pattern % m.patterns)


def product(m, *_):
    number = m.value(m.y) * m.value(m.x)
    m.flags[OUT_OF_RANGE] = not m.fits(number)
    m.drop(m.low(number))


def division(m, name, _):
    divisor, dividend = m.value(m.x), m.value(m.y)
    if divisor == 0:
        raise MachineError(0)
    whole = quotient(dividend, divisor)
    rest = dividend - whole * divisor
    if name == "/":
        m.flags[CARRY], m.flags[OUT_OF_RANGE] = rest != 0, not m.fits(whole)
    m.drop(m.low(whole if name == "/" else rest))


def double_product(m, *_):
    number = m.low(m.value(m.y) * m.value(m.x), 2 * m.size)
    m.x, m.y = divmod(number, m.patterns)
    m.flags[OUT_OF_RANGE] = False


def double_division(m, name, _):
    divisor, dividend = m.value(m.x), m.value(m.y * m.patterns + m.z, 2 * m.size)
    if divisor == 0 or not m.fits(quotient(dividend, divisor)):
        raise MachineError(0)
    whole = quotient(dividend, divisor)
    rest = dividend - whole * divisor
    if name == "DBL/":
        m.flags[CARRY], m.flags[OUT_OF_RANGE] = rest != 0, False
    m.drop_two(m.low(whole if name == "DBL/" else rest))


def root(m, *_):
    number = m.value(m.x)
    if number < 0:
        raise MachineError(0)
    m.x = isqrt(number)
    m.flags[CARRY], m.flags[OUT_OF_RANGE] = m.x * m.x < number, False


def sign(m, name, _):
    number = -m.value(m.x) if name == "CHS" else abs(m.value(m.x))
    if name == "CHS":
        m.x = m.patterns - 1 - m.x if m.mode == ONES else -m.x % m.patterns
    else:
        m.x = m.low(number)
    m.flags[OUT_OF_RANGE] = not m.fits(number)


def enter(m, *_):
    m.y, m.z, m.t = m.x, m.y, m.z


def exchange(m, name, _):
    if name == "RDN":
        m.x, m.y, m.z, m.t = m.y, m.z, m.t, m.x
    elif name == "RUP":
        m.x, m.y, m.z, m.t = m.t, m.x, m.y, m.z
    else:
        m.x, m.y = m.y, m.x


def clear_x(m, *_):
    m.x = 0


def last_x(m, *_):
    m.push(m.last)


def set_base(m, name, _):
    m.base = BASES[name]


def set_mode(m, name, _):
    m.mode = MODES[name]


def moved(m, name, pattern, carry):
    """A pattern shifted or rotated by one bit, and the bit that goes to the carry."""
    top, lowest, highest_bit = pattern >> m.size - 1, pattern & 1, 1 << m.size - 1
    comes_in = {"SL": 0, "RL": top, "RLC": carry, "SR": 0, "ASR": top if m.mode != UNSIGNED else 0, "RR": lowest, "RRC": carry}[name]
    if name in ("SL", "RL", "RLC"):
        return 2 * pattern % m.patterns + comes_in, top == 1
    return pattern // 2 + highest_bit * comes_in, lowest == 1


def move_once(m, name, _):
    m.x, m.flags[CARRY] = moved(m, name, m.x, m.flags[CARRY])


def move_often(m, name, _):
    times = m.count(m.size)
    pattern, carry = m.y, m.flags[CARRY]
    for _ in range(times):
        pattern, carry = moved(m, name[:-1], pattern, carry)
    m.flags[CARRY] = carry
    m.drop(pattern)


def left_justify(m, *_):
    times = m.size - m.x.bit_length() if m.x else 0
    m.x, m.y, m.z, m.t = times, m.x << times, m.y, m.z


def mask(m, name, _):
    ones = m.count(m.size)
    m.x = (1 << ones) - 1 if name == "MASKR" else m.patterns - (1 << m.size - ones)


def count_ones(m, *_):
    m.x = m.x.bit_count()


def single_bit(m, name, _):
    bit = 1 << m.count(m.size - 1)
    pattern = m.y
    m.drop({"SB": pattern | bit, "CB": pattern & ~bit, "B?": pattern}[name])
    if name == "B?":
        m.skip_unless(pattern & bit)


def logic(m, name, _):
    if name == "NOT":
        m.x = m.patterns - 1 - m.x
    else:
        m.drop({"AND": m.y & m.x, "OR": m.y | m.x, "XOR": m.y ^ m.x}[name])


def word_size(m, *_):
    m.size = m.count(64) or 64
    m.x, m.y, m.z, m.t, m.last = (pattern % m.patterns for pattern in (m.y, m.z, m.t, m.t, m.last))


def clear_registers(m, *_):
    m.nibbles = [0] * len(m.nibbles)


def test(m, name, _):
    x, y = m.value(m.x), m.value(m.y)
    conditions = {
        "x<=y": x <= y, "x<0": x < 0, "x>y": x > y, "x>0": x > 0, "x!=y": x != y, "x!=0": x != 0, "x=y": x == y, "x=0": x == 0,
    }
    m.skip_unless(conditions[name])


def loop(m, name, _):
    step = 1 if name == "ISZ" else -1
    count = m.index % m.patterns + step
    if m.mode == ONES and not 0 <= count < m.patterns:
        count += step
    m.index = count % m.patterns
    m.skip_unless(m.value(m.index) != 0)


def flag(m, name, operand):
    if name == "F?":
        m.skip_unless(m.flags[int(operand)])
    else:
        m.flags[int(operand)] = name == "SF"


def choose_window(m, name, operand):
    m.window = {"<": min(m.window + 1, 7), ">": max(m.window - 1, 0)}.get(name, int(operand or 0))


def nothing(*_):
    pass


def jump(m, name, operand):
    if operand == "I" and m.index > 15:
        raise MachineError(4)
    label = "LBL " + (HEX_DIGITS[m.index] if operand == "I" else operand)
    lines = len(m.program)
    search = [*range(m.line, lines + 1), *range(1, min(m.line, lines + 1))]
    found = next((line for line in search if m.program[line - 1] == label), None)
    if found is None:
        raise MachineError(4)
    if name == "GSB":
        if len(m.returns) == 4:
            raise MachineError(5)
        m.returns.append(m.line)
    m.line = found


def go_back(m, *_):
    if m.returns:
        m.line = m.returns.pop()
        return None
    m.line = 0
    return "return"


def halt(*_):
    return "halt"


def store(m, _, operand):
    if operand == "I":
        m.index = m.x
    else:
        m.store(m.register_named(operand), m.x)


def recall(m, _, operand):
    m.push(m.index % m.patterns if operand == "I" else m.register(m.register_named(operand)))


def exchange_register(m, name, _):
    if name == "x<>I":
        m.x, m.index = m.index % m.patterns, m.x
    else:
        number = m.register_named("(i)")
        pattern = m.register(number)
        m.store(number, m.x)
        m.x = pattern


GROUPS = {
    sum_or_difference: "+ -", product: "*", division: "/ RMD", double_product: "DBL*", double_division: "DBL/ DBLR",
    root: "SQRT", sign: "CHS ABS", enter: "ENTER", exchange: "RDN RUP x<>y", clear_x: "CLX", last_x: "LSTX",
    set_base: "HEX DEC OCT BIN", set_mode: "1'S 2'S UNSGN", move_once: "SL SR ASR RL RR RLC RRC",
    move_often: "RLN RRN RLCN RRCN", left_justify: "LJ", mask: "MASKL MASKR", count_ones: "#B", single_bit: "SB CB B?",
    logic: "NOT AND OR XOR", word_size: "WSIZE", clear_registers: "CLREG",
    test: "x<=y x<0 x>y x>0 x!=y x!=0 x=y x=0", loop: "DSZ ISZ", flag: "SF CF F?", choose_window: "WINDOW < >", nothing: "LBL PSE",
    jump: "GTO GSB", go_back: "RTN", halt: "R/S", store: "STO", recall: "RCL", exchange_register: "x<>I x<>(i)",
}
OPERATIONS = {name: group for group, names in GROUPS.items() for name in names.split()}
SAVES_LAST = set(
    "+ - * / RMD DBL* DBL/ DBLR SQRT ABS SL SR ASR RL RR RLC RRC RLN RRN RLCN RRCN LJ MASKL MASKR #B SB CB B? NOT AND OR XOR".split()
)
KEEPS_WINDOW = {"WINDOW", "<", ">"}
DISABLES_LIFT = {"ENTER", "CLX"}
ENABLES_LIFT = SAVES_LAST | set("CHS RDN RUP x<>y LSTX WSIZE STO RCL x<>I x<>(i)".split())
