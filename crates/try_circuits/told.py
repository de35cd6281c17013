"""The lines that the program prints after its first three, worked out in Python."""
from math import isqrt

ROWS = [
    (1, 1, 1, 1),
    (1, 0, 1, 255),
    (3, 5, 3, 2),
    (3, 6, 7, 200),
    (4, 9, 8, 1),
    (4, 5, 3, 1),
    (4, 3, 5, 1),
    (4, 11, 6, 7),
    (4, 10, 3, 5),
    (6, 43, 6, 1),
    (8, 0, 7, 3),
    (8, 5, 203, 9),
    (65, 0x1123456789abcdef0, 0xfedcba9876543211, 64),
    (65, 3, 0x10000000000000005, 203),
    (128, 0xfedcba9876543210f0e1d2c3b4a59687, 0x123456789abcdef0123456789abcdef, 127),
    (128, 7, 0x7fffffffffffffffffffffffffffffff, 200),
    (128, 0xffffffffffffffffffffffffffffffff, 0x7fffffffffffffffffffffffffffffff, 65),
]


def answers(size, x, y, places):
    whole = 1 << size
    top = size - x.bit_length() if x else 0
    turn = places % size
    factor = y % (1 << min(size, 128 - size))
    divisor = y % (1 << min(size, 127))
    yield "Add", (x + y) % whole, (x + y) // whole
    yield "AddAndOne", (x + y + 1) % whole, (x + y + 1) // whole
    yield "And", x & y, 0
    yield "Or", x | y, 0
    yield "Xor", x ^ y, 0
    yield "Negate", -x % whole, 0
    yield "Select", x, 0
    yield "Less", int(x < y), 0
    yield "Same", int(x == y), 0
    yield "ShiftLeft", (x << places) % whole, 0
    yield "RotateLeft", ((x << turn) | (x >> (size - turn))) % whole, 0
    yield "Ones", bin(x).count("1"), 0
    yield "Justify", top, x << top
    yield "Multiply", x * factor, 0
    yield "Divide", x // divisor, x % divisor
    yield "Root", isqrt(x), x - isqrt(x) ** 2


for row in ROWS:
    for name, first, second in answers(*row):
        print(f"{name} {row[0]}: {first} {second}")
