"""Prints what try_arithmetic prints, worked out over Python's whole numbers.

To write the expected output anew: python3 totals.py > stdout
"""

BITS = 8
COUNT = 1 << BITS


def value(mode, pattern):
    if mode == "Unsigned" or pattern < COUNT // 2:
        return pattern
    return pattern - (COUNT if mode == "Twos" else COUNT - 1)


def pattern_of(mode, number):
    if mode == "Ones" and number < 0:
        return COUNT - 1 - -number % COUNT
    return number % COUNT


def fits(mode, number):
    greatest = COUNT - 1 if mode == "Unsigned" else COUNT // 2 - 1
    least = {"Unsigned": 0, "Ones": -greatest, "Twos": -greatest - 1}[mode]
    return least <= number <= greatest


def cut(dividend, divisor):
    size = abs(dividend) // abs(divisor)
    return size if (dividend < 0) == (divisor < 0) else -size


def answer(mode, call, y, x):
    """The pattern, the carry and out of range, or None where the call is refused."""
    first, second = value(mode, y), value(mode, x)
    if call == "Add":
        whole = y + x
        around = mode == "Ones" and whole >= COUNT
        return (whole + around) % COUNT, whole >= COUNT, not fits(mode, first + second)
    if call == "Sub":
        whole = y - x
        around = mode == "Ones" and whole < 0
        return (whole - around) % COUNT, whole < 0, not fits(mode, first - second)
    if call == "Mul":
        return pattern_of(mode, first * second), False, not fits(mode, first * second)
    if second == 0:
        return None
    quotient = cut(first, second)
    rest = first - quotient * second
    if call == "Div":
        return pattern_of(mode, quotient), rest != 0, not fits(mode, quotient)
    return pattern_of(mode, rest), False, False


for mode in ["Unsigned", "Ones", "Twos"]:
    for call in ["Add", "Sub", "Mul", "Div", "Rmd"]:
        answers = [answer(mode, call, y, x) for y in range(COUNT) for x in range(COUNT)]
        given = [found for found in answers if found is not None]
        patterns, carries, ranges = (sum(column) for column in zip(*given))
        refused = len(answers) - len(given)
        print(
            f"{mode} {call}: patterns {patterns}, carries {carries}, "
            f"out of range {ranges}, refused {refused}"
        )
