"""Clauses that searches for proofs are tried on. A CNF is a number of variables and a list of clauses."""

import random


def text(cnf):
    variables, clauses = cnf
    lines = [f"p cnf {variables} {len(clauses)}"]
    lines += [" ".join(map(str, clause + [0])) for clause in clauses]
    return "\n".join(lines) + "\n"


def pigeonhole(holes):
    """One pigeon more than holes, no two in one hole."""

    def sits(pigeon, hole):
        return pigeon * holes + hole + 1

    clauses = [[sits(p, h) for h in range(holes)] for p in range(holes + 1)]
    clauses += [[-sits(q, h), -sits(p, h)] for h in range(holes) for p in range(holes + 1) for q in range(p)]
    return holes * (holes + 1), clauses


def random_3sat(variables, seed, ratio=4.26):
    """Clauses of three literals, as many that about half of such CNFs have a model."""
    chance = random.Random(seed)
    clauses = []
    for _ in range(int(ratio * variables)):
        chosen = chance.sample(range(1, variables + 1), 3)
        clauses.append([v if chance.random() < 0.5 else -v for v in chosen])
    return variables, clauses


class Circuit:
    """Gates over some inputs, as clauses."""

    def __init__(self, inputs):
        self.variables = inputs
        self.clauses = []

    def both(self, a, b):
        self.variables += 1
        gate = self.variables
        self.clauses += [[-gate, a], [-gate, b], [gate, -a, -b]]
        return gate

    def one(self, a, b):
        self.variables += 1
        gate = self.variables
        self.clauses += [[-gate, a, b], [-gate, -a, -b], [gate, -a, b], [gate, a, -b]]
        return gate

    def some(self, a, b):
        return -self.both(-a, -b)


def ripple(circuit, a, b):
    """A sum whose carry comes from halves."""
    total, carry = [], None
    for x, y in zip(a, b):
        half = circuit.one(x, y)
        if carry is None:
            total.append(half)
            carry = circuit.both(x, y)
        else:
            total.append(circuit.one(half, carry))
            carry = circuit.some(circuit.both(x, y), circuit.both(half, carry))
    return total


def majority(circuit, a, b):
    """The same sum, whose carry is the majority of three."""
    total, carry = [], None
    for x, y in zip(a, b):
        if carry is None:
            total.append(circuit.one(y, x))
            carry = circuit.both(y, x)
        else:
            total.append(circuit.one(x, circuit.one(carry, y)))
            carry = circuit.some(circuit.some(circuit.both(x, y), circuit.both(x, carry)), circuit.both(y, carry))
    return total


def adders(width, interleaved=False, wrong=False):
    """That two adders differ; the bits of the numbers stand apart or in turn. A wrong one errs on few inputs."""
    circuit = Circuit(2 * width)
    if interleaved:
        a, b = range(1, 2 * width, 2), range(2, 2 * width + 1, 2)
    else:
        a, b = range(1, width + 1), range(width + 1, 2 * width + 1)
    one, other = ripple(circuit, a, b), majority(circuit, a, b)
    if wrong:
        other[-1] = circuit.one(other[-1], circuit.both(a[-1], circuit.both(b[0], b[1])))
    differs = None
    for x, y in zip(one, other):
        bit = circuit.one(x, y)
        differs = bit if differs is None else circuit.some(differs, bit)
    circuit.clauses.append([differs])
    return circuit.variables, circuit.clauses
