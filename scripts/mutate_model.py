#!/usr/bin/env python3
"""Measures what the conformance suite tells apart: changes the Python machine in scripts/model at one point after another, and
runs the suite's key files on each changed machine until a display differs.

Points are comparisons, operators, numbers, truth values, conditions, statements and the two sides of a choice in the code; which
operations save LAST X, enable, disable or leave stack lift and keep the window; and the function of each key.

usage: scripts/mutate_model.py             at the top of the repository: prints the changes that no line tells apart, and counts
       scripts/mutate_model.py --all       prints each change with a file and line that tell it apart
       scripts/mutate_model.py WORD..      tries only the changes whose text has one of these words
       scripts/mutate_model.py --part 1/4  tries each fourth change, from the first on; the other parts are 2/4 to 4/4
"""
import ast
import resource
import signal
import sys
import types
from pathlib import Path

MODEL = Path("scripts/model")
FILES = Path("crates/try_conformance/data")
# The whole suite takes some four seconds.
SECONDS_A_CHANGE = 20
MEMORY = 4 << 30
# Functions that are no part of the machine.
LEFT_OUT = {"listing_texts", "main", "__init__ of BadWord"}

ADD, SUB = ast.Add, ast.Sub
OTHER_COMPARISONS = {
    ast.Lt: [ast.LtE, ast.GtE], ast.LtE: [ast.Lt, ast.Gt], ast.Gt: [ast.GtE, ast.LtE], ast.GtE: [ast.Gt, ast.Lt], ast.Eq: [ast.NotEq],
    ast.NotEq: [ast.Eq], ast.In: [ast.NotIn], ast.NotIn: [ast.In], ast.Is: [ast.IsNot], ast.IsNot: [ast.Is],
}
OTHER_OPERATORS = {
    ADD: [SUB], SUB: [ADD], ast.Mult: [ADD], ast.FloorDiv: [ast.Mod], ast.Mod: [ast.FloorDiv], ast.LShift: [ast.RShift],
    ast.RShift: [ast.LShift], ast.BitAnd: [ast.BitOr], ast.BitOr: [ast.BitXor], ast.BitXor: [ast.BitOr], ast.And: [ast.Or], ast.Or: [ast.And],
}
OTHER_CALLS = {"min": "max", "max": "min"}


# ---- changes of the code


def replaced(node, field, new):
    """A change of a node's field, as two functions that make it and take it back."""
    old = getattr(node, field)
    return (lambda: setattr(node, field, new)), (lambda: setattr(node, field, old))


def changes_of_node(node):
    """The changes of one node, each two functions that make it and take it back."""
    if isinstance(node, ast.Compare):
        for place, operator in enumerate(node.ops):
            for other in OTHER_COMPARISONS[type(operator)]:
                yield replaced(node, "ops", [*node.ops[:place], other(), *node.ops[place + 1 :]])
    elif isinstance(node, (ast.BinOp, ast.BoolOp, ast.AugAssign)):
        for other in OTHER_OPERATORS.get(type(node.op), []):
            yield replaced(node, "op", other())
    elif isinstance(node, ast.Constant) and isinstance(node.value, bool):
        yield replaced(node, "value", not node.value)
    elif isinstance(node, ast.Constant) and isinstance(node.value, int):
        yield replaced(node, "value", node.value + 1)
        if node.value > 0:
            yield replaced(node, "value", node.value - 1)
    elif isinstance(node, ast.IfExp):
        yield replaced(node, "test", ast.UnaryOp(ast.Not(), node.test))
    elif isinstance(node, (ast.If, ast.While)):
        yield replaced(node, "test", ast.UnaryOp(ast.Not(), node.test))
    elif isinstance(node, ast.UnaryOp):
        yield replaced(node, "operand", ast.UnaryOp(node.op, node.operand))
    elif isinstance(node, ast.Call) and isinstance(node.func, ast.Name) and node.func.id in OTHER_CALLS:
        yield replaced(node.func, "id", OTHER_CALLS[node.func.id])
    elif isinstance(node, ast.Tuple) and isinstance(node.ctx, ast.Load) and len(node.elts) > 1:
        for place in range(len(node.elts) - 1):
            elements = list(node.elts)
            elements[place : place + 2] = reversed(elements[place : place + 2])
            yield replaced(node, "elts", elements)
    for part in ("body", "orelse"):
        statements = getattr(node, part, None)
        if isinstance(statements, list):
            for place, statement in enumerate(statements):
                if is_left_out_by_a_change(statement):
                    yield replaced(node, part, [*statements[:place], ast.Pass(), *statements[place + 1 :]])


def is_left_out_by_a_change(statement):
    if isinstance(statement, ast.Expr):
        return not isinstance(statement.value, ast.Constant)
    return isinstance(statement, (ast.Assign, ast.AugAssign, ast.Raise, ast.Return))


def functions_of(tree):
    """Each function of a module with its name, methods too."""
    for item in tree.body:
        if isinstance(item, ast.FunctionDef):
            yield item.name, item
        elif isinstance(item, ast.ClassDef):
            for method in item.body:
                if isinstance(method, ast.FunctionDef):
                    yield f"{method.name} of {item.name}", method


def code_changes(name, tree):
    """Each change of a module's functions: its text, and what makes it and takes it back."""
    for title, function in functions_of(tree):
        if title in LEFT_OUT:
            continue
        before = ast.unparse(function).splitlines()
        for node in ast.walk(function):
            for make, undo in changes_of_node(node):
                make()
                after = ast.unparse(ast.fix_missing_locations(function)).splitlines()
                undo()
                if before != after:
                    yield f"{name}, {title}: {difference(before, after)}", make, undo


def difference(before, after):
    """What a change made of the one line that it changed."""
    place = next((place for place, pair in enumerate(zip(before, after)) if pair[0] != pair[1]), 0)
    return f"`{before[place].strip()}` becomes `{after[place].strip()}`"


class TuplesAsSets(ast.NodeTransformer):
    """Looks up in sets what the code looks up in tuples, so that the order of a tuple is no point to change."""

    def visit_Compare(self, node):
        if isinstance(node.ops[0], ast.In) and isinstance(node.comparators[0], ast.Tuple):
            node.comparators[0] = ast.Set(node.comparators[0].elts)
        return self.generic_visit(node)


def code_mutants(name, sources):
    """Each machine with a change in the code: its text, and a call that loads its two modules."""
    tree = TuplesAsSets().visit(ast.parse((MODEL / f"{name}.py").read_text()))

    def load(make, undo):
        make()
        code = compile(ast.fix_missing_locations(tree), name, "exec")
        undo()
        return loaded({**sources, name: code})

    for text, make, undo in code_changes(name, tree):
        yield text, lambda make=make, undo=undo: load(make, undo)


# ---- changes of the tables


def table_mutants(sources):
    """Each machine with a change in the tables: its text, and a call that loads its two modules."""
    for text, change in table_changes(loaded(sources)):
        yield text, lambda change=change: loaded(sources, change)


def table_changes(modules):
    """Each change in the sets of operations, the keys' functions and the limits: its text, and the call that makes it."""
    machine = modules["machine"]
    for name in machine.OPERATIONS:
        for table, says in (("SAVES_LAST", "LAST X"), ("KEEPS_WINDOW", "window")):
            verb = "saves" if table == "SAVES_LAST" else "keeps"
            now = "no longer " if name in getattr(machine, table) else ""
            yield f"{name} {now}{verb} {says}", lambda m, c, t=table, n=name: setattr(m, t, getattr(m, t) ^ {n})
        for lift in ("ENABLES_LIFT", "DISABLES_LIFT", None):
            if lift and name in getattr(machine, lift) or not lift and name not in machine.ENABLES_LIFT | machine.DISABLES_LIFT:
                continue
            yield f"{name} {(lift or 'leaves_lift').replace('_', ' ').lower()}", lambda m, c, t=lift, n=name: change_lift(m, t, n)
    yield from key_changes(modules["calculator"])
    for name, changed in (("LINES_PER_KEY", 99_999), ("LINES_PER_KEY", 100_001), ("EXTENTS", {"M203": 203, "M609": 608}), ("EXTENTS", {"M203": 203, "M609": 610})):
        yield f"{name} is {changed}", lambda m, c, n=name, v=changed: setattr(c, n, v)
    for changed in (202, 204):
        yield f"MEMORY_BYTES is {changed}", lambda m, c, v=changed: (setattr(c, "MEMORY_BYTES", v), c.EXTENTS.update(M203=v))


def change_lift(machine, table, name):
    for other in ("ENABLES_LIFT", "DISABLES_LIFT"):
        changed = getattr(machine, other) - {name} | ({name} if other == table else set())
        setattr(machine, other, changed)


def key_changes(calculator):
    for key, functions in calculator.KEYS.items():
        for first, second in ((0, 1), (1, 2)):
            if functions[first] != functions[second]:
                changed = list(functions)
                changed[first], changed[second] = changed[second], changed[first]
                yield f"key {key}: {functions} becomes {tuple(changed)}", lambda m, c, k=key, f=tuple(changed): c.KEYS.update({k: f})
    for name, operands in calculator.OPERANDS.items():
        for changed in (operands[1:], operands[:-1]):
            yield f"{name} takes {changed}", lambda m, c, n=name, o=changed: c.OPERANDS.update({n: o})
    for table in ("KEEPS_ENTRY", "ERROR_1", "VIEWS"):
        for name in sorted(getattr(calculator, table)):
            yield f"{table} without {name}", lambda m, c, t=table, n=name: setattr(c, t, getattr(c, t) - {n})
    for function in ["STATUS", "MEM", "SHOW HEX", "P/R", "SST", "BST", "CLEAR PRGM", "FLOAT", "ON", "GTO .000", "RTN", "R/S", "GTO 0", "GSB 0", "+"]:
        yield f"KEEPS_ENTRY with {function}", lambda m, c, f=function: setattr(c, "KEEPS_ENTRY", c.KEEPS_ENTRY | {f})


# ---- running the suite


class OutOfTime(Exception):
    """A changed machine ran too long."""


def loaded(codes, change=None):
    """The two modules of a machine, with a change in the tables."""
    modules = {}
    for name in ("machine", "calculator"):
        modules[name] = sys.modules[name] = types.ModuleType(name)
        exec(codes[name], modules[name].__dict__)
    if change:
        change(modules["machine"], modules["calculator"])
    return modules


def read_suite():
    suite = []
    for keys in sorted(FILES.glob("*.keys"), key=lambda path: (path.stem == "run-limit", path.stat().st_size)):
        lines = keys.read_bytes().decode().split("\n")[:-1]
        suite.append((keys.stem, lines, keys.with_suffix(".displays").read_text().splitlines()))
    return suite


def told_apart(load, suite):
    """A line of the suite that a changed machine gets wrong, or None. The file that has it is the first to be run next time."""
    name, number = "reading", 0
    try:
        calculator = load()["calculator"]
        for place, (name, lines, wanted) in enumerate(suite):
            number = 0
            for number, shown in enumerate(calculator.displays(lines), 1):
                if shown != wanted[number - 1]:
                    suite.insert(0, suite.pop(place))
                    return f"{name} line {number}"
    except Exception as error:  # a changed machine may fail in any way
        return f"{name} line {number + 1}, {type(error).__name__}"
    return None


def ring(*_):
    raise OutOfTime


def mutants():
    sources = {name: compile((MODEL / f"{name}.py").read_text(), name, "exec") for name in ("machine", "calculator")}
    for name in sources:
        yield from code_mutants(name, sources)
    yield from table_mutants(sources)


def main():
    words = [word for word in sys.argv[1:] if word != "--all"]
    part, parts = 1, 1
    if words[:1] == ["--part"]:
        part, parts = map(int, words[1].split("/"))
        del words[:2]
    resource.setrlimit(resource.RLIMIT_AS, (MEMORY, MEMORY))
    signal.signal(signal.SIGVTALRM, ring)
    suite = read_suite()
    tried = left = 0
    for number, (text, load) in enumerate(mutants()):
        if number % parts != part - 1 or (words and not any(word in text for word in words)):
            continue
        signal.setitimer(signal.ITIMER_VIRTUAL, SECONDS_A_CHANGE)
        place = told_apart(load, suite)
        signal.setitimer(signal.ITIMER_VIRTUAL, 0)
        tried += 1
        left += place is None
        if place is None or "--all" in sys.argv:
            print(f"{text}: {place or 'not told apart'}", flush=True)
    print(f"{tried} changes, {tried - left} told apart, {left} not")


if __name__ == "__main__":
    main()
