#!/usr/bin/env python3
"""Writes the inputs of crates/try_proofs/data/lrat.jsonl for the proofs and for the tests of the command `lrat`.

    scripts/lrat_inputs.py        (at the top of the repository)

Each line of the file is a case {"input", "output", "status"} in which a character is a byte (Latin-1).
The answers come from a checker that was written apart from this project. Each becomes a statement
in crates/jd_logic/proofs/LratInputs.antt that computing the definition proves, and an input of the
program try_proofs, whose inputs a byte 1 parts.
"""

import json
from pathlib import Path

TOP = Path(__file__).resolve().parent.parent
ESCAPES = {"\n": "\\n", "\t": "\\t", "\r": "\\r", '"': '\\"', "\\": "\\\\"}
HEAD = """-- Inputs of the command `lrat` with the answers of a checker that was written apart, each by computing it.
-- scripts/lrat_inputs.py writes this file.
use Rattle.std.specs.Prelude.{[], ◌∷◌, ◌++◌, codes}
use Rattle.std.proofs.Common.{refl}
use Rattle.std.specs.Fmt.{digits}
use Rattle.jd_logic.specs.WorkedProofs.{Answers}
"""


def term(text):
    """The text as a list of bytes: quoted where it can be."""
    parts, quoted = [], ""
    for c in text:
        if " " <= c <= "~" or c in ESCAPES:
            quoted += ESCAPES.get(c, c)
            continue
        if quoted:
            parts.append('codes "%s"' % quoted)
        parts, quoted = parts + ["(%d ∷ [])" % ord(c)], ""
    if quoted or not parts:
        parts.append('codes "%s"' % quoted)
    return "(%s)" % " ++ ".join(parts)


def main():
    cases = [json.loads(line) for line in (TOP / "crates/try_proofs/data/lrat.jsonl").read_text().splitlines()]
    statements = []
    for number, case in enumerate(cases, 1):
        assert case["output"].endswith("\n") and "\1" not in case["input"]
        goal = "Answers %s %s %d" % (term(case["input"]), term(case["output"][:-1]), case["status"])
        statements.append("\ninput_%d : %s\nunfolding digits\ninput_%d = refl\n" % (number, goal, number))
    (TOP / "crates/jd_logic/proofs/LratInputs.antt").write_text(HEAD + "".join(statements))
    program = TOP / "crates/try_proofs"
    (program / "stdin").write_bytes("\1".join(case["input"] for case in cases).encode("latin-1"))
    (program / "stdout").write_text("".join(case["output"] for case in cases))


main()
