#!/usr/bin/env python3
"""Writes the statements of the crate key_file_examples from the key files in crates/try_cases/data.

Each case of the five files below is a key file with the display of each line. It becomes
one field of a record in specs/, and the field's proof, by computation, in proofs/laws/. The few that run 100,000
lines are left to try_cases, since no computation of the prover goes so far.

usage: scripts/state_key_files.py     at the top of the repository; it replaces the files it wrote before
"""
import shutil
from pathlib import Path

DATA = Path("crates/try_cases/data")
CRATE = Path("crates/key_file_examples")
KINDS = ["Operations", "Programs", "Corners", "Large", "Teaching"]
CASES_A_MODULE = 30


def cases(path):
    """The cases of a file: each a name, and pairs of a line of keys and its display."""
    found = []
    for line in path.read_text().splitlines():
        if line.startswith("#") or not line:
            continue
        if line.startswith("case "):
            numbers = [word for word in line.split()[1:] if word.isdigit()]
            found.append(("case_" + "_".join([numbers[0], *numbers[1:][-1:]]), []))
        else:
            keys, display = line.split(" => ")
            found[-1][1].append((keys, display))
    return [(name, rows) for name, rows in found if all(shown != "Error 8" for _, shown in rows)]


def field(name, rows):
    keys = "\\n".join(keys for keys, _ in rows)
    shown = "\\n".join(display for _, display in rows)
    return f'  pub {name} : Prints\n      (codes "{keys}\\n")\n      (codes "{shown}\\n")\n'


def write(path, text):
    path.parent.mkdir(parents=True, exist_ok=True)
    path.write_text(text)


def state(kind, found):
    """Writes the modules of a kind of cases, and gives their names."""
    names = []
    for start in range(0, len(found), CASES_A_MODULE):
        part = found[start : start + CASES_A_MODULE]
        name = f"{kind}{start // CASES_A_MODULE + 1}"
        names.append(name)
        fields = "".join(field(case, rows) for case, rows in part)
        write(
            CRATE / f"specs/{name}.antt",
            "-- Key files and what they print. Written by scripts/state_key_files.py.\n"
            "use Rattle.std.specs.Prelude.{codes}\n"
            "use Rattle.hp_model.specs.WorkedKeyFiles.{Prints}\n\n"
            f"pub record {name} : Type 0 where\n{fields}",
        )
        proofs = "".join(f"  {case} = refl;\n" for case, _ in part)
        write(
            CRATE / f"proofs/laws/{name.lower()}/Answers.antt",
            "-- Each key file, by computing it. Written by scripts/state_key_files.py.\n"
            "use Rattle.std.proofs.Common.{refl}\n"
            "use Rattle.std.specs.Fmt.{digits}\n"
            "use Rattle.hp_model.specs.Press.{lines_per_key}\n"
            f"use Rattle.key_file_examples.proofs.laws.{name.lower()}.Goals as goal\n\n"
            "pub returns : goal.returns\nunfolding digits lines_per_key\n"
            f"returns c = record {{\n{proofs}}}\n",
        )
    return names


def main():
    shutil.rmtree(CRATE / "specs", ignore_errors=True)
    shutil.rmtree(CRATE / "proofs/laws", ignore_errors=True)
    names = [name for kind in KINDS for name in state(kind, cases(DATA / f"{kind.lower()}.txt"))]
    write(CRATE / "specs/Lib.antt", "".join(f"pub mod {name}\n" for name in names))
    uses = "".join(f"ghost use Rattle.key_file_examples.specs.{name}.{{{name}}};\n" for name in names)
    laws = "\n".join(
        f"/// The definitions print what these key files are said to print.\n"
        f"pub fn {name.lower()}()\n    ensures {{ {name} }}\n{{}}\n"
        for name in names
    )
    write(CRATE / "src/laws.rt", f"// Written by scripts/state_key_files.py.\n{uses}\n{laws}")


main()
