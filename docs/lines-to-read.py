#!/usr/bin/env python3
"""Counts what has to be read to believe the promises: contracts, the definitions that they reach, and the statements of the theorems.

    docs/lines-to-read.py            the figures of docs/PROMISES.md
    docs/lines-to-read.py --files    and the files, with their lines

A file of definitions counts whole if a contract or a statement names something of it, or a file that counts does. `use` and `pub mod`
lines and blank lines are not counted; comments are, apart."""
import re
import sys
from pathlib import Path

CRATES = Path(__file__).resolve().parent.parent / "crates"

ENTRIES = {
    "logup_generation/src/generate_permutation.rt": ["generate", "row"],
    "logup_constraints/src/eval_all.rt": ["eval_all"],
    "lookup_degree/src/constraint_degree.rt": ["constraint_degree"],
    "lookup_buses/src/check_bus_widths.rt": ["check_bus_widths"],
    "packing_entry/src/pack_same_bus.rt": ["pack_same_bus"],
    "lookup_builder/src/builder.rt": ["from_interactions"],
    "lookup_challenges/src/challenges.rt": ["new"],
    "lookup_protocol/src/protocol.rt": ["verify_terminal_sum", "check_multiplicity_height_bound"],
    "lookup_count/src/count.rt": ["from_i32", "negated", "bounded", "provided"],
    "balance_entry/src/debug_util.rt": ["check_lookups"],
}
EXPORTS = ["delmatik_c", "delmatik_bytes_c"]

# the files with the statements of the theorems; `use` lines lead on from there
STATEMENTS = [
    "theorems_*/specs/*.antt",
    "packing/specs/Keeps.antt",
    "balance/specs/Passes.antt",
    "lookup_protocol/specs/HeightSum.antt",
    "lookup_builder/specs/BuiltWeights.antt",
]

USE = re.compile(r"^\s*(?:ghost )?use (?:Rattle\.(\w+)\.specs\.)([\w.]+?)(?:\.\{([^}]*)\}| as ([\w-]+))?;?\s*$", re.M)


def uses(path, text):
    """Files of definitions that a text's `use` lines name, with the names that it takes from each (or their alias)."""
    own = path.relative_to(CRATES).parts[0]
    for crate, module, names, alias in USE.findall(text):
        if module.startswith(("declared.", "laws.")):
            continue
        file = CRATES / (crate or own) / "specs" / (module.replace(".", "/") + ".antt")
        if not file.is_file():
            file = file.parent.with_suffix(".antt")
        taken = [n.split(" as ")[-1].strip() for n in names.split(",")] if names else [alias or module.split(".")[-1]]
        yield file, taken


def closure(files):
    seen, todo = set(), list(files)
    while todo:
        file = todo.pop()
        if file in seen or not file.is_file():
            continue
        seen.add(file)
        todo.extend(f for f, _ in uses(file, file.read_text()))
    return seen


def count(files):
    code = comments = 0
    for file in files:
        for line in file.read_text().splitlines():
            line = line.strip()
            if not line or line.startswith(("use ", "open ", "pub mod ")):
                continue
            if line.startswith("--"):
                comments += 1
            else:
                code += 1
    return code, comments


def contracts():
    """Lines of the contracts of the entry points and exports, and the files of definitions that they name."""
    lines, files = {"entry points": 0, "exports": 0}, set()
    sources = [(CRATES / f, names, "entry points") for f, names in ENTRIES.items()]
    sources += [(f, None, "exports") for crate in EXPORTS for f in sorted((CRATES / crate / "src").glob("*.rt"))]
    for path, names, kind in sources:
        text = path.read_text()
        for match in re.finditer(r"^pub (extern \"C\" )?fn (\w+)(.*?)^\{", text, re.M | re.S):
            if (names is None and match[1]) or (names and match[2] in names):
                contract = match[3][match[3].index("ensures") :]
                lines[kind] += len(contract.strip().splitlines())
                words = set(re.findall(r"[\w-]+", contract))
                files.update(f for f, taken in uses(path, text) if words & set(taken))
    return lines, files


def show(title, files):
    code, comments = count(files)
    print(f"{title}: {code:,} lines in {len(files)} files, {comments} lines of comments")
    if "--files" in sys.argv:
        for file in sorted(files):
            print(f"  {count([file])[0]:5} {file.relative_to(CRATES)}")


lines, named = contracts()
print(f"contracts: {lines['entry points']} lines of the entry points, {lines['exports']} of the exported functions")
reached = closure(named)
show("definitions that the contracts reach", reached)
statements = {f for pattern in STATEMENTS for f in CRATES.glob(pattern) if f.name not in ("Lib.antt", "laws.antt", "inner.antt")}
show("statements of the theorems", statements)
show("what these reach beside the contracts' definitions", closure(statements) - statements - reached)
borrowed = [f for f in sorted(reached | closure(statements)) if re.search(r"^use .*\.specs\.laws\.", f.read_text(), re.M)]
print("files of these that take a definition from laws:", ", ".join(str(f.relative_to(CRATES)) for f in borrowed) or "none")
main = CRATES / "theorems_soundness" / "specs" / "Soundness.antt"
show("the main theorem's statement", {main})
show("all that it reaches", closure({main}))
