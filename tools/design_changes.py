"""Prints, as Markdown, what changed of contracts, signatures, type invariants and definitions between two checkouts, old and new side by side.

    python3 tools/design_changes.py OLD_FOLDER NEW_FOLDER

It reads what the kit's port/contracts.py finds (by text alone): a reader judges whether a changed text says less.
"""
import json
import subprocess
import sys

SCRIPT = "/opt/rattle/port/contracts.py"


def clauses(requires, ensures):
    lines = [f"requires {name}{': ' if name else ''}{text}" for name, text in requires]
    lines += [f"ensures {name}{': ' if name else ''}{text}" for name, text in ensures]
    return lines or ["no clause"]


def sides(old, new):
    for line in old:
        print(f"      - {line}")
    for line in new:
        print(f"      + {line}")


def main():
    old, new = sys.argv[1:3]
    out = subprocess.run(["python3", SCRIPT, old, new, "--json"], capture_output=True, text=True).stdout
    found = json.loads(out)
    print("### Signatures\n")
    for name, before, after in found["signatures changed"]:
        print(f"    {name}")
        sides([" ".join(before.split())], [" ".join(after.split())])
    print("\n### Clauses\n")
    for name, r0, e0, r1, e1 in found["contracts changed"]:
        print(f"    {name}")
        sides(clauses(r0, e0), clauses(r1, e1))
    print("\n### Type invariants and members of traits\n")
    items = found["ghost items and constants"]
    for *name, before, after in items["changed"]:
        print(f"    {' '.join(name)}")
        sides(before, after)
    for name in items["gone"]:
        print(f"    {' '.join(name)}: gone, see above")
    print("\n### Definitions\n")
    definitions = found["definitions"]
    for *name, before, after in definitions["changed"]:
        print(f"    {' '.join(name)}")
        sides(before, after)
    for name in definitions["gone"]:
        print(f"    {' '.join(name)}: gone, see above")


main()
