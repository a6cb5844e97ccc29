"""Compares what from_ftrace found in the recordings of tests/data/kernel, in this folder, with the table of their README.md: tests/kernel
runs it."""
from __future__ import annotations

import json
import sys


def by_instance(name: str) -> str:
    """Returns the verdicts of the groups, each with the classes for which its members wait."""
    with open(f"{name}.json", encoding="utf-8") as file:
        groups = json.load(file)["questions"][-1]["shown"]
    found = []
    for group in groups:
        classes = sorted({member["waits"]["location"].removeprefix("class ") for member in group["members"]})
        found.append(f"{group['verdict']}: {', '.join(classes)}")
    return "; ".join(found) or "none"


def by_class(name: str) -> str:
    """Returns the kinds and classes of the findings."""
    with open(f"{name}.classes.json", encoding="utf-8") as file:
        findings = json.load(file)["findings"]
    return "; ".join(f"{finding['kind']}: {', '.join(sorted(set(finding['classes'])))}" for finding in findings) or "none"


def rows(name: str) -> list[list[str]]:
    """Returns the rows of the table: recording, what happens in it, by instance, by class, lockdep."""
    with open(name, encoding="utf-8") as file:
        lines = [line for line in file if line.startswith("| `")]
    return [[cell.strip().strip("`") for cell in line.strip().strip("|").split("|")] for line in lines]


def main() -> int:
    faults, table = 0, rows(sys.argv[1])
    for name, _, instance, classes, _ in table:
        for kind in (name, f"{name}.plain"):
            found = (by_instance(kind), by_class(kind))
            if found != (instance, classes):
                faults += 1
                print(f"{kind}: by instance {found[0]!r}, not {instance!r}; by class {found[1]!r}, not {classes!r}")
    return 1 if faults or len(table) < 25 else 0


if __name__ == "__main__":
    sys.exit(main())
