"""The names of functions of C++, and those of the global and static variables of a file, by `nm`."""
from __future__ import annotations

import re
import subprocess
import sys
from bisect import bisect_right
from functools import cache
from typing import NamedTuple

MOST_SECONDS = 20
TEMPLATE = re.compile(r"(operator *(?:<=>|<<=?|<=?|>>=?|>=?|->\*?)|->|[<>])")
VARIABLE = re.compile(r"([0-9a-f]+) ([0-9a-f]+) [bBdDgGsSuV] (.+)")


def without_arguments_of_templates(function: str) -> str:
    """Returns the name of a function of C++ without what is between < and >, unless these are letters of an operator's name or of another
    expression."""
    found, depth = [], 0
    for part in TEMPLATE.split(function):
        if part == "<":
            depth += 1
        elif part == ">" and not depth:
            return function
        elif part == ">":
            depth -= 1
        elif not depth:
            found.append(part)
    return function if depth else "".join(found)


class Variable(NamedTuple):
    """A variable: the offset of its first byte in the file's memory, and how many it has."""

    begin: int
    size: int
    name: str


@cache
def variables_of(path: str) -> tuple[Variable, ...]:
    """Returns the variables in ascending order; none if the file has no symbols, or there is no `nm`."""
    for options in ((), ("-D",)):
        try:
            run = subprocess.run(["nm", "-C", "-S", "--defined-only", *options, path], capture_output=True, text=True, errors="replace", check=False,
                                 timeout=MOST_SECONDS)
        except (OSError, subprocess.TimeoutExpired):
            return ()
        found = [Variable(int(match[1], 16), int(match[2], 16), match[3]) for line in run.stdout.splitlines() if (match := VARIABLE.fullmatch(line))]
        if found:
            return tuple(sorted(found))
    return ()


def name_at(path: str, offset: int) -> str:
    """Returns the name of the variable that contains a byte: `queue_lock`, or `accounts+0x38` within a larger one; else an empty text."""
    variables = variables_of(path)
    at = bisect_right(variables, (offset, sys.maxsize)) - 1
    if at < 0 or offset - variables[at].begin >= variables[at].size:
        return ""
    within = offset - variables[at].begin
    return f"{variables[at].name}+0x{within:x}" if within else variables[at].name
