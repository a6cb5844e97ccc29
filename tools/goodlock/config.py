"""Reads `goodlock.toml`: options of the tools and the agents. An option on the command line wins."""
from __future__ import annotations

import argparse
import os
import re
import sys
from collections.abc import Callable, Sequence
from dataclasses import dataclass
from typing import Any, Optional, Union

from goodlock.errors import InputError, shown
from goodlock.limits import LEAST_BOUND, MOST_BOUND, MOST_EVENTS

NAME = "goodlock.toml"
FAIL_ON = ("confirmed", "certain", "potential", "new", "new-certain")
LINE = re.compile(r"(.*) \(at line ([0-9]+), column ([0-9]+)\)")
Value = Union[int, str]


@dataclass(frozen=True)
class Key:
    """What the value of a key may be. A path is relative to the folder of the configuration file."""

    allowed: str
    allows: Callable[[object], bool]
    is_path: bool = False


def number(least: int, most: Optional[int] = None) -> Key:
    allowed = f"a whole number, {least} or more" if most is None else f"a whole number, {least} to {most}"
    return Key(allowed, lambda found: type(found) is int and found >= least and (most is None or found <= most))


def one_of(words: Sequence[str]) -> Key:
    return Key("one of " + ", ".join(f'"{word}"' for word in words), lambda found: found in words)


def is_text(found: object) -> bool:
    return isinstance(found, str) and found != "" and "\0" not in found


PATH, TEXT = Key("a path in quotes", is_text, is_path=True), Key("a text in quotes", is_text)
SWITCH = Key("true or false", lambda found: type(found) is bool)
BOUND = number(LEAST_BOUND, MOST_BOUND)
COMMON: dict[str, Key] = {
    "bound": BOUND,
    "fail-on": one_of(FAIL_ON),
    "suppressions": PATH,
    "baseline": PATH,
    "root": PATH,
}
TABLES: dict[str, dict[str, Key]] = {
    "agent": {
        "allow-partial": SWITCH,
        "bound": Key(f'{BOUND.allowed}, or "auto"', lambda found: found == "auto" or BOUND.allows(found)),
        "error-exitcode": number(0, 255),
        "keep-log": TEXT,
        "memory": one_of(("all", "atomics", "none")),
        "on-deadlock": TEXT,
        "seconds": number(1, 86_400),
        "stacks": number(1, 20),
        "trace-children": SWITCH,
        "window": number(100, MOST_EVENTS),
    },
    "summary": {"groups": number(0)},
    "many": {"groups": number(0), "hosts": PATH, "jobs": number(1), "memory": number(0), "out": PATH, "timeout": number(1)},
    "dashboard": {"bind": TEXT, "port": number(0, 65_535)},
}
# The keys outside of tables that each tool takes.
TAKEN: dict[str, tuple[str, ...]] = {
    "agent": tuple(COMMON),
    "summary": ("fail-on", "suppressions", "baseline", "root"),
    "many": tuple(COMMON),
    "dashboard": (),
}


@dataclass(frozen=True)
class Config:
    """The values of a configuration file. `tables` has those of each tool by the name of its table."""

    common: dict[str, Value]
    tables: dict[str, dict[str, Value]]

    def values_for(self, tool: str) -> dict[str, Value]:
        """Returns the values that a tool takes, by the names of its options without dashes: `suppressions` is `suppress`."""
        taken = {key: self.common[key] for key in TAKEN[tool] if key in self.common}
        taken.update(self.tables.get(tool, {}))
        return {"suppress" if key == "suppressions" else key: value for key, value in taken.items()}

    def words_for(self, tool: str) -> list[str]:
        """Returns the values that a tool takes as words of a command line: `--fail-on=new`, `--allow-partial`."""
        return [f"--{key}" if value is True else f"--{key}={value}" for key, value in self.values_for(tool).items() if value is not False]


def is_top(folder: str) -> bool:
    """Returns whether a folder has no parent. One that has been removed has none."""
    try:
        return os.path.samefile(folder or ".", os.path.join(folder, ".."))
    except OSError:
        return True


def find_config(folder: str = "") -> Optional[str]:
    """Returns the configuration file of a folder: in it or in the nearest parent, up to the first folder that contains `.git`."""
    while True:
        name = os.path.join(folder, NAME)
        if os.path.isfile(name):
            return name
        if os.path.exists(os.path.join(folder, ".git")) or is_top(folder):
            return None
        folder = os.path.join(folder, "..")


def read_config(name: str) -> Config:
    """Returns the values of a configuration file."""
    document = parse(name)
    folder = os.path.dirname(name)
    tables = {key: value for key, value in document.items() if isinstance(value, dict) and key not in COMMON}
    common = {key: value for key, value in document.items() if key not in tables}
    for table in tables:
        if table not in TABLES:
            raise InputError(name, None, f"[{shown(table)}]: unknown; the tables are {', '.join(f'[{known}]' for known in TABLES)}")
    known = {table: values_of(name, f"{table}.", TABLES[table], values, folder) for table, values in tables.items()}
    return Config(values_of(name, "", COMMON, common, folder), known)


def parse(name: str) -> dict[str, Any]:
    """Returns the document of a TOML file."""
    if sys.version_info < (3, 11):
        version = ".".join(map(str, sys.version_info[:3]))
        raise InputError(name, None, f"this is Python {version}, and Python 3.11 or later reads this file: use that, or --no-config")
    import tomllib

    with open(name, "rb") as file:
        content = file.read()
    try:
        return tomllib.loads(content.decode("utf-8"))
    except UnicodeDecodeError:
        raise InputError(name, None, "not text in UTF-8") from None
    except tomllib.TOMLDecodeError as fault:
        match = LINE.fullmatch(str(fault))
        raise (InputError(name, int(match[2]), match[1]) if match else InputError(name, None, str(fault))) from None


def values_of(name: str, table: str, keys: dict[str, Key], found: dict[str, Any], folder: str) -> dict[str, Value]:
    """Returns the checked values of a table. `table` is its name with a dot, or empty."""
    values: dict[str, Value] = {}
    for key, value in found.items():
        if key not in keys:
            raise InputError(name, None, f"{table}{shown(key)}: unknown; the keys here are {', '.join(keys)}")
        if not keys[key].allows(value):
            raise InputError(name, None, f"{table}{key}: not {keys[key].allowed}")
        values[key] = os.path.normpath(os.path.join(folder, value)) if keys[key].is_path else value
    return values


def parse_args(parser: argparse.ArgumentParser, tool: str, words: Optional[list[str]] = None) -> argparse.Namespace:
    """Parses a command line. The configuration file of the working folder gives defaults, unless there is `--no-config`."""
    args = parser.parse_args(words)
    name = None if args.no_config else find_config()
    if not name:
        return args
    parser.set_defaults(**{key.replace("-", "_"): value for key, value in read_config(name).values_for(tool).items()})
    return parser.parse_args(words)


def add_no_config(parser: argparse.ArgumentParser) -> None:
    parser.add_argument("--no-config", action="store_true", help=f"read no {NAME}")
