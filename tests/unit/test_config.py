"""Tests which configuration file is found, what it may say, and that the command line wins."""
import argparse
import os
import shutil
import unittest
from typing import Optional
from unittest import mock

from goodlock import config
from goodlock.config import Config, add_no_config, find_config, parse_args, read_config
from goodlock.errors import InputError
from written import InFolder


def make(files: dict[str, str]) -> None:
    """Replaces what is in the working folder by these files. A name that ends with a slash is a folder."""
    for name in os.listdir():
        if os.path.isdir(name):
            shutil.rmtree(name)
        else:
            os.remove(name)
    for name, text in files.items():
        os.makedirs(os.path.dirname(name) or ".", exist_ok=True)
        if not name.endswith("/"):
            with open(name, "w", encoding="utf-8") as file:
                file.write(text)


class Find(InFolder):
    CASES = [
        ("in the folder", {"goodlock.toml": ""}, "", "goodlock.toml"),
        ("in the parent", {"goodlock.toml": "", "a/b/": ""}, "a/b", "../../goodlock.toml"),
        ("the nearest one", {"goodlock.toml": "", "a/goodlock.toml": "", "a/b/": ""}, "a/b", "../goodlock.toml"),
        ("beside .git", {"goodlock.toml": "", ".git/": "", "a/": ""}, "a", "../goodlock.toml"),
        ("not above .git", {"goodlock.toml": "", "a/.git/": "", "a/b/": ""}, "a/b", None),
        ("not above the file .git of a worktree", {"goodlock.toml": "", "a/.git": "gitdir: x", "a/b/": ""}, "a/b", None),
        ("a folder of this name", {"goodlock.toml/": "", ".git/": ""}, "", None),
    ]

    def test_find(self) -> None:
        for name, files, working_folder, found in self.CASES:
            with self.subTest(name):
                make(files)
                top = os.getcwd()
                os.chdir(working_folder or ".")
                self.assertEqual(find_config(), found)
                os.chdir(top)

    def test_top(self) -> None:
        with mock.patch.object(config, "NAME", "no file has this name"):
            self.assertIsNone(find_config("/"))


class Read(InFolder):
    def test_empty(self) -> None:
        self.assertEqual(read_config(self.write("goodlock.toml", "# nothing\n")), Config({}, {}))

    def test_whole(self) -> None:
        text = """bound = 3
fail-on = "new"
suppressions = "ci/known.suppressions"
baseline = "/srv/baseline.json"
root = ".."
[agent]
error-exitcode = 9
stacks = 5
window = 100
[summary]
groups = 0
[many]
out = "results"
jobs = 2
[dashboard]
bind = "0.0.0.0"
port = 0
"""
        os.mkdir("a")
        found = read_config(self.write("a/goodlock.toml", text))
        self.assertEqual(found.common, {"bound": 3, "fail-on": "new", "suppressions": "a/ci/known.suppressions",
                                        "baseline": "/srv/baseline.json", "root": "."})
        self.assertEqual(found.tables["many"], {"out": "a/results", "jobs": 2})
        self.assertEqual(found.values_for("summary"), {"fail-on": "new", "suppress": "a/ci/known.suppressions",
                                                       "baseline": "/srv/baseline.json", "root": ".", "groups": 0})
        self.assertEqual(found.words_for("agent"), ["--bound=3", "--fail-on=new", "--suppress=a/ci/known.suppressions",
                                                    "--baseline=/srv/baseline.json", "--root=.", "--error-exitcode=9", "--stacks=5",
                                                    "--window=100"])
        self.assertEqual(found.words_for("dashboard"), ["--bind=0.0.0.0", "--port=0"])

    def test_agent(self) -> None:
        text = '[agent]\nbound = "auto"\nallow-partial = true\ntrace-children = false\non-deadlock = "gcore -o core"\nseconds = 9\n'
        self.assertEqual(read_config(self.write("goodlock.toml", f"bound = 3\n{text}")).words_for("agent"),
                         ["--bound=auto", "--allow-partial", "--on-deadlock=gcore -o core", "--seconds=9"])
        self.write("goodlock.toml", "[agent]\nallow-partial = 1\n")
        with self.assertRaisesRegex(InputError, "allow-partial: not true or false$"):
            read_config("goodlock.toml")

    def test_limits(self) -> None:
        for line, table, key, least, most in [("", "", "bound", 2, 8), ("[agent]\n", "agent", "stacks", 1, 20),
                                              ("[agent]\n", "agent", "window", 100, 1_048_576), ("[agent]\n", "agent", "seconds", 1, 86_400),
                                              ("[agent]\n", "agent", "error-exitcode", 0, 255),
                                              ("[dashboard]\n", "dashboard", "port", 0, 65_535)]:
            for number, is_allowed in [(least - 1, False), (least, True), (most, True), (most + 1, False)]:
                with self.subTest(f"{key} = {number}"):
                    self.write("goodlock.toml", f"{line}{key} = {number}\n")
                    if is_allowed:
                        self.assertEqual((read_config("goodlock.toml").tables.get(table) or read_config("goodlock.toml").common)[key], number)
                    else:
                        with self.assertRaisesRegex(InputError, f"{key}: not a whole number, {least} to {most}$"):
                            read_config("goodlock.toml")

    FAULTS = [
        ("unknown key", "bond = 3\n", "goodlock.toml: bond: unknown; the keys here are bound, fail-on, suppressions, baseline, root"),
        ("unknown key of a table", "[agent]\nout = 'x'\n", "goodlock.toml: agent.out: unknown; the keys here are allow-partial, bound, error-exitcode, "
         "keep-log, memory, on-deadlock, seconds, stacks, trace-children, window"),
        ("unknown table", "[agents]\n", "goodlock.toml: [agents]: unknown; the tables are [agent], [summary], [many], [dashboard]"),
        ("another word", 'fail-on = "none"\n', 'goodlock.toml: fail-on: not one of "confirmed", "certain", "potential", "new", "new-certain"'),
        ("a table for a key", "[bound]\n", "goodlock.toml: bound: not a whole number, 2 to 8"),
        ("a key for a table", "agent = 3\n", "goodlock.toml: agent: unknown; the keys here are bound, fail-on, suppressions, baseline, root"),
        ("a truth value for a number", "[summary]\ngroups = true\n", "goodlock.toml: summary.groups: not a whole number, 0 or more"),
        ("a number for a path", "root = 3\n", "goodlock.toml: root: not a path in quotes"),
        ("an empty path", "root = ''\n", "goodlock.toml: root: not a path in quotes"),
        ("a list", "suppressions = ['a', 'b']\n", "goodlock.toml: suppressions: not a path in quotes"),
        ("a number for a text", "[dashboard]\nbind = 127\n", "goodlock.toml: dashboard.bind: not a text in quotes"),
        ("no TOML", "bound = 2\nbound\n", r"goodlock.toml:2: .*"),
        ("twice", "bound = 2\nbound = 3\n", r"goodlock.toml:2: .*"),
    ]

    def test_faults(self) -> None:
        for name, text, message in self.FAULTS:
            with self.subTest(name), self.assertRaises(InputError) as raised:
                read_config(self.write("goodlock.toml", text))
            self.assertRegex(str(raised.exception), message if message.endswith(".*") else f"^{escaped(message)}$")

    def test_not_text(self) -> None:
        with open("goodlock.toml", "wb") as file:
            file.write(b"\xff\n")
        with self.assertRaisesRegex(InputError, "^goodlock.toml: not text in UTF-8$"):
            read_config("goodlock.toml")

    def test_old_python(self) -> None:
        with mock.patch("sys.version_info", (3, 9, 2)), self.assertRaises(InputError) as raised:
            read_config("goodlock.toml")
        self.assertEqual(str(raised.exception), "goodlock.toml: this is Python 3.9.2, and Python 3.11 or later reads this file: use "
                                                "that, or --no-config")


def escaped(text: str) -> str:
    return "".join(f"\\{letter}" if letter in "[].|*+?()" else letter for letter in text)


class CommandLine(InFolder):
    CASES: list[tuple[str, dict[str, str], list[str], tuple[Optional[str], int, Optional[str]]]] = [
        ("the file", {"goodlock.toml": "fail-on = 'new'\nroot = 'src'\n[summary]\ngroups = 7\n"}, [], ("new", 7, "src")),
        ("the command line wins", {"goodlock.toml": "fail-on = 'new'\n[summary]\ngroups = 7\n"}, ["--groups", "8"], ("new", 8, None)),
        ("no configuration", {"goodlock.toml": "fail-on = 'new'\n"}, ["--no-config"], (None, 200, None)),
        ("no configuration, and a file with faults", {"goodlock.toml": "?"}, ["--no-config"], (None, 200, None)),
        ("no file", {".git/": ""}, [], (None, 200, None)),
        ("another tool's table", {"goodlock.toml": "[many]\ngroups = 7\n"}, [], (None, 200, None)),
    ]

    def test_parse(self) -> None:
        for name, files, words, values in self.CASES:
            parser = argparse.ArgumentParser()
            parser.add_argument("--fail-on")
            parser.add_argument("--groups", type=int, default=200)
            parser.add_argument("--root")
            add_no_config(parser)
            with self.subTest(name):
                make(files)
                args = parse_args(parser, "summary", words)
                self.assertEqual((args.fail_on, args.groups, args.root), values)


if __name__ == "__main__":
    unittest.main()
