"""Tests the command line that `summary` and `many` have in common: which format goes where, and the options of the gate."""
import argparse
import contextlib
import io
import sys
import unittest
from typing import Optional
from unittest import mock

from goodlock import ci
from goodlock.gates import Gate
from samples import CONFIRMED, run_of
from written import InFolder


def parsed(*words: str) -> argparse.Namespace:
    parser = argparse.ArgumentParser(prog="tool")
    parser.add_argument("files", nargs="*")
    parser.add_argument("--groups", type=int, default=200)
    ci.add_options(parser)
    with mock.patch.object(sys, "argv", ["tool", *words]):
        return ci.parse(parser, "summary")


class Formats(InFolder):
    def written(self, *words: str) -> tuple[str, str]:
        """Returns what is printed on standard output and on standard error."""
        run, out, err = run_of(CONFIRMED), io.TextIOWrapper(io.BytesIO(), "utf-8"), io.StringIO()
        args = parsed(*words)
        judgement = Gate(args.fail_on).judgement(run.results)
        with contextlib.redirect_stdout(out), contextlib.redirect_stderr(err):
            ci.write(args, run, judgement, lambda: "text\n", lambda: "{}\n")
            self.status = ci.status_of("tool", judgement)
        out.seek(0)
        return out.read(), err.getvalue()

    def test_text(self) -> None:
        self.assertEqual(self.written("a", "b"), ("text\n", ""))
        self.assertEqual(self.status, 0)

    def test_status(self) -> None:
        self.assertEqual(self.written("--fail-on", "new"), ("text\n", "tool: --fail-on new: 1 confirmed\n"))
        self.assertEqual(self.status, 3)

    PRINTED: list[tuple[tuple[str, ...], str]] = [
        (("--json", "a", "b"), "{}\n"),
        (("a", "b", "--json"), "{}\n"),
        (("--json=-",), "{}\n"),
        (("--sarif", "a"), '{\n  "$schema"'),
        (("--markdown",), "### Deadlocks: 1 new\n"),
        (("--junit", "-"), '<?xml version="1.0" encoding="utf-8"?>\n'),
        (("--gitlab=-",), "[\n  {\n"),
        (("--github",), "text\n::error "),
    ]

    def test_printed(self) -> None:
        for words, start in self.PRINTED:
            with self.subTest(words):
                self.assertEqual(self.written(*words)[0][:len(start)], start)

    def test_files(self) -> None:
        words = ["--json=a.json", "--sarif=a.sarif", "--markdown=a.md", "--junit", "a.xml", "--gitlab", "a.gitlab", "--github"]
        out, _ = self.written(*words)
        self.assertTrue(out.startswith("text\n::error "))
        self.assertEqual(self.read("a.json"), "{}\n")
        for name, start in [("a.sarif", "{"), ("a.md", "### "), ("a.xml", "<?xml"), ("a.gitlab", "[")]:
            self.assertTrue(self.read(name).startswith(start), name)

    def test_a_file_that_cannot_be_written(self) -> None:
        self.write("a.json", "before")
        with self.assertRaises(Exception):
            self.written("--json=a.json", "--sarif=none/a.sarif")
        self.assertEqual(self.read("a.json"), "before")

    WRONG = [
        (("--json", "--github"), "--json and --github print on standard output: write one to a file, such as --json=FILE"),
        (("--json", "--sarif"), "--json and --sarif print on standard output: write one to a file, such as --json=FILE"),
        (("--sarif=",), "--sarif= has no name of a file"),
        (("--junit",), "argument --junit: expected one argument"),
        (("--fail-on", "all"), "argument --fail-on: invalid choice: 'all' (choose from 'confirmed', 'certain', 'potential', 'new', 'new-certain')"),
    ]

    def test_wrong(self) -> None:
        for words, message in self.WRONG:
            err = io.StringIO()
            with self.subTest(words), contextlib.redirect_stderr(err), self.assertRaises(SystemExit) as raised:
                parsed(*words)
            self.assertEqual((raised.exception.code, err.getvalue().splitlines()[-1]), (2, f"tool: error: {message}"))

    def test_words_after_the_options(self) -> None:
        self.assertEqual(parsed("--", "--json").files, ["--json"])


class Configuration(InFolder):
    FILES: list[tuple[str, str, tuple[Optional[str], int]]] = [
        ("the file", "", ("potential", 7)),
        ("the command line wins", "--fail-on=new --groups 8", ("new", 8)),
        ("no file", "--no-config", (None, 200)),
    ]

    def test_configuration(self) -> None:
        self.write("goodlock.toml", "fail-on = 'potential'\n[summary]\ngroups = 7\n")
        for name, words, values in self.FILES:
            with self.subTest(name):
                args = parsed(*words.split())
                self.assertEqual((args.fail_on, args.groups), values)


if __name__ == "__main__":
    unittest.main()
