"""The command line that `summary` and `many` have in common: the options of the gate, and the formats."""
from __future__ import annotations

import argparse
import sys
from collections.abc import Callable

from goodlock.commandline import Outputs, print_whole
from goodlock.config import add_no_config, parse_args
from goodlock.formats import github, gitlab, junit, markdown, sarif
from goodlock.gates import Judgement
from goodlock.results import Run
from goodlock.settings import add_gate_options

STANDARD_OUTPUT = "-"
OPTIONAL_FILE = ("--json", "--sarif", "--markdown")
FORMATS = ("json", "sarif", "markdown", "junit", "gitlab")


def add_options(parser: argparse.ArgumentParser) -> None:
    add_gate_options(parser)
    add_no_config(parser)
    formats = parser.add_argument_group("formats")
    for name, what in (("json", "one JSON object"), ("sarif", "a log in SARIF 2.1.0"), ("markdown", "a summary in Markdown")):
        formats.add_argument(f"--{name}", metavar="[=FILE]", help=f"print {what} instead of the text, or write it with --{name}=FILE")
    formats.add_argument("--junit", metavar="FILE", help="write a file of JUnit's XML: a group on which the tool fails is a failure")
    formats.add_argument("--gitlab", metavar="FILE", help="write a code quality report of GitLab")
    formats.add_argument("--github", action="store_true", help="print annotations of GitHub too")


def parse(parser: argparse.ArgumentParser, tool: str) -> argparse.Namespace:
    """Parses the command line. `--json` alone prints, `--json=FILE` writes a file: so the next word is never taken for a file."""
    words = sys.argv[1:]
    end = words.index("--") if "--" in words else len(words)
    words = [f"{word}={STANDARD_OUTPUT}" if word in OPTIONAL_FILE else word for word in words[:end]] + words[end:]
    args = parse_args(parser, tool, words)
    for name in FORMATS:
        if getattr(args, name) == "":
            parser.error(f"--{name}= has no name of a file")
    printed = printed_by(args)
    if len(printed) > 1:
        parser.error(f"{' and '.join(printed)} print on standard output: write one to a file, such as {printed[0]}=FILE")
    return args


def printed_by(args: argparse.Namespace) -> list[str]:
    """Returns the options that print on standard output."""
    return [f"--{name}" for name in FORMATS if getattr(args, name) == STANDARD_OUTPUT] + ["--github"] * args.github


def write(args: argparse.Namespace, run: Run, judgement: Judgement, text: Callable[[], str], json: Callable[[], str]) -> None:
    """Writes the files that the options name, and prints the text or the format that has no file."""
    makers: dict[str, Callable[[], str]] = {
        "json": json,
        "sarif": lambda: sarif.text_of(run, judgement),
        "markdown": lambda: markdown.text_of(run, judgement),
        "junit": lambda: junit.text_of(run, judgement),
        "gitlab": lambda: gitlab.text_of(run),
    }
    printed = text
    with Outputs() as outputs:
        for name, maker in makers.items():
            target = getattr(args, name)
            if target == STANDARD_OUTPUT:
                printed = maker
            elif target:
                outputs.open(target).write(maker())
    print_whole(printed() + (github.text_of(run, judgement) if args.github else ""))


def status_of(tool: str, judgement: Judgement) -> int:
    """Returns the exit status of the gate, and says why it fails."""
    if judgement.sentence:
        print(f"{tool}: {judgement.sentence}", file=sys.stderr)
    return judgement.status
