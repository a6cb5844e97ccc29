"""The options of the gate: what fails, what is known or suppressed, and from where files are named."""
from __future__ import annotations

import argparse
import os
from dataclasses import dataclass
from typing import Optional

from goodlock.config import FAIL_ON
from goodlock.gates import Gate, Judge, Suppressions, read_baseline
from goodlock.locations import Root


def add_gate_options(parser: argparse.ArgumentParser) -> None:
    gate = parser.add_argument_group("gates")
    gate.add_argument("--fail-on", choices=FAIL_ON, metavar="WORD",
                      help="end with status 3 if a group is confirmed, also if no value decides; only if no value can decide (certain); if any "
                      "group is there (potential); if a confirmed group is new; if a certain one is (new-certain)")
    gate.add_argument("--baseline", metavar="FILE", help="list the groups that this file has as known; --json prints such a file")
    gate.add_argument("--suppress", metavar="FILE", help="leave out the groups that this file of suppressions matches")
    gate.add_argument("--root", metavar="DIR",
                      help="name files relative to this folder; default: the top of the git checkout, or else the working folder")


@dataclass
class Settings:
    """What the options say of results: the root of their files, their states, and the gate."""

    root: Root
    suppressions: Suppressions
    judge: Judge
    gate: Gate

    @property
    def suppression_file(self) -> Optional[str]:
        """The name of the file of suppressions, relative to the root."""
        return self.suppressions.name and self.root.relative(os.path.abspath(self.suppressions.name))


def settings_of(args: argparse.Namespace) -> Settings:
    root = Root(args.root)
    suppressions = Suppressions(args.suppress, root)
    baseline = read_baseline(args.baseline) if args.baseline else None
    return Settings(root, suppressions, Judge(suppressions, baseline), Gate(args.fail_on))
