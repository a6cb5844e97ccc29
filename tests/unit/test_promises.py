"""Tests that docs/promises.md names exactly the wrong bodies that the prover must refuse."""
from __future__ import annotations

import glob
import os
import re
import unittest

ROOT = os.path.dirname(os.path.dirname(os.path.dirname(os.path.abspath(__file__))))
NAMED = re.compile(r"\b([a-z_]+): ((?:`[a-z_0-9]+`(?:, )?)+)")


def named_edits(cells: str) -> list[str]:
    """Returns CRATE/NAME for each wrong body that cells name, as in `` guards: `ignores_gate_locks`, `counts_a_thread_twice` ``."""
    return [f"{crate}/{name}" for crate, names in NAMED.findall(cells) for name in re.findall(r"`([a-z_0-9]+)`", names)]


class Promises(unittest.TestCase):
    def test_wrong_bodies(self) -> None:
        with open(os.path.join(ROOT, "docs", "promises.md"), encoding="utf-8") as file:
            lines = file.read().split("\n")
        rows = [line.rsplit("|", 2)[1] for line in lines if line.startswith("| ")]
        edits = glob.glob(os.path.join(ROOT, "crates", "*", "must-fail", "*.edit"))
        there = sorted("/".join(path.split(os.sep)[-3::2])[:-len(".edit")] for path in edits)
        self.assertEqual(sorted(named_edits("\n".join(rows))), there)


if __name__ == "__main__":
    unittest.main()
