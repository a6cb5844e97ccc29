"""Tests that the figures of the pages are those that docs/figures/draw writes, so that the figure of the crates follows crates.txt."""
from __future__ import annotations

import os
import subprocess
import sys
import unittest

ROOT = os.path.dirname(os.path.dirname(os.path.dirname(os.path.abspath(__file__))))


class Figures(unittest.TestCase):
    def test_figures_are_drawn(self) -> None:
        done = subprocess.run([sys.executable, os.path.join(ROOT, "docs", "figures", "draw"), "--check"], capture_output=True, text=True, check=False)
        self.assertEqual((done.returncode, done.stdout, done.stderr), (0, "", ""))


if __name__ == "__main__":
    unittest.main()
