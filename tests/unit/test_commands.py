"""Tests what commands refuse before they start anything. The tests of each tool run the commands themselves."""
import contextlib
import io
import sys
from collections.abc import Callable
from unittest.mock import patch

from goodlock.commands import dashboard, many, serve_supervised
from written import InFolder


class Refuses(InFolder):
    def outcome(self, main: Callable[[], int], *words: str) -> tuple[int, str]:
        """Returns the exit status of a command with these words, and what it writes to standard error."""
        errors = io.StringIO()
        with patch.object(sys, "argv", ["tool", *words]), contextlib.redirect_stderr(errors):
            try:
                status = main()
            except SystemExit as end:
                status = end.code if isinstance(end.code, int) else 1
        return status, errors.getvalue()

    def test_dashboard(self) -> None:
        cases: list[tuple[list[str], str]] = [
            ([], "one of ADDRESS and --windows FILE is needed"), (["127.0.0.1:7070", "--windows", "w"], "one of ADDRESS and --windows FILE is needed"),
            (["--windows", "w", "--trace", "t"], "--trace is for ADDRESS: the file of --windows names the traces"),
            (["localhost"], "'localhost' is not an address and a port, as in 127.0.0.1:7070"), (["127.0.0.1:1", "--port", "65536"], "not 0 to 65,535"),
        ]
        for words, sentence in cases:
            status, errors = self.outcome(dashboard.main, *words)
            self.assertEqual((status, sentence in errors), (2, True), f"{words}: {errors}")

    def test_many(self) -> None:
        for words in [["--bound", "1", "t"], ["--bound", "9", "t"], ["--fail-on", "never", "t"]]:
            self.assertEqual(self.outcome(many.main, *words)[0], 2, f"{words}")

    def test_serve_supervised(self) -> None:
        """Without an address it prints its usage, and starts no server."""
        cases: list[tuple[list[str], int]] = [([], 2), (["--help"], 0), (["-h"], 0)]
        for words, status in cases:
            usage = io.BytesIO()
            with contextlib.redirect_stdout(io.TextIOWrapper(usage)):
                self.assertEqual(self.outcome(serve_supervised.main, *words), (status, ""), f"{words}")
                self.assertIn(b"usage: tools/serve_supervised ADDRESS [OPTION ..]", usage.getvalue())
