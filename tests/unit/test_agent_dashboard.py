"""Tests which command lines `goodlock --dashboard` refuses before anything runs."""
import contextlib
import io
import unittest
from unittest.mock import patch

from goodlock.commands.agent_dashboard import main


class CommandLines(unittest.TestCase):
    def test_refused(self) -> None:
        for args, reason in [
            (["--dashboard=x"], "--dashboard takes a number of seconds; --help explains the options"),
            (["--dashboard=123456789"], "--dashboard takes a number of seconds; --help explains the options"),
            (["--dashboard", "--server", "nowhere"], "--server is an IPv4 address and a port; --help explains the options"),
            (["--dashboard", "--out", "run%p"], "--dashboard reads the trace while the program runs: choose a name without %p for --out"),
            (["--dashboard", "--out=%p"], "--dashboard reads the trace while the program runs: choose a name without %p for --out"),
        ]:
            errors = io.StringIO()
            with patch("sys.argv", ["agent_dashboard", "/nowhere/goodlock", *args, "/nowhere/program"]), contextlib.redirect_stderr(errors):
                with self.assertRaises(SystemExit) as ended:
                    main()
            self.assertEqual((ended.exception.code, errors.getvalue()), (2, f"goodlock: {reason}\n"), args)


if __name__ == "__main__":
    unittest.main()
