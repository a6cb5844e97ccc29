"""Tests what the command `client` says of a refused event, and wrong command lines."""
import contextlib
import io
from unittest.mock import patch

from goodlock.commands.client import main, reason_of
from goodlock.protocol import EventRefused
from written import InFolder


class Reasons(InFolder):
    def test_reason_of(self) -> None:
        """The reason is in the file only if its first unlawful event is the refused one: else another client is the reason."""
        for text, index, reason in [
            ("0f1\n2a1\n", 1, "x:2: 2a1: thread 2 is not forked"), ("0f1 1a1\n0w1 0a1\n", 3, "x:2: 0a1: thread 1 holds lock 1 since place 1"),
            ("0f1\n2a1\n", 0, None), ("0f1\n", 0, None), ("0f1\ny\n", 0, None),
        ]:
            found = reason_of(self.write("x", text), EventRefused(index, 2))
            self.assertEqual(None if found is None else str(found), reason)
        self.assertIsNone(reason_of("missing", EventRefused(0, 2)))

    def test_command_lines(self) -> None:
        for args in [[], ["127.0.0.1:1", "x"], ["127.0.0.1:1", "x", "9"], ["127.0.0.1:1", "x", "1"], ["127.0.0.1", "x", "2"],
                     ["127.0.0.1:0", "x", "2"], ["127.0.0.1:1", "x", "2", "3"], ["--nonsense"]]:
            errors = io.StringIO()
            with patch("sys.argv", ["client", *args]), contextlib.redirect_stderr(errors):
                self.assertEqual((main(), errors.getvalue()), (2, "client: wrong command line: see --help\n"), args)
