"""Tests exit statuses, numbers of options, and output that is written as a whole or not at all."""
import argparse
import contextlib
import io
import os
import signal
import subprocess
from collections.abc import Callable
from typing import Optional
from unittest.mock import Mock

from goodlock.commandline import ENDING, Outputs, count, plural, run, wait_for, whole_number, write_whole
from goodlock.errors import InputError, OutputError, fault_of_text, shown
from written import InFolder


def fails_with(fault: BaseException) -> Callable[[], Optional[int]]:
    def command() -> Optional[int]:
        raise fault

    return command


class Runs(InFolder):
    def test_statuses(self) -> None:
        for fault, status, text in [
            (InputError("a", 3, "b: c"), 2, "a:3: b: c\n"), (InputError("a", None, "b"), 2, "a: b\n"), (OutputError(OSError(28, "full")), 1, "cannot write: full\n"), (OutputError(OSError(2, "gone", "x")), 1, "cannot write: x: gone\n"),
            (FileNotFoundError(2, "No such file", "x"), 1, "cannot read x: No such file\n"), (OSError(5, "broken"), 1, "cannot read a file: broken\n"),
            (MemoryError(), 1, "no memory\n"), (KeyboardInterrupt(), 1, "interrupted\n"),
        ]:
            errors = io.StringIO()
            with contextlib.redirect_stderr(errors):
                self.assertEqual((run(fails_with(fault)), errors.getvalue()), (status, text))
        self.assertEqual((run(lambda: None), run(lambda: 3)), (0, 3))

    def test_numbers(self) -> None:
        for reader, good, bad in [(count, ["0", "7"], ["-1", "x", "", "1.0", "\u0661", "9" * 5000]),
                                  (whole_number(2, 1048576), ["2", "1048576"], ["1", "1048577"])]:
            for word in good:
                self.assertEqual(reader(word), int(word))
            for word in bad:
                with self.assertRaises(argparse.ArgumentTypeError):
                    reader(word)
        with self.assertRaisesRegex(argparse.ArgumentTypeError, "^not 2 to 1,048,576$"):
            whole_number(2, 1048576)("1")

    def test_plural(self) -> None:
        self.assertEqual([plural(number, "cycle") for number in (0, 1, 2000)], ["0 cycles", "1 cycle", "2,000 cycles"])


class Waits(InFolder):
    def setUp(self) -> None:
        super().setUp()
        for number in ENDING:
            self.addCleanup(signal.signal, number, signal.getsignal(number))

    def test_statuses(self) -> None:
        for script, status in [("exit 3", 3), ("exit 0", 0), ("kill -TERM $$", 128 + signal.SIGTERM)]:
            with subprocess.Popen(["sh", "-c", script]) as process:
                self.assertEqual(wait_for(process), (status, False), script)

    def test_passed_on(self) -> None:
        """A signal for this process reaches the command, whose status counts."""

        def wait() -> int:
            signal.raise_signal(signal.SIGHUP)
            return 5

        process = Mock(wait=wait)
        self.assertEqual(wait_for(process), (5, True))
        process.send_signal.assert_called_once_with(signal.SIGHUP)


class Writes(InFolder):
    def test_all_or_none(self) -> None:
        self.write("a", "old")
        with self.assertRaises(ValueError), Outputs() as outputs:
            outputs.open("a").write("new")
            outputs.open("b").write("new")
            raise ValueError
        self.assertEqual((self.read("a"), os.listdir()), ("old", ["a"]))
        with Outputs() as outputs:
            outputs.open("a").write("1")
            outputs.open("b").write("2")
        self.assertEqual((self.read("a"), self.read("b"), sorted(os.listdir())), ("1", "2", ["a", "b"]))

    def test_faults(self) -> None:
        with self.assertRaises(OutputError):
            write_whole("missing/a", "x")
        if os.path.exists("/dev/full"):
            with self.assertRaises(OutputError):
                write_whole("/dev/full", "x")
        self.assertEqual(os.listdir(), [])

    def test_names_that_are_not_text(self) -> None:
        write_whole("a", "\udcff\ud800")
        self.assertEqual(self.read("a"), "??")


class Texts(InFolder):
    def test_shown(self) -> None:
        for text, as_shown in [("a b", "a b"), ("a\r", "a\\r"), ("\ufeffa\x00", "\\ufeffa\\x00"), ("x" * 61, "x" * 60 + ".."), ("ä", "ä"), ("\0" * 20, "\\x00" * 15 + "..")]:
            self.assertEqual(shown(text), as_shown)

    def test_faults_of_texts(self) -> None:
        for text, word in [("a\r", "carriage return"), ("\ufeffa", "byte order mark"), ("\x1f\ufffd", "gzip"), ("a\tb", "tab"), ("a\x07", "not text"), ("\x7f\t", "not text")]:
            self.assertIn(word, str(fault_of_text(text)))
        for text in ["", "a b", "ä"]:
            self.assertIsNone(fault_of_text(text))
