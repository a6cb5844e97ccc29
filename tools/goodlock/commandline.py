"""What the commands share: exit statuses, numbers, and output that is written as a whole or not at all."""
from __future__ import annotations

import argparse
import contextlib
import os
import signal
import subprocess
import sys
from collections.abc import Callable, Iterator
from types import FrameType, TracebackType
from typing import IO, NoReturn, Optional

from goodlock.errors import InputError, OutputError
from goodlock.limits import LEAST_BOUND, MOST_BOUND

BOUNDS = range(LEAST_BOUND, MOST_BOUND + 1)
ENDING = (signal.SIGTERM, signal.SIGHUP)


def plural(number: int, one: str) -> str:
    return f"{number:,} {one if number == 1 else one + 's'}"


def parser_of(prog: str, description: str, epilog: str = "") -> argparse.ArgumentParser:
    """Returns a parser that prints these texts with their line feeds. The first line of the description is enough for it."""
    return argparse.ArgumentParser(prog=prog, description=description, epilog=epilog, formatter_class=argparse.RawDescriptionHelpFormatter)


class WordsParser(argparse.ArgumentParser):
    """Parses options before a command that has options of its own. A wrong word is one line on standard error, and status 2."""

    def __init__(self, prog: str) -> None:
        super().__init__(prog=prog, add_help=False, allow_abbrev=False)

    def error(self, message: str) -> NoReturn:
        print(f"{self.prog}: {message}; --help explains the options", file=sys.stderr)
        sys.exit(2)

    def command_in(self, words: list[str], what: str) -> argparse.Namespace:
        """Returns the values of the options, and the `command`, which must be there."""
        self.add_argument("command", nargs=argparse.REMAINDER)
        args = self.parse_args(words)
        if args.command[:1] == ["--"]:
            del args.command[0]
        if not args.command:
            self.error(f"there is no {what}")
        return args


def is_number(word: str, digits: int = 19) -> bool:
    """Returns whether a word is a whole number of at most `digits` digits."""
    return word.isascii() and word.isdecimal() and len(word) <= digits


def whole_number(least: int, most: Optional[int] = None) -> Callable[[str], int]:
    """Returns a reader of an option's number in this range."""

    def number_of(word: str) -> int:
        number = int(word) if is_number(word) else least - 1
        if number < least or most is not None and number > most:
            raise argparse.ArgumentTypeError(f"not {least} or more" if most is None else f"not {least} to {most:,}")
        return number

    return number_of


count = whole_number(0)


def run(command: Callable[[], Optional[int]], interrupted: str = "interrupted") -> int:
    """Runs a command and returns its exit status: 2 if a line of a file has a fault, 1 if a file cannot be read or written or if Ctrl-C
    ends it, else what the command returns."""
    try:
        return command() or 0
    except InputError as fault:
        print(fault, file=sys.stderr)
        return 2
    except OutputError as fault:
        print(f"cannot write: {fault}", file=sys.stderr)
    except OSError as fault:
        print(f"cannot read {fault.filename or 'a file'}: {fault.strerror or fault}", file=sys.stderr)
    except MemoryError:
        print("no memory", file=sys.stderr)
    except KeyboardInterrupt:
        print(interrupted, file=sys.stderr)
    return 1


def wait_for(process: subprocess.Popen[bytes]) -> tuple[int, bool]:
    """Waits for a command, and passes the signals that end this process on to it. Returns its exit status, which is 128 and the number of the
    signal that has ended it, and whether a signal was passed on."""
    passed: list[int] = []

    def pass_on(number: int, _frame: Optional[FrameType]) -> None:
        passed.append(number)
        process.send_signal(number)

    for number in ENDING:
        signal.signal(number, pass_on)
    status = process.wait()
    return status if status >= 0 else 128 - status, bool(passed)


def print_whole(text: str) -> None:
    """Prints a text on standard output."""
    try:
        sys.stdout.buffer.write(text.encode("utf-8", "replace"))
        sys.stdout.flush()
    except OSError as fault:
        with contextlib.suppress(OSError):  # else the interpreter writes the rest at exit, and reports it again
            os.dup2(os.open(os.devnull, os.O_WRONLY), sys.stdout.fileno())
        raise OutputError(fault) from None


def print_usage(text: str, status: int = 0) -> int:
    """Prints the usage of a command. Returns 0 if the command line asks for it, else this status."""
    return run(lambda: print_whole(f"{text.strip()}\n")) or (0 if sys.argv[1:] in (["--help"], ["-h"]) else status)


def write_whole(name: str, text: str) -> None:
    """Writes a file. If that fails, an earlier file of this name is unchanged."""
    with Outputs() as outputs:
        outputs.open(name).write(text)


@contextlib.contextmanager
def writing() -> Iterator[None]:
    """An error of the system in the block is one of an output."""
    try:
        yield
    except OSError as fault:
        raise OutputError(fault) from None


class Outputs:
    """Files that get their names when all of them are written, and are removed if an error occurs."""

    def __init__(self) -> None:
        self.names: list[str] = []
        self.file: Optional[IO[str]] = None

    def open(self, name: str) -> IO[str]:
        """Ends the last file and begins one. Returns it. A device or a pipe is written directly."""
        name = os.path.realpath(name)
        is_plain = os.path.isfile(name) or not os.path.exists(name)
        with writing():
            self.end()
            self.file = open(f"{name}.part" if is_plain else name, "w", encoding="utf-8", errors="replace")
        if is_plain:
            self.names.append(name)
        return self.file

    def end(self) -> None:
        if self.file:
            self.file.close()
            self.file = None

    def __enter__(self) -> Outputs:
        return self

    def __exit__(self, kind: Optional[type[BaseException]], fault: Optional[BaseException], _: Optional[TracebackType]) -> None:
        try:
            self.end()
            if kind is None:
                for name in self.names:
                    os.replace(f"{name}.part", name)
                return
        except OSError as error:
            self.remove()
            raise OutputError(error) from None
        self.remove()
        if isinstance(fault, OSError) and fault.filename is None:  # a write, not an open
            raise OutputError(fault) from None

    def remove(self) -> None:
        for name in self.names:
            with contextlib.suppress(OSError):
                os.remove(f"{name}.part")
