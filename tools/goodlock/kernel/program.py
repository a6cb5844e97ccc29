"""Runs the program of tools/from_ftrace, which makes events of a recording and notes what lockdep looks at."""
from __future__ import annotations

import contextlib
import gzip
import lzma
import os
import subprocess
import sys
import time
import zlib
from collections.abc import Iterator
from dataclasses import dataclass
from functools import cache
from typing import IO, Optional, cast

from goodlock.errors import InputError
from goodlock.program import ROOT, TOOLS

BLOCK = 1 << 20
GZIP, XZ = b"\x1f\x8b", b"\xfd7zXZ\0"


class ProgramError(Exception):
    """The program has ended with this status. It has printed why."""

    def __init__(self, status: int) -> None:
        super().__init__(f"status {status}")
        self.status = status


@dataclass(frozen=True)
class Recording:
    """The files that the program has written, `events` and `classes`, and its counts."""

    events: str
    classes: str
    counts: dict[str, int]


@cache
def program() -> str:
    """Returns the path of the program, which is built once."""
    if subprocess.run([os.path.join(TOOLS, "kernel", "build")], stdin=subprocess.DEVNULL).returncode:
        raise ProgramError(1)
    return os.path.join(ROOT, "out", "kernel", "kernel")


@contextlib.contextmanager
def opened(name: str) -> Iterator[tuple[IO[bytes], Optional[IO[bytes]]]]:
    """Opens a recording, `-` is standard input, and yields its text and, if it is a file, the file itself."""
    with open(sys.stdin.fileno() if name == "-" else name, "rb", closefd=name != "-") as file:
        begin = file.peek(len(XZ))
        plain: IO[bytes] = file
        if begin.startswith(GZIP):
            plain = cast(IO[bytes], gzip.open(file))
        elif begin.startswith(XZ):
            plain = lzma.open(file)
        yield plain, file if name != "-" and os.path.isfile(name) else None


class Progress:
    """Shows on a terminal how much of a recording is read."""

    def __init__(self, file: Optional[IO[bytes]]) -> None:
        self.file, self.last, self.read, self.is_shown = file, time.monotonic(), 0, False
        self.size = os.fstat(file.fileno()).st_size if file else 0

    def add(self, size: int) -> None:
        self.read += size
        if not sys.stderr.isatty() or time.monotonic() - self.last < 0.5:
            return
        self.last, self.is_shown = time.monotonic(), True
        share = f", {100 * self.file.tell() // self.size}%" if self.file and self.size else ""
        print(f"\r{self.read >> 20:,} MiB read{share}", end="\x1b[K", file=sys.stderr, flush=True)

    def end(self) -> None:
        if self.is_shown:
            print("\r\x1b[K", end="", file=sys.stderr, flush=True)


def feed(name: str, to: IO[bytes]) -> None:
    """Writes the text of a recording to the program. If the program has ended, it has said why."""
    with opened(name) as (text, file):
        progress = Progress(file)
        try:
            while block := text.read(BLOCK):
                to.write(block)
                progress.add(len(block))
        except (lzma.LZMAError, gzip.BadGzipFile, EOFError, zlib.error) as fault:
            raise InputError(name, None, f"cannot be unpacked: {fault}") from None
        except BrokenPipeError:
            pass
        finally:
            progress.end()


def recorded(name: str, shown: str, folder: str, ww: list[str]) -> Recording:
    """Makes the events of a recording in a folder. `ww` are further classes of locks that back off."""
    with subprocess.Popen([program(), folder, shown, *ww], stdin=subprocess.PIPE, stdout=subprocess.PIPE) as process:
        assert process.stdin and process.stdout
        try:
            feed(name, process.stdin)
        except BaseException:
            process.kill()
            raise
        finally:
            with contextlib.suppress(BrokenPipeError):
                process.stdin.close()
        printed = process.stdout.read().decode("ascii", "replace")
    if process.returncode:
        raise ProgramError(process.returncode if process.returncode in (1, 2) else 1)
    counts = {word: int(number) for word, number in (line.split() for line in printed.splitlines())}
    return Recording(os.path.join(folder, "converted"), os.path.join(folder, "classes"), counts)
