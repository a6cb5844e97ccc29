"""Finds and runs the program: GOODLOCKD_PROGRAM names it, or else it is next to the tools."""
import os
import re
import shutil
import subprocess
import tempfile
import threading
import time
from collections.abc import Generator
from math import inf

ROOT = os.path.dirname(os.path.dirname(os.path.dirname(os.path.realpath(__file__))))
TOOLS = os.path.join(ROOT, "tools")


class NoAnswer(Exception):
    """The program has failed, or was stopped. The text says why; `reason` is what the program has said."""

    def __init__(self, text: str, reason: str = "") -> None:
        super().__init__(text)
        self.reason = reason or text


def launcher() -> str:
    """Returns the path of the program, or in a checkout that of the script that builds it and runs it."""
    name = os.environ.get("GOODLOCKD_PROGRAM") or os.path.join(ROOT, "goodlockd")
    return os.path.realpath(shutil.which(name) or name)


def built_program() -> str:
    """Returns the path of the program itself, which may not be built yet."""
    folder = os.path.dirname(launcher())
    is_checkout = os.path.isdir(os.path.join(folder, "crates"))
    return os.path.join(folder, "crates", "goodlockd", "out", "goodlockd") if is_checkout else launcher()


def found_program(program: str = "") -> str:
    """Returns the path of the program itself, which may be given. Raises `NoAnswer` if there is none."""
    program = program or built_program()
    if not shutil.which(program):
        raise NoAnswer(f"there is no program {program} (make builds it, GOODLOCKD_PROGRAM names another)")
    return program


def version() -> str:
    """Returns the version of what is installed: the newest one of CHANGELOG.md, or an empty text if that page is missing."""
    try:
        with open(os.path.join(ROOT, "CHANGELOG.md"), encoding="utf-8") as file:
            found = re.search(r"^## ([0-9.]+)$", file.read(), re.MULTILINE)
    except OSError:
        return ""
    return found[1] if found else ""


def lines_from(command: list[str], end: float = inf, late: str = "") -> Generator[str, None, None]:
    """Yields the lines that a command prints. Stops it at a time, with the text `late` as the reason, or when no more of them are asked for.
    Ctrl-C in the terminal does not end it: that is for this process."""
    is_late = threading.Event()
    with tempfile.TemporaryFile() as errors:
        with subprocess.Popen(command, stdin=subprocess.DEVNULL, stdout=subprocess.PIPE, stderr=errors, encoding="ascii",
                              errors="replace", start_new_session=True) as process:

            def stop() -> None:
                is_late.set()
                process.kill()

            timer, last = threading.Timer(max(0.0, end - time.monotonic()), stop), ""
            if end < inf:
                timer.start()
            try:
                for line in process.stdout or ():
                    last = line.removesuffix("\n")
                    yield last
                process.wait()
            finally:
                timer.cancel()
                process.kill()
        if is_late.is_set():
            raise NoAnswer(late)
        if process.returncode:
            errors.seek(0)
            reason = (errors.read().decode(errors="replace").strip().splitlines() or [last or f"status {process.returncode}"])[-1][:200]
            raise NoAnswer(f"{command[0]} failed: {reason}", reason)
