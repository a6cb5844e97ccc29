"""Runs each tool on mutated inputs in this process: it ends with a documented status, in time, and without a traceback."""
from __future__ import annotations

import contextlib
import io
import os
import random
import socket
import threading
from collections.abc import Callable, Iterator
from typing import IO
from unittest.mock import patch

from goodlock.commands import agent_report, from_ftrace, from_std, picture, reduce, summary
from goodlock.kernel.program import program as kernel_program
from goodlock.protocol import Lost, Refused, Session
from goodlock.reducer import program
from test_converters import BANK as STD
from test_groups import BANK, REPORT
from test_kernel import LATENCY, PERF, TRACE_CMD, TRACEFS, text_of_lines
from written import OPPOSITE, OPPOSITE_REPORT, InFolder, ends, environment

RUNS = 2000  # of each tool
STATUSES = (0, 1, 2, 3)
LETTERS = "0123456789fjardw \n#|():;,-[]{}=<>\"'/.\r\t\0\x1f\ufeff\u0660\u2028\u00e4"
SCRIPT = "0f1 1a1\n0a1\nask 2\nbatch 0f2 1a1\ndeliver 0 1\n# mark 3\n# thread 1 is x\n"
CONFIG = 'bound = 3\nfail-on = "new"\nsuppressions = "suppressions"\n[summary]\ngroups = 3\n[agent]\nwindow = 100\n'
BASELINE = '{"fingerprints": {"aa:1": "confirmed", "bb:1": "potential"}}'
WINDOW = "# mark 3\n# lock 3 is mark\n# line 7 of x.std\n# at x.c:3 in f\n0f1 0f2 1w5\n1a10 1a3 1a20 1r3\n1r20 1r10 2d5 0j1\n"
SECOND = "# window 2\n# repeated 1\n0f2\n# place 3 of y\n2a20\n# line 9 of x.std\n2a10 2r10 2r20\n# thread 2 is y\n"
COUNTS = "attached 1\nlock_events 8\nthreads 3\nread_locks 0\ncrowded_locks 0\nunseen 0\noverflowing 0\noff 0\nvalues 15\nframes 1\n"
ORDERS = text_of_lines("k-9 acquire (work_completion)(&w)", "k-9 workqueue_execute_start work struct 0xd1: function f", "k-9 take read A",
                       "p-1/..s. take &x->wait", "k-9 sched_waking comm=p pid=1 prio=1", "k-9 sched_process_fork comm=k pid=9 child_comm=c child_pid=3",
                       "k-9 release (work_completion)(&w)", "c-3 take A", "c-3 release B", "p-1 workqueue_queue_work work struct=0xd1 function=f")
SITES = "1\t/bin/true+0x10\n2\tbank.py:3 in transfer\n3\t?\n"
HAPPENED = "deadlock of 2 threads, which wait for each other\nthread 1 waits for lock 2 at @1@\nthread 1 holds lock 1 since @2@\n"
RECORDED = "# at 1\n" + OPPOSITE
PLACED, OPENED, REPORTED = bytes.fromhex("000000054100000000"), bytes.fromhex("0000000d43000000000000000a00000002"), b"\0\0\0\3E\0\0"


def repeated(dice: random.Random) -> int:
    """Returns how often a piece is repeated: rarely so often that time which is not linear shows."""
    return 30_000 if dice.random() < 0.005 else dice.choice((1, 1, 1, 2, 20))


def mutated(dice: random.Random, text: str) -> bytes:
    """Returns a text with one to six changes."""
    for _ in range(dice.randint(1, 6)):
        at = dice.randrange(len(text) + 1)
        end = min(len(text), at + dice.randint(0, 40))
        piece = dice.choice((dice.choice(LETTERS), text[at:end], "", str(dice.choice((0, 2**32, 10**30)))))
        text = text[:at] + piece * repeated(dice) + text[dice.choice((at, end)):]
    content = bytearray(text.encode("utf-8", "surrogatepass"))
    if content and dice.random() < 0.1:
        content[dice.randrange(len(content))] = dice.randrange(256)
    return bytes(content)


@contextlib.contextmanager
def silent(null: IO[str]) -> Iterator[None]:
    """Standard error of this process and those that it starts is discarded."""
    kept = os.dup(2)
    os.dup2(null.fileno(), 2)
    try:
        yield
    finally:
        os.dup2(kept, 2)
        os.close(kept)


class Fuzz(InFolder):
    @classmethod
    def setUpClass(cls) -> None:
        program(), kernel_program()  # are built here, since that takes longer than a run may

    def outcome(self, main: Callable[[], int], *args: str) -> object:
        """Returns the status of a tool, or the exception that it lets out."""
        quiet = io.TextIOWrapper(io.BytesIO(), encoding="utf-8", errors="backslashreplace")
        try:
            with patch("sys.argv", ["tool", *args]), contextlib.redirect_stdout(quiet), contextlib.redirect_stderr(io.StringIO()), ends(20):
                return main()
        except SystemExit as fault:
            return fault.code
        except BaseException as fault:
            return fault

    def fuzz(self, main: Callable[[], int], inputs: dict[str, list[str]], *args: str) -> None:
        """Runs a tool, each time with one of these files mutated. Each file has some right contents."""
        with environment(GOODLOCKD_PROGRAM="/nowhere/goodlockd"):
            for number in range(RUNS):
                dice = random.Random(number)
                changed = dice.choice(list(inputs))
                for name, contents in inputs.items():
                    text = dice.choice(contents)
                    content = mutated(dice, text) if name == changed else text.encode()
                    with open(name, "wb") as file:
                        file.write(content)
                    if name == changed:
                        shown = content[:200]
                outcome = self.outcome(main, *args)
                self.assertIn(outcome, STATUSES, f"run {number}, {changed} is {shown!r}: {outcome!r}")

    def test_summary(self) -> None:
        inputs = {"trace": [BANK], "report": [REPORT], "suppressions": ["*bank.c:34 in transfer ; *\n"], "baseline": [BASELINE], "goodlock.toml": [CONFIG]}
        self.fuzz(summary.main, inputs, "trace", "report", "--baseline", "baseline", "--json", "json", "--sarif", "sarif", "--junit", "junit",
                  "--gitlab", "gitlab", "--markdown", "markdown", "--github")

    def test_picture(self) -> None:
        self.fuzz(picture.main, {"trace": [BANK, SCRIPT], "report": [REPORT]}, "trace", "report", "html")

    def test_from_std(self) -> None:
        self.fuzz(from_std.main, {"in": [STD]}, "in", "out")

    def test_from_ftrace(self) -> None:
        """The program in C prints its faults itself."""
        with open(os.devnull, "w") as null, silent(null):
            self.fuzz(from_ftrace.main, {"in": [TRACEFS, TRACE_CMD, LATENCY, PERF, ORDERS]}, "in", "out", "--json", "json")

    def test_reduce(self) -> None:
        """The program in C, with windows and comments of all kinds. It prints its faults itself."""
        with open(os.devnull, "w") as null, silent(null):
            self.fuzz(reduce.main, {"in": [WINDOW, OPPOSITE], "in.2": [SECOND]}, "in", "in.2", "out", "--window", "9")

    def test_agent_report(self) -> None:
        os.mkdir("run.tmp")
        inputs = {"run.trace": [RECORDED], "run.tmp/1.answer": [OPPOSITE_REPORT], "run.tmp/sites": [SITES], "run.tmp/summary": [COUNTS],
                  "run.tmp/deadlock": [HAPPENED]}

        def finish() -> int:
            os.makedirs("run.tmp", exist_ok=True)
            for name in inputs:  # a run removes its folder at the end
                if os.path.exists(f"kept{os.path.basename(name)}"):
                    os.replace(f"kept{os.path.basename(name)}", name)
            return agent_report.main()

        kept = {f"kept{os.path.basename(name)}": contents for name, contents in inputs.items()}
        self.fuzz(finish, kept, "finish", "/nowhere/goodlockd", "4", "run", "1", "--no-config")

    def test_client(self) -> None:
        """The replies of a server are mutated."""
        with socket.create_server(("127.0.0.1", 0)) as server:
            for number in range(RUNS):
                dice = random.Random(number)
                replies = mutated(dice, (PLACED + OPENED + REPORTED + PLACED).decode("latin-1")).decode("utf-8", "replace").encode("latin-1", "replace")
                outcome = self.outcome(lambda: asked(server, replies))
                self.assertEqual(outcome, 0, f"run {number}, the replies are {replies[:200]!r}: {outcome!r}")


def asked(server: socket.socket, replies: bytes) -> int:
    """Asks a server that sends these bytes and ends the session."""

    def serve() -> None:
        connection, _ = server.accept()
        with connection, contextlib.suppress(OSError):
            connection.sendall(replies)

    answering = threading.Thread(target=serve)
    answering.start()
    host, port = server.getsockname()
    session = Session(host, port, seconds=10)
    try:
        session.offer((1, 0, 1))
        session.report(session.ask(2).question)
    except (Lost, Refused):
        pass
    finally:
        session.close()
        answering.join()
    return 0
