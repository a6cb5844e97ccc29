"""Follows a run of any length with servers: each server takes one window of the run, and two servers at most are alive.

The agent announces each window at a Unix socket, by a line `window N first EVENT trace PATH`. The reply is `server ADDRESS`, or `none` if two
servers are still busy: then the window is left out. A line `roll` asks the agent to begin the next window, because the server takes no more
questions. When the agent has closed the connection, the run is over.

`Roller` keeps the file DIR/windows.json, which is replaced as a whole when something has changed: docs/tools.md has its fields. A server with a
new cycle lives until its place is needed."""
from __future__ import annotations

import contextlib
import json
import os
import shutil
import socket
import subprocess
import tempfile
import threading
import time
from collections.abc import Iterator
from dataclasses import dataclass, field
from typing import Optional

from goodlock.errors import InputError
from goodlock.limits import FIRST_THREAD
from goodlock.program import launcher
from goodlock.protocol import Lost, Refused, Session, split
from goodlock.reports import AnyEvents, Cycle, Verdict, read_reports

MOST_ALIVE, MOST_ASKED = 2, 250  # a server takes 256 questions, and some are left for the end and for operators
MOST_WITH_CYCLES, MOST_OTHERS, MOST_RANGES, MOST_KNOWN = 256, 16, 64, 100_000
LEAST_NAP, TICK, LEAST_WRITE = 0.002, 0.2, 0.5  # seconds
OPEN, SETTLING, ENDED, LEFT_OUT = "open", "settling", "ended", "left out"


class Server:
    """A server on the loopback, which ends with this process at the latest. Raises OSError if it cannot be started."""

    def __init__(self) -> None:
        command = [launcher(), "serve", "127.0.0.1:0", "--workers", "2", "--stop-at-eof"]
        # A session of its own: Ctrl-C in a terminal is for the command.
        self.process = subprocess.Popen(command, stdin=subprocess.PIPE, stdout=subprocess.PIPE, text=True, start_new_session=True)
        assert self.process.stdout
        words = self.process.stdout.readline().split()
        if words[:1] != ["listening"]:
            self.end()
            raise ChildProcessError(f"{command[0]} does not start")
        self.address = words[1]

    def end(self) -> None:
        self.process.kill()
        self.process.wait()
        for pipe in self.process.stdin, self.process.stdout:
            if pipe:
                pipe.close()


@dataclass
class Window:
    """A window of the run. What `windows.json` has of it, its server, and the question that is not settled."""

    number: int
    first: int
    bound: int
    state: str = OPEN
    events: Optional[int] = 0
    asked: int = 0
    confirmed: Optional[int] = None
    potential: Optional[int] = None
    new: int = 0
    report: Optional[str] = None
    trace: Optional[str] = None
    is_settled: bool = False
    fault: Optional[str] = None
    server: Optional[Server] = field(default=None, repr=False)
    questions: int = 0
    is_announced: bool = False
    end: float = 0.0  # when it must be settled
    closing: threading.Event = field(default_factory=threading.Event, repr=False)  # it is complete

    def fields(self) -> dict[str, object]:
        names = ("number", "state", "events", "first", "asked", "bound", "confirmed", "potential", "new", "report", "trace", "is_settled", "fault")
        server = self.server
        return {name: getattr(self, name) for name in names} | {"address": server.address if server else None,
                                                                "process": server.process.pid if server else None}


def key_of(cycle: Cycle) -> int:
    """Returns what a cycle has in common with the same one of another window, in which the first thread has another number."""
    return hash(frozenset((member.thread % FIRST_THREAD, member.lock, member.held) for member in cycle.members))


class Roller:
    """The servers and windows of a run. `folder` exists. Each window has a thread that asks about it. All changes are made under one lock."""

    def __init__(self, folder: str, bound: int, every: float, settle: float) -> None:
        self.folder, self.bound, self.every, self.settle = os.path.abspath(folder), bound, every, settle
        self.lock = threading.RLock()
        self.windows: list[Window] = []
        self.left_out: list[list[int]] = []
        self.known: dict[int, Verdict] = {}
        self.count = self.count_left_out = self.past_events = 0
        self.spare: Optional[Server] = None
        self.is_over, self.written = False, ""
        self.threads: list[threading.Thread] = []
        self.wants_roll = threading.Event()

    # ---- windows ----

    def begin_window(self, first: int, server: Optional[Server]) -> Window:
        """Adds the next window: with a server it is open, else it is left out."""
        with self.lock:
            self.count += 1
            window = Window(self.count, first, self.bound, server=server)
            self.windows.append(window)
            if server:
                thread = threading.Thread(target=self.watch, args=(window,), daemon=True)
                self.threads = [one for one in self.threads if one.is_alive()] + [thread]
                thread.start()
            else:
                window.state, window.events = LEFT_OUT, None
                self.count_left_out += 1
                self.note_left_out(window.number)
            self.forget()
            return window

    def note_left_out(self, number: int) -> None:
        if self.left_out and self.left_out[-1][1] == number - 1:
            self.left_out[-1][1] = number
        else:
            self.left_out = self.left_out[1 - MOST_RANGES:] + [[number, number]]

    def close_open(self) -> None:
        """The agent has sent all events of the open window: what is left is its last question."""
        with self.lock:
            for window in self.windows:
                if window.state == OPEN:
                    window.state, window.end = SETTLING, time.monotonic() + self.settle
                    window.closing.set()

    def next_server(self) -> Optional[Server]:
        """Returns a server without events, or None if two others are still busy."""
        with self.lock:
            if self.spare:
                server, self.spare = self.spare, None
                return server
            alive = [window for window in self.windows if window.server]
            idle = [window for window in alive if window.state == ENDED]
            if len(alive) >= MOST_ALIVE and idle:
                self.end_server(idle[0])
            elif len(alive) >= MOST_ALIVE:
                return None
            with contextlib.suppress(OSError):
                return Server()
            return None

    def announce(self, first: int, trace: str) -> Optional[str]:
        """The agent begins a window. Returns the address of its server, or None. The first one has the server that is there already."""
        with self.lock:
            window = self.windows[-1]
            if self.count > 1 or window.is_announced:
                self.close_open()
                self.wants_roll.clear()
                window = self.begin_window(first, self.next_server())
            window.is_announced, window.trace = True, trace or None
            return window.server.address if window.server else None

    def end_server(self, window: Window) -> None:
        if window.server:
            window.server.end()
            window.server = None

    def prepare_spare(self) -> None:
        """Starts the next window's server before it is needed, if there is a place for it."""
        with self.lock:
            if not self.spare and not self.is_over and sum(window.server is not None for window in self.windows) < MOST_ALIVE:
                with contextlib.suppress(OSError):
                    self.spare = Server()

    def forget(self) -> None:
        """Drops the oldest windows that need not be listed, and their reports."""
        ended = [window for window in self.windows if window.state in (ENDED, LEFT_OUT) and not window.server]
        others = [window for window in ended if not window.new]
        for window in others[:-MOST_OTHERS] + [window for window in ended if window.new][MOST_WITH_CYCLES:]:
            self.past_events += window.events or 0
            self.windows.remove(window)
            self.drop_report(window)

    def drop_report(self, window: Window) -> None:
        if window.report:
            with contextlib.suppress(OSError):
                os.remove(window.report)
            window.report = None

    # ---- questions, each window in its own thread ----

    def watch(self, window: Window) -> None:
        try:
            assert window.server
            session = Session(*split(window.server.address), seconds=self.settle)
            with contextlib.closing(session):
                self.follow(window, session)
        except Lost as fault:
            window.fault = str(fault)
        except Refused as fault:
            window.fault = f"A question was refused: {fault}."
        except (OSError, InputError) as fault:
            window.fault = f"The report cannot be kept: {fault}."
        with self.lock:
            window.state = ENDED
            if not window.new or window.fault:
                self.end_server(window)
            self.forget()
        self.prepare_spare()

    def follow(self, window: Window, session: Session) -> None:
        """Asks about the window until it is settled."""
        is_prepared, ready = False, 0.0
        while True:
            is_last = window.state == SETTLING  # before the events are counted: then they are all there
            window.events = session.probe().length
            if is_last and window.asked == window.events:
                window.is_settled = True
                return
            if is_last and time.monotonic() > window.end:
                window.fault = f"The last question was not settled within {self.settle:g} s."
                return
            now = time.monotonic()
            if window.events > window.asked and (is_last or (now >= ready and window.questions < MOST_ASKED)):
                if not self.ask(window, session):
                    continue
                ready = time.monotonic() + max(self.every, time.monotonic() - now)  # questions take half of the time at most
            if window.questions >= MOST_ASKED:
                self.wants_roll.set()
            if not is_prepared and window.events:
                is_prepared = True
                self.prepare_spare()
            window.closing.wait(TICK)

    def ask(self, window: Window, session: Session) -> bool:
        """Opens a question and waits until it is settled. Returns whether it was: at the end of a window it has a time limit."""
        opened = session.ask(self.bound)
        window.questions += 1
        nap = LEAST_NAP
        while True:
            status = session.status(opened.question)
            if status.delivered == status.total:
                break
            if window.state == SETTLING and time.monotonic() > window.end:
                return False
            window.events = status.accepted
            time.sleep(nap)
            nap = min(2 * nap, TICK / 4)
        counts = status.confirmed, status.cycles - status.confirmed
        if status.cycles and counts != (window.confirmed, window.potential):
            self.keep_report(window, session, opened.question)
        window.asked, (window.confirmed, window.potential) = opened.length, counts
        return True

    def keep_report(self, window: Window, session: Session, question: int) -> None:
        """Writes the report, and counts which of its cycles are new."""
        path = os.path.join(self.folder, f"{window.number}.report")
        with tempfile.NamedTemporaryFile(dir=self.folder, delete=False) as file:
            session.answer(question, file)
        os.chmod(file.name, 0o644)
        os.replace(file.name, path)
        with self.lock:
            for _, cycle in read_reports(path, AnyEvents()):
                if cycle:
                    self.note_cycle(window, cycle)
            window.report = path

    def note_cycle(self, window: Window, cycle: Cycle) -> None:
        key = key_of(cycle)
        before = self.known.get(key)
        if before is Verdict.CONFIRMED or before is cycle.verdict or (before is None and len(self.known) >= MOST_KNOWN):
            return
        self.known[key] = cycle.verdict
        window.new += 1

    # ---- the file ----

    def state(self) -> dict[str, object]:
        verdicts = list(self.known.values())
        return {"version": 1, "pid": os.getpid(), "is_over": self.is_over,
                "totals": {"windows": self.count, "events": self.past_events + sum(window.events or 0 for window in self.windows),
                           "confirmed": verdicts.count(Verdict.CONFIRMED), "potential": verdicts.count(Verdict.POTENTIAL),
                           "left_out": self.count_left_out},
                "left_out": self.left_out, "windows": [window.fields() for window in self.windows]}

    def write(self) -> None:
        """Replaces the file if something has changed."""
        with self.lock:
            state = self.state()
        if (text := json.dumps(state)) == self.written:
            return
        self.written = text
        part = os.path.join(self.folder, ".windows.part")
        with open(part, "w", encoding="utf-8") as file:
            json.dump(state | {"updated": round(time.time(), 3)}, file, indent=1)
        os.replace(part, os.path.join(self.folder, "windows.json"))

    # ---- the agent ----

    def serve(self, listener: socket.socket) -> None:
        """Answers one agent after the other, until the listener is closed."""
        while True:
            try:
                connection = listener.accept()[0]
            except OSError:
                return
            with connection, contextlib.suppress(OSError, ValueError):
                self.serve_agent(connection)
            self.close_open()

    def serve_agent(self, connection: socket.socket) -> None:
        connection.settimeout(TICK)
        pending, has_asked = b"", False
        while True:
            if self.wants_roll.is_set() and not has_asked:
                has_asked = True
                connection.sendall(b"roll\n")
            try:
                part = connection.recv(8192)
            except socket.timeout:
                continue
            if not part:
                return
            *lines, pending = (pending + part).split(b"\n")
            for line in lines:
                address = self.announce(*read_announcement(os.fsdecode(line)))
                connection.sendall(f"server {address}\n".encode() if address else b"none\n")
                has_asked = False

    # ---- a run ----

    @contextlib.contextmanager
    def running(self) -> Iterator[tuple[str, str]]:
        """Starts the first server. Gives its address and the path of the agent's socket. At the end it waits for the last questions."""
        socket_folder = tempfile.mkdtemp(prefix="goodlock-")
        path = os.path.join(socket_folder, "windows")
        stop = threading.Event()
        try:
            with socket.socket(socket.AF_UNIX) as listener:
                listener.bind(path)
                listener.listen(1)
                self.begin_window(0, Server())
                first = self.windows[0].server
                assert first
                threading.Thread(target=self.serve, args=(listener,), daemon=True).start()
                writer = threading.Thread(target=self.write_until, args=(stop,))
                writer.start()
                try:
                    yield first.address, path
                finally:
                    listener.shutdown(socket.SHUT_RDWR)
                    self.finish()
                    stop.set()
                    writer.join()
        finally:
            shutil.rmtree(socket_folder, ignore_errors=True)

    def write_until(self, stop: threading.Event) -> None:
        is_last = False
        while not is_last:
            is_last = stop.wait(LEAST_WRITE)
            self.write()

    def finish(self) -> None:
        """The command has ended: waits for the last questions, and ends all servers. Ctrl-C ends them at once."""
        self.close_open()
        with contextlib.suppress(KeyboardInterrupt):
            for thread in list(self.threads):
                thread.join()
        with self.lock:
            self.is_over = True
            for window in self.windows:
                self.end_server(window)
            if self.spare:
                self.spare.end()


def read_announcement(line: str) -> tuple[int, str]:
    """Returns the first event and the path of the trace. Raises ValueError if the line is none."""
    words = line.split(" ", 5)
    if len(words) != 6 or words[0::2] != ["window", "first", "trace"]:
        raise ValueError(line)
    return int(words[3]), words[5]
