"""A client of goodlockd: sends requests as frames, and reads their replies. It imports only the standard library, so it can be copied.

    session = Session("127.0.0.1", 7070)
    session.offer_batches([(FORK, 0, 1), (ACQUIRE, 1, 10)])
    opened = session.ask(bound=2)
    print(session.report(opened.question))
"""
import io
import itertools
import socket
import struct
import time
from collections.abc import Iterable
from typing import IO, NamedTuple, Optional

FORK, JOIN, ACQUIRE, RELEASE, READ, WRITE, ASK, ANSWER, STATUS, BATCH = range(1, 11)
PLACED, REFUSED, OPENED, PENDING, REPORT, STATUS_REPLY, FAULT, BATCHED = range(65, 73)
KINDS = {"f": FORK, "j": JOIN, "a": ACQUIRE, "r": RELEASE, "d": READ, "w": WRITE}
REFUSALS = {
    1: "Full", 2: "Unforked", 3: "Ended", 4: "AlreadyForked", 5: "TooManyThreads", 6: "JoinsItself", 7: "JoinUnknown", 8: "JoinedTwice",
    9: "TooNested", 10: "HeldByOther", 11: "TooDeep", 12: "NotHeld", 13: "NoMemory", 20: "BadBound", 21: "TooManyQuestions",
    22: "NoSuchQuestion", 23: "ReportTooLong", 30: "NoSuchTask", 31: "Double", 32: "OtherBound", 33: "OtherTrace", 40: "BoardBusy",
    41: "TooManyCycles",
}
MOST_IN_BATCH, MOST_SESSIONS, BATCHES_IN_FLIGHT = 64, 16, 16
SECONDS_TO_REPLY, SECONDS_TO_REPORT, CHUNK = 10, 600, 1 << 16
RawEvent = tuple[int, int, int]  # kind, thread, target


class Opened(NamedTuple):
    question: int
    length: int
    total: int


class Status(NamedTuple):
    question: int
    accepted: int
    opened: int
    length: int
    bound: int
    total: int
    delivered: int
    cycles: int
    confirmed: int


class Batched(NamedTuple):
    """How many events of a batch were accepted, the number of the next one's refusal or 0, and the length of the trace before."""

    accepted: int
    refusal: int
    length: int


class Refused(Exception):
    """The server refused a request."""

    def __init__(self, number: int) -> None:
        super().__init__(f"{number} {REFUSALS.get(number, 'unknown')}")
        self.number = number


class EventRefused(Refused):
    """An event was refused. `index` is its 0-based place in the caller's list."""

    def __init__(self, index: int, number: int) -> None:
        super().__init__(number)
        self.index = index


class Lost(Exception):
    """The session has ended. `state` is gone, busy, silent or other; the text says why. `has_ended`: no program listens any more."""

    def __init__(self, state: str, text: str, has_ended: bool = False) -> None:
        super().__init__(text)
        self.state, self.has_ended = state, has_ended


def split(address: str) -> tuple[str, int]:
    """Returns the host and the port of an address. Raises ValueError if it is none."""
    host, _, port = address.rpartition(":")
    if not host or not (port.isascii() and port.isdecimal() and len(port) <= 5) or not 0 < int(port) < 65536:
        raise ValueError(address)
    return host.removeprefix("[").removesuffix("]"), int(port)


def frame_of(body: bytes) -> bytes:
    return struct.pack(">H", len(body)) + body


def event_body(event: RawEvent) -> bytes:
    return struct.pack(">BII", *event)


def batch_body(events: list[RawEvent]) -> bytes:
    """Returns the body of a batch of 1 to 64 events."""
    return struct.pack(">BB", BATCH, len(events)) + b"".join(map(event_body, events))


class Session:
    """One session. Each request has exactly one reply, in the order of the requests. A request that the server refuses raises Refused. If
    the session ends, the call that finds out raises Lost."""

    def __init__(self, host: str, port: int, seconds: float = SECONDS_TO_REPLY) -> None:
        self.has_replied, self.seconds = False, seconds
        try:
            self.socket = socket.create_connection((host, port), timeout=seconds)
        except OSError as fault:
            raise Lost("gone", f"The server is gone: {fault.strerror or fault}.", isinstance(fault, ConnectionRefusedError)) from None
        self.socket.setsockopt(socket.IPPROTO_TCP, socket.TCP_NODELAY, 1)
        self.replies = self.socket.makefile("rb")

    def close(self) -> None:
        self.replies.close()
        self.socket.close()

    # ---- requests ----

    def offer(self, event: RawEvent) -> int:
        """Offers one event. Returns its place."""
        place: int = self.exchange(event_body(event), PLACED, ">I")[0]
        return place

    def offer_batches(self, events: Iterable[RawEvent]) -> None:
        """Offers events in batches, with BATCHES_IN_FLIGHT of them at a time. If an event is refused it sends no further window, reads all
        replies, and raises EventRefused. The server still takes the batches that are in flight behind the refused event."""
        first, left = 0, iter(events)
        while window := list(itertools.islice(left, MOST_IN_BATCH * BATCHES_IN_FLIGHT)):
            refused = [EventRefused(first + at + batched.accepted, batched.refusal)
                       for at, batched in self.offer_window(window) if batched.refusal]
            if refused:
                raise refused[0]
            first += len(window)

    def offer_window(self, window: list[RawEvent]) -> list[tuple[int, Batched]]:
        """Sends these events as batches, then reads all replies. Returns each with the index of its first event."""
        starts = range(0, len(window), MOST_IN_BATCH)
        self.send(*(batch_body(window[at:at + MOST_IN_BATCH]) for at in starts))
        return [(at, Batched(*self.fields(*self.head(), BATCHED, ">BBI"))) for at in starts]

    def probe(self) -> Batched:
        """Returns the number of accepted events as its length, without a question; the refusal is 1 if the trace is full. No batch in which
        thread 0 joins itself is accepted, so this changes nothing."""
        return self.offer_batch([(JOIN, 0, 0)])

    def offer_batch(self, events: list[RawEvent]) -> Batched:
        return Batched(*self.exchange(batch_body(events), BATCHED, ">BBI"))

    def ask(self, bound: int) -> Opened:
        """Opens a question about the events so far."""
        return Opened(*self.exchange(struct.pack(">BB", ASK, bound), OPENED, ">III"))

    def status(self, question: int) -> Status:
        return Status(*self.exchange(struct.pack(">BI", STATUS, question), STATUS_REPLY, ">IIIIBIIQQ"))

    def answer(self, question: int, file: IO[bytes]) -> bool:
        """Writes the report of a question to a file. Returns whether there is one; if not, a task is missing."""
        self.send(struct.pack(">BI", ANSWER, question), seconds=SECONDS_TO_REPORT)
        kind, left = self.head()
        if kind != REPORT:
            self.fields(kind, left, PENDING, ">III")
            return False
        self.read(4)
        left -= 4
        while left > 0:
            part = self.read(min(left, CHUNK))
            try:
                file.write(part)
            except OSError as fault:  # the rest of the report is not read, so the session cannot go on
                raise Lost("gone", f"The report cannot be written to a file: {fault.strerror}.") from None
            left -= len(part)
        return True

    def report(self, question: int) -> str:
        """Waits until a question is settled, and returns its report."""
        while not self.answer(question, text := io.BytesIO()):
            time.sleep(0.01)
        return text.getvalue().decode("ascii")

    # ---- frames ----

    def send(self, *bodies: bytes, seconds: Optional[float] = None) -> None:
        try:
            if self.socket.gettimeout() != (seconds or self.seconds):
                self.socket.settimeout(seconds or self.seconds)
            self.socket.sendall(b"".join(map(frame_of, bodies)))
        except OSError as fault:
            raise self.lost(fault) from None

    def request(self, body: bytes) -> tuple[int, bytes]:
        """Sends a request. Returns the kind of its reply and the rest of it."""
        self.send(body)
        kind, left = self.head()
        return kind, self.read(left)

    def exchange(self, body: bytes, wanted: int, form: str) -> tuple[int, ...]:
        """Sends a request and returns the fields of its reply, which is of the wanted kind and form."""
        self.send(body)
        return self.fields(*self.head(), wanted, form)

    def head(self) -> tuple[int, int]:
        """Returns the kind of the next reply, and how many bytes follow."""
        length, kind = struct.unpack(">IB", self.read(5))
        if not length:
            raise self.stranger()
        return kind, length - 1

    def fields(self, kind: int, left: int, wanted: int, form: str) -> tuple[int, ...]:
        if kind == REFUSED and left == 1:
            raise Refused(self.read(1)[0])
        if kind == FAULT and left == 1:
            raise Lost("other", f"The server has found fault {self.read(1)[0]} in the frames.")
        if kind != wanted or left != struct.calcsize(form):
            raise self.stranger()
        return struct.unpack(form, self.read(left))

    def read(self, length: int) -> bytes:
        try:
            part = self.replies.read(length)
        except OSError as fault:
            raise self.lost(fault) from None
        if len(part) < length:
            raise self.lost(None)
        self.has_replied = True
        return part

    def lost(self, fault: Optional[OSError]) -> Lost:
        """Returns the reason why the session has ended. A server that has 16 sessions closes a further one without a byte."""
        if isinstance(fault, (TimeoutError, socket.timeout)):  # two classes before Python 3.10
            return Lost("silent", "The server does not reply.")
        if not self.has_replied:
            return Lost("busy", "The server is busy: it has 16 sessions and takes no more.")
        return Lost("gone", "The server is gone: it has closed the session.")

    def stranger(self) -> Lost:
        return Lost("other", "What replies at this address is not a goodlockd server.")
