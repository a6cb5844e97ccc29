"""Watches a server: reads its state every second, keeps the last rates, and connects again when the session is lost."""
import threading
import time
from collections import Counter, deque
from collections.abc import Callable
from typing import IO, NamedTuple, Optional, TypedDict, TypeVar

from goodlock.protocol import REFUSALS, Lost, Refused, Session, Status, split

SECONDS_KEPT, PERIOD, STALE = 120, 1.0, 30.0
MOST_QUESTIONS = 256  # a server that says it has more is no goodlockd server: the others are not read
NO_QUESTION, FULL = 22, 1
NO_SEAT = "NoSeat"  # the server has closed the session at once, since it has 16
SENTENCES = {
    13: "The server has no memory left for this.",
    20: "The server refuses this bound: it takes 2 to 8 threads.",
    21: "The server refuses the question: it takes at most 256 until it is started again, and has them all.",
    22: "The server does not know this question.",
    23: "The server refuses to send this report: it is too long. Ask with a smaller bound.",
    40: "The server is too busy to say how far the question is.",
}
T = TypeVar("T")


class Refusal(Exception):
    """The server refused a request. The text is a sentence about `number`."""

    def __init__(self, number: int) -> None:
        super().__init__(SENTENCES.get(number, f"The server refuses this, with number {number}."))
        self.number = number


class Question(NamedTuple):
    """A question as the server's last status describes it. `run` counts the restarts of the server before it. `seconds` says for how long the
    dashboard has seen it, while it is not settled. `window` describes the window of a service of which this is the last question."""

    run: int
    number: int
    length: int
    bound: int
    total: int
    delivered: int
    cycles: int
    confirmed: int
    seconds: Optional[float] = None
    window: Optional[str] = None

    @property
    def is_settled(self) -> bool:
        return self.delivered == self.total

    @property
    def potential(self) -> int:
        return max(0, self.cycles - self.confirmed)


class View(TypedDict):
    """What is known of the server, as the page gets it. docs/operation.md describes it."""

    server: str
    connection: str
    message: str
    run: int
    restarted_at: Optional[float]
    seen_at: Optional[float]
    accepted: Optional[int]
    full: bool
    windows: bool
    rates: list[Optional[float]]
    questions: list[Question]


class Watch:
    """`view` is replaced as a whole after each change. One request is on its way at a time. `is_new`: no state was read in this session. What
    it counts for the metrics: `sessions` in which a state was read, the attempts to connect again, and refusals by name."""

    has_windows = False

    def __init__(self, address: str) -> None:
        self.address = address
        self.session: Optional[Session] = None
        self.is_new, self.using = True, threading.Lock()
        self.connection, self.message = "connecting", "Connecting to the server."
        self.accepted: Optional[int] = None
        self.is_full, self.is_fetching = False, False
        self.sessions, self.attempts, self.refusals = 0, 0, Counter[str]()
        self.looked: Optional[float] = None  # when the last look ended that has read the state
        self.questions: dict[int, Question] = {}
        self.begun: dict[int, float] = {}  # when the dashboard saw a question first
        self.rates: deque[Optional[float]] = deque(maxlen=SECONDS_KEPT)
        self.run, self.has_ended = 0, False
        self.restarted_at: Optional[float] = None
        self.seen_at: Optional[float] = None
        self.last: Optional[tuple[float, int]] = None  # the time and the number of events of the last sample
        self.publish()

    def watch(self) -> None:
        """Reads the state every second, for ever."""
        while True:
            began = time.monotonic()
            self.look()
            with self.using:
                self.sample()
                self.publish()
            time.sleep(max(0.05, began + PERIOD - time.monotonic()))

    def look(self) -> None:
        """Reads the state once; connects first if there is no session."""
        with self.using:
            try:
                if self.session is None:
                    self.attempts += 1
                    self.session, self.is_new = Session(*split(self.address)), True
                self.read_state(self.session)
                self.connection, self.message, self.seen_at, self.looked = "connected", "", time.time(), time.monotonic()
            except Refused as refused:
                self.count(refused)  # the board is busy: the next look reads it
            except Lost as lost:
                self.drop(lost)
            self.publish()

    def count(self, refused: Refused) -> None:
        self.refusals[REFUSALS.get(refused.number, "unknown")] += 1

    def fault(self) -> str:
        """Returns why the state of the server is not known, or an empty text. Asks nothing, so it needs no session."""
        if self.connection != "connected" or self.looked is None:
            return self.message
        seconds = time.monotonic() - self.looked
        return "" if self.is_fetching or seconds <= STALE else f"The state of the server was last read {seconds:.0f} s ago."

    def drop(self, lost: Lost) -> None:
        self.refusals[NO_SEAT] += lost.state == "busy"
        self.connection, self.message = lost.state, str(lost)
        self.has_ended = self.has_ended or lost.has_ended
        if self.session:
            self.session.close()
        self.session = None

    def read_state(self, session: Session) -> None:
        """Reads the status of each question that may have changed, in a new session of all questions."""
        accepted, questions = self.read_questions(session, {} if self.is_new else self.questions)
        if self.is_new and self.is_restarted(accepted, questions):
            self.run, self.restarted_at, self.last, self.begun = self.run + 1, time.time(), None, {}
            questions = {number: question._replace(run=self.run) for number, question in questions.items()}
        # a server that takes events is not full, so only one that has taken none is asked
        self.is_full = accepted == self.accepted and session.probe().refusal == FULL
        self.sessions += self.is_new
        self.accepted, self.questions, self.is_new, self.has_ended = accepted, questions, False, False

    def read_questions(self, session: Session, known: dict[int, Question]) -> tuple[int, dict[int, Question]]:
        """Returns the number of accepted events, and the questions. Asks for those that are not settled, and for the last one, since its
        status has the number of events too."""
        questions, opened, number, accepted = dict(known), max(1, len(known)), 0, 0
        while number < opened:
            if number + 1 == opened or number not in known or not known[number].is_settled:
                status = self.status(session, number)
                if status is None:
                    return session.probe().length, {}
                accepted, opened = status.accepted, min(status.opened, MOST_QUESTIONS)
                questions[number] = Question(self.run, number, *status[3:])
            number += 1
        return accepted, questions

    def status(self, session: Session, number: int) -> Optional[Status]:
        """Returns the status of a question, or None if there is no question."""
        try:
            return session.status(number)
        except Refused as refused:
            if refused.number == NO_QUESTION and number == 0:
                return None
            raise

    def is_restarted(self, accepted: int, questions: dict[int, Question]) -> bool:
        """Returns whether this is not a later state of the server that was there before."""
        if self.accepted is None:
            return False
        if not self.questions:
            return accepted < self.accepted or self.has_ended
        return accepted < self.accepted or any(
            number not in questions or questions[number][2:5] != question[2:5] or questions[number].delivered < question.delivered
            for number, question in self.questions.items())

    def sample(self) -> None:
        """Adds a rate in events per second, or None if there is none. That of a shorter time is as if it were a second."""
        last, self.last, rate = self.last, None, None
        if self.connection == "connected" and self.accepted is not None:
            self.last = time.monotonic(), self.accepted
            if last:
                rate = round((self.last[1] - last[1]) / max(self.last[0] - last[0], PERIOD), 1)
        self.rates.append(rate)

    def publish(self) -> None:
        now = time.monotonic()
        self.begun = {number: self.begun.get(number, now) for number in self.questions}
        questions = [question if question.is_settled or question.window else question._replace(seconds=round(now - self.begun[number], 1))
                     for number, question in self.questions.items()]
        self.view = View(server=self.address, connection=self.connection, message=self.message, run=self.run, restarted_at=self.restarted_at,
                         seen_at=self.seen_at, accepted=self.accepted, full=self.is_full, windows=self.has_windows, rates=list(self.rates), questions=questions)

    def ask(self, bound: int) -> Question:
        """Asks a question and returns it."""
        with self.using:
            opened = self.request(lambda session: session.ask(bound))
            question = Question(self.run, opened.question, opened.length, bound, opened.total, 0, 0, 0)
            self.questions[opened.question] = question
            self.publish()
            return question

    def fetch(self, run: int, number: int, file: IO[bytes]) -> bool:
        """Writes the report of a question to a file. Returns whether there is one; if not, the question is not settled."""
        with self.using:
            if run != self.run:
                raise Lost("gone", "The server has restarted: this report is gone.")
            self.is_fetching = True
            try:
                return self.request(lambda session: session.answer(number, file))
            finally:
                self.is_fetching = False

    def revision(self, number: int) -> str:
        """Returns a text that changes with the report of a question. A server never changes it."""
        return ""

    def request(self, send: Callable[[Session], T]) -> T:
        if not self.session or self.is_new:
            raise Lost(self.connection, self.message)
        try:
            return send(self.session)
        except Refused as refused:
            self.count(refused)
            raise Refusal(refused.number) from None
        except Lost as lost:
            self.drop(lost)
            self.publish()
            raise
