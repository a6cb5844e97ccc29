"""The web server of the dashboard: the page, its data, and a question that the page asks.

A page of another site can make a browser send requests here. So each request must name this server as its host, which a name of
another site that leads here does not, and a question needs the token that only this page carries."""
from __future__ import annotations

import contextlib
import hmac
import ipaddress
import json
import os
import re
import secrets
import shutil
import socket
import tempfile
import threading
from collections.abc import Iterator
from dataclasses import asdict
from http.server import BaseHTTPRequestHandler, ThreadingHTTPServer
from typing import Any, Optional
from urllib.parse import urlsplit

from goodlock.commandline import is_number
from goodlock.dashboard.files import notes_beside
from goodlock.dashboard.metrics import FORM, metrics_text
from goodlock.dashboard.reports import KINDS, NoReport, Reports
from goodlock.dashboard.watch import Question, Refusal, Watch
from goodlock.dashboard.windows import WindowReports, Windows
from goodlock.drawing.page import STYLE
from goodlock.drawing.verdict import PREDICTS, Line, verdict_of
from goodlock.happened import deadlock_of
from goodlock.locations import Root
from goodlock.protocol import Lost

HERE = os.path.dirname(os.path.abspath(__file__))
SCRIPTS = ["chart.js", "questions.js", "report.js", "page.js"]
LOOPBACK, ANY = {"127.0.0.1", "::1", "localhost"}, {"0.0.0.0", "::"}
REPORT_PATH = re.compile(r"/(report|download)/([0-9]{1,9})-question-([0-9]{1,9})(?:\.([a-z]+))?")
OUTER = re.compile(r"deadlock |thread [0-9]+ waits ")  # the lines that the others explain
LONGEST_BODY, SECONDS_TO_SEND = 1000, 30


def text_of(name: str) -> str:
    with open(os.path.join(HERE, name), encoding="utf-8") as file:
        return file.read()


class Page:
    """The page as one text, with its style and its scripts, and the policy that lets a browser run nothing else."""

    def __init__(self) -> None:
        self.token, self.instance, nonce = secrets.token_urlsafe(24), secrets.token_urlsafe(8), secrets.token_urlsafe(16)
        parts = {"token": self.token, "instance": self.instance, "nonce": nonce, "style": text_of(STYLE) + text_of("page.css"),
                 "script": "\n".join(map(text_of, SCRIPTS))}
        self.bytes = re.sub(r"\{\{(\w+)\}\}", lambda match: parts[match[1]], text_of("page.html")).encode()
        self.policy = (f"default-src 'none'; script-src 'nonce-{nonce}'; style-src-elem 'nonce-{nonce}'; style-src-attr 'unsafe-inline'; "
                       "connect-src 'self'; img-src data:; base-uri 'none'; form-action 'none'; frame-ancestors 'none'")


class Handler(BaseHTTPRequestHandler):
    protocol_version, server_version, sys_version, timeout = "HTTP/1.1", "goodlockd-dashboard", "", SECONDS_TO_SEND
    server: Dashboard

    def log_message(self, format: str, *args: object) -> None:
        pass

    def do_GET(self) -> None:
        if not self.is_allowed():
            return
        if self.path == "/":
            self.send("text/html; charset=utf-8", self.server.page.bytes)
        elif self.path == "/state":
            self.send_object(self.server.state())
        elif self.path == "/metrics":
            self.send(FORM, metrics_text(self.server.watch, bool(self.server.deadlock())).encode())
        elif self.path == "/healthz":
            fault = self.server.watch.fault()
            self.refuse(503 if fault else 200, fault or "ok")
        elif (match := REPORT_PATH.fullmatch(self.path)) and match[1] == "report" and not match[4]:
            self.send_drawing(int(match[2]), int(match[3]))
        elif match and match[1] == "download" and match[4] in KINDS:
            self.send_download(int(match[2]), int(match[3]), match[4])
        else:
            self.refuse(404, "There is no such page.")

    def do_POST(self) -> None:
        length = self.headers.get("Content-Length", "")
        if not is_number(length, 9) or int(length) > LONGEST_BODY:
            self.close_connection = True
            self.refuse(413, "The request is too long.")
            return
        body = self.rfile.read(int(length))
        if not self.is_allowed():
            return
        if not hmac.compare_digest(self.headers.get("X-Token", "").encode(), self.server.page.token.encode()):
            self.refuse(403, "The request lacks the token of the page.")
        elif self.path != "/ask":
            self.refuse(404, "There is no such page.")
        else:
            self.ask(body)

    def is_allowed(self) -> bool:
        """Refuses a request for another host, or one that a page of another site has sent. Returns whether it may be answered."""
        if not self.server.is_own(self.headers.get("Host", "")):
            self.refuse(403, "The request is for another host.")
        elif self.is_foreign():
            self.refuse(403, "The request comes from a page of another site.")
        else:
            return True
        return False

    def is_foreign(self) -> bool:
        """Returns whether a page of another site has sent the request. A link there may lead to this page, which that site cannot read."""
        origin, site = self.headers.get("Origin"), self.headers.get("Sec-Fetch-Site", "none")
        return origin not in (None, f"http://{self.headers['Host']}") or self.path != "/" and site not in ("none", "same-origin")

    def ask(self, body: bytes) -> None:
        try:
            bound = json.loads(body)["bound"]
            if type(bound) is not int or not 0 <= bound <= 255:
                raise ValueError
        except (ValueError, KeyError, TypeError, RecursionError):
            self.refuse(400, "The question is not understood.")
            return
        try:
            self.send_object({"question": self.server.watch.ask(bound)._asdict()})
        except (Refusal, Lost) as fault:
            self.send_object({"refusal": str(fault)})

    def send_drawing(self, run: int, number: int) -> None:
        try:
            self.send_object(asdict(self.server.reports.drawing(run, number)))
        except (NoReport, Refusal, Lost, OSError) as fault:
            self.send_object({"refusal": str(fault)})

    def send_download(self, run: int, number: int, kind: str) -> None:
        try:
            path = self.server.reports.download(run, number, kind)
        except (NoReport, Refusal, Lost, OSError) as fault:
            self.refuse(404, str(fault))
            return
        with open(path, "rb") as file:
            self.send_head(200, "text/plain; charset=utf-8" if kind == "report" else "application/json", os.stat(path).st_size,
                           {"Content-Disposition": f'attachment; filename="question-{number}.{kind}"'})
            while part := file.read(1 << 16):
                self.wfile.write(part)

    def send_object(self, value: object) -> None:
        self.send("application/json", json.dumps(value).encode())

    def refuse(self, status: int, sentence: str) -> None:
        self.send("text/plain; charset=utf-8", f"{sentence}\n".encode(), status)

    def send(self, kind: str, body: bytes, status: int = 200) -> None:
        self.send_head(status, kind, len(body), {})
        self.wfile.write(body)

    def send_head(self, status: int, kind: str, length: int, more: dict[str, str]) -> None:
        self.send_response(status)
        headers = {"Content-Type": kind, "Content-Length": str(length), "Cache-Control": "no-store", "X-Content-Type-Options": "nosniff",
                   "Referrer-Policy": "no-referrer", "Cross-Origin-Resource-Policy": "same-origin",
                   "Content-Security-Policy": self.server.page.policy, **more}
        for name, value in headers.items():
            self.send_header(name, value)
        self.end_headers()


class Dashboard(ThreadingHTTPServer):
    """Listens at an address."""

    daemon_threads = True

    def __init__(self, address: str, port: int, watch: Watch, reports: Reports) -> None:
        self.address_family = socket.AF_INET6 if ":" in address else socket.AF_INET
        self.address, self.watch, self.reports, self.page = address, watch, reports, Page()
        super().__init__((address, port), Handler)

    def url(self) -> str:
        """Returns the address of the page, at the loopback if it listens at every address."""
        address = {"0.0.0.0": "127.0.0.1", "::": "::1"}.get(self.address, self.address)
        return f"http://{f'[{address}]' if ':' in address else address}:{self.server_port}/"

    def is_own(self, host: str) -> bool:
        """Returns whether a request for this host is meant for this server. A site that gives its own name the address of this server
        is not. If the server listens at every address, each numeric address is its own."""
        try:
            name = urlsplit(f"//{host}").hostname or ""
        except ValueError:
            return False
        return name in LOOPBACK | {self.address.lower()} or self.address in ANY and is_numeric(name)

    def state(self) -> dict[str, object]:
        """Returns what the page shows, as one object. A settled question has the version of its drawing."""
        view, deadlock = self.watch.view, self.deadlock()
        questions = [question._asdict() | {"version": self.reports.version(question.run, question.number)}
                     for question in view["questions"]]
        verdict = verdict_of(0, 0, 0, 0, 0, deadlock[0]) if deadlock else self.verdict(view["questions"], view["accepted"] or 0)
        return {**view, "questions": questions, "instance": self.page.instance, "deadlock": deadlock, "verdict": verdict and verdict._asdict()}

    def deadlock(self) -> list[str]:
        """Returns the agent's lines about a deadlock that has happened; none if there was none."""
        notes = notes_beside(self.reports.recorded())
        result, others = deadlock_of(notes, Root())
        return [note if OUTER.match(note) else f"  {note}" for note in notes if note not in others] if result else []

    def verdict(self, questions: list[Question], accepted: int) -> Optional[Line]:
        """Returns the strongest verdict of all questions, or None if nothing is known. One without a deadlock is that of the longest question."""
        if isinstance(self.watch, Windows):
            return self.watch.verdict()
        known = [(self.verdict_on(question), question) for question in questions if question.is_settled or question.confirmed]
        if not known:
            return None
        line, question = max(known, key=lambda pair: (pair[0].rank, pair[1].length, pair[1].bound))
        part = f"The first {question.length:,} of {accepted:,} events predict"
        return line if line.rank or question.length >= accepted else line._replace(text=line.text.replace(PREDICTS, part))

    def verdict_on(self, question: Question) -> Line:
        """Returns the verdict of the drawing of a question, or else what the server counts, which weighs no values."""
        drawing = self.reports.drawings.get((question.run, question.number))
        return drawing.verdict if drawing else verdict_of(question.length, question.bound, question.confirmed, 0, question.potential)

    def handle_error(self, request: Any, client_address: Any) -> None:
        """A browser that closes a connection is no error."""


@contextlib.contextmanager
def work_folder() -> Iterator[str]:
    """Gives a folder, and removes it at the end, also if a drawing still writes to it."""
    folder = tempfile.mkdtemp(prefix="dashboard-")
    try:
        yield folder
    finally:
        shutil.rmtree(folder, ignore_errors=True)


def start(address: str, trace: Optional[str], bind: str, port: int, folder: str) -> Dashboard:
    """Starts to watch a server, and returns the dashboard, which listens. Its files are in the folder."""
    watch = Watch(address)
    return started(Dashboard(bind, port, watch, Reports(watch, trace, folder)))


def start_windows(file: str, bind: str, port: int, folder: str) -> Dashboard:
    """Starts to watch the windows of a service."""
    windows = Windows(file)
    return started(Dashboard(bind, port, windows, WindowReports(windows, None, folder)))


def started(dashboard: Dashboard) -> Dashboard:
    threading.Thread(target=dashboard.watch.watch, daemon=True).start()
    return dashboard


def is_numeric(name: str) -> bool:
    with contextlib.suppress(ValueError):
        return bool(ipaddress.ip_address(name))
    return False
