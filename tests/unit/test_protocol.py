"""Tests the client of the frame protocol with a stand-in for the server, byte by byte as docs/formats.md has them; and the watch of the
dashboard."""
import io
import socket
import threading
import unittest

from goodlock.dashboard.watch import Refusal, Watch
from goodlock.protocol import (ACQUIRE, FORK, PLACED, REFUSED, Batched, EventRefused, Lost, Opened, Refused, Session, Status, batch_body,
                               event_body, frame_of, split)

FRAMES = "0009010000000000000001", "000903000000010000000a"
REFUSED_22, PENDING = "000000024216", "0000000d44000000000000000100000002"


class StandIn:
    """A server of one session: for each request it expects these bytes, and sends those."""

    def __init__(self, *exchanges: tuple[str, str]) -> None:
        self.exchanges, self.received = exchanges, ""
        self.listener = socket.create_server(("127.0.0.1", 0))
        self.thread = threading.Thread(target=self.serve, daemon=True)
        self.thread.start()

    def serve(self) -> None:
        with self.listener.accept()[0] as session, session.makefile("rb") as requests:
            for wanted, reply in self.exchanges:
                self.received = requests.read(len(wanted) // 2).hex()
                if self.received != wanted:
                    break
                session.sendall(bytes.fromhex(reply))
        self.listener.close()

    def address(self) -> tuple[str, int]:
        host, port = self.listener.getsockname()
        return host, port


class Sends(unittest.TestCase):
    def session(self, *exchanges: tuple[str, str]) -> Session:
        self.server = StandIn(*exchanges)
        session = Session(*self.server.address(), seconds=20)
        self.addCleanup(session.close)
        return session

    def test_bytes_of_the_page(self) -> None:
        self.assertEqual([frame_of(event_body(event)).hex() for event in [(FORK, 0, 1), (ACQUIRE, 1, 10)]], list(FRAMES))
        events = [(1, 0, 1), (1, 0, 2), (3, 1, 10), (3, 2, 10), (4, 1, 10)]
        self.assertEqual(frame_of(batch_body(events)).hex(), "002f0a05" "010000000000000001" "010000000000000002" "03000000010000000a"
                         "03000000020000000a" "04000000010000000a")

    def test_events(self) -> None:
        session = self.session((FRAMES[0], "000000054100000007"), (FRAMES[1], "00000002420a"))
        self.assertEqual(session.offer((FORK, 0, 1)), 7)
        with self.assertRaises(Refused) as caught:
            session.offer((ACQUIRE, 1, 10))
        self.assertEqual((caught.exception.number, str(caught.exception)), (10, "10 HeldByOther"))

    def test_raw_request(self) -> None:
        session = self.session((FRAMES[0], "000000054100000007"), ("000508ffffffff", REFUSED_22))
        self.assertEqual(session.request(event_body((FORK, 0, 1))), (PLACED, bytes([0, 0, 0, 7])))
        self.assertEqual(session.request(bytes.fromhex("08ffffffff")), (REFUSED, bytes([22])))

    def test_batches(self) -> None:
        """The 70th event is refused: it is the sixth of the second batch."""
        event = (6, 0, 1)
        first, second = frame_of(batch_body([event] * 64)).hex(), frame_of(batch_body([event] * 36)).hex()
        session = self.session((first + second, "00000007484000" "00000000" "00000007480501" "00000040"))
        with self.assertRaises(EventRefused) as caught:
            session.offer_batches([event] * 100)
        self.assertEqual((caught.exception.index, caught.exception.number), (69, 1))

    def test_probe(self) -> None:
        session = self.session(("000b0a01020000000000000000", "00000007480006000003e8"))
        self.assertEqual(session.probe(), Batched(0, 6, 1000))

    def test_questions(self) -> None:
        status = "0000002a46" "00000000" "0000000c" "00000001" "0000000a" "02" "00000002" "00000001" "0000000000000001" "0000000000000000"
        report = "0000000e45" "00000000" + b"question\n".hex()
        session = self.session(("00020702", "0000000d43" "00000000" "0000000a" "00000002"), ("00050900000000", status),
                               ("00050800000000", PENDING), ("00050800000000", report), ("00050800000000", PENDING),
                               ("00050800000000", report), ("00050800000005", REFUSED_22))
        self.assertEqual(session.ask(2), Opened(0, 10, 2))
        self.assertEqual(session.status(0), Status(0, 12, 1, 10, 2, 2, 1, 1, 0))
        text = io.BytesIO()
        self.assertEqual((session.answer(0, text), session.answer(0, text), text.getvalue()), (False, True, b"question\n"))
        self.assertEqual(session.report(0), "question\n")
        with self.assertRaisesRegex(Refused, "22 NoSuchQuestion"):
            session.answer(5, text)

    def test_lost(self) -> None:
        ask = "00020702"
        for exchanges, state in [((), "busy"), (((ask, "0000000041"),), "other"), (((ask, "0000000541"),), "other"),
                                 (((ask, "485454502f312e31"),), "other"), (((ask, "000000024702"),), "other"), (((ask, "0000000d4300"),), "gone")]:
            with self.assertRaises(Lost) as caught:
                self.session(*exchanges).ask(2)
            self.assertEqual(caught.exception.state, state)
        self.server.thread.join()
        with self.assertRaises(Lost) as caught:
            Session("127.0.0.1", closed_port())
        self.assertTrue(caught.exception.has_ended)

    def test_silent(self) -> None:
        server = StandIn(("00020702ff", ""))
        session = Session(*server.address(), seconds=0.05)
        with self.assertRaises(Lost) as caught:
            session.ask(2)
        self.assertEqual(caught.exception.state, "silent")
        session.close()


def closed_port() -> int:
    with socket.create_server(("127.0.0.1", 0)) as listener:
        port: int = listener.getsockname()[1]
        return port


class Addresses(unittest.TestCase):
    def test_split(self) -> None:
        for address, parts in [("127.0.0.1:7070", ("127.0.0.1", 7070)), ("[::1]:1", ("::1", 1)), ("host:65535", ("host", 65535))]:
            self.assertEqual(split(address), parts)
        for address in ["", "x", ":1", "x:", "x:0", "x:65536", "x:-1", "x:1a", "x:\u0661", "x:" + "9" * 5000]:
            with self.assertRaises(ValueError):
                split(address)



class Watches(unittest.TestCase):
    def test_server_that_restarts(self) -> None:
        """A later server with fewer events is another run; its first look asks for question 0."""
        empty, batch = ("00050900000000", REFUSED_22), "000b0a01020000000000000000"
        watch = Watch("127.0.0.1:1")
        for length, run in [("00000005", 0), ("00000006", 0), ("00000002", 1)]:
            host, port = StandIn(empty, (batch, "00000007480006" + length)).address()
            watch.address = f"{host}:{port}"
            watch.look()
            self.assertEqual((watch.view["connection"], watch.view["run"], watch.view["accepted"]), ("connected", run, int(length, 16)))
            watch.drop(Lost("gone", "The server is gone."))
        self.assertIsNotNone(watch.view["restarted_at"])

    def test_refusal_is_a_sentence(self) -> None:
        for number, text in [(20, "The server refuses this bound: it takes 2 to 8 threads."), (99, "The server refuses this, with number 99.")]:
            self.assertEqual(str(Refusal(number)), text)

    def test_without_a_session(self) -> None:
        watch = Watch(f"127.0.0.1:{closed_port()}")
        watch.look()
        self.assertEqual(watch.view["connection"], "gone")
        with self.assertRaisesRegex(Lost, "^The server is gone"):
            watch.ask(2)
