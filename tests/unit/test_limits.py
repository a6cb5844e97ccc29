"""Compares the numbers that are written in C, in Rust and in the recorder for Python with those of the package."""
import os
import re
import unittest

from goodlock import limits
from goodlock.program import ROOT

AGENTS, TOOLS = os.path.join(ROOT, "agents"), os.path.join(ROOT, "tools")
LIMITS, RING = (os.path.join("pthread", "shared", name) for name in ("limits.h", "ring.h"))


def text_of(*path: str, folder: str = AGENTS) -> str:
    with open(os.path.join(folder, *path), encoding="utf-8") as file:
        return file.read()


def values_in(pattern: str, *path: str) -> dict[str, int]:
    """Returns the names and the numbers that a pattern finds in a file."""
    return {name: int(number.replace("_", "")) for name, number in re.findall(pattern, text_of(*path), re.M)}


def kinds_of_the_ring() -> dict[str, int]:
    """Returns the kinds of records in ring.h, which number themselves from 1."""
    block = text_of(RING).split("enum kind {")[1].split("};")[0]
    return {name: number for number, name in enumerate(re.findall(r"\bR_[A-Z_]+", re.sub(r"/\*.*?\*/", "", block, flags=re.S)), 1)}


class Compares(unittest.TestCase):
    def test_limits_of_the_agent_for_pthreads(self) -> None:
        found = values_in(r"^#define ([A-Z_]+) ([0-9]+)u$", LIMITS) | values_in(r"\b(MOST_[A-Z]+) = ([0-9]+)", LIMITS)
        self.assertEqual(found, {name: getattr(limits, name) for name in (
            "MOST_EVENTS", "MOST_THREADS", "MOST_HELD", "MOST_DEPTH", "FIRST_THREAD", "HELPERS", "TRY_MARKERS", "TIMED_MARKERS",
            "ATOMIC_VALUES", "PLAIN_VALUES")})

    def test_limits_of_the_reducer(self) -> None:
        text = text_of("reducer", "reducer.h", folder=TOOLS)
        found = {name: int(number) << int(shift or 0) for name, number, shift in re.findall(r"\b(MOST_[A-Z_]+) = ([0-9]+)(?: << ([0-9]+))?", text)}
        self.assertEqual(found, {"MOST_HELD_OF_RUN": limits.MOST_HELD_OF_RUN, "MOST_THREADS_OF_RUN": 1 << 27, "MOST_COMMENT": 1 << 16,
                                 "MOST_VALUES": limits.MOST_VALUES})

    def test_kinds_of_the_crate_for_rust(self) -> None:
        found = values_in(r"^    ([A-Z][A-Za-z]+) = ([0-9]+)(?: \| [A-Z_]+)*,$", "rust", "src", "recorder.rs")
        ring = {name[2:].replace("_", "").lower(): number for name, number in kinds_of_the_ring().items()}
        ring |= {"readtried": ring["readlock"], "notify": ring["give"]}  # with flags
        self.assertEqual(found, {name: ring[name.lower()] for name in found})
        self.assertGreater(len(found), 5)

    def test_flags_of_the_crate_for_rust(self) -> None:
        flags = values_in(r"\b(READS_TRIED|PREFERS_WRITERS|BY_CONDITION) = ([0-9]+)", RING)
        self.assertEqual(values_in(r"^const ([A-Z_]+): u32 = ([0-9]+) << 8;$", "rust", "src", "recorder.rs"),
                         {"TRIED": flags["READS_TRIED"], "WRITERS_FIRST": flags["PREFERS_WRITERS"], "BY_CONDITION": flags["BY_CONDITION"]})

    def test_kinds_of_the_agent_for_java(self) -> None:
        kinds = values_in(r"^    public static final int ([A-Z_]+) = ([0-9]+);$", "java", "src", "goodlock", "recorder", "Kind.java")
        flags = values_in(r"\b(WAITS_FOR_[A-Z]+|WITHOUT_END|BY_CONDITION|BY_VALUE) = ([0-9]+)", RING) | {"WAITS_FOR_THREAD": 2}
        ring = {name[2:]: number for name, number in kinds_of_the_ring().items()} | flags
        self.assertEqual(kinds, {name: ring[name] for name in kinds})
        self.assertGreater(len(kinds), 20)

    def test_flags_of_the_agent_for_java(self) -> None:
        flags = values_in(r"\b(READS_TRIED|READS_TIMED|PREFERS_WRITERS) = ([0-9]+)", RING)
        self.assertEqual(values_in(r"^    public static final int ([A-Z_]+) = ([0-9]+) << 8;$", "java", "src", "goodlock", "recorder", "Kind.java"), flags)

    def test_kinds_of_the_recorder_for_python(self) -> None:
        namespace: dict[str, int] = {}
        lines = re.findall(r"^R_[A-Z_, ]+ = .*$", text_of("python", "goodlock_agent.py"), re.M)
        exec("\n".join(lines), {}, namespace)
        ring = kinds_of_the_ring()
        self.assertEqual(namespace, {name: ring[name] for name in namespace})
        self.assertGreater(len(namespace), 10)
