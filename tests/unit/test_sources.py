"""Tests that the program's sources report a failed allocation only where a call below has reported one.

No clause of a contract can say that an allocation failed. So a function could answer `NoMemory` without cause, and no proof would refuse it.
This test reads each file under crates/*/src: a value that reports a failed allocation may be made only where a value of this kind was
matched, where the `Err` of a call was, or at a place that `MADE` lists with its reason. It also reads which functions may make the
values that contracts take as evidence.
"""
from __future__ import annotations

import glob
import os
import re
import unittest
from collections import Counter
from collections.abc import Callable, Iterator

ROOT = os.path.dirname(os.path.dirname(os.path.dirname(os.path.abspath(__file__))))
TESTS = ("server_tests", "worked_traces")  # crates of tests
VALUE = re.compile(r"\bAllocError\b(?!\s*[>,}])|\b\w+::(?:NoMemory|NotMade|Memory)\b(?!::)|(?<=\()NotMade\b")
PATTERN = re.compile(r"[\s),}]*(?:=>|\||=[^=])")
WITHIN = r"(?:\{(?:[^{}]*;)?\s*)?(?:return\s+)?[\w:(]*$"  # the beginning of a block's or an arm's result
ARM = re.compile(r"(?:\bErr\((?:_|[\w:]+)\)|\b\w+::(?:NoMemory|NotMade|Memory)\)?)\s*=>\s*" + WITHIN)
ELSE = re.compile(r"\blet Ok\((?:[^;{}]|\{[^{}]*\})*\belse\s*" + WITHIN)
CONVERSION = re.compile(r"\bfn from\(\w+: (?:NoMemory|AllocError|AllocFailed<T>)\)[^{}]*\{\s*[\w:(]*$")
DECLARED = re.compile(r"#\[from\(alloc\)\]\s*$")

# CRATE/FUNCTION: how many such values it makes, and why
MADE = {
    "board/grow": (1, "the error of the toolchain's `append` has another type"),
    "command_line/tell": (1, "the text of clap's error for a failed allocation"),
    "desk/offer_batch": (1, "the error of `grow`, in the refusal of a batch"),
    "offline_report/part": (1, "the piece has no job, since its allocation failed"),
    "offline_report/compute": (1, "an earlier task of the question has failed for this reason"),
    "question_server/run_threads": (2, "a thread could not be started"),
    "sequencer/lacks_memory": (1, "a pattern"),
    "sequencer/drain": (1, "the reply of the book reports it"),
    "sequencer/unshared": (1, "the rows were not shared, and their report is not too long"),
}
# The functions that make a count of their own, since their callers ask for none. `close`, `least_instance` and `snapshot_counted` add to
# the count that they are given.
COUNTED = ("least_of", "make_timestamps", "snapshot_of", "record_in", "extend_counted")
# the word, its crate, and the functions that may use it
RESERVED = [
    (r"\bBoardReader::new\(", "board", ("make_readers",)),
    (r"\benter_as::", "board", ("read_entry",)),
    (r"\.add_one\(", "board", ("read_entry",)),
    (r"\bSteps::(?:<\w+>::)?new\(", "", COUNTED),
    (r"\.tick\(", "", ("put_row", "take")),
]


def code_of(text: str) -> str:
    """Returns the text without comments and literals, each replaced by spaces."""
    blank: Callable[[re.Match[str]], str] = lambda found: " " * len(found.group())
    return re.sub(r'//[^\n]*|b?"(?:[^"\\]|\\.)*"', blank, text)


def function_at(code: str, place: int) -> str:
    """Returns the name of the function that contains the place."""
    names: list[str] = re.findall(r"\bfn (\w+)", code[:place])
    return names[-1] if names else ""


def values_made(text: str) -> Iterator[tuple[str, int]]:
    """Yields the function and the line of each value that reports a failed allocation without being passed on."""
    code = code_of(text)
    for found in VALUE.finditer(code):
        before, after = code[:found.start()], code[found.end():]
        line = before.rsplit("\n", 1)[-1].lstrip()
        is_import = line.startswith(("use ", "ghost use ", "pub use "))
        is_passed_on = any(rule.search(before[-400:]) for rule in (ARM, ELSE, CONVERSION, DECLARED))
        if not is_import and not is_passed_on and not PATTERN.match(after):
            yield function_at(code, found.start()), before.count("\n") + 1


def sources() -> Iterator[tuple[str, str, str]]:
    """Yields the crate, the path and the text of each source file of the program."""
    for path in sorted(glob.glob(os.path.join(ROOT, "crates", "*", "src", "**", "*.rt"), recursive=True)):
        crate = os.path.relpath(path, os.path.join(ROOT, "crates")).split(os.sep)[0]
        if crate not in TESTS and not path.endswith("_tests.rt"):
            with open(path, encoding="utf-8") as file:
                yield crate, os.path.relpath(path, ROOT), file.read()


WRONG = """
fn search(alloc: Global, events: &[Event]) -> Result<Vec<u32>, NoMemory> {
    // AllocError in a comment is no value
    if events.len() > 6000 {
        return Err(NoMemory::from(AllocError));
    }
    match first(alloc) {
        Err(_) => Err(Refusal::NoMemory),
        Ok(_) if events.is_empty() => Err(Refusal::NoMemory),
        Ok(found) => Ok(found),
    }
}
"""


class Sources(unittest.TestCase):
    def test_failed_allocations_are_passed_on(self) -> None:
        made = Counter(f"{crate}/{name}" for crate, _, text in sources() for name, _ in values_made(text))
        self.assertEqual(made, Counter({name: count for name, (count, _) in MADE.items()}))

    def test_wrong_source(self) -> None:
        self.assertEqual(list(values_made(WRONG)), [("search", 5), ("search", 9)])

    def test_reserved_words(self) -> None:
        for word, crate, functions in RESERVED:
            for source, path, text in sources():
                code = code_of(text)
                for found in re.finditer(word, code) if crate in ("", source) else ():
                    with self.subTest(word=word, file=path):
                        self.assertIn(function_at(code, found.start()), functions)


if __name__ == "__main__":
    unittest.main()
