"""Tests that each word of the definitions has one meaning.

A public word of crates/*/specs is defined in one crate, is no bare participle, and none of the words that say nothing is in the code. The
glossary of docs/definitions.md has each word once.
"""
from __future__ import annotations

import glob
import os
import re
import unittest
from collections import Counter, defaultdict
from collections.abc import Iterator

ROOT = os.path.dirname(os.path.dirname(os.path.dirname(os.path.abspath(__file__))))
DEFINED = re.compile(r"^(?:(?:abbrev|unfoldable) pub|pub (?:record|inductive|data)) ([^\s:({]+)", re.M)
IRREGULAR = set(
    "begun bound broken built chosen done drawn drew found given gone grown held hidden kept known left lent lost made met put read said seen"
    " sent set shown sought spent stood taken told took understood written".split()
)
# Words that say nothing about the thing that they name, and what to write.
EMPTY = {"told": "the fault, answer, view, rows or outcome", "untold": "the fault, answer, view, rows or outcome"}
# A word that a rule refuses, and why it stays. At most 15.
EXCEPTIONS = {
    "Listing": "a noun: the dependencies of a table, listed with their places",
    "opening": "a noun: the opening state of the machine",
}


def words_defined(text: str) -> list[str]:
    """Returns the public words that a file of definitions defines."""
    return DEFINED.findall(text)


def is_bare_participle(word: str) -> bool:
    """Returns whether the word is one participle, without the noun that it describes."""
    is_one_word = "_" not in word and not re.search("[a-z][A-Z]", word)
    return is_one_word and (word.lower() in IRREGULAR or word.lower().endswith(("ed", "ing")))


def definitions() -> Iterator[tuple[str, str, str]]:
    """Yields crate, path and text of each file of definitions."""
    for path in sorted(glob.glob(os.path.join(ROOT, "crates", "*", "specs", "**", "*.antt"), recursive=True)):
        place = os.path.relpath(path, os.path.join(ROOT, "crates"))
        with open(path, encoding="utf-8") as file:
            yield place.split(os.sep)[0], place, file.read()


def glossary_words(page: str) -> list[str]:
    """Returns the words of the table under the heading Glossary."""
    table = page.split("## Glossary", 1)[1].split("\n## ", 1)[0]
    return [row.split("|")[1].strip() for row in table.split("\n") if row.startswith("| ") and not row.startswith("| Word ")]


class Vocabulary(unittest.TestCase):
    def test_one_crate_for_each_word(self) -> None:
        crates: dict[str, set[str]] = defaultdict(set)
        for crate, _, text in definitions():
            for word in words_defined(text):
                crates[word].add(crate)
        shared = {word: sorted(names) for word, names in crates.items() if len(names) > 1 and word not in EXCEPTIONS}
        self.assertEqual(shared, {})

    def test_no_bare_participle(self) -> None:
        found = {(path, word) for _, path, text in definitions() for word in words_defined(text) if is_bare_participle(word)}
        self.assertEqual({it for it in found if it[1] not in EXCEPTIONS}, set())

    def test_no_empty_word(self) -> None:
        for path in glob.glob(os.path.join(ROOT, "crates", "*", "*", "**", "*.*t"), recursive=True):
            if path.endswith((".rt", ".antt")):
                with open(path, encoding="utf-8") as file:
                    used = set(re.findall(r"\w+", file.read())) & set(EMPTY)
                self.assertEqual({word: EMPTY[word] for word in used}, {}, os.path.relpath(path, ROOT))

    def test_glossary(self) -> None:
        with open(os.path.join(ROOT, "docs", "definitions.md"), encoding="utf-8") as file:
            words = Counter(glossary_words(file.read()))
        self.assertGreater(len(words), 20)
        self.assertEqual([word for word, count in words.items() if count > 1], [])

    def test_exceptions_are_used(self) -> None:
        words = {word for _, _, text in definitions() for word in words_defined(text)}
        self.assertEqual(set(EXCEPTIONS) - words, set())
        self.assertLessEqual(len(EXCEPTIONS), 15)

    def test_wrong_file(self) -> None:
        text = "abbrev pub held : Trace\npub record Shown (s : Trace) : Type 0 where\n  pub known : Bool\nunfoldable pub held_set : Trace\n"
        self.assertEqual(words_defined(text), ["held", "Shown", "held_set"])
        for word, is_bare in (("held", True), ("Shown", True), ("accepting", True), ("held_set", False), ("IsShown", False)):
            with self.subTest(word=word):
                self.assertEqual(is_bare_participle(word), is_bare)


if __name__ == "__main__":
    unittest.main()
