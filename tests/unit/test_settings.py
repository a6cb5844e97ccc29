"""Tests the options of the gate."""
import argparse

from goodlock.gates import Gate
from goodlock.results import Verdict
from goodlock.settings import Settings, add_gate_options, settings_of
from written import InFolder


def settings_from(*words: str) -> Settings:
    parser = argparse.ArgumentParser()
    add_gate_options(parser)
    return settings_of(parser.parse_args(words))


class Options(InFolder):
    def test_none(self) -> None:
        settings = settings_from()
        self.assertEqual((settings.gate, settings.suppression_file, settings.judge.baseline), (Gate(None), None, None))

    def test_all(self) -> None:
        self.write("known", "*transfer\n")
        self.write("base", '{"fingerprints": {"aa:1": "confirmed"}}')
        settings = settings_from("--fail-on=new", "--suppress", "known", "--baseline", "base", "--root", "..")
        self.assertEqual((settings.gate, settings.judge.baseline), (Gate("new"), {"aa:1": Verdict.CONFIRMED}))
        self.assertEqual(len(settings.suppressions.lines), 1)
        self.assertRegex(settings.suppression_file or "", "^[^/]+/known$")  # relative to the root, which is the folder above

    def test_missing(self) -> None:
        for option in ("--suppress", "--baseline"):
            with self.subTest(option), self.assertRaises(FileNotFoundError):
                settings_from(option, "missing")
