"""Tests suppressions, baselines, which state a result gets, and which results make a command fail."""
import unittest
from dataclasses import replace
from typing import Optional

from goodlock.errors import InputError
from goodlock.gates import Gate, Judge, Level, Suppressions, level_of, read_baseline, suppression_of
from goodlock.groups import Pair
from goodlock.locations import Root
from goodlock.results import LeftOut, Result, State, Verdict
from samples import CONFIRMED, HAPPENED, KNOWN, NO_VALUE, NOWHERE, POTENTIAL, SUPPRESSED
from written import InFolder

NO_SUPPRESSIONS = Suppressions(None, Root("/top"))


class Suppressing(InFolder):
    def suppressions(self, text: str) -> Suppressions:
        return Suppressions(self.write("file", text), Root("/top"))

    CASES = [
        ("empty", "", CONFIRMED, None),
        ("comments and empty lines", "# *\n\n  \n", CONFIRMED, None),
        ("all of a location", "src/bank.c:34 in transfer\n", CONFIRMED, 1),
        ("a part of a location", "bank.c:34 in transfer\n", CONFIRMED, None),
        ("any text", "*bank.c:* in transfer\n", CONFIRMED, 1),
        ("any letter", "src/bank.c:3? in transfer\n", CONFIRMED, 1),
        ("some letters", "src/bank.c:3[67] in transfer\n", CONFIRMED, None),
        ("the second line", "nothing\n*transfer\n", CONFIRMED, 2),
        ("both patterns match", "*audit ; *review\n", POTENTIAL, 1),
        ("one of two patterns matches", "*audit ; *transfer\n", POTENTIAL, None),
        ("an absolute name", "/top/src/bank.c:34 in transfer\n", CONFIRMED, 1),
        ("an absolute name elsewhere", "/other/src/bank.c:34 in transfer\n", CONFIRMED, None),
        ("no source lines", "thread 1 lock 2\n", NOWHERE, 1),
        ("no final line feed", "*transfer", CONFIRMED, 1),
    ]

    def test_line(self) -> None:
        for name, text, result, line in self.CASES:
            with self.subTest(name):
                self.assertEqual(self.suppressions(text).line_for(result), line)

    def test_unused(self) -> None:
        suppressions = self.suppressions("# known\n*transfer\n*nowhere\n*bank.c*\n")
        self.assertEqual(suppressions.unused(), (2, 3, 4))
        suppressions.line_for(CONFIRMED)
        self.assertEqual(suppressions.unused(), (3,))

    def test_faults(self) -> None:
        for line in ("a ;  ; b", "a ; ", " ; a"):
            with self.subTest(line), self.assertRaises(InputError) as raised:
                self.suppressions(f"# known\n{line}\n")
            self.assertEqual(str(raised.exception), "file:2: a pattern is empty: patterns are separated by ` ; `")

    def test_generated(self) -> None:
        odd = replace(CONFIRMED, members=tuple(
            replace(member, hold=replace(member.hold, location=member.hold.location._replace(text=text, file=None)))
            for member, text in zip(CONFIRMED.members, ("#a.cc:1 in operator[](int*) ; x", "b?.cc:2 in f"))))
        line = suppression_of(odd.pairs)
        self.assertEqual(line, "[#]a.cc:1 in operator[[]](int[*]) [;] x ; b[?].cc:2 in f ; src/bank.c:35 in transfer")
        self.assertEqual(self.suppressions(f"{line}\n").line_for(odd), 1)
        self.assertIsNone(self.suppressions(f"{line}\n").line_for(CONFIRMED))
        self.assertEqual(suppression_of([Pair("b", "a"), Pair("a", "b")]), "a ; b")


class Baseline(InFolder):
    def test_read(self) -> None:
        self.assertEqual(read_baseline(self.write("file", '{"fingerprints": {"aa:1": "confirmed", "bb:1": "potential", "cc:1": "happened"}}')),
                         {"aa:1": Verdict.CONFIRMED, "bb:1": Verdict.POTENTIAL, "cc:1": Verdict.HAPPENED})
        self.assertEqual(read_baseline(self.write("file", '{"version": 1, "fingerprints": {}}')), {})

    FAULTS = [
        ("empty", ""),
        ("no JSON", "question 0 length 1"),
        ("not text", "\udcff"),
        ("a list", "[]"),
        ("no fingerprints", '{"version": 1}'),
        ("a list of fingerprints", '{"fingerprints": ["aa:1"]}'),
        ("another verdict", '{"fingerprints": {"aa:1": "likely"}}'),
        ("no verdict", '{"fingerprints": {"aa:1": {}}}'),
        ("too many lists in lists", "[" * 100_000),
    ]

    def test_faults(self) -> None:
        for name, text in self.FAULTS:
            with open("file", "wb") as file:
                file.write(text.encode("utf-8", "surrogateescape"))
            with self.subTest(name), self.assertRaises(InputError) as raised:
                read_baseline("file")
            self.assertEqual(str(raised.exception), "file: not a baseline, which has \"fingerprints\": `tools/summary TRACE REPORT --json` "
                                                    "and `tools/many FOLDER --json` print one")

    def test_missing(self) -> None:
        with self.assertRaises(FileNotFoundError):
            read_baseline("missing")

    STATES: list[tuple[str, Verdict, Optional[Verdict], State]] = [
        ("not in it", Verdict.CONFIRMED, None, State.NEW),
        ("the same", Verdict.CONFIRMED, Verdict.CONFIRMED, State.KNOWN),
        ("the same potential one", Verdict.POTENTIAL, Verdict.POTENTIAL, State.KNOWN),
        ("weaker now", Verdict.POTENTIAL, Verdict.CONFIRMED, State.KNOWN),
        ("confirmed now", Verdict.CONFIRMED, Verdict.POTENTIAL, State.NEW),
        ("happened now, potential before", Verdict.HAPPENED, Verdict.POTENTIAL, State.NEW),
        ("happened now, confirmed before", Verdict.HAPPENED, Verdict.CONFIRMED, State.KNOWN),
        ("happened before", Verdict.CONFIRMED, Verdict.HAPPENED, State.KNOWN),
        ("if no value decides", Verdict.NO_VALUE, None, State.NEW),
        ("if no value decides, as before", Verdict.NO_VALUE, Verdict.NO_VALUE, State.KNOWN),
        ("if no value decides, potential before", Verdict.NO_VALUE, Verdict.POTENTIAL, State.NEW),
        ("potential, if no value decides before", Verdict.POTENTIAL, Verdict.NO_VALUE, State.KNOWN),
        ("confirmed, if no value decides before", Verdict.CONFIRMED, Verdict.NO_VALUE, State.KNOWN),
    ]

    def test_state(self) -> None:
        for name, verdict, before, state in self.STATES:
            baseline = {"other:1": Verdict.CONFIRMED, **({"aa:1": before} if before else {})}
            with self.subTest(name):
                judged = Judge(NO_SUPPRESSIONS, baseline).with_state(replace(CONFIRMED, verdict=verdict))
                self.assertEqual((judged.state, judged.before), (state, before))

    def test_suppressed_and_known(self) -> None:
        judge = Judge(Suppressions(self.write("file", "*transfer\n"), Root("/top")), {"aa:1": Verdict.CONFIRMED})
        judged = judge.with_state(CONFIRMED)
        self.assertEqual((judged.state, judged.before, judged.suppressed_by), (State.SUPPRESSED, Verdict.CONFIRMED, 1))

    def test_order(self) -> None:
        judged = Judge(NO_SUPPRESSIONS, {"aa:1": Verdict.CONFIRMED}).judged([CONFIRMED, POTENTIAL, HAPPENED])
        self.assertEqual([result.fingerprint for result in judged], ["cc:2", "bb:1", "aa:1"])


class Failing(unittest.TestCase):
    KNOWN_POTENTIAL = replace(POTENTIAL, state=State.KNOWN)
    SUPPRESSED_HAPPENED = replace(HAPPENED, state=State.SUPPRESSED)
    WORDS = ("confirmed", "certain", "potential", "new", "new-certain")
    # a result, and the words with which the command fails
    CASES: list[tuple[str, Result, str]] = [
        ("confirmed", CONFIRMED, "confirmed certain potential new new-certain"),
        ("happened", HAPPENED, "confirmed certain potential new new-certain"),
        ("if no value decides", NO_VALUE, "confirmed potential new"),
        ("potential", POTENTIAL, "potential"),
        ("known and confirmed", KNOWN, "confirmed certain potential"),
        ("known and happened", replace(HAPPENED, state=State.KNOWN, before=Verdict.CONFIRMED), "confirmed certain potential"),
        ("known if no value decides", replace(NO_VALUE, state=State.KNOWN, before=Verdict.CONFIRMED), "confirmed potential"),
        ("known if no value decides, confirmed now", replace(KNOWN, before=Verdict.NO_VALUE), "confirmed certain potential new-certain"),
        ("known and potential", KNOWN_POTENTIAL, "potential"),
        ("suppressed", SUPPRESSED, ""),
        ("suppressed and happened", SUPPRESSED_HAPPENED, ""),
    ]

    def test_fails(self) -> None:
        for name, result, wanted in self.CASES:
            for fail_on in (None, *self.WORDS):
                fails = fail_on in wanted.split()
                with self.subTest(f"{name}, {fail_on}"):
                    self.assertEqual(Gate(fail_on).fails_on(result), fails)
                    self.assertEqual(Gate(fail_on).judgement([POTENTIAL, result] if fail_on != "potential" else [result]).status,
                                     3 if fails else 0)

    def test_cycles_in_no_group(self) -> None:
        for left_out, fail_on, unjudged in [
            (LeftOut(further=5, further_confirmed=0), "confirmed", 0),
            (LeftOut(further=5, further_confirmed=0), "potential", 5),
            (LeftOut(further=5, further_confirmed=2), "confirmed", 2),
            (LeftOut(further=5, further_confirmed=2), "new", 2),
            (LeftOut(further=5, further_confirmed=2), None, 0),
            (LeftOut(further=5, further_confirmed=2, further_no_value=1), "confirmed", 3),
            (LeftOut(further=5, further_confirmed=2, further_no_value=1), "new", 3),
            (LeftOut(further=5, further_confirmed=2, further_no_value=1), "certain", 2),
            (LeftOut(further=5, further_confirmed=2, further_no_value=1), "new-certain", 2),
            (LeftOut(tried=5), "potential", 0),
        ]:
            with self.subTest(f"{left_out} {fail_on}"):
                judgement = Gate(fail_on).judgement([], left_out)
                self.assertEqual((judgement.unjudged, judgement.status), (unjudged, 3 if unjudged else 0))

    def test_sentence(self) -> None:
        self.assertEqual(Gate("potential").judgement([CONFIRMED, NOWHERE, POTENTIAL, NO_VALUE, HAPPENED], LeftOut(further=7)).sentence,
                         "--fail-on potential: 1 happened, 2 confirmed, 1 confirmed if no value decides, 1 potential, 7 cycles in no group")
        self.assertEqual(Gate("new").judgement([CONFIRMED, KNOWN]).sentence, "--fail-on new: 1 confirmed")
        self.assertEqual(Gate("new").judgement([KNOWN, POTENTIAL, SUPPRESSED]).sentence, "")

    # a result, and its level: with no word, confirmed, potential, new
    LEVELS = [
        ("confirmed", CONFIRMED, "error error error error"),
        ("potential", POTENTIAL, "warning warning error warning"),
        ("known and confirmed", KNOWN, "notice error error notice"),
        ("known and potential", KNOWN_POTENTIAL, "notice notice error notice"),
    ]

    def test_level(self) -> None:
        for name, result, levels in self.LEVELS:
            for fail_on, level in zip((None, "confirmed", "potential", "new"), levels.split()):
                with self.subTest(f"{name}, {fail_on}"):
                    self.assertEqual(level_of(result, Gate(fail_on)), Level(level))


if __name__ == "__main__":
    unittest.main()
