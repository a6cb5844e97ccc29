"""Tests the pages: which cycles are drawn, what they say, and that each drawing is well-formed and its texts are escaped."""
import os
import re
import unittest
import xml.etree.ElementTree as tree
from collections.abc import Sequence

from goodlock.dashboard.draw import drawn, drawn_alone
from goodlock.dashboard.web import HERE as WEB
from goodlock.drawing.page import STYLE, drawn_reports, page, plain_name, short_name, title_for
from goodlock.drawing.shapes import HEADS, columns_of, colours_of, cut, fitting, isolated, text, titled
from goodlock.drawing.timeline import Row, rows_of
from goodlock.drawing.verdict import Line, verdict_of
from goodlock.reports import read_reports
from goodlock.traces import Index
from written import OPPOSITE, OPPOSITE_REPORT, InFolder, environment, index_of
from test_groups import BANK, REPORT

HOSTILE = "<script>window.hacked = 1</script><img src=x onerror=window.hacked=1>.c:7 in \"'><b>f"
DEADLOCK = ["deadlock of 2 threads, which wait for each other", "thread 1 waits for lock 20 at bank.c:3 in f", "thread 1 from bank.c:1 in main",
            "lock 10 since bank.c:2 in f", "thread 2 waits for lock 10 at bank.c:7 in <g>", "lock 20 since bank.c:6 in <g>"]
LONG = "0f1 0f2\n" + "2w1 " * 40 + "1a10 1a20 1r20 1r10\n2a20 2a10 2r10 2r20\n"


def page_of(index: Index, report: str, most: int = 20, notes: Sequence[str] = ()) -> str:
    with environment(GOODLOCKD_PROGRAM="/nowhere"):
        return page("x/bank.trace", index, drawn_reports(index, read_reports("x", index, report.splitlines()), most), notes)


class Pages(InFolder):
    def check_has(self, html: str, part: str) -> None:
        self.assertTrue(part in html, part)


class Draws(Pages):
    def check_drawings(self, html: str, count: int) -> None:
        drawings = re.findall("<svg.*?</svg>", html, re.S)
        self.assertEqual(len(drawings), count)
        for drawing in drawings:
            tree.fromstring(drawing)

    def test_confirmed(self) -> None:
        html = page_of(index_of(OPPOSITE), OPPOSITE_REPORT)
        self.check_drawings(html, 5)  # the heads of a time line are drawn twice
        for part in ["<title>This run can deadlock: 1 confirmed, 0 potential – bank.trace</title>", ">confirmed<",
                     '<h1 class="verdict confirmed">This run can deadlock: 1 confirmed, 0 potential</h1>', '>thread 1</bdi> waits for <bdi title="thread 2">thread 2<', "waits for", "Run 4 events of the trace in this order",
                     "Question 0: 10 events, 3 threads, 2 locks; cycles of at most 2 members: 1, confirmed 1."]:
            self.check_has(html, part)

    def test_potential(self) -> None:
        html = page_of(index_of(BANK), REPORT)
        self.check_drawings(html, 11)
        self.check_has(html, ">potential<")
        self.check_has(html, "The reason is not shown, since there is no program /nowhere")

    def test_groups(self) -> None:
        for most, badges, sentence in [(20, 3, None), (3, 3, None), (2, 2, "There are 2 groups; the page draws one cycle of each group,"),
                                       (1, 1, "the page draws one cycle of the first group,"), (0, 0, "each of the first 0 groups")]:
            html = page_of(index_of(BANK), REPORT, most)
            drawn = re.findall('class="badge', re.sub('<section class="contents">.*?</section>', "", html))
            self.assertEqual((len(drawn), sentence is None or sentence in html), (badges, True), most)
        self.check_has(page_of(index_of(BANK), REPORT, 2), "one of 2 cycles at these locations, 2 confirmed")

    def test_no_cycles_and_no_events(self) -> None:
        html = page_of(index_of(""), "question 0 length 0 bound 2 cycles 0 confirmed 0\n")
        self.check_drawings(html, 0)
        self.check_has(html, "<h2>No cycles</h2>")
        self.check_has(html, "Nothing was analysed: there are no events")

    def test_contents(self) -> None:
        """Two cycles or more have a list of contents. Each row that is drawn leads to its section, and those after the tenth are folded."""
        rows = OPPOSITE_REPORT.split("\n", 1)[1]
        for cycles in (1, 2, 10, 11):
            html = page_of(index_of(OPPOSITE), f"question 0 length 10 bound 2 cycles {cycles} confirmed {cycles}\n" + rows * cycles)
            links = re.findall('<a href="#(r0c[0-9]+)">', html)
            self.assertEqual(len(links), cycles if cycles > 1 else 0)
            self.assertEqual([f'<section id="{link}">' in html for link in links], [True] * len(links))
            self.assertEqual("Show 1 more" in html, cycles == 11)
        html = page_of(index_of(BANK), REPORT, 1)
        self.assertEqual((len(re.findall('<a href="#', html)), html.count("<li><span")), (1, 2))

    def test_happened(self) -> None:
        """A deadlock that happened is first; what else the agent says follows the cycles."""
        html = page_of(index_of(OPPOSITE), "question 0 length 10 bound 2 cycles 0 confirmed 0\n", notes=[*DEADLOCK, "windows of <x> were left out"])
        self.check_drawings(html, 3)
        for part in ['<h1 class="verdict confirmed">This run deadlocked: 2 threads wait for each other</h1>', "The deadlock that happened",
                     '<bdi>bank.c:7 in &lt;g&gt;</bdi>', "<li>windows of &lt;x&gt; were left out</li>"]:
            self.check_has(html, part)
        joins = ["deadlock of 1 thread, which waits for itself", "thread 1 waits for thread 1 at bank.c:3 in f", "thread 1 from bank.c:1 in main"]
        html = page_of(index_of(OPPOSITE), "question 0 length 10 bound 2 cycles 0 confirmed 0\n", notes=joins)
        self.check_drawings(html, 2)  # nobody waits for a lock, so there is no ring
        self.check_has(html, "waits for the end of another thread")

    def test_long_witness(self) -> None:
        report = ("question 0 length 50 bound 2 cycles 1 confirmed 1\ncycle 0 1 confirmed\n  thread 1 lock 20 holds 10 place 43\n"
                  "  thread 2 lock 10 holds 20 place 47\n  witness " + " ".join(map(str, [*range(43), 46])) + "\n")
        html = page_of(index_of(LONG), report)
        self.check_drawings(html, 5)
        self.check_has(html, "39 events of thread 2, places 2 to 40, left out")

    def test_escaped(self) -> None:
        html = page_of(index_of(f"# thread 1 is {HOSTILE}\n# lock 10 is {HOSTILE}\n# at {HOSTILE}\n{OPPOSITE}"), OPPOSITE_REPORT)
        self.check_drawings(html, 5)
        self.check_has(html, "window.hacked")
        for markup in ["<script", "<img", "<b>f"]:
            self.assertFalse(markup in html, markup)


class OfDashboard(Pages):
    def test_alone_and_with_trace(self) -> None:
        self.write("r", OPPOSITE_REPORT)
        (alone, verdict), (whole, same) = drawn_alone("r"), drawn("r", self.write("t", OPPOSITE))
        self.assertEqual([verdict, same], [Line("This run can deadlock: 1 confirmed, 0 potential", 3, "confirmed")] * 2)
        self.check_has(alone, "waits for <span")
        self.check_has(alone, '<p class="places">0 1 2 6</p>')
        self.check_has(whole, "since place 2")
        self.check_has(drawn_alone(self.write("r", "question 0 length 9 bound 2 cycles 0 confirmed 0\n"))[0], "No cycles")

    def test_reproduced(self) -> None:
        """The picture and the page of the dashboard show what the report of the recorded run says, and its command."""
        note = "    reproduced in run 2, 0.53 s, 4 steps\n      thread 1 waits for lock 2 at <b>.c:35\n"
        self.write("r", OPPOSITE_REPORT)
        self.write("bank.report", OPPOSITE_REPORT + note)
        with open("bank.calls", "wb") as file:
            file.write(b"goodcalls 2\n\x09\0\0\0./bank\0x\0")
        index = index_of(OPPOSITE)
        for html in (drawn("r", self.write("t", OPPOSITE), "bank.trace")[0], page_of(index, OPPOSITE_REPORT + note)):
            self.check_has(html, '<span class="badge confirmed">reproduced</span>')
            self.check_has(html, "<h3>Reproduced in run 2, 0.53 s, 4 steps</h3><pre>thread 1 waits for lock 2 at &lt;b&gt;.c:35</pre>")
            self.check_has(html, "--reproduce bank --cycle 0,1 ./bank x</code> reproduces it.")
        self.assertNotIn("eproduce", drawn("r", self.write("t", OPPOSITE), "none.trace")[0])

    def test_many(self) -> None:
        rows = OPPOSITE_REPORT.split("\n", 1)[1]
        html, _ = drawn_alone(self.write("r", "question 0 length 10 bound 2 cycles 30 confirmed 30\n" + rows * 30))
        self.assertEqual(html.count("<svg"), 20)
        self.check_has(html, "The first 20 are drawn.")


class Small(unittest.TestCase):
    def test_rows(self) -> None:
        self.assertEqual(rows_of(range(5), {1}, 2), [Row([0]), Row([1]), Row([2, 3, 4], is_left_out=True)])
        self.assertEqual(rows_of([], set()), [])

    def test_texts(self) -> None:
        """The end of a location stays. A wide letter takes two columns."""
        for label, columns, shown in [("bank.c:35", 9, "bank.c:35"), ("transfer.cpp:35", 11, "tra..cpp:35"), ("日本語の名前", 12, "日本語の名前"),
                                      ("日本語の名前", 8, "日..名前"), ("abcdef", 1, "a..f")]:
            self.assertEqual(cut(label, columns), shown)
            self.assertLessEqual(columns_of(shown), max(4, columns))
        self.assertEqual((fitting("abc", 1000), fitting("a" * 100, 60)), (12.0, 11.0))
        self.assertIn("&lt;b&gt;", text(0, 0, "<b>"))
        self.assertEqual(isolated("a\u2069b"), "\u2068ab\u2069")
        self.assertEqual((titled("lock", 2, None, 99), titled("lock", 2, "alice", 99, "acquires ")), ("lock 2", "acquires \u2068a..e\u2069 (2)"))

    def test_functions(self) -> None:
        for function, plain, short in [
            ("void a::B<int>::run<C<D>>(E<F>&) const", "void a::B::run(E&) const", "a::B::run"), ("<module>", "<module>", "<module>"),
            ("Bank.<init>", "Bank.<init>", "Bank.<init>"), ("operator<<(A&)", "operator<<(A&)", "operator<<(A&)"), ("main", "main", "main"),
            ("(anonymous namespace)::f(int)", "(anonymous namespace)::f(int)", "(anonymous namespace)::f(int)"),
        ]:
            self.assertEqual((plain_name(function), short_name(function)), (plain, short))

    def test_titles(self) -> None:
        for actors, title in [("ab", "a waits for b"), ("aa", "a waits for a"), ("abc", "a, b and c wait for each other"),
                              ("aba", "a and b wait for each other"), ("aaa", "3 threads in a wait for each other"),
                              ("abcde", "a, b, c and 2 more wait for each other")]:
            self.assertEqual(title_for(list(actors)), title)

    def test_verdicts(self) -> None:
        for counts, happened, line in [
            ((1, 2, 3), "", Line("This run can deadlock: 1 confirmed, 2 if no value decides, 3 potential", 3, "confirmed")),
            ((0, 2, 3), "", Line("This run can deadlock if no value decides: 2 confirmed so, 3 potential", 2, "no-value")),
            ((0, 0, 3), "", Line("No deadlock is confirmed: 3 potential", 1, "potential")),
            ((0, 0, 0), "", Line("This run predicts no deadlock of at most 4 threads", 0, "none")),
            ((1, 0, 0), "deadlock of 1 thread, which waits for itself", Line("This run deadlocked: 1 thread waits for itself", 4, "confirmed")),
        ]:
            self.assertEqual(verdict_of(9, 4, *counts, happened), line)
        self.assertEqual(verdict_of(0, 4, 0, 0, 0).kind, "potential")

    def test_colours(self) -> None:
        colours = colours_of([5, 7, 5, 9])
        self.assertEqual((list(colours), len(set(colours.values()))), ([5, 7, 9], 3))


WORDS = ["ink", "faint", "accent", "good", "confirmed", "potential", "no-value"]  # colours of text
GROUNDS = ["ground", "card", "soft", "warm", "mark", "alarm"]
LINES = [f"lock{number}" for number in range(8)] + ["other"]  # colours of thin borders


def brightness(colour: str) -> float:
    """Returns the relative luminance of WCAG 2."""
    parts = [int(colour[at:at + 2], 16) / 255 for at in (1, 3, 5)]
    red, green, blue = (part / 12.92 if part <= 0.04045 else ((part + 0.055) / 1.055) ** 2.4 for part in parts)
    return 0.2126 * red + 0.7152 * green + 0.0722 * blue


def contrast(one: str, other: str) -> float:
    dark, light = sorted((brightness(one), brightness(other)))
    return (light + 0.05) / (dark + 0.05)


class Colours(unittest.TestCase):
    def setUp(self) -> None:
        with open(STYLE, encoding="utf-8") as file:
            self.style = file.read()
        self.roots = re.findall(r":root \{(.*?)\}", self.style, re.S)
        self.modes = [dict(re.findall(r"--([a-z0-9-]+): (#[0-9a-f]{6});", root)) for root in self.roots]

    def test_contrast(self) -> None:
        """Text has a contrast of 4.5 to each ground, and lines have 3, in both modes, as WCAG 2 wants it."""
        self.assertEqual((contrast("#000000", "#ffffff"), round(contrast("#777777", "#ffffff"), 2)), (21.0, 4.48))
        light, dark = self.modes
        self.assertEqual(light.keys(), dark.keys())
        pairs = [(word, ground, 4.5) for word in WORDS for ground in GROUNDS] + [(line, ground, 3.0) for line in LINES for ground in ("card", "mark")]
        for mode in (light, dark):
            for one, other, least in [*pairs, ("on-head", "head", 4.5), ("on-accent", "accent", 4.5)]:
                with self.subTest(colours=(one, other), ground=mode["ground"]):
                    self.assertGreaterEqual(contrast(mode[one], mode[other]), least)

    def test_no_other_colours(self) -> None:
        """Each colour is one of these: in the styles, and in what is drawn."""
        with open(os.path.join(WEB, "page.css"), encoding="utf-8") as file:
            styles = self.style.replace(self.roots[0], "").replace(self.roots[1], "") + file.read()
        html = page_of(index_of(BANK), REPORT, notes=DEADLOCK)
        self.assertNotRegex(styles, "#[0-9a-f]{3,8}[;, )]")
        self.assertNotRegex(html.split("</style>")[1], r'(fill|stroke)="(?!none|var\(--)')
        used = set(re.findall(r"var\(--([a-z0-9-]+)\)", styles + html)) | set(HEADS)
        self.assertEqual(used - self.modes[0].keys(), set())
