"""Converts a trace in RAPID's STD format, with lines such as `T1|acq(l)|Bank.java:35`, into a trace that `goodlockd offline` reads."""
import os
from collections import Counter
from collections.abc import Iterator

from goodlock.commandline import parser_of, run
from goodlock.conversion import Conversion, arguments_of, converted, counted
from goodlock.errors import InputError, fault_of_text, shown
from goodlock.reducer import Source
from goodlock.reduction import Job, folder_beside, run_job
from goodlock.traces import KIND_OF, lines_of, one_line

HELP = """
It writes OUT.trace without the events that change no cycle and no verdict, as tools/reduce does;
--whole keeps them. What is still longer than 1,048,576 events becomes windows: OUT.trace,
OUT.2.trace and so on, and a cycle whose members are in different windows is not found.

The third field of a line becomes a comment `# at LOCATION`. The number of the line and the names
of threads and locks become comments too. A thread that nobody forks is forked by thread 0, which
does nothing else.

Lost: `request` events, which have no form in a trace, since each acquire is a request; begin,
end, branch, enter and exit events; and each event that is not lawful, for example an acquire of
a lock that another thread holds. The tool prints how many of each it dropped.

Exit status: 0 if all is written, 1 if a file cannot be read or written, if there is no report, or
if the replay of a confirmed cycle has a fault, 2 if a line is not understood. Then no file is
left, except the traces if there is no report, and a report with a fault.
"""
LETTERS = {"fork": "f", "join": "j", "acq": "a", "rel": "r", "r": "d", "w": "w"}
LEFT_OUT = {
    "req": "request", "request": "request", "begin": "begin", "end": "end", "branch": "branch", "enter": "enter", "exit": "exit",
}


class Converter:
    """Offers the events of a file to conversion. `left_out` counts the events that have no form in a trace."""

    def __init__(self, name: str) -> None:
        self.name, self.number = name, 0
        self.left_out: Counter[str] = Counter()

    def refuse(self, line: str, what: str) -> InputError:
        return InputError(self.name, self.number, f"{shown(line)}: {what}")

    def convert(self, conversion: Conversion) -> None:
        for self.number, line in enumerate(lines_of(self.name), 1):
            conversion.source = self.name, self.number
            if line.strip() and not line.startswith("#"):
                self.take(conversion, line)

    def fields_of(self, line: str) -> tuple[str, str, str, str]:
        """Returns the thread, the operation, its target and the location of a line."""
        parts = [part.strip() for part in line.split("|", 2)] + [""]
        operation, has_target, target = parts[1].partition("(")
        is_whole = len(parts) > 2 and parts[0] and (not has_target or target.endswith(")"))
        name = operation.strip()
        if not is_whole or not name or not name.replace("_", "a").isalpha() or not name.isascii():
            is_odd = line.isprintable() or line.replace("\t", "").isprintable()
            raise self.refuse(line, "it is not THREAD|OPERATION(TARGET)|LOCATION" if is_odd else fault_of_text(line) or "not text")
        return parts[0], name, target[:-1].strip(), parts[2]

    def take(self, conversion: Conversion, line: str) -> None:
        thread, operation, target, where = self.fields_of(line)
        if operation in LEFT_OUT:
            self.left_out[LEFT_OUT[operation]] += 1
            return
        if operation not in LETTERS:
            raise self.refuse(line, f"there is no operation {shown(operation)}")
        if not target:
            raise self.refuse(line, f"{operation} has no target")
        letter = LETTERS[operation]
        conversion.offer(conversion.number("thread", thread), letter, conversion.number(KIND_OF[letter], target), one_line(where))

    def lines(self) -> Iterator[str]:
        if self.left_out:
            yield f"left out: {counted(self.left_out)}"


def convert() -> int:
    parser = parser_of("from_std", __doc__, HELP)
    parser.add_argument("file", help="a trace in STD format")
    args = arguments_of(parser)
    converter = Converter(args.file)
    with folder_beside(args.out) as folder:
        path = os.path.join(folder, "converted")
        conversion = converted(path, converter.convert)
        job = Job(args.out, [Source(path, one_line(args.file))], args.window, args.bound or 0, args.whole, artificial=1)
        return run_job(job, folder, [*conversion.lines(), *converter.lines()])


def main() -> int:
    return run(convert)
