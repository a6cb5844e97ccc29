"""The errors that end a tool: a line of a file has a fault, or an output cannot be written."""
from typing import Optional

MOST_SHOWN = 60


class InputError(Exception):
    """A line of a file has a fault, or the whole file if there is no line. The text is `FILE:LINE: WHAT` or `FILE: WHAT`."""

    def __init__(self, name: str, line: Optional[int], what: str) -> None:
        super().__init__(f"{name}: {what}" if line is None else f"{name}:{line}: {what}")


class OutputError(Exception):
    """An output cannot be written. The text has its name, if it is known, and the system's reason."""

    def __init__(self, fault: OSError) -> None:
        super().__init__(f"{fault.filename}: {fault.strerror}" if fault.filename else fault.strerror or str(fault))


def shown(text: str) -> str:
    """Returns a text of a file as an error shows it: on one line, cut if it is long."""
    line = "".join(letter if letter.isprintable() else letter.encode("unicode_escape").decode() for letter in text[:MOST_SHOWN + 1])
    return line if len(line) <= MOST_SHOWN else f"{line[:MOST_SHOWN]}.."


def fault_of_text(text: str) -> Optional[str]:
    """Returns what is wrong with the letters of a text, or None."""
    if text.endswith("\r"):
        return "carriage return: a line ends with a line feed alone"
    if text.startswith("\ufeff"):
        return "byte order mark: save the file without it"
    if text.startswith("\x1f\ufffd"):
        return "not text: it looks like gzip data, unpack it"
    if "\ufffd" in text or not text.replace("\t", "").isprintable():
        return "not text"
    return "tab: words are separated by spaces" if "\t" in text else None
