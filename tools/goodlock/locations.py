"""Names source files relative to the top of a project, so that results do not depend on where it is checked out."""
from __future__ import annotations

import os
from pathlib import Path
from typing import Optional

from goodlock.groups import Location, location_of


def top_of() -> str:
    """Returns the nearest folder with `.git`, from the working folder upwards, or else the working folder. In a worktree `.git` is a file."""
    here = Path.cwd()
    return str(next((folder for folder in (here, *here.parents) if os.path.exists(folder / ".git")), here))


class Root:
    """The top of a project: a folder that a user names, or the top of the checkout that contains the working folder, or else the working
    folder. `names` are its absolute names, with and without symbolic links."""

    def __init__(self, folder: Optional[str] = None) -> None:
        named = top_of() if folder is None else os.path.abspath(folder)
        self.names = tuple(dict.fromkeys((named, os.path.realpath(named))))

    def relative(self, file: str) -> str:
        """Returns the name of a file relative to the root, if it is in it. A relative name is already relative to the root."""
        file = os.path.normpath(file)
        for name in self.names:
            above = os.path.join(name, "")
            if file.startswith(above) and file != above:
                return file[len(above):]
        return file

    def location(self, text: str) -> Location:
        """Returns the parts of a code location, with the file relative to the root."""
        location = location_of(text)
        if location.file is None:
            return location
        file = self.relative(location.file)
        return Location(file + text[len(location.file):], file, location.line, location.function)

    def names_of(self, location: Location) -> list[str]:
        """Returns the texts of a location that a pattern may match: relative to the root, and with an absolute name."""
        is_below = location.file is not None and not os.path.isabs(location.file)
        return [location.text] + [os.path.join(name, location.text) for name in self.names if is_below]
