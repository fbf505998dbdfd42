"""The cases of a program of rows, its `stdin`, and what must be printed of them, its `stdout`."""
from __future__ import annotations

import os
from collections.abc import Iterable


class Rows:
    """Cases and wanted lines, in the order in which they are added."""

    def __init__(self) -> None:
        """There are none."""
        self.cases: list[str] = []
        self.wanted: list[str] = []

    def case(self, line: str, *printed: str) -> None:
        """A case, and the lines that are printed of it."""
        self.cases.append(line)
        self.wanted.extend(printed)

    def title(self, text: str) -> None:
        """A line that is printed as it is."""
        self.case(f"# {text}", f"# {text}")

    def write(self, folder: str) -> None:
        """Writes both files into a folder."""
        write_lines(os.path.join(folder, "stdin"), self.cases)
        write_lines(os.path.join(folder, "stdout"), self.wanted)


def write_lines(path: str, lines: Iterable[str]) -> None:
    """Writes lines, each with its line feed."""
    with open(path, "w", encoding="utf-8") as file:
        file.writelines(f"{line}\n" for line in lines)
