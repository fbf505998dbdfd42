"""Loads over a store in memory and their summaries, for rows.py: the cases, and what must be printed of them.

It adds up a load by the sizes of its conversations alone: conversation i has i mod 50 + 1 outputs, and the j-th of
them comes after j milliseconds and has j mod 80 + 1 bytes. The sums that stand in it as literals were worked out apart
from it.
"""
from __future__ import annotations

from oracle.records import decimal
from oracle.rows import Rows


def sums(count: int) -> tuple[int, int, int]:
    """Records, bytes and milliseconds of the first conversations, up to this count."""
    outputs = [j for i in range(1, count + 1) for j in range(1, i % 50 + 2)]
    return len(outputs), sum(j % 80 + 1 for j in outputs), sum(outputs)


class Loads:
    """Loads over a store, which counts its numbers."""

    def __init__(self, rows: Rows) -> None:
        """The cases go to these rows; no number was drawn."""
        self.rows = rows
        self.drawn = 0

    def store(self) -> None:
        """An empty store from here on."""
        self.drawn = 0
        self.rows.case("load store")

    def load(self, count: int) -> None:
        """A load of this count of conversations."""
        self.drawn += count
        records, size, milliseconds = sums(count)
        self.rows.case(
            f"load run {count}", f"logs {count}", f"records {records}", f"bytes {size}",
            f"elapsed {decimal(milliseconds * 10**6)}", f"complete {count}",
        )

    def numbers(self) -> None:
        """How many numbers were drawn."""
        self.rows.case("load drawn", f"drawn {self.drawn}")


def add_loads(rows: Rows) -> None:
    """Adds all cases."""
    assert sums(3) == (9, 28, 19)
    assert sums(300) == (7650, 140250, 132600)
    loads = Loads(rows)
    rows.title("a load of three conversations")
    loads.load(3)
    loads.numbers()
    rows.title("of one, on an empty store")
    loads.store()
    loads.load(1)
    loads.numbers()
    rows.title("of 300, and of as many again on the same store")
    loads.store()
    loads.load(300)
    loads.load(300)
    loads.numbers()
    rows.title("the first call on the disk fails: the store isn't opened, and a second load finds it whole")
    loads.drawn = 0
    rows.case("load fail 1")
    rows.case("load run 1", "a call on a file of the store failed")
    loads.load(1)
    loads.numbers()
    rows.title("no case")
    rows.case("loads 3", "loads 3")
