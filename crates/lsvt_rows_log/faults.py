#!/usr/bin/env python3
"""The scripts of one log under faults and crashes, and what lsvt_rows_log must print of them, for rows.py.

What is read of a log is worked out by docs/FORMATS.md. How often a script is played comes of the device calls that each
step makes, which are counted here as the pages of lsv_bundle and lsv_journal describe them.
"""
from __future__ import annotations

import os
from collections.abc import Iterator

from oracle.records import STREAMS, Record, cut_at, line_of, records_of, stream_of
from oracle.store import LOG_BODY, PARTS, body_of, last_entry, slots_entry

FILLS = 4
OPENINGS = 32


class Log:
    """A log as it stands after some steps, and the device calls that these made."""

    def __init__(self, files: dict[str, bytes]) -> None:
        """The log of an older store's files, if there are any."""
        self.calls, self.lengths = 0, 0
        self.records: list[Record] | None = None
        self.staged: list[Record] = []
        self.cuts, self.has_exit = 0, False
        self.slots, self.old = files.get("slots"), files.get("commit", b"")
        self.has_slots = slots_entry(files.get("slots", b""), LOG_BODY) is not None
        body = last_entry(files.get("slots", b""), self.old, LOG_BODY)
        if body:
            self.load(files, body)

    def load(self, files: dict[str, bytes], text: bytes) -> None:
        """Takes in what the last entry of the journal says of the files."""
        body = body_of(text)
        texts = {part: files[part][:length] for part, length in zip(PARTS, body.lengths)}
        streams = {stream: texts[stream] for stream in STREAMS}
        self.records, self.cuts = records_of(texts["timing"], streams, "timing"), body.extra
        self.has_exit = body.kind == "complete"

    def shown(self) -> str:
        """What is read of the log."""
        if self.records is None:
            return "there is no such log"
        texts = {"timing": b"".join(map(line_of, self.records))}
        texts |= {stream: stream_of(self.records, stream) for stream in STREAMS}
        words = [f"{len(self.records)} records, {self.cuts} cuts, exit {str(self.has_exit).lower()},"]
        return " ".join(words + [f"{part} {text.hex()}" for part, text in texts.items() if text])

    def look(self) -> None:
        """The calls that look for the last entry: two reads of the slots.

        If these have none: one read of each piece of the old journal's entries, one that finds no more, one of the
        body.
        """
        self.calls += 2
        if not self.has_slots:
            self.look_at_old()

    def look_at_old(self) -> None:
        """The calls that look into the old journal."""
        self.lengths += 1
        self.calls += 3

    def take_over(self) -> None:
        """The slots are made (created, their gate written, synced), or synced and their gate read.

        Then they are closed if the gate is open or missing (written, synced). Then slot and selector, and the gate, are
        written and synced.
        """
        self.look_at_old()
        self.lengths += 1
        is_closed = self.slots is not None and self.slots[:1] not in (b"", b"\1")
        self.calls += (2 if is_closed else 3 if self.slots is None else 4) + 4
        self.has_slots = True

    def open(self, _: str) -> None:
        """The entry is looked for; both journals are asked for and synced; the slots are read.

        If the slots have no entry, the log is taken over. Each data file is synced and its length compared; the head
        and the timing are read.
        """
        self.staged = []
        self.look()
        self.lengths, self.calls = self.lengths + 2, self.calls + 4
        if not self.has_slots:
            self.take_over()
        self.lengths, self.calls = self.lengths + 16, self.calls + 8 + 1
        self.read_timing()

    def read_timing(self) -> None:
        """The timing is read, if it has a line."""
        self.calls += 1 if self.records else 0

    def commit(self, parts: set[str]) -> None:
        """Each of the files and the slot written, each synced, and the selector or the gate written and synced."""
        self.calls += 2 * len(parts) + 2 + 2
        self.records, self.staged = (self.records or []) + self.staged, []

    def staged_parts(self) -> set[str]:
        """The data files that staged records touch."""
        return {"timing", *[record[1] for record in self.staged]} if self.staged else set()

    def create(self, _number: str, _at: str) -> None:
        """Nine files asked for and made, the gate read, written and synced, and the head committed."""
        self.lengths, self.calls = self.lengths + 9, self.calls + 9 + 3
        self.records, self.has_slots = [], True
        self.commit({"log.json"})

    def append(self, delay: str, stream: str, data: str) -> None:
        """A record is staged."""
        self.staged.append((int(delay), stream, bytes.fromhex(data)))

    def flush(self) -> None:
        """What is staged is committed."""
        if self.staged:
            self.commit(self.staged_parts())

    def finish(self, _run: str, _value: str) -> None:
        """What is staged is committed with the exit."""
        self.commit(self.staged_parts() | {"exit.json"})
        self.has_exit = True

    def cut(self, number: str, point: str) -> None:
        """An opening, the timing read, and an entry with no data."""
        self.open(number)
        self.read_timing()
        records = self.records or []
        kept = list(cut_at(records, int(point)) or [])
        self.cuts += len(kept) < len(records)
        self.records = kept
        self.commit(set())


def expected(name: str, lines: list[str]) -> Iterator[str]:
    """The lines that are printed of a script."""
    files = {}
    for words in lines:
        if words.startswith("file "):
            part, digits = (*words.split(" "), "")[2:4]
            files[part] = bytes.fromhex(digits)
    log = Log(files)
    shown = [log.shown()]
    for word, *rest in [words.split(" ") for words in lines if not words.startswith("file ")]:
        getattr(log, word)(*rest)
        shown.append(log.shown())
    plays = 1 + 2 * log.calls + log.lengths
    images = plays * FILLS
    openings = f"{images * OPENINGS} openings that are cut off, each before or after"
    yield f"{name}: {plays} plays, {images} images, {openings}"
    for done, text in enumerate(shown):
        if done == 0 or text != shown[done - 1]:
            yield f"{done}: {text}"


def scripts() -> Iterator[tuple[list[str], list[str]]]:
    """Each script's lines, and the lines that are printed of it."""
    folder = os.path.dirname(os.path.abspath(__file__))
    with open(os.path.join(folder, "scripts"), encoding="ascii") as text:
        parts = text.read().split("script ")[1:]
    for part in parts:
        name, *lines = part.splitlines()
        yield [f"script {name}", *lines, "try"], list(expected(name, lines))
