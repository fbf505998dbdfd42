"""A disk of its own, and scripts of device calls over it, for rows.py.

A write that isn't synced, and one that failed, may leave any byte in its range (docs/TRUST.md, 6). The calls that each
step makes are those that the pages of lsv_journal, lsv_bundle and lsv_eventlog describe.
"""
from __future__ import annotations

import dataclasses
from collections.abc import Callable, Iterable

from oracle.store import KINDS, LOG_BODY, MADE, NUMBERS_BODY, PARTS, body_of, last_entry, log_body

Files = dict[str, bytes]
FILLS: tuple[str | int, ...] = ("old", "read", 1, 0)
DAMAGED = "a data file is absent, or shorter than the last entry says"
NUMBERS = "numbers.0"
SHAPES = {"log": PARTS, "events": ("lines",), "relay": ("id",)}


class Failed(Exception):
    """A call failed."""


def written(text: bytes | None, at: int, data: bytes) -> bytes:
    """A text with these bytes at an offset."""
    text = text or b""
    return text[:at] + data + text[at + len(data) :]


@dataclasses.dataclass
class File:
    """What reads give of a file, what its last sync had, and the ranges that were written since."""

    read: bytes | None = None
    synced: bytes | None = None
    since: list[tuple[int, int] | None] = dataclasses.field(default_factory=list)

    def left(self, fill: str | int) -> bytes | None:
        """What a crash leaves. A failed making is noted as None: the file may be there."""
        if not isinstance(fill, int):
            return self.synced if fill == "old" else self.read
        text = self.synced
        for span in self.since:
            text = (text or b"") if span is None else written(text, span[0], bytes([fill]) * span[1])
        return text


class Device:
    """A disk whose calls of these numbers fail, counted from 1."""

    def __init__(self, failing: Iterable[int]) -> None:
        """It is empty."""
        self.failing, self.calls = set(failing), 0
        self.files: dict[str, File] = {}

    def file(self, name: str) -> File:
        """A file by its name."""
        return self.files.setdefault(name, File())

    def fails(self) -> bool:
        """Whether the next call fails."""
        self.calls += 1
        return self.calls in self.failing

    def create(self, name: str) -> None:
        """Makes a file."""
        file = self.file(name)
        if self.fails():
            file.since.append(None)
            raise Failed
        file.read, file.synced, file.since = b"", b"", []

    def write(self, name: str, at: int, data: bytes) -> None:
        """Writes at an offset."""
        file, fails = self.file(name), self.fails()
        file.since.append((at, len(data)))
        if fails:
            raise Failed
        file.read = written(file.read, at, data)

    def sync(self, name: str) -> None:
        """Syncs a file."""
        file = self.file(name)
        if self.fails():
            raise Failed
        file.synced, file.since = file.read, []

    def reads(self, times: int) -> None:
        """Reads, of which the contents don't matter here."""
        for _ in range(times):
            if self.fails():
                raise Failed

    def text(self, name: str) -> bytes | None:
        """What reads give of a file."""
        return self.file(name).read

    def left(self, fill: str | int) -> Files:
        """What a crash leaves of each file that is there then."""
        texts = {name: file.left(fill) for name, file in self.files.items()}
        return {name: text for name, text in texts.items() if text is not None}


class Journal:
    """A journal of two slots, written by device calls."""

    def __init__(self, owner: str) -> None:
        """It has no entry."""
        self.name, self.old = f"{owner}/slots", f"{owner}/commit"
        self.selected: int | None = None

    def begin(self, disk: Device) -> None:
        """Closes the gate of a new file, which is looked at before."""
        disk.reads(1)
        disk.write(self.name, 0, b"\0")
        disk.sync(self.name)

    def create(self, disk: Device) -> None:
        """Makes the file, with its gate closed."""
        disk.create(self.name)
        disk.write(self.name, 0, b"\0")
        disk.sync(self.name)

    def put(self, disk: Device, body: bytes) -> None:
        """Writes a body into the slot that isn't selected."""
        if self.selected is None:
            disk.write(self.name, 1, b"\0" + body)
        else:
            disk.write(self.name, 2 + (1 - self.selected) * len(body), body)

    def select(self, disk: Device) -> None:
        """Selects that slot."""
        if self.selected is None:
            disk.write(self.name, 0, b"\x01")
        else:
            disk.write(self.name, 1, bytes([1 - self.selected]))
        disk.sync(self.name)
        self.selected = 0 if self.selected is None else 1 - self.selected

    def append(self, disk: Device, body: bytes) -> None:
        """Adds an entry."""
        self.put(disk, body)
        disk.sync(self.name)
        self.select(disk)

    def take_over(self, disk: Device, size: int) -> None:
        """Opens files of which the older journal alone has entries, all in one piece, and takes the last one over."""
        disk.sync(self.name)
        disk.sync(self.old)
        old = disk.text(self.old) or b""
        body = last_entry(b"", old, size)
        assert body is not None and disk.text(self.name) is None
        # Two reads of the slots; one of the older entries, one that finds no more, one of the last body.
        disk.reads(5)
        self.create(disk)
        self.append(disk, body)


class Bundle:
    """A bundle, written by device calls."""

    def __init__(self, owner: str) -> None:
        """Nothing is committed, and nothing is staged."""
        self.owner, self.parts = owner, SHAPES[owner.split(".")[0]]
        self.journal = Journal(owner)
        self.lengths = dict.fromkeys(self.parts, 0)
        self.staged = dict.fromkeys(self.parts, b"")

    def create(self, disk: Device) -> None:
        """Makes its files and the journal."""
        for part in (*self.parts, "slots"):
            disk.create(f"{self.owner}/{part}")
        self.journal.begin(disk)

    def flush(self, disk: Device, kind: int, count: int) -> None:
        """Writes what is staged and the entry, syncs all of that, and selects the entry."""
        full = [part for part in self.parts if self.staged[part]]
        for part in full:
            disk.write(f"{self.owner}/{part}", self.lengths[part], self.staged[part])
        lengths = [self.lengths[part] + len(self.staged[part]) for part in self.parts]
        self.journal.put(disk, log_body(kind, count, 0, lengths))
        for part in full:
            disk.sync(f"{self.owner}/{part}")
        disk.sync(self.journal.name)
        self.journal.select(disk)
        self.lengths, self.staged = dict(zip(self.parts, lengths)), dict.fromkeys(self.parts, b"")

    def cut(self, disk: Device) -> None:
        """An entry by which nothing is committed."""
        self.journal.append(disk, log_body(KINDS.index("cut"), 0, 0, [], 1))
        self.lengths = dict.fromkeys(self.parts, 0)


def opened_text(owner: str, files: Files) -> str:
    """What is said of the bundle of an owner with these files."""
    entry = last_entry(files.get(f"{owner}/slots", b""), files.get(f"{owner}/commit", b""), LOG_BODY)
    if entry is None:
        return "no entry"
    body, parts = body_of(entry), SHAPES[owner.split(".")[0]]
    words = [f"kind {entry[0]}", f"count {body.count}", f"elapsed {body.elapsed}", f"extra {body.extra}"]
    for part, length in zip(parts, body.lengths):
        text = files.get(f"{owner}/{part}")
        if text is None or len(text) < length:
            return f"{DAMAGED}: {part}"
        if length:
            words.append(f"{part} {text[:length].hex()}")
    return ", ".join(words)


def journal_text(files: Files) -> str:
    """What is said of the journal of twelve bytes with these files."""
    slots, old = files.get(f"{NUMBERS}/slots"), files.get(f"{NUMBERS}/commit")
    if slots is None and old is None:
        return "absent"
    body = last_entry(slots or b"", old or b"", NUMBERS_BODY)
    return "no entry" if body is None else f"entry {body[0]}"


def lines_text(owner: str, files: Files) -> str:
    """What is said of an event log that was opened: without an entry it is made."""
    text = opened_text(owner, files)
    return f"kind {MADE}, count 0, elapsed 0, extra 0" if text == "no entry" else text


class State:
    """What is open while a script is played."""

    def __init__(self) -> None:
        """A journal and two bundles that aren't made yet."""
        self.journal = Journal(NUMBERS)
        self.bundle: Bundle | None = None
        self.other: Bundle | None = None
        self.count = 0
        self.added = 0

    def held(self) -> Bundle:
        """The bundle that is open."""
        assert self.bundle is not None
        return self.bundle


Step = Callable[[Device, State], None]


class Script:
    """Steps with their device calls, and steps that read what is left."""

    def __init__(self) -> None:
        """No step."""
        self.steps: list[tuple[str, Step]] = []
        self.looks: list[tuple[list[str], Callable[[Files], str]]] = []

    def lines(self) -> list[str]:
        """The lines of the script."""
        looks = [f"look {line}" for lines, _ in self.looks for line in lines]
        return ["script", *(f"step {line}" for line, _ in self.steps), *looks]

    def each(self, first: int, last: int) -> list[str]:
        """What is printed, with the call of each number failing."""
        printed = []
        for number in range(first, last + 1):
            disk, state, end = Device([number]), State(), "done"
            try:
                for _, step in self.steps:
                    step(disk, state)
            except Failed:
                end = "failed"
            texts = []
            for fill in FILLS:
                files = disk.left(fill)
                texts.append(" " + ", ".join(look(files) for _, look in self.looks) + ";")
            printed.append(f"{number} {end}:{''.join(texts)}")
        return printed

    def add(self, line: str, step: Step) -> None:
        """A step more."""
        self.steps.append((line, step))

    def file(self, name: str, text: bytes) -> None:
        """A file that is made, written and synced."""
        def step(disk: Device, _: State) -> None:
            """Three calls."""
            disk.create(name)
            disk.write(name, 0, text)
            disk.sync(name)

        self.add(f"disk file {name} {text.hex()}".rstrip(), step)

    def journal_create(self) -> None:
        """The journal is made."""
        self.add("journal create", lambda disk, state: state.journal.create(disk))

    def journal_append(self, byte: int) -> None:
        """An entry of twelve equal bytes."""
        self.add(f"journal append {byte}", lambda disk, state: state.journal.append(disk, bytes([byte] * NUMBERS_BODY)))

    def journal_open(self) -> None:
        """An older journal is taken over."""
        self.add("journal open", lambda disk, state: state.journal.take_over(disk, NUMBERS_BODY))

    def look_journal(self) -> None:
        """The journal is opened."""
        self.looks.append((["journal open"], journal_text))

    def bundle_create(self, owner: str) -> None:
        """A bundle is made."""
        def step(disk: Device, state: State) -> None:
            """Its files and its journal."""
            state.bundle = Bundle(owner)
            state.bundle.create(disk)

        self.add(f"bundle create {owner}", step)

    def bundle_open(self, owner: str) -> None:
        """An older bundle is taken over: its journal, and then each data file is synced."""
        def step(disk: Device, _: State) -> None:
            """The calls."""
            bundle = Bundle(owner)
            bundle.journal.take_over(disk, LOG_BODY)
            for part in bundle.parts:
                disk.sync(f"{owner}/{part}")

        self.add(f"bundle open {owner}", step)

    def swap(self) -> None:
        """The other bundle is the open one."""
        def step(_: Device, state: State) -> None:
            """No call."""
            state.bundle, state.other = state.other, state.bundle

        self.add("bundle swap", step)

    def stage(self, part: str, text: bytes) -> None:
        """Bytes are staged."""
        def step(_: Device, state: State) -> None:
            """No call."""
            state.held().staged[part] += text

        self.add(f"bundle stage {part} {text.hex()}", step)

    def flush(self, kind: int, count: int) -> None:
        """What is staged is committed."""
        self.add(f"bundle flush {kind} {count} 0 0", lambda disk, state: state.held().flush(disk, kind, count))

    def flush_and_cut(self, kind: int, count: int) -> None:
        """The same, and then all is cut away."""
        def step(disk: Device, state: State) -> None:
            """Both."""
            state.held().flush(disk, kind, count)
            state.held().cut(disk)

        self.add(f"bundle cut {kind} {count} 0 0", step)

    def look_bundle(self, owner: str) -> None:
        """The bundle of an owner is opened."""
        self.looks.append(([f"bundle open {owner}"], lambda files: opened_text(owner, files)))

    def lines_open(self, lane: int) -> None:
        """An event log is made."""
        def step(disk: Device, state: State) -> None:
            """Its bundle is made, and gets an entry without lines."""
            state.bundle, state.count, state.added = Bundle(f"events.{lane}"), 0, 0
            state.bundle.create(disk)
            state.bundle.flush(disk, MADE, 0)

        self.add(f"lines open {lane}", step)

    def lines_add(self, line: bytes) -> None:
        """A line is added."""
        def step(_: Device, state: State) -> None:
            """No call."""
            state.held().staged["lines"] += line
            state.added += 1

        self.add(f"lines add {line.hex()}", step)

    def lines_flush(self) -> None:
        """The lines that were added are committed, if there are some."""
        def step(disk: Device, state: State) -> None:
            """One flush, or no call."""
            if state.added:
                state.count, state.added = state.count + state.added, 0
                state.held().flush(disk, KINDS.index("flushed"), state.count)

        self.add("lines flush", step)

    def look_lines(self, lane: int) -> None:
        """The event log of a lane is opened, and viewed."""
        owner = f"events.{lane}"
        self.looks.append(([f"lines open {lane}", f"bundle view {owner}"], lambda files: lines_text(owner, files)))
