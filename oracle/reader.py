"""Reads the logs of a store that may be in use: record by record, and never beyond what is committed.

docs/FORMATS.md has the form. The journal's entry is read first, and of each file only the bytes that it counts. A
complete log is never written again, so it is read where it is. One that is not complete may be cut by its client, who
then writes over what was cut. So its committed bytes are copied at first, and anew if the journal counts another cut.
"""
from __future__ import annotations

import json
import os
import re
import tempfile
from collections.abc import Iterator
from typing import IO, Any

from oracle.journals import LOG_BODY, PARTS, Body, body_of, entry, folder_of
from oracle.records import LONGEST_LINE, SECOND, STREAMS, Damaged, Record, read_line

PIECE = 65536
# so often a log is copied that is cut meanwhile
MOST_TRIES = 20
# a copy of up to this number of bytes stays in memory
IN_MEMORY = 2**24
IDENTIFIER = re.compile("[0-9A-Z]{6}")
PAIR = re.compile("[0-9A-Z]{2}")
# an event with the elapsed nanoseconds at its end: the time, the event, and what it has
Timed = tuple[int, str, tuple[Any, ...]]


# ---- a store


def why_no_store(store: str) -> str | None:
    """Why a folder is no store of this server, or None if it is one."""
    try:
        names = os.listdir(store)
    except FileNotFoundError:
        return "no such folder"
    except NotADirectoryError:
        return "no folder"
    except PermissionError:
        return "only root and the user that runs the server may read this store"
    if is_of_sudo(store):
        return "sudo's own programs keep their logs here, as its file seq shows"
    if any(name in ("seq2", "seq") or PAIR.fullmatch(name) for name in names):
        return None
    return "no store of this server (it has no seq2)"


def is_of_sudo(store: str) -> bool:
    """Whether a folder is a store of sudo's own: its file seq has six digits and a line feed."""
    try:
        with open(os.path.join(store, "seq"), "rb") as file:
            return re.fullmatch(rb"[0-9A-Z]{6}\n?", file.read(8)) is not None
    except OSError:
        return False


def identifiers(store: str) -> Iterator[str]:
    """The digits of each folder that may hold a log, in order."""
    for first in pairs(store):
        for second in pairs(os.path.join(store, first)):
            for third in pairs(os.path.join(store, first, second)):
                yield first + second + third


def pairs(folder: str) -> list[str]:
    """The names of two digits in a folder, in order."""
    return sorted(name for name in os.listdir(folder) if PAIR.fullmatch(name))


# ---- a log


def log_body_of(store: str, digits: str) -> Body | None:
    """What the last entry of a log's journal says, or None if there is no log."""
    folder = folder_of(store, digits)
    found = entry(os.path.join(folder, "slots"), os.path.join(folder, "commit"), LOG_BODY)
    return None if found is None else body_of(found)


def is_relayed(store: str, digits: str, elapsed: int) -> bool:
    """Whether a log of this elapsed time is marked as relayed, all of it."""
    folder = folder_of(store, digits)
    found = entry(os.path.join(folder, "relay.slots"), os.path.join(folder, "relay.commit"), LOG_BODY)
    return found is not None and body_of(found).kind == "complete" and body_of(found).extra == elapsed + 1


class Part:
    """The committed bytes of a data file, which are read from the front."""

    def __init__(self, folder: str, name: str, length: int) -> None:
        """Opens the file, which must have its length."""
        self.name, self.left = name, length
        try:
            self.file: IO[bytes] = open(os.path.join(folder, name), "rb")
        except FileNotFoundError as fault:
            raise Damaged(f"{name} is missing") from fault
        if os.fstat(self.file.fileno()).st_size < length:
            self.file.close()
            raise Damaged(f"{name} is shorter than its journal says")

    def copy(self) -> None:
        """Copies the bytes, so that nobody changes them from now on."""
        kept = tempfile.SpooledTemporaryFile(IN_MEMORY)  # pylint: disable=consider-using-with
        with self.file as file:
            left = self.left
            while left and (piece := file.read(min(PIECE, left))):
                kept.write(piece)
                left -= len(piece)
        if left:
            raise Damaged(f"{self.name} is shorter than its journal says")
        kept.seek(0)
        self.file = kept

    def take(self, count: int) -> bytes:
        """The next bytes."""
        if count > self.left:
            raise Damaged(f"{self.name} has fewer bytes than timing says")
        self.left -= count
        text = self.file.read(count)
        if len(text) != count:
            raise Damaged(f"{self.name} is shorter than its journal says")
        return text

    def skip(self, count: int) -> None:
        """Passes the next bytes over, and reads none of them."""
        if count > self.left:
            raise Damaged(f"{self.name} has fewer bytes than timing says")
        self.left -= count

    def lines(self) -> Iterator[bytes]:
        """The lines of the bytes, without their line feeds."""
        rest = b""
        while self.left:
            *whole, rest = (rest + self.take(min(PIECE, self.left))).split(b"\n")
            yield from whole
            if len(rest) > LONGEST_LINE:
                break
        if rest:
            raise Damaged(f"the last line of {self.name} has no end")

    def close(self) -> None:
        """Closes the file."""
        self.file.close()


class OpenLog:
    """A log as its journal's last entry had it when it was opened. Of streams that aren't wanted no byte is read."""

    def __init__(self, store: str, digits: str, body: Body, wanted: frozenset[str]) -> None:
        """Opens the files. Each must be there, and as long as the journal says."""
        self.digits, self.body, self.wanted = digits, body, wanted
        self.parts: dict[str, Part] = {}
        try:
            for name, length in zip(PARTS, body.lengths):
                self.parts[name] = Part(folder_of(store, digits), name, length)
            if not self.is_complete():
                for name in ("log.json", "exit.json", "timing", *wanted):
                    self.parts[name].copy()
        except BaseException:
            self.close()
            raise

    def __enter__(self) -> OpenLog:
        """The log closes its files at the end."""
        return self

    def __exit__(self, *_: object) -> None:
        """Closes the files."""
        self.close()

    def close(self) -> None:
        """Closes the files."""
        for part in self.parts.values():
            part.close()

    def is_complete(self) -> bool:
        """Whether its exit is committed."""
        return self.body.kind == "complete"

    def head(self) -> dict[str, Any]:
        """log.json: `info` and `submit_time`. It is read once."""
        head = json_object(self.parts["log.json"])
        info, submit = head.get("info"), head.get("submit_time")
        if not isinstance(info, dict) or not isinstance(submit, dict):
            raise Damaged("log.json has no info or no submit_time")
        if not all(isinstance(submit.get(key), int) for key in ("seconds", "nanoseconds")):
            raise Damaged("submit_time of log.json has no seconds or no nanoseconds")
        return head

    def exit(self) -> dict[str, Any] | None:
        """exit.json, or None if it is empty. It is read once."""
        part = self.parts["exit.json"]
        return json_object(part) if part.left else None

    def records(self) -> Iterator[Timed]:
        """Each record with the elapsed nanoseconds at its end. Data of a stream that isn't wanted is empty.

        What precedes a damage is given first.
        """
        count = elapsed = 0
        for line in self.parts["timing"].lines():
            record = read_line(line)
            if record is None:
                raise Damaged(f"line {count + 1} of timing is of no form")
            count, elapsed = count + 1, elapsed + record[0]
            yield elapsed, record[1], self.rest_of(record)
        if count != self.body.count or elapsed != self.body.elapsed:
            raise Damaged("timing has another number of records, or another time, than its journal says")

    def rest_of(self, record: Record) -> tuple[Any, ...]:
        """What a record has: its bytes, rows and columns, or a signal."""
        _, event, *rest = record
        if event in self.wanted:
            return (self.parts[event].take(rest[0]),)
        if event in STREAMS:
            self.parts[event].skip(rest[0])
            return (b"",)
        return tuple(rest)


def json_object(part: Part) -> dict[str, Any]:
    """The object of a file."""
    try:
        found = json.loads(part.take(part.left).decode("utf-8", "replace"))
    except (ValueError, RecursionError) as fault:
        raise Damaged(f"{part.name} is no JSON") from fault
    if not isinstance(found, dict):
        raise Damaged(f"{part.name} is no object")
    return found


def open_log(store: str, digits: str, wanted: frozenset[str] = frozenset()) -> OpenLog | None:
    """Opens a log for the data of these streams. None if there is no such log."""
    for _ in range(MOST_TRIES):
        body = log_body_of(store, digits)
        if body is None:
            return None
        fault, log = None, None
        try:
            log = OpenLog(store, digits, body, wanted)
        except Damaged as found:
            fault = found
        after = body if log and log.is_complete() else log_body_of(store, digits)
        if after is not None and after.extra == body.extra:
            if fault:
                raise fault
            return log
        if log:
            log.close()
        if after is None:
            return None
    raise Damaged("it is cut again and again while it is read")


# ---- shown


def nanoseconds_of(time: dict[str, Any]) -> int:
    """The nanoseconds of a time with seconds and nanoseconds."""
    return time["seconds"] * SECOND + time["nanoseconds"]


def command_of(info: dict[str, Any]) -> str:
    """The command and its words, with spaces between them."""
    words = info.get("runargv")
    rest = [word for word in words[1:] if isinstance(word, str)] if isinstance(words, list) else []
    return " ".join([str(info.get("command", "")), *rest])
