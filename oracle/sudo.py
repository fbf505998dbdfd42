"""The I/O logs of sudo itself, read and written as far as the comparisons need them."""
from __future__ import annotations

import json
import os
import stat
from collections.abc import Mapping, Sequence
from typing import Any

from oracle.records import SECOND, STREAMS, Record, stream_of, timing_of
from oracle.store import contents, write_files

Session = tuple[dict[str, Any], list[Record], bool]


def write_session(folder: str, submit: int, info: Mapping[str, Any], records: Sequence[Record]) -> str:
    """A session as sudo stores it in a folder: the form of log.json, and beside it the older form of the log."""
    os.makedirs(folder)
    head = {"timestamp": {"seconds": submit // SECOND, "nanoseconds": submit % SECOND}, **info}
    streams = {name: stream_of(records, name) for name in STREAMS}
    files = {"log.json": json.dumps(head, indent="\t", ensure_ascii=False).encode() + b"\n"}
    files.update({"log": old_head(submit, info), "timing": timing_of(records)})
    files.update({name: text for name, text in streams.items() if text})
    write_files(folder, files)
    # a timing file that can't be written says that the session is whole
    os.chmod(os.path.join(folder, "timing"), 0o400)
    return folder


def old_head(submit: int, info: Mapping[str, Any]) -> bytes:
    """The file `log` of a session."""
    group, terminal = info.get("rungroup", ""), info.get("ttyname", "unknown")
    first = [str(submit // SECOND), info["submituser"], info["runuser"], group, terminal, "24", "80"]
    return f"{':'.join(first)}\n{info['submitcwd']}\n{' '.join(info['runargv'])}\n".encode()


def read_session(folder: str) -> Session | None:
    """What log.json has, the records, and whether the session is whole; None if there is no session."""
    if not os.path.exists(os.path.join(folder, "log.json")):
        return None
    info = json.loads(contents(os.path.join(folder, "log.json")))
    streams = {name: contents(os.path.join(folder, name)) for name in STREAMS}
    path = os.path.join(folder, "timing")
    taken = dict.fromkeys(STREAMS, 0)
    records = [read_line(line, streams, taken) for line in contents(path).decode().splitlines()]
    return info, records, not os.stat(path).st_mode & stat.S_IWUSR


def read_line(line: str, streams: Mapping[str, bytes], taken: dict[str, int]) -> Record:
    """The record of a line of timing, whose delay may have fewer places than ours."""
    number, delay, *rest = line.split(" ")
    seconds, fraction = delay.split(".")
    spent = int(seconds) * SECOND + int(fraction.ljust(9, "0"))
    if number == "5":
        return spent, "winsize", int(rest[0]), int(rest[1])
    if number not in "01234":
        return spent, "suspend", rest[0]
    name = STREAMS[int(number)]
    start = taken[name]
    taken[name] += int(rest[0])
    return spent, name, streams[name][start : taken[name]]
