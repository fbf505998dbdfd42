"""What the scripts of contrib/ find of each log of a store, in the words of `sudo_logcheck --json`.

A line of a log has its `state` (complete, incomplete, damaged or unread) and `id`. A complete one has `bytes`,
`submit_time`, `relayed`, what its head has of `submituser` and `submithost`, and `digest` if that is asked for.
"""
from __future__ import annotations

import hashlib
import json
import os
import subprocess
import sys
from collections.abc import Iterator
from typing import Any

from oracle.journals import PARTS, folder_of
from oracle.options import DAMAGED, READ_FAULT
from oracle.reader import PIECE, OpenLog, identifiers, is_relayed, log_body_of, open_log, why_no_store
from oracle.records import Damaged

Found = dict[str, Any]


class Unread(Exception):
    """Why the logs of a store aren't known, and the status that is due."""

    def __init__(self, status: int, text: str) -> None:
        """A status and a line."""
        super().__init__(text)
        self.status = status


def checker(script: str) -> str | None:
    """The path of sudo_logcheck beside a script, with what precedes the script's name before its own, or None."""
    folder, name = os.path.split(os.path.realpath(sys.argv[0]))
    path = os.path.join(folder, name.removesuffix(script) + "sudo_logcheck")
    return path if os.access(path, os.X_OK) else None


def logs_of(program: str | None, store: str, has_digests: bool = False) -> list[Found]:
    """What is found of each log: by the program, if there is one, else by this module."""
    if program:
        return checked(program, store, has_digests)
    why = why_no_store(store)
    if why is not None:
        raise Unread(READ_FAULT, f"{store}: {why}")
    return [it for digits in identifiers(store) if (it := looked_at(store, digits, has_digests)) is not None]


def checked(program: str, store: str, has_digests: bool) -> list[Found]:
    """What sudo_logcheck finds. Its last line has the sums: without it, the check didn't come to its end."""
    words = [program, "-d", store, "--json", *(["--digest"] if has_digests else [])]
    try:
        done = subprocess.run(words, stdin=subprocess.DEVNULL, stdout=subprocess.PIPE, check=False)
        lines = [json.loads(line) for line in done.stdout.splitlines()]
    except (OSError, ValueError) as fault:
        raise Unread(READ_FAULT, f"{program}: {fault}") from fault
    if not lines or "sums" not in lines[-1]:
        status = DAMAGED if done.returncode == DAMAGED else READ_FAULT
        raise Unread(status, f"{program} didn't come to its end (status {done.returncode})")
    if done.returncode == DAMAGED and not lines[-1]["sums"]["damaged"]:
        raise Unread(DAMAGED, f"{store}: a number file doesn't cover the logs: nothing is done")
    return [line for line in lines[:-1] if "id" in line and line["state"] != "absent"]


def looked_at(store: str, digits: str, has_digest: bool) -> Found | None:
    """What this module finds of a log. None if there is none."""
    try:
        body = log_body_of(store, digits)
        if body is None:
            return {"state": "damaged", "id": digits} if has_records(store, digits) else None
        if body.kind == "complete":
            return read_whole(store, digits, has_digest)
        return {"state": "incomplete", "id": digits, "bytes": sum(body.lengths)}
    except Damaged:
        return {"state": "damaged", "id": digits}
    except OSError:
        return {"state": "unread", "id": digits}


def has_records(store: str, digits: str) -> bool:
    """Whether a log without an entry has records all the same, so that its journal was lost."""
    try:
        return os.path.getsize(os.path.join(folder_of(store, digits), "timing")) > 0
    except FileNotFoundError:
        return False


def read_whole(store: str, digits: str, has_digest: bool) -> Found | None:
    """A complete log, read to its end but for the data of its streams."""
    log = open_log(store, digits)
    if log is None:
        return None
    with log:
        head = log.head()
        for _ in log.records():
            pass
        found = {"state": "complete", "id": digits, "bytes": sum(log.body.lengths), "submit_time": head["submit_time"],
            "relayed": is_relayed(store, digits, log.body.elapsed)}
        found.update({key: head["info"][key] for key in ("submituser", "submithost") if key in head["info"]})
    if has_digest:
        found["digest"] = digest_of(store, log)
    return found


def digest_of(store: str, log: OpenLog) -> str:
    """The SHA-256 of a log's identifier, and of the length and the committed bytes of each file."""
    seal = hashlib.sha256(log.digits.encode())
    for name, length in zip(PARTS, log.body.lengths):
        seal.update(length.to_bytes(8, "big"))
        with open(os.path.join(folder_of(store, log.digits), name), "rb") as file:
            for piece in pieces(file, length):
                seal.update(piece)
    return seal.hexdigest()


def pieces(file: Any, length: int) -> Iterator[bytes]:
    """The first bytes of a file, in pieces."""
    while length and (piece := file.read(min(PIECE, length))):
        length -= len(piece)
        yield piece
