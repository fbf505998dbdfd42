#!/usr/bin/env python3
"""Tries contrib/sudo-layout: what it writes of a store is played and listed by sudo's own sudoreplay as it should be.

usage: export.py [PROGRAM [PEER]]

It writes a store of sessions, exports it, and runs PEER (by default /usr/bin/sudoreplay, of Debian's package sudo)
over what was exported. Of each session PEER must show the bytes that were stored, of all streams together and of
single ones. Its listing must have each session, with the date, user, host, terminal, folder, target user and command
that were stored. With PROGRAM, the sudoreplay of this repository, the same is asked of it over the store itself. It
ends with 1 if something differs.
"""
from __future__ import annotations

import argparse
import json
import os
import random
import re
import stat
import subprocess
import sys
import tempfile
import time
from collections.abc import Iterator, Sequence
from typing import Any

import at_root
import replay
from oracle import lines, store
from oracle.records import SECOND, Record
from oracle.store import digits_of, folder_of

EXPORT = os.path.join(os.path.dirname(os.path.abspath(__file__)), "..", "contrib", "sudo-layout")
SESSIONS = 80
Session = tuple[int, tuple[int, int], dict[str, Any], list[Record], bool]
CHOICES = ([], ["-f", "stdout"], ["-f", "ttyin,ttyout"], ["-f", "stdin,stderr"])
DEFAULT = "stdout,stderr,ttyout"
# Sessions that sudo's own layout might keep otherwise: no record, an empty record, a stream that looks packed, every
# byte, a suspension.
ODD: list[list[Record]] = [
    [],
    [(10**9, "ttyout", b""), (0, "ttyout", b"x")],
    [(10**6, "ttyout", b"\x1f\x8b\x08 not packed"), (10**6, "stdout", b"\x1f")],
    [(10**6, "ttyout", bytes(range(256))), (2 * 10**9, "suspend", "TSTP"), (10**9, "suspend", "CONT"),
        (5, "winsize", 30, 100)],
]


def sessions(rng: random.Random) -> Iterator[Session]:
    """The number, submit time, entries, records and exit of each session."""
    for number in range(1, SESSIONS + 1):
        submit, info, records = replay.session(rng, number)
        if number % 3 == 0:
            info["runcwd"] = "/tmp"
        info.update({"runenv": ["A=1", "B=zwei \u00e4"], "submitgid": 1000, "rungids": [0, 1], "odd key": "x"})
        if number <= len(ODD):
            records = ODD[number - 1]
        if number == 9:
            info["runargv"] = [info["runargv"][0], "a\tb", "ä\"\\", "#"]
        yield number, (submit, rng.randrange(10**9)), info, records, number % 5 != 0


def shown(records: Sequence[Record], streams: str) -> bytes:
    """What is played of these streams."""
    return b"".join(record[2] for record in records if record[1] in streams.split(","))


def place_of(folder: str, number: int) -> str:
    """The folder of a log."""
    return folder_of(folder, digits_of(number))


def run(program: str, *words: str) -> subprocess.CompletedProcess[bytes]:
    """What a program prints, in the C locale."""
    return subprocess.run([program, *words], stdin=subprocess.DEVNULL, capture_output=True,
        env=dict(os.environ, TZ="UTC", LC_ALL="C"), check=False)


def listed(program: str, folder: str) -> dict[str, dict[str, str]]:
    """The parts of each line of a listing, by identifier."""
    found = {}
    for line in run(program, "-d", folder, "-l").stdout.decode().splitlines():
        date, user, rest = line.split(" : ", 2)
        parts = dict(part.split("=", 1) for part in re.split(r" ; (?=[A-Z]+=)", rest))
        parts.update(date=date, user=user)
        parts["PWD"] = parts.get("PWD", parts.get("CWD"))
        parts["TTY"] = parts["TTY"].removeprefix("/dev/")
        found[parts["TSID"]] = {key: parts[key] for key in ("date", "user", "HOST", "TTY", "PWD", "USER", "COMMAND")}
    return found


def wanted_line(submit: tuple[int, int], info: dict[str, Any], form: str, command: str) -> dict[str, str]:
    """The parts that the line of a session must have."""
    return {
        "date": time.strftime(form, time.gmtime(submit[0])), "user": info["submituser"], "HOST": info["submithost"],
        "TTY": info["ttyname"].removeprefix("/dev/"), "PWD": info["submitcwd"], "USER": info["runuser"],
        "COMMAND": command,
    }


def escaped(text: str) -> str:
    """A command as both show it: bytes that aren't visible as # and three octal digits, and # too."""
    return "".join(chr(byte) if 32 <= byte < 127 and byte != 35 else f"#{byte:03o}" for byte in text.encode())


class Trial:
    """A store, what was exported of it, and how often both were asked and differed."""

    def __init__(self, program: str | None, peer: str) -> None:
        """Stores in a temporary folder."""
        self.program, self.peer = program, peer
        self.folder = tempfile.mkdtemp()
        self.store, self.out = os.path.join(self.folder, "store"), os.path.join(self.folder, "out")
        self.all = list(sessions(random.Random(21)))
        self.asked = self.differ = 0

    def same(self, what: str, one: Any, other: Any) -> None:
        """Asks once, and prints what differs."""
        self.asked += 1
        if one != other:
            self.differ += 1
            print(f"{what}: {one!r} for {other!r}"[:600])

    def write(self) -> None:
        """Writes the store."""
        for number, submit, info, records, is_complete in self.all:
            ended = lines.exit_line(3 * SECOND + 5, number % 7) if is_complete else None
            head = lines.head(submit[0] * SECOND + submit[1], info)
            store.write_log(self.store, number, head, records, ended)
            # what stands after the committed length means nothing
            with open(os.path.join(place_of(self.store, number), "ttyout"), "ab") as file:
                file.write(b"past the end")
        store.write_numbers(self.store, SESSIONS)

    def played(self) -> None:
        """What is played of each session, of all streams and of some."""
        for number, _, info, records, _ in self.all:
            digits = digits_of(number)
            front = b"Replaying sudo session: " + " ".join([info["command"]] + info["runargv"][1:]).encode()
            for choice in CHOICES:
                bytes_ = shown(records, choice[1] if choice else DEFAULT)
                words = ["-n", "-S", "-m", "0", *choice, digits]
                answer = run(self.peer, "-d", self.out, *words)
                self.same(f"peer plays {words}", answer.stdout, front + bytes_ + b"\r\n")
                if self.program:
                    answer = run(self.program, "-d", self.store, *words)
                    self.same(f"program plays {words}", (answer.stdout, answer.returncode), (bytes_, 0))

    def listings(self) -> None:
        """The listings of both programs."""
        for program, folder, form, show in ((self.peer, self.out, "%b %d %T %Y", None),
            (self.program, self.store, "%Y-%m-%dT%H:%M:%SZ", escaped)):
            if not program:
                continue
            found = listed(program, folder)
            self.same(f"{program} lists", sorted(found), [digits_of(number) for number, *_ in self.all])
            for number, submit, info, _, _ in self.all:
                command = " ".join([info["command"]] + info["runargv"][1:])
                if number == 9 and show is None:
                    continue
                want = wanted_line(submit, info, form, show(command) if show else command)
                if show is None:
                    # sudo's own shows the folder that the command was run in, if it knows one
                    want["PWD"] = info.get("runcwd", want["PWD"])
                self.same(f"{program} lists {number}", found.get(digits_of(number)), want)

    def files(self) -> None:
        """Modes, and log.json as sudo's own programs have it."""
        for number, submit, info, records, is_complete in self.all:
            place = place_of(self.out, number)
            self.same(f"mode of {number}", stat.S_IMODE(os.stat(os.path.join(place, "timing")).st_mode),
                0o400 if is_complete else 0o600)
            with open(os.path.join(place, "log.json"), encoding="utf-8") as file:
                head = json.load(file)
            self.same(f"time of {number}", head["timestamp"], {"seconds": submit[0], "nanoseconds": submit[1]})
            self.same(f"exit of {number}", head.get("exit_value"), number % 7 if is_complete else None)
            self.same(f"entries of {number}", {key: head[key] for key in info if key in head},
                {key: info[key] for key in info if key not in ("submitgid", "rungids", "odd key")})

    def statuses(self) -> None:
        """Words that are wrong, a log that isn't there, a log that is damaged, a second run."""
        third = digits_of(3)
        before = open(os.path.join(place_of(self.store, 3), "timing"), "rb").read()
        for words, want in ((["-o", self.out, "zzz"], 2), (["-d", self.store], 2),
            (["-d", self.store, "-o", self.folder + "/a", "00000Z9"], 2),
            (["-d", self.store, "-o", self.folder + "/a", "0000ZZ"], 8),
            (["-d", self.store, "-o", self.folder + "/a", third], 0), (["-d", self.store, "-o", self.out], 0)):
            self.same(f"status of {words}", run(EXPORT, *words).returncode, want)
        with open(os.path.join(place_of(self.store, 3), "timing"), "wb") as file:
            file.write(b"9" + before[1:])
        self.same("status of a damaged log", run(EXPORT, "-d", self.store, "-o", self.folder + "/b").returncode, 4)
        self.same("logs beside a damaged one",
            len([name for name, _, files in os.walk(self.folder + "/b") if "timing" in files]), SESSIONS - 1)


def main() -> int:
    """Exports a store, and compares."""
    words = argparse.ArgumentParser(description=__doc__, formatter_class=argparse.RawDescriptionHelpFormatter)
    words.add_argument("program", nargs="?", type=os.path.realpath)
    words.add_argument("peer", nargs="?", default="/usr/bin/sudoreplay")
    args = words.parse_args()
    trial = Trial(args.program, args.peer)
    trial.write()
    trial.same("export", (run(EXPORT, "-d", trial.store, "-o", trial.out).returncode), 0)
    trial.played()
    trial.listings()
    trial.files()
    trial.statuses()
    print(f"{trial.asked} asked, {trial.differ} differ")
    return 1 if trial.differ else 0


if __name__ == "__main__":
    sys.exit(main())
