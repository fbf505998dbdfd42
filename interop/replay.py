#!/usr/bin/env python3
"""Compares `sudoreplay` of this repository with that of sudo: the same sessions in the store of each.

usage: replay.py PROGRAM [PEER]

It writes sessions twice, into a store of this layout and into one of sudo's own (log.json, timing and the streams),
and runs PROGRAM over the one and PEER (by default /usr/bin/sudoreplay, of Debian's package sudo) over the other. Of
each session what is played must be the same bytes, also of single streams; of each search the same sessions must be
found. What differs by design is listed in docs/FORMATS.md and isn't asked for here. It ends with 1 where something
differs.
"""
from __future__ import annotations

import argparse
import os
import random
import re
import subprocess
import sys
import tempfile
from collections.abc import Iterator, Sequence
from typing import Any

import at_root
from oracle import lines, store
from oracle.records import SECOND, STREAMS, Record
from oracle.store import digits_of, folder_of
from oracle.sudo import write_session

SESSIONS = 60
USERS = ["ann", "bob", "eve"]
HOSTS = ["web1", "web2", "db"]
GROUPS = ["root", "staff", "adm"]
COMMANDS = [["/usr/bin/id", "-u"], ["/bin/ls", "-l", "/etc"], ["/usr/bin/vi", "/etc/passwd"], ["/bin/sh"]]


def session(rng: random.Random, number: int) -> tuple[int, dict[str, Any], list[Record]]:
    """The submit time, the information, and the records of a session."""
    argv = rng.choice(COMMANDS)
    info = {
        "columns": 80, "command": argv[0], "lines": 24, "runargv": argv, "rungid": 0, "rungroup": rng.choice(GROUPS),
        "runuid": 0,
        "runuser": rng.choice(["root", "www"]), "submitcwd": rng.choice(["/", "/home/ann"]),
        "submithost": rng.choice(HOSTS),
        "submituser": rng.choice(USERS), "ttyname": f"/dev/pts/{rng.randrange(3)}",
    }
    records: list[Record] = []
    for _ in range(rng.randrange(30)):
        delay = rng.randrange(10**8)
        kind = rng.randrange(10)
        if kind == 0:
            records.append((delay, "winsize", rng.randrange(1, 100), rng.randrange(1, 200)))
        else:
            text = bytes(rng.choice(b"abc \r\n\x1b[m\xc3\xa4") for _ in range(rng.randrange(1, 200)))
            records.append((delay, rng.choice(STREAMS), text))
    return 1700000000 + 3600 * number, info, records


def run(program: str, *words: str) -> subprocess.CompletedProcess[bytes]:
    """What a program prints, in UTC."""
    return subprocess.run([program, *words], stdin=subprocess.DEVNULL, capture_output=True,
        env=dict(os.environ, TZ="UTC"), check=False)


def found(program: str, folder: str, words: Sequence[str]) -> list[bytes]:
    """The sessions that a search finds, in order."""
    return re.findall(rb"TSID=([0-9A-Z]{6})", run(program, "-d", folder, "-l", *words).stdout)


def date(seconds: int, peer: bool) -> str:
    """A moment as the one and as the other has it."""
    hours = (seconds - 1700000000) // 3600 + 22
    day, hour = 14 + hours // 24, hours % 24
    return f"2023-11-{day:02} {hour:02}:13:20" if peer else f"2023-11-{day:02}T{hour:02}:13:20Z"


def searches(rng: random.Random) -> Iterator[tuple[list[str], list[str]]]:
    """Words for the one and for the other."""
    tests = [["user", u] for u in USERS] + [["host", h] for h in HOSTS] + [["runas", "www"], ["group", "staff"],
        ["cwd", "/"], ["tty", "/dev/pts/1"], ["command", "ls"], ["command", "^/usr/bin/(id|vi)"], ["u", "bob"],
        ["h", "db"]]
    yield [], []
    for test in tests:
        yield test, test
        yield ["!"] + test, ["!"] + test
    for _ in range(100):
        a, b, c = (rng.choice(tests) for _ in range(3))
        for words in (a + b, a + ["and"] + b, a + ["or"] + b, a + ["and"] + b + ["or"] + c,
            ["("] + a + ["or"] + b + [")"] + c, ["!", "("] + a + ["or"] + b + [")"]):
            yield words, words
    for name in ("fromdate", "todate"):
        for hours in (0, 1, 20):
            at = 1700000000 + 3600 * hours
            yield [name, date(at, False)], [name, date(at, True)]


class Trial:
    """Both programs over both stores, and how often they were asked and differed."""

    def __init__(self, program: str, peer: str) -> None:
        """Stores in a temporary folder."""
        self.program, self.peer = program, peer
        self.folder = tempfile.mkdtemp()
        self.ours, self.theirs = os.path.join(self.folder, "ours"), os.path.join(self.folder, "theirs")
        self.commands: dict[int, bytes] = {}
        self.asked = self.differ = 0

    def write(self, rng: random.Random) -> None:
        """Writes the sessions into both stores."""
        for number in range(1, SESSIONS + 1):
            submit, info, records = session(rng, number)
            self.commands[number] = " ".join(info["runargv"]).encode()
            head, ended = lines.head(submit * SECOND, info), lines.exit_line(SECOND, 0)
            store.write_log(self.ours, number, head, records, ended)
            write_session(folder_of(self.theirs, digits_of(number)), submit * SECOND, info, records)
        store.write_numbers(self.ours, SESSIONS)

    def same(self, what: str, one: Any, other: Any) -> None:
        """Asks once, and prints what differs."""
        self.asked += 1
        if one != other:
            self.differ += 1
            print(f"{what}: {one!r} for {other!r}"[:300])

    def play(self, number: int) -> None:
        """Plays a session, of all streams and of some."""
        for choice in ([], ["-f", "stdout"], ["-f", "ttyin,ttyout"], ["-f", "stdin,stderr"]):
            options = ["-n", "-m", "0", *choice, digits_of(number)]
            one, other = run(self.program, "-d", self.ours, *options), run(self.peer, "-d", self.theirs, *options)
            # the peer shows the command before the session, and ends it with a line feed of its own
            front = b"Replaying sudo session: " + self.commands[number]
            self.same(f"played {options}", front + one.stdout + b"\r\n", other.stdout)

    def search(self, words: Sequence[str], others: Sequence[str]) -> None:
        """Searches both stores."""
        self.same(f"found {words}", found(self.program, self.ours, words), found(self.peer, self.theirs, others))


def main() -> int:
    """Compares both programs."""
    words = argparse.ArgumentParser(description=__doc__, formatter_class=argparse.RawDescriptionHelpFormatter)
    words.add_argument("program", type=os.path.realpath)
    words.add_argument("peer", nargs="?", default="/usr/bin/sudoreplay")
    args = words.parse_args()
    trial = Trial(args.program, args.peer)
    rng = random.Random(20)
    trial.write(rng)
    for number in range(1, SESSIONS + 1):
        trial.play(number)
    for words, others in searches(rng):
        trial.search(words, others)
    print(f"{trial.asked} asked, {trial.differ} differ")
    return 1 if trial.differ else 0


if __name__ == "__main__":
    sys.exit(main())
