#!/usr/bin/env python3
"""What a cut of the power leaves of what was promised: by this server, and of a session by sudo's own.

usage: cut.py --server PROGRAM [--maker PROGRAM] KIND ...

On file systems of their own, of each kind (power.py), the power is cut, each time at once:

- when the files of a log were made by the call that the server makes, sixteen times, where the maker (lsvt_bench) is
given: all nine must be there, at last;
- when a client has the identifier of a log that it began, sixteen times: the log must be there with all its files, at
once;
- when a client has the commit point behind the exit of a session: all its records and the exit must be there. This is
shown of sudo's own server too, which syncs nothing, where Debian's package is there.

Without a journal what was synced may be lost later, so there the session is shown and not judged. It ends with 1
where something is lacking. Root alone may do that.
"""
from __future__ import annotations

import argparse
import contextlib
import os
import shutil
import signal
import subprocess
import sys
from collections.abc import Callable, Iterator, Sequence

import at_root
import client
import power
import servers
import store
from oracle import sudo
from oracle.connection import PATIENCE, Closed, Connection
from oracle.records import SECOND, Record, elapsed
INFO = {"command": "/usr/bin/vi", "runargv": ["vi", "/etc/motd"], "runuser": "root", "submituser": "ann",
    "submithost": "web1", "submitcwd": "/"}
RECORDS = [(SECOND // 10, "ttyout", b"%d\r\n" % number) for number in range(40)]
TIMES = 16
Left = tuple[list[Record], bool]
Kind = type[servers.Serve]
Stage = tuple[power.Disk, servers.Place, servers.Serve]
Work = Callable[[servers.Serve], tuple[Connection, str]]
Read = Callable[[servers.Place, str], Left | None]


class Lost(Exception):
    """The client didn't get what it waits for."""


FAULTS = (Lost, servers.Failed, power.Failed, power.Lacking, store.Damaged, Closed, subprocess.SubprocessError, OSError)


def numbers(folder: str) -> Iterator[int]:
    """As many numbers as there are cuts.

    A log takes ten inodes with its own folder, and one file more before each makes it eleven, so that logs begin at
    each place of a block, which has sixteen inodes or four.
    """
    for number in range(1, TIMES + 1):
        if number > 1:
            make_more(folder, f"more{number}")
        yield number


def make_more(folder: str, name: str) -> None:
    """One file more, which is on the disk."""
    for place, flags in ((os.path.join(folder, name), os.O_CREAT | os.O_EXCL), (folder, os.O_RDONLY)):
        file = os.open(place, flags)
        os.fsync(file)
        os.close(file)


def files_left(kind: str, maker: str) -> int:
    """How many of the logs whose files were made have all of them: that of slots with its gate."""
    disk = power.Disk(kind)
    folder = os.path.join(disk.mounted, "store")
    try:
        for number in numbers(folder):
            child = subprocess.run([maker, "files", str(number)], cwd=disk.mounted, capture_output=True, text=True,
                timeout=PATIENCE, check=False)
            if child.returncode:
                raise Lost(f"{maker}: status {child.returncode}: {child.stderr}")
            disk.cut()
        return sum(is_made(store.folder_of(folder, store.digits_of(it))) for it in range(1, TIMES + 1))
    finally:
        disk.end()


def is_made(folder: str) -> bool:
    """Whether all files of a log are made."""
    are_there = all(os.path.exists(os.path.join(folder, name)) for name in store.PARTS)
    return are_there and store.contents(os.path.join(folder, "slots")) == b"\0"


@contextlib.contextmanager
def stage(kind: str, of: Kind, program: str, form: str) -> Iterator[Stage]:
    """A server whose store lies on a file system of its own."""
    with contextlib.ExitStack() as ends:
        disk = power.Disk(kind)
        ends.callback(disk.end)
        place = servers.Place(form, disk=disk.mounted)
        ends.callback(shutil.rmtree, place.folder)
        yield disk, place, of(program, place)


def behind_a_cut(disk: power.Disk, server: servers.Serve, work: Work) -> str:
    """The server runs until its client has what it waits for, and the power is cut. Gives the log's identifier."""
    try:
        link, log_id = work(server.start())
    finally:
        server.kill()
    link.close()
    disk.cut()
    return log_id


def begin(server: servers.Serve) -> tuple[Connection, str]:
    """A session is begun. Gives its connection, and the log's identifier."""
    link = server.connect()
    link.send(client.hello(), client.accept(SECOND, INFO))
    answers = [link.read(), link.read()]
    if [name for name, _ in answers] != ["hello", "log_id"]:
        raise Lost(f"{server.name}: {answers} came for an accept")
    return link, answers[1][1]


def session(server: servers.Serve) -> tuple[Connection, str]:
    """A session is sent, and the commit point behind its exit is read."""
    link, log_id = begin(server)
    link.send(*map(client.record, RECORDS), client.exited(5 * SECOND))
    points = [point for name, point in link.rest() if name == "commit_point"]
    if points[-1:] != [elapsed(RECORDS)]:
        raise Lost(f"{server.name}: the commit points {points} came")
    return link, log_id


def logs_left(kind: str, program: str) -> int:
    """How many of the logs that were begun are there, each right behind the cut."""
    seen, left = set(), 0
    with stage(kind, servers.Serve, program, servers.OURS) as (disk, place, server):
        for _ in numbers(place.store):
            log_id = behind_a_cut(disk, server, begin)
            left += log_id not in seen and store.read_log(place.store, log_id) is not None
            seen.add(log_id)
    return left


def session_left(kind: str, of: Kind, program: str, form: str, read: Read) -> tuple[int, bool]:
    """How many records of the session are left, and whether its exit is."""
    with stage(kind, of, program, form) as (disk, place, server):
        log_id = behind_a_cut(disk, server, session)
        found = read(place, log_id)
        return (first(found[0]), found[1]) if found else (0, False)


def first(records: Sequence[Record]) -> int:
    """How many of the session's records these begin with."""
    pairs = zip(records, RECORDS)
    return next((at for at, (is_, sent) in enumerate(pairs) if is_ != sent), min(len(records), len(RECORDS)))


def ours(place: servers.Place, log_id: str) -> Left | None:
    """The records of a log of this server, and whether it has its exit."""
    log = store.read_log(place.store, log_id)
    return log and (log.records, log.is_complete())


def sudos(place: servers.Place, log_id: str) -> Left | None:
    """The same of sudo's own, as far as it can be read."""
    try:
        found = sudo.read_session(os.path.join(place.store, os.path.relpath(log_id, place.store)))
    except (ValueError, IndexError, KeyError, OSError):
        return None
    return found and found[1:]


def is_lacking(kind: str) -> bool:
    """Whether the machine has no such file system, which is printed."""
    try:
        power.Disk(kind).end()
        return False
    except power.Lacking as fault:
        print(f"cut.py: {kind} is skipped: {fault}")
        return True


def is_kept(kind: str, program: str, maker: str | None) -> bool:
    """Shows what is left, where the machine has this kind. False where something of this server is lacking."""
    try:
        files = files_left(kind, maker) if maker else None
        logs = logs_left(kind, program)
    except FAULTS as fault:
        print(f"cut.py: {kind}: {fault}")
        return False
    makings = "" if files is None else f"of {TIMES} makings {files} whole, "
    left, is_whole = session_shown("serve", kind, servers.Serve, program, servers.OURS, ours)
    if servers.tool("sudo_logsrvd"):
        left += ", " + session_shown("sudo's own", kind, servers.Sudo, servers.tool("sudo_logsrvd"), servers.SUDO,
            sudos)[0]
    print(
        f"cut.py: {kind}: a cut leaves {makings}of {TIMES} begun logs {logs}, "
        f"and behind the last commit point {left}"
    )
    return files in (None, TIMES) and logs == TIMES and (is_whole or kind in power.WITHOUT_JOURNAL)


def session_shown(name: str, kind: str, of: Kind, program: str, form: str, read: Read) -> tuple[str, bool]:
    """What is left of the session, in words, and whether that is all of it."""
    try:
        count, is_whole = session_left(kind, of, program, form, read)
    except FAULTS as fault:
        return f"of {name} nothing that is known: {fault}", False
    return f"of {name} {count} of {len(RECORDS)} records{' and the exit' * is_whole}", (count,
        is_whole) == (len(RECORDS), True)


def main() -> int:
    """Cuts the power of each kind."""
    words = argparse.ArgumentParser(description=__doc__, formatter_class=argparse.RawDescriptionHelpFormatter)
    words.add_argument("--server", required=True)
    words.add_argument("--maker")
    words.add_argument("kinds", metavar="KIND", nargs="+", choices=list(power.KINDS))
    args = words.parse_args()
    maker = args.maker and os.path.realpath(args.maker)
    signal.signal(signal.SIGTERM, lambda *_: sys.exit(1))
    kept = [is_lacking(kind) or is_kept(kind, os.path.realpath(args.server), maker) for kind in args.kinds]
    return 0 if all(kept) else 1


if __name__ == "__main__":
    sys.exit(main())
