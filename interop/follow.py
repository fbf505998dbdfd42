#!/usr/bin/env python3
"""Follows sessions by `sudoreplay -F` while a server stores them, and measures how soon each record is shown.

usage: follow.py --server PROGRAM --replay PROGRAM [--tries N]

A client of ours sends records one by one, and waits for the commit point of each. The parts:

- A session is followed from its first record to its exit. What is shown is its bytes, each once.
- The server is killed in the midst and started again, and the client resumes at its last commit point: the follower
  goes on.
- The client resumes at an earlier point, so that a record is dropped: the follower ends with 7, `log resumed`.
- Once all is shown a record comes whose delay is an hour: without `-m 0` it is shown at once too.
- The session's folder is moved away while it is followed: the follower ends with 8, `log removed`.
- A session is played, and its client resumes it meanwhile, so that records are dropped: what is shown is from before,
  and the player ends with 7.
- sudo's own `sudoreplay -F` beside sudo's own server, if Debian's package sudo is there: the same bytes.

It prints the least, the middle and the greatest time from the start of a follower to its first bytes, and from the
commit point of a record to its bytes, in milliseconds. A machine that other programs keep busy makes them longer: so
they are taken again, up to ten times, if a middle is above 200 ms or 150 ms. It ends with 1 if something differs, or if
each time a middle is above that.
"""
from __future__ import annotations

import argparse
import os
import statistics
import subprocess
import sys
import threading
import time
from collections.abc import Sequence

import client
import servers
from oracle import waits
from oracle.connection import PATIENCE
from oracle.waits import until

SECOND = 10**9
INFO = {
    "columns": 80, "command": "/bin/sh", "lines": 24, "runargv": ["sh"], "rungid": 0, "rungroup": "root", "runuid": 0,
    "runuser": "root", "submitcwd": "/", "submithost": "here", "submituser": "ann", "ttyname": "/dev/pts/1",
}
# the longest middle times that are let through, in milliseconds
FIRST, EACH = 200.0, 150.0
# so often the times are taken
MOST_TIMES = 10
HOUR = 3600 * SECOND
# after this number of sleeps a follower has looked whether there is more
LOOKS = 3
FILE = "iolog_file = %{{seq}}"
SUDO = servers.SUDO.replace(FILE, f"{FILE}\niolog_flush = true\niolog_compress = false")


class Differs(Exception):
    """Something is shown otherwise than it should be."""


class Follower:
    """A follower, and what it has shown by now."""

    def __init__(self, program: str, *words: str) -> None:
        """Starts it."""
        self.shown, self.more = b"", threading.Condition()
        self.started = time.monotonic()
        self.process = subprocess.Popen([program, *words], stdin=subprocess.DEVNULL, stdout=subprocess.PIPE,
            stderr=subprocess.PIPE)
        self.thread = threading.Thread(target=self.read, daemon=True)
        self.thread.start()

    def read(self) -> None:
        """Takes what it shows, until it ends."""
        while piece := os.read(self.process.stdout.fileno(), 65536):
            with self.more:
                self.shown += piece
                self.more.notify_all()

    def wait_for(self, count: int, seconds: float = PATIENCE) -> float:
        """Waits until it has shown so many bytes; gives the moment."""
        with self.more:
            if not self.more.wait_for(lambda: len(self.shown) >= count, seconds):
                raise Differs(f"{len(self.shown)} bytes of {count} are shown after {seconds} s: {self.shown[-200:]!r}")
        return time.monotonic()

    def sleeps(self) -> int:
        """How often it has given up the processor by itself."""
        words = waits.text_of(f"/proc/{self.process.pid}/status").split()
        if "voluntary_ctxt_switches:" not in words or self.process.poll() is not None:
            raise Differs(f"the follower has ended: {self.shown[-200:]!r}")
        return int(words[words.index("voluntary_ctxt_switches:") + 1])

    def end(self, seconds: float = PATIENCE) -> tuple[int, bytes, str]:
        """Its status, all that it showed, and what it said."""
        try:
            status = self.process.wait(seconds)
        except subprocess.TimeoutExpired as fault:
            self.process.kill()
            raise Differs(f"the follower doesn't end: {self.shown[-200:]!r}") from fault
        self.thread.join()
        with self.process.stdout, self.process.stderr:
            return status, self.shown, self.process.stderr.read().decode()


class Session:
    """A client's session: what it sent, and the points that were committed."""

    def __init__(self, server: servers.Serve, waits: bool = True) -> None:
        """Opens it. `waits` says whether each record is awaited."""
        self.server, self.waits = server, waits
        self.link = server.connect()
        self.elapsed, self.points = 0, [0]
        self.sent: list[bytes] = []
        self.expect("hello")
        self.link.send(client.hello(), client.accept(1700000000 * SECOND, INFO))
        self.digits = self.expect("log_id")

    def expect(self, name: str) -> object:
        """The content of the next message, which has this name."""
        got, content = self.link.read()
        if got != name:
            raise Differs(f"{got} {content!r} for {name}")
        return content

    def record(self, data: bytes, delay: int = 1_000_000) -> float:
        """Sends a record and waits for its commit point; gives that moment."""
        self.elapsed += delay
        self.sent.append(data)
        self.link.send(client.record((delay, "ttyout", data)))
        if self.waits:
            self.points.append(self.expect("commit_point"))
        return time.monotonic()

    def resume(self, kept: int) -> None:
        """Resumes after its first `kept` records by another connection."""
        self.link = self.server.connect()
        self.expect("hello")
        self.link.send(client.hello(), client.restart(self.digits, self.points[kept]))
        del self.sent[kept:], self.points[kept + 1:]
        self.elapsed = self.points[kept]

    def resume_with(self, kept: int, data: bytes) -> None:
        """The same with a record, once the server has seen that the connection before is gone."""
        end = time.monotonic() + PATIENCE
        while True:
            self.resume(kept)
            try:
                self.record(data)
                return
            except Differs as fault:
                self.link.close()
                if "log in use" not in str(fault) or time.monotonic() > end:
                    raise
            time.sleep(0.01)

    def exit(self) -> None:
        """Ends it. The server has read the exit before the connection is closed."""
        self.link.send(client.exited(self.elapsed))
        if self.waits:
            self.expect("commit_point")
        else:
            self.link.rest()
        self.link.close()


def logs_of_sudo(store: str) -> list[str]:
    """The folders of sudo's own sessions that have records."""
    return [folder for folder, _, _ in os.walk(store) if waits.text_of(os.path.join(folder, "timing"))]


def text_of(count: int) -> bytes:
    """What a record shows."""
    return f"line {count} \xe4\r\n".encode("latin-1")


def same(what: str, one: object, other: object) -> None:
    """Fails if two things differ."""
    if one != other:
        raise Differs(f"{what}: {one!r} for {other!r}")


class Trial:
    """The programs, and the times that were taken."""

    def __init__(self, server: str, replay: str, tries: int) -> None:
        """`tries` is how often each time is taken."""
        self.program, self.replay, self.tries = server, replay, tries
        self.times: dict[str, list[float]] = {}

    def took(self, what: str, seconds: float) -> None:
        """Keeps a time."""
        self.times.setdefault(what, []).append(1000 * seconds)

    def follower(self, place: servers.Place, digits: str, *words: str) -> Follower:
        """A follower; without words one that shows each record at once."""
        return Follower(self.replay, "-F", *(words or ("-m", "0")), "-d", place.store, digits)

    def part_whole(self) -> None:
        """A session is followed to its exit, and followers that begin later show all of it."""
        place = servers.Place()
        server = servers.Serve(self.program, place).start()
        session = Session(server)
        session.record(text_of(0))
        follower = self.follower(place, session.digits)
        self.took("first bytes", follower.wait_for(1) - follower.started)
        for count in range(1, 4 * self.tries):
            committed = session.record(text_of(count))
            self.took("each record", follower.wait_for(len(b"".join(session.sent))) - committed)
            # so that records come at any moment between two looks
            time.sleep(0.037 * (count % 5))
        others = []
        for _ in range(self.tries - 1):
            others.append(self.follower(place, session.digits))
            self.took("first bytes", others[-1].wait_for(1) - others[-1].started)
        session.exit()
        for one in [follower, *others]:
            same("a session that is followed", one.end(), (0, b"".join(session.sent), ""))
        server.stop()

    def killed(self) -> tuple[servers.Place, servers.Serve, Session, Follower]:
        """A session of three records that a follower has shown, whose server was killed and started again."""
        place = servers.Place()
        server = servers.Serve(self.program, place).start()
        session = Session(server)
        session.record(text_of(0))
        follower = self.follower(place, session.digits)
        session.record(text_of(1))
        session.record(text_of(2))
        follower.wait_for(len(b"".join(session.sent)))
        server.kill()
        time.sleep(0.25)
        server.start()
        return place, server, session, follower

    def part_goes_on(self) -> None:
        """The server is killed, and the client resumes at its last commit point."""
        _, server, session, follower = self.killed()
        session.resume(3)
        for count in range(3, 6):
            committed = session.record(text_of(count))
            self.took("each record", follower.wait_for(len(b"".join(session.sent))) - committed)
        session.exit()
        same("a session that goes on", follower.end(), (0, b"".join(session.sent), ""))
        server.stop()

    def part_resumed(self) -> None:
        """The client resumes before a record that was shown."""
        place, server, session, follower = self.killed()
        before = b"".join(session.sent)
        session.resume_with(2, b"another\r\n")
        status, shown, said = follower.end()
        same(f"a session that was cut: {said}", (status, shown, "log resumed" in said), (7, before, True))
        again = self.follower(place, session.digits)
        again.wait_for(len(b"".join(session.sent)))
        session.exit()
        same("a session that is followed again", again.end(), (0, b"".join(session.sent), ""))
        server.stop()

    def part_live(self) -> None:
        """A record comes after a long pause, to a follower that waits as the user did."""
        place = servers.Place()
        server = servers.Serve(self.program, place).start()
        session = Session(server)
        session.record(text_of(0))
        follower = self.follower(place, session.digits, "-s", "1")
        follower.wait_for(len(b"".join(session.sent)))
        # so that a look has found nothing
        slept = follower.sleeps()
        until("the follower looks again", lambda: follower.sleeps() > slept + LOOKS)
        committed = session.record(text_of(1), HOUR)
        self.took("each record", follower.wait_for(len(b"".join(session.sent))) - committed)
        session.exit()
        same("a session after a pause", follower.end(), (0, b"".join(session.sent), ""))
        server.stop()

    def part_removed(self) -> None:
        """The session's folder is moved away while it is followed, as a prune does with one that is complete."""
        place = servers.Place()
        server = servers.Serve(self.program, place).start()
        session = Session(server)
        session.record(text_of(0))
        follower = self.follower(place, session.digits)
        follower.wait_for(len(b"".join(session.sent)))
        digits = session.digits
        folder = os.path.join(place.store, digits[:2], digits[2:4], digits[4:])
        os.rename(folder, os.path.join(place.folder, "removed"))
        status, shown, said = follower.end()
        same(f"a session that was removed: {said}", (status, shown, "log removed" in said),
            (8, b"".join(session.sent), True))
        session.link.close()
        server.stop()

    def part_played(self) -> None:
        """The client resumes a session while it is played. Its records are larger than one read of the player."""
        place = servers.Place()
        server = servers.Serve(self.program, place).start()
        session = Session(server)
        for letter in b"ABCDEFGH":
            session.record(bytes([letter]) * 30_000)
        before = b"".join(session.sent)
        # each record after seconds, so that the session is resumed before its last one is shown
        player = Follower(self.replay, "-s", "0.0003", "-d", place.store, session.digits)
        player.wait_for(1)
        session.link.close()
        session.resume_with(2, b"z" * 20_000)
        for letter in b"yxwvu":
            session.record(bytes([letter]) * 20_000)
        status, shown, said = player.end()
        same(f"a session that was cut while it was played: {said}",
            (status, before.startswith(shown), "log resumed" in said), (7, True, True))
        session.exit()
        again = Follower(self.replay, "-m", "0", "-d", place.store, session.digits)
        same("a session that is played again", again.end(), (0, b"".join(session.sent), ""))
        server.stop()

    def part_sudo(self) -> None:
        """sudo's own programs show the same."""
        server_program, replay = servers.tool("sudo_logsrvd"), servers.tool("sudoreplay")
        if not server_program or not replay:
            print("follow: sudo's own sudoreplay -F is skipped: Debian's package sudo isn't there")
            return
        place = servers.Place(SUDO)
        server = servers.Sudo(server_program, place).start()
        session = Session(server, waits=False)
        session.record(text_of(0))
        until("sudo's own server has the session", lambda: logs_of_sudo(place.store))
        (log,) = logs_of_sudo(place.store)
        follower = Follower(replay, "-F", "-m", "0", "-n", log)
        front = b"Replaying sudo session: sh"
        for count in range(1, 4):
            sent = session.record(text_of(count))
            moment = follower.wait_for(len(front) + 2 + len(b"".join(session.sent)))
            self.took("sudo's own, each record", moment - sent)
        session.exit()
        status, shown, said = follower.end()
        shown = shown[shown.find(b"line"):].rstrip()
        same(f"sudo's own sudoreplay -F: {said}", (status, shown), (0, b"".join(session.sent).rstrip()))
        server.stop()

    def show(self) -> bool:
        """Prints the times, which are taken anew from then on. Whether they are short enough."""
        good = True
        for what, most in (("first bytes", FIRST), ("each record", EACH), ("sudo's own, each record", None)):
            times = sorted(self.times.get(what, []))
            if times:
                middle = statistics.median(times)
                spread = f"{times[0]:.0f} to {times[-1]:.0f} ms"
                print(f"follow: {what}: {len(times)} times, {spread}, the middle {middle:.0f} ms")
                good = good and (most is None or middle <= most)
        self.times.clear()
        return good


def main(words: Sequence[str]) -> int:
    """Tries all parts."""
    parser = argparse.ArgumentParser(description=__doc__, formatter_class=argparse.RawDescriptionHelpFormatter)
    parser.add_argument("--server", required=True)
    parser.add_argument("--replay", required=True)
    parser.add_argument("--tries", type=int, default=5)
    given = parser.parse_args(words)
    trial = Trial(os.path.realpath(given.server), os.path.realpath(given.replay), given.tries)
    bad = 0
    for part in (trial.part_whole, trial.part_goes_on, trial.part_resumed, trial.part_live, trial.part_removed,
        trial.part_played, trial.part_sudo):
        try:
            part()
        except (Differs, servers.Failed, TimeoutError) as fault:
            bad = 1
            print(f"follow: {part.__name__[5:]}: {fault}")
    try:
        bad = 1 if bad or not are_short(trial) else 0
    except (Differs, servers.Failed, TimeoutError) as fault:
        bad = 1
        print(f"follow: whole, again: {fault}")
    return bad


def are_short(trial: Trial) -> bool:
    """Whether the times are short enough once, as they were taken or when they are taken again."""
    for again in range(MOST_TIMES):
        if again:
            time.sleep(1)
            trial.part_whole()
        if trial.show():
            return True
        print(f"follow: a middle is above {FIRST:.0f} or {EACH:.0f} ms", flush=True)
    return False


if __name__ == "__main__":
    sys.exit(main(sys.argv[1:]))
