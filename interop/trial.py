"""A server that is tried: what its clients sent is compared with what its store has."""
from __future__ import annotations

import json
import os
import pty
import re
import select
import shutil
import subprocess
import tempfile
import time
from collections.abc import Callable, Sequence
from typing import Any

import at_root
import client
import peer
import servers
import store
import tap
from oracle import lines
from oracle.connection import PATIENCE, Connection
from oracle.messages import Info
from oracle.records import SECOND, Record, cut_at, elapsed, ends
KEYS = ("command", "runargv", "runuser", "submituser", "submithost", "submitcwd")


Part = Callable[["Trial"], None]
Run = tuple[int, bytes, bytes]


class Differs(Exception):
    """Something isn't as it was sent."""


def only(*kinds: str) -> Callable[[Part], Part]:
    """A part for these kinds of servers alone."""

    def mark(part: Part) -> Part:
        """Marks a part."""
        setattr(part, "kinds", kinds)
        return part

    return mark


def same(what: str, is_: Any, wanted: Any) -> None:
    """Both must be equal."""
    if is_ != wanted:
        raise Differs(f"{what}: {shortened(is_)} for {shortened(wanted)}")


def in_order(lines: Any) -> str:
    """By which the lines of connections are compared in any order of the connections."""
    return json.dumps(lines, sort_keys=True)


def shortened(value: Any) -> str:
    """A value as it is shown: a long one by its ends."""
    text = repr(value)
    return text if len(text) < 400 else f"{text[:200]} .. {text[-150:]} ({len(text)} characters)"


class Ours:
    """The store of this repository's server, compared with what was sent."""

    def __init__(self, place: servers.Place, lanes: int = 1) -> None:
        """No event line was seen in the event log of any lane."""
        self.place, self.seen = place, [0] * lanes

    def compare(self, sessions: Sequence[tap.Sent], before: Sequence[Record] | None = None) -> None:
        """The logs and the event lines of these connections. `before` are the records that a restarted log had."""
        same("errors", [sent.errors for sent in sessions], [[] for _ in sessions])
        same("numbers given twice", len({sent.digits() for sent in sessions if sent.log_ids}),
            sum(1 for t in sessions if t.log_ids))
        for sent in sessions:
            self.log(sent, before)
        self.lines(sessions)

    def log(self, sent: tap.Sent, before: Sequence[Record] | None) -> None:
        """The log of a connection is as it was sent."""
        if sent.digits() is None:
            return
        log = store.read_log(self.place.store, sent.digits())
        if log is None:
            raise Differs(f"the log {sent.digits()} isn't there")
        if sent.accept:
            same("information", log.info, sent.accept["info"])
            same("submit time", log.submit, divmod(sent.accept["time"], SECOND))
        kept = cut_at(before, sent.restart[1]) if sent.restart else []
        records = kept + sent.records
        same("records", log.records, records)
        same("exit", log.exit, lines.exit_of(sent.exit) if sent.exit else None)
        same("complete", log.is_complete(), sent.exit is not None)
        allowed = {0, *ends(records)}
        if [point for point in sent.points if point not in allowed] or sent.points != sorted(sent.points):
            raise Differs(f"commit points {sent.points}, which are no ends of records in order")
        same("last commit point", sent.points[-1:], [elapsed(records)] if records or sent.exit else [])

    def cut_off(self, sent: tap.Sent) -> list[Record]:
        """The records of a log whose connection was cut off: a prefix of those sent, through the last commit point."""
        log = store.read_log(self.place.store, sent.digits())
        same("records", log.records, sent.records[:len(log.records)])
        if sent.points and log.body.elapsed < sent.points[-1]:
            raise Differs(f"{log.body.elapsed} ns are stored, and {sent.points[-1:]} were committed")
        return log.records

    def forget(self) -> None:
        """What the event logs have by now is passed over."""
        self.new_lines()

    def new_lines(self) -> list[dict[str, Any]]:
        """The lines of each lane's event log that weren't seen, lane by lane."""
        new = []
        for lane, seen in enumerate(self.seen):
            found = store.lines(self.place.events + (f".{lane}" if lane else "")) or []
            self.seen[lane] = len(found)
            new += [json.loads(line) for line in found[seen:]]
        return new

    def lines(self, sessions: Sequence[tap.Sent]) -> None:
        """The new event lines are those of these connections, each connection's in order."""
        new = self.new_lines()
        wanted = [[lines.event_members(name, what, sent.digits()) for name, what in sent.events] for sent in sessions]
        same("event lines", len(new), sum(map(len, wanted)))
        by_peer = {}
        for line in new:
            (members,) = line.values()
            moment = members.pop("server_time")
            if abs(moment["seconds"] - time.time()) > 600:
                raise Differs(f"the moment {moment}")
            by_peer.setdefault(members.pop("peer"), []).append(line)
        # `once` calls each of its connections the same
        found = list(by_peer.values()) if len(by_peer) > 1 or len(sessions) == 1 else [new]
        wanted = wanted if len(found) == len(sessions) else [sum(wanted, [])]
        same("event lines", sorted(found, key=in_order), sorted(wanted, key=in_order))


class Theirs:
    """The store of sudo's own server, as far as it says what was sent: so the script is tried.

    Its identifiers are paths.
    """

    def __init__(self, place: servers.Place) -> None:
        """No event line was seen."""
        self.place, self.seen = place, 0

    def compare(self, sessions: Sequence[tap.Sent], before: Sequence[Record] | None = None) -> None:
        """The logs and the event lines of these connections."""
        same("errors", [sent.errors for sent in sessions], [[] for _ in sessions])
        for sent in sessions:
            if sent.digits():
                self.log(sent, before)
        self.lines(sessions)

    def log(self, sent: tap.Sent, before: Sequence[Record] | None) -> None:
        """The log of a connection is as it was sent."""
        info, records, whole = peer.read_session(sent.digits())
        if sent.accept:
            same("information", {key: info.get(key) for key in KEYS},
                {key: sent.accept["info"].get(key) for key in KEYS})
        kept = cut_at(before, sent.restart[1]) if sent.restart else []
        same("records", records, kept + sent.records)
        same("complete", whole, sent.exit is not None)

    def cut_off(self, sent: tap.Sent) -> list[Record]:
        """The records of a log whose connection was cut off."""
        _, records, _ = peer.read_session(sent.digits())
        same("records", records, sent.records[:len(records)])
        return records

    def forget(self) -> None:
        """What the event log has by now is passed over."""
        self.seen = len(store.contents(self.place.events).decode("utf-8", "replace"))

    def lines(self, sessions: Sequence[tap.Sent]) -> None:
        """The new event lines are those of these connections."""
        text = store.contents(self.place.events).decode("utf-8", "replace")
        names = re.findall(r'"(accept|reject|alert)": {', text[self.seen:])
        self.seen = len(text)
        same("event lines", sorted(names),
            sorted(name for sent in sessions for name, _ in sent.events if name != "exit"))


class Trial:
    """A server, the port before it, and the comparison."""

    def __init__(self, program: str, kind: str, lanes: int = 1) -> None:
        """Starts the server of a kind. `serve` may have several lanes."""
        self.kind, self.program, self.lanes = kind, program, lanes
        self.place = servers.Place(servers.SUDO if kind == "sudo" else servers.OURS)
        further = ["--lanes", str(lanes)] if lanes > 1 else []
        self.server = {"serve": servers.Serve, "once": servers.Listener, "sudo": servers.Sudo}[kind](program,
            self.place, further).start()
        self.tap = tap.Tap(self.server.port)
        self.store = Theirs(self.place) if kind == "sudo" else Ours(self.place, lanes)
        self.work = tempfile.mkdtemp(prefix="interop")
        self.sudo = Namespace(self.work, self.tap.port)

    def session(self, name: str, records: Sequence[Record], info: Info) -> str:
        """The folder of a session in sudo's own form."""
        folder = os.path.join(self.work, name)
        return folder if os.path.exists(folder) else peer.write_session(folder, 1_700_000_000 * SECOND + 5, info,
            records)

    def sendlog(self, *words: str, status: int = 0) -> str:
        """What sudo_sendlog says, which must end with this status."""
        child = subprocess.run([servers.tool("sudo_sendlog"), "-h", "127.0.0.1", "-p", str(self.tap.port), *words],
            capture_output=True, text=True, timeout=PATIENCE, check=False)
        same(f"status of sudo_sendlog {words}: {child.stdout} {child.stderr}", child.returncode, status)
        return child.stdout

    def sent(self, count: int) -> list[tap.Sent]:
        """What the clients of so many connections sent, once all have ended."""
        return [tap.Sent(pair) for pair in self.tap.settled(count)]

    def connect(self, timeout: float = PATIENCE) -> Connection:
        """A connection of our own client."""
        return client.connect(self.tap.port, timeout)

    def direct(self, timeout: float = PATIENCE) -> Connection:
        """A connection that isn't kept."""
        return client.connect(self.server.port, timeout)

    def clear(self) -> None:
        """Forgets what a part that differs has left."""
        self.tap.cut, self.tap.pairs = None, []
        self.store.forget()

    def end(self) -> None:
        """Ends the server, and nothing stays."""
        self.tap.close()
        self.server.stop()
        shutil.rmtree(self.work)
        shutil.rmtree(self.place.folder)


class Namespace:
    """sudo, with a sudoers of this script alone, in a mount namespace of its own."""

    def __init__(self, work: str, port: int) -> None:
        """`work` is the folder of the sudoers, `port` that of the server."""
        self.work, self.port = work, port
        os.chmod(work, 0o755)

    @staticmethod
    def is_possible() -> bool:
        """Whether this user may make such a namespace, and bind a file in it."""
        words = ["unshare", "-m", "--propagation", "private", "mount", "--bind", "/etc/sudoers", "/etc/sudoers"]
        return os.geteuid() == 0 and subprocess.run(words, capture_output=True, check=False).returncode == 0

    def run(
        self, *words: str, user: str = "root", defaults: Sequence[str] = (), terminal: bool = False,
        given: bytes = b"", server: bool = True,
    ) -> Run:
        """The status and the output of `sudo WORDS` by a user."""
        settings = ["Defaults !fqdn, log_input, log_output, !use_pty, !authenticate, !lecture, !mailerpath"]
        settings += ["Defaults log_exit_status"]
        settings += [f"Defaults log_servers = 127.0.0.1:{self.port}",
            "Defaults !syslog"] if server else ["Defaults !syslog"]
        settings += [f"Defaults {it}" for it in defaults]
        settings += ["root ALL = (ALL:ALL) ALL", "nobody ALL = (root) /usr/bin/id",
            "daemon ALL = (root) /bin/sh, /bin/echo"]
        path = os.path.join(self.work, "sudoers")
        if os.path.exists(path):
            os.remove(path)
        with open(path, "w", encoding="utf-8") as file:
            file.write("\n".join(settings) + "\n")
        os.chmod(path, 0o440)
        inner = f'mount --bind "{path}" /etc/sudoers && exec "$@"'
        as_user = [] if user == "root" else ["setpriv", "--reuid", user, "--clear-groups"]
        command = ["unshare", "-m", "--propagation", "private", "sh", "-c", inner, "sh", *as_user, servers.tool("sudo"),
            "-n", *words]
        return self.with_terminal(command, given) if terminal else self.without(command, given)

    def without(self, command: Sequence[str], given: bytes) -> Run:
        """Runs it without a terminal."""
        child = subprocess.run(command, input=given, capture_output=True, timeout=PATIENCE, check=False, cwd="/",
            start_new_session=True)
        return child.returncode, child.stdout, child.stderr

    def with_terminal(self, command: Sequence[str], given: bytes) -> Run:
        """Runs it on a terminal of its own, types what is given, and gives all that the terminal showed."""
        pid, terminal = pty.fork()
        if pid == 0:
            os.chdir("/")
            os.execvp(command[0], command)
        shown, end = b"", time.monotonic() + PATIENCE
        while time.monotonic() < end:
            if select.select([terminal], [], [], 0.05)[0]:
                try:
                    piece = os.read(terminal, 65536)
                except OSError:
                    break
                if not piece:
                    break
                shown += piece
                if given and b"ready" in shown:
                    os.write(terminal, given)
                    given = b""
        _, status = os.waitpid(pid, 0)
        os.close(terminal)
        return os.waitstatus_to_exitcode(status), shown, b""
