"""Servers that the scripts of this folder start: this repository's, as `serve` or as `once`, and sudo's own beside
it.
"""
from __future__ import annotations

import os
import random
import signal
import socket
import subprocess
import tempfile
import threading
import time
from collections.abc import Callable, Sequence
from typing import Self

import at_root
from oracle import waits
from oracle.connection import PATIENCE, Connection, connect

OURS = """[server]
listen_address = 127.0.0.1:{port}
[iolog]
iolog_dir = {folder}/store
[eventlog]
log_format = json
log_exit = true
[logfile]
path = {folder}/events
"""

# Sudo's own server: the same, without what it else would do on the machine, and without lines of exits: sudo 1.9.13p3
# refuses an exit that has no run time, as sudo_sendlog sends it, if it is to log it
SUDO = """[server]
listen_address = 127.0.0.1:{port}
pid_file =
server_log = {folder}/errors
[iolog]
iolog_dir = {folder}/store
iolog_file = %{{seq}}
[eventlog]
log_type = logfile
log_format = json
[logfile]
path = {folder}/events
"""

# Debian's tools stand where a user's PATH may not lead
BINS = ("/usr/sbin", "/usr/bin", "/sbin", "/bin")


def tool(name: str) -> str | None:
    """The path of a program of the system, or None."""
    return next((os.path.join(folder, name) for folder in BINS if os.access(os.path.join(folder, name), os.X_OK)), None)


# ports are drawn from this one on, and so often
LOWEST, TRIES = 10_000, 1_000
# a name of this process's own for each port that it has drawn, so that no other script draws the port too
DRAWN: list[socket.socket] = []


def highest_port() -> int:
    """The lowest port that the system gives to connections by itself, 0 if it doesn't say so."""
    words = waits.text_of("/proc/sys/net/ipv4/ip_local_port_range").split()
    return int(words[0]) if words else 0


def free_port() -> int:
    """A port of 127.0.0.1 that nobody uses, and that nobody is given before a server listens there or is started again.

    The system gives ports of its own range to connections: to any program's, and to that of a client whose server
    doesn't listen, which is then connected to itself.
    """
    most = highest_port()
    draw = random.SystemRandom()
    for _ in range(TRIES if most > LOWEST + TRIES else 0):
        port = draw.randrange(LOWEST, most)
        name = socket.socket(socket.AF_UNIX)
        try:
            name.bind(f"\0interop, port {port}")
            with socket.socket() as link:
                link.bind(("127.0.0.1", port))
        except OSError:
            name.close()
            continue
        DRAWN.append(name)
        return port
    with socket.socket() as link:
        link.bind(("127.0.0.1", 0))
        return link.getsockname()[1]


class Failed(Exception):
    """A server that didn't start, or ended by itself."""


class Place:
    """A folder with the settings, the store and the event log of a server, and what it said on standard error.

    The store and the event log may stand on another disk.
    """

    def __init__(self, form: str = OURS, parent: str | None = None, disk: str | None = None) -> None:
        """Writes the settings by a form."""
        self.folder = tempfile.mkdtemp(prefix="interop", dir=parent)
        disk = disk or self.folder
        self.store, self.events = os.path.join(disk, "store"), os.path.join(disk, "events")
        self.errors = os.path.join(self.folder, "errors")
        self.conf = os.path.join(self.folder, "conf")
        self.port = free_port()
        with open(self.conf, "w", encoding="utf-8") as file:
            file.write(form.format(port=self.port, folder=disk))

    def said(self) -> str:
        """What the server said on standard error."""
        if not os.path.exists(self.errors):
            return ""
        with open(self.errors, encoding="utf-8", errors="replace") as file:
            return file.read()


def known_of(place: Place, process: subprocess.Popen[bytes] | None) -> str:
    """What a server said last, and what its threads do if it runs."""
    runs = process is not None and process.poll() is None
    return f"it said {place.said()[-500:]!r}" + (f"; {waits.standing(process.pid)}" if runs else "")


class Serve:
    """`serve`: a process that has a port."""

    words = ("serve", "-f")
    name = "serve"

    def __init__(self, program: str, place: Place, further: Sequence[str] = ()) -> None:
        """`further` are words behind the settings."""
        self.program, self.place, self.further = program, place, further
        self.port = place.port
        self.process: subprocess.Popen[bytes] | None = None
        # what the process does before it becomes the server; whether it is asked by a connection if it listens
        self.before: Callable[[], object] | None = None
        self.probe = False

    def spawn(self) -> int:
        """Starts it, and doesn't wait. Gives how much was said before."""
        offset = len(self.place.said())
        with open(self.place.errors, "ab") as errors:
            words = [self.program, *self.words, self.place.conf, *self.further]
            self.process = subprocess.Popen(words, stdin=subprocess.DEVNULL, stdout=subprocess.DEVNULL, stderr=errors,
                preexec_fn=self.before)
        return offset

    def start(self, seconds: float = PATIENCE) -> Self:
        """Starts it, and waits until it listens."""
        offset = self.spawn()
        end = time.monotonic() + seconds
        while not self.listens(offset):
            status = self.process.poll()
            if status is not None or time.monotonic() > end:
                how = f"it ended with {status}" if status is not None else f"it doesn't listen after {seconds:.0f} s"
                raise Failed(f"{self.program} {' '.join(self.words)}: {how}; {self.seen()}")
            time.sleep(0.002)
        return self

    def seen(self) -> str:
        """What is known of it, for the words of a failure."""
        return known_of(self.place, self.process)

    def listens(self, offset: int) -> bool:
        """The server says its address in a line, once it listens. The whole line is there."""
        if not self.probe:
            lines = self.place.said()[offset:].splitlines(keepends=True)
            return any(f":{self.port}" in line and "listening" in line and line.endswith("\n") for line in lines)
        try:
            socket.create_connection(("127.0.0.1", self.port), timeout=PATIENCE).close()
            return True
        except OSError:
            return False

    def connect(self, timeout: float = PATIENCE) -> Connection:
        """A connection to it."""
        return connect(self.port, timeout)

    def kill(self) -> None:
        """Ends it at once, where it was started."""
        if self.process is None:
            return
        if self.process.poll() is not None:
            how = f"status {self.process.returncode}: {self.place.said()[-500:]}"
            raise Failed(f"{self.program} has ended by itself: {how}")
        self.process.send_signal(signal.SIGKILL)
        self.process.wait()

    def stop(self) -> float:
        """Ends it, and gives the processor seconds that it took."""
        self.process.terminate()
        _, _, usage = os.wait4(self.process.pid, 0)
        self.process.returncode = 0
        return usage.ru_utime + usage.ru_stime

    def has_ended(self) -> bool:
        """Whether it ended by itself."""
        return self.process.poll() is not None

    def is_alone(self) -> bool:
        """Whether it serves one connection at a time."""
        return False


class Sudo(Serve):
    """sudo's own server, which says nothing when it listens."""

    words = ("-n", "-f")
    name = "sudo"

    def __init__(self, program: str, place: Place, further: Sequence[str] = ()) -> None:
        """It is asked by a connection if it listens."""
        super().__init__(program, place, further)
        self.probe = True


class Once:
    """`once`: a process for each connection, one at a time, with a pair of sockets."""

    name = "once"

    def __init__(self, program: str, place: Place, further: Sequence[str] = ()) -> None:
        """`further` are words behind the settings."""
        self.program, self.place, self.further = program, place, further
        self.process: subprocess.Popen[bytes] | None = None
        self.up, self.lock = False, threading.Lock()
        self.before: Callable[[], object] | None = None
        self.probe = False

    def start(self) -> Self:
        """From now on connections are served."""
        self.up = True
        return self

    def spawn(self, link: socket.socket) -> subprocess.Popen[bytes]:
        """The process that serves this end of a connection."""
        with open(self.place.errors, "ab") as errors:
            words = [self.program, "once", "-f", self.place.conf, *self.further]
            return subprocess.Popen(words, stdin=link.fileno(), stdout=link.fileno(), stderr=errors,
                preexec_fn=self.before)

    def connect(self, timeout: float = PATIENCE) -> Connection:
        """A connection, after the end of the process of the one before."""
        self.end()
        ours, theirs = socket.socketpair()
        with self.lock, theirs:
            if not self.up:
                ours.close()
                raise ConnectionRefusedError("no server runs")
            self.process = self.spawn(theirs)
        return Connection(ours, timeout)

    def end(self) -> None:
        """Waits for the process of the connection before, which ends once that one is closed."""
        try:
            status = self.process.wait(PATIENCE) if self.process else 0
        except subprocess.TimeoutExpired as fault:
            raise Failed(f"{self.program} once: it doesn't end after {PATIENCE:.0f} s; {self.seen()}") from fault
        if status not in (0, -signal.SIGKILL, 5, 6):
            raise Failed(f"{self.program} once: status {status}: {self.place.said()[-500:]}")

    def seen(self) -> str:
        """What is known of it, for the words of a failure."""
        return known_of(self.place, self.process)

    def kill(self) -> None:
        """Ends the process at once."""
        with self.lock:
            self.up = False
            if self.process:
                self.process.send_signal(signal.SIGKILL)
                self.process.wait()

    def stop(self) -> float:
        """Waits for the last process."""
        self.end()
        return 0

    def has_ended(self) -> bool:
        """There is no server that could have ended."""
        return False

    def is_alone(self) -> bool:
        """One connection is served at a time."""
        return True


class Listener(Once):
    """`once` behind a port: each connection has a process, and the next one waits until it ended."""

    name = "once behind a port"

    def start(self) -> Self:
        """Listens on the port."""
        self.listener = socket.create_server(("127.0.0.1", self.place.port), backlog=64)
        self.port = self.place.port
        self.statuses: list[int] = []
        threading.Thread(target=self.run, daemon=True).start()
        return self

    def run(self) -> None:
        """Serves connections until the port is closed."""
        while True:
            try:
                link, _ = self.listener.accept()
            except OSError:
                return
            with link:
                process = self.spawn(link)
            self.statuses.append(process.wait())

    def stop(self) -> float:
        """Closes the port. No process may have ended with an unknown status."""
        self.listener.close()
        wrong = [status for status in self.statuses if status not in (0, 5, 6)]
        if wrong:
            raise Failed(f"{self.program} once: statuses {wrong}: {self.place.said()[-500:]}")
        return 0
