"""What is tried of the process itself: its first line, its descriptors, its limits, a second one on the same store."""
from __future__ import annotations

import os
import re
import resource
import shutil
import stat
import subprocess
from collections.abc import Callable

import client
import servers
import store
from oracle.connection import PATIENCE
from protocol_parts import ACCEPT, INFO, whole
from trial import SECOND, Differs, Trial, only, same

LIMIT = 300_000
Before = Callable[[], object] | None


class Fresh:
    """A server of its own, started otherwise than the one that all parts share."""

    def __init__(self, trial: Trial, before: Before = None, probe: bool = False, settings: str = "") -> None:
        """`before` is done in the process before it becomes the server."""
        self.place = servers.Place()
        if settings:
            with open(self.place.conf, "a", encoding="utf-8") as file:
                file.write(settings)
        self.server = (servers.Serve if trial.kind == "serve" else servers.Once)(trial.program, self.place)
        self.server.before, self.server.probe = before, probe

    def __enter__(self) -> Fresh:
        """Starts it."""
        self.server.start()
        return self

    def __exit__(self, kind: object, *_: object) -> None:
        """Ends it, and nothing stays."""
        if kind:
            print(f"a server of its own, where what follows was found: {self.server.seen()}", flush=True)
        self.server.kill()
        shutil.rmtree(self.place.folder)

    def session(self) -> str:
        """A whole session is served and stored."""
        records = [(5, "ttyout", b"abc"), (6, "ttyin", b"def")]
        digits = whole(self.server.connect(), SECOND, INFO, records)
        same("records", store.read_log(self.place.store, digits).records, records)
        return digits

    def last_line(self) -> str:
        """The last line that has its port."""
        return [line for line in self.place.said().splitlines() if f":{self.place.port}" in line][-1]


@only("serve")
def part_first_line(trial: Trial) -> None:
    """One line tells the address, the store and its last number, at each start."""
    with Fresh(trial) as fresh:
        for wanted in ("0|000000", "1|000001", "2|000002"):
            line = fresh.last_line()
            if fresh.place.store not in line or not re.search(rf"\b({wanted})\b", line.replace(fresh.place.store, "")):
                raise Differs(f"the first line {line!r} lacks the store or the last number {wanted}")
            fresh.session()
            fresh.server.kill()
            fresh.server.start()


@only("serve")
def part_closed_descriptors(trial: Trial) -> None:
    """Without standard input, output and error: no file of the store takes their numbers."""
    with Fresh(trial, before=lambda: [os.close(it) for it in (0, 1, 2)], probe=True) as fresh:
        fresh.session()
        for number in (0, 1, 2):
            same(f"descriptor {number}", os.readlink(f"/proc/{fresh.server.process.pid}/fd/{number}"), "/dev/null")
        fresh.session()


@only("once")
def part_closed_standard_error(trial: Trial) -> None:
    """Without standard error."""
    with Fresh(trial, before=lambda: os.close(2)) as fresh:
        fresh.session()


def broken_pipe() -> None:
    """Standard error is a pipe that nobody reads."""
    near, far = os.pipe()
    os.dup2(far, 2)
    os.close(near)
    os.close(far)


@only("serve", "once")
def part_broken_standard_error(trial: Trial) -> None:
    """What is sent goes into a pipe that nobody reads, and SIGPIPE ends nothing."""
    with Fresh(trial, before=broken_pipe, probe=True, settings="[server]\ntimeout = 5\n") as fresh:
        fresh.session()
        fresh.session()


def modes(place: servers.Place) -> tuple[set[int], ...]:
    """The modes of the folders of a store, and of its files."""
    tree = list(os.walk(place.store))
    folders = [folder for folder, _, _ in tree]
    files = [os.path.join(folder, name) for folder, _, names in tree for name in names] + [place.events,
        place.events + ".slots"]
    return tuple({stat.S_IMODE(os.stat(path).st_mode) for path in paths} for paths in (folders, files))


@only("serve", "once")
def part_modes(trial: Trial) -> None:
    """Whatever the umask: the folders of the store have mode 0700, its files 0600, and a second server can use them."""
    for mask in (0, 0o22, 0o777):
        with Fresh(trial, before=lambda mask=mask: os.umask(mask)) as fresh:
            fresh.session()
            same(f"modes at umask {mask:o}", modes(fresh.place), ({0o700}, {0o600}))
            fresh.server.kill()
            fresh.server.start()
            fresh.session()
            same(f"modes behind a second start at umask {mask:o}", modes(fresh.place), ({0o700}, {0o600}))


def small_files() -> None:
    """Files have at most so many bytes."""
    resource.setrlimit(resource.RLIMIT_FSIZE, (LIMIT, LIMIT))


@only("serve", "once")
def part_limit_of_files(trial: Trial) -> None:
    """A log that would pass the limit of the size of files is refused, and SIGXFSZ ends nothing."""
    with Fresh(trial, before=small_files) as fresh:
        link = fresh.server.connect()
        link.send(client.hello(), ACCEPT)
        heard = [link.read(), link.read()]
        while heard[-1][0] != "error" and len(heard) < 100:
            link.send(client.record((SECOND, "ttyout", b"x" * 10_000)))
            heard.append(link.read())
        link.close()
        same("last answer", heard[-1], ("error", "device fault"))
        points = [point for name, point in heard if name == "commit_point"]
        fresh.session()
        log = store.read_log(fresh.place.store, heard[1][1])
        if points and log.body.elapsed < points[-1]:
            raise Differs(f"{log.body.elapsed} ns are stored, and {points[-1]} were committed")


@only("serve")
def part_faults_of_many(trial: Trial) -> None:
    """Several logs pass the limit at once, with many records after it: each is reported by one line.

    The line has the program, its file, the call and the system's error.
    """
    with Fresh(trial, before=small_files) as fresh:
        links, logs = [fresh.server.connect() for _ in range(6)], []
        for link in links:
            link.send(client.hello(), ACCEPT)
            logs.append([link.read(), link.read()][1][1])
        ended = set()
        while len(ended) < len(links):
            for at in set(range(len(links))) - ended:
                try:
                    links[at].send(*[client.record((SECOND, "ttyout", b"x" * 1_000))] * 50)
                    links[at].waiting()
                except client.Closed:
                    ended.add(at)
        fresh.session()
        lines = fresh.place.said().splitlines()
        for log in logs:
            folder = store.folder_of(fresh.place.store, log) + "/"
            sent = [line for line in lines if folder in line]
            form = re.compile(re.escape(f"sudo_logsrvd: {folder}") + r"ttyout: write: [a-z ]+")
            same(f"lines of the log {log}", [bool(form.fullmatch(line)) for line in sent], [True])


def smaller_files() -> None:
    """Files have at most 20,000 bytes."""
    resource.setrlimit(resource.RLIMIT_FSIZE, (20_000, 20_000))


@only("serve")
def part_faults_of_the_event_log(trial: Trial) -> None:
    """If the event log is full, each connection whose event it doesn't take is reported by a line."""
    accept = client.accept(SECOND, {**INFO, "further": "x" * 6_000})
    with Fresh(trial, before=smaller_files) as fresh:
        refused = 0
        for _ in range(7):
            link = fresh.server.connect()
            link.send(client.hello(), accept)
            link.read(), link.read()
            link.send(client.exited(SECOND))
            refused += link.rest()[-1:] == [("error", "device fault")]
            link.close()
        lines = [line for line in fresh.place.said().splitlines() if f"{fresh.place.events}:" in line]
        same("connections that were refused, and lines of the event log", (refused, len(lines)), (4, 4))


def little_memory() -> None:
    """The process has 28 MiB of addresses."""
    resource.setrlimit(resource.RLIMIT_AS, (28 << 20, 28 << 20))


@only("serve")
def part_want_of_memory(trial: Trial) -> None:
    """A message that takes more memory than there is: its client gets an error and is shut, and nobody else."""
    with Fresh(trial, before=little_memory) as fresh:
        beside = fresh.server.connect()
        beside.send(client.hello(), ACCEPT)
        heard = [beside.read(), beside.read()]
        hostile = fresh.server.connect()
        hostile.send(client.hostile())
        same("answers", [hostile.read()[0], hostile.read()], ["hello", ("error", "out of memory")])
        hostile.close()
        fresh.session()
        record = (SECOND, "ttyout", b"abc")
        beside.send(client.record(record), client.exited(SECOND))
        heard += [beside.read()]
        same("answers of the other", [name for name, _ in heard], ["hello", "log_id", "commit_point"])
        same("its records", store.read_log(fresh.place.store, heard[1][1]).records, [record])
        beside.close()


@only("serve")
def part_second_server(trial: Trial) -> None:
    """Another server on the same store ends with status 4, and the first goes on."""
    with Fresh(trial) as fresh:
        text = servers.OURS.format(port=servers.free_port(), folder=fresh.place.folder)
        path = os.path.join(fresh.place.folder, "second")
        with open(path, "w", encoding="utf-8") as file:
            file.write(text)
        child = subprocess.run([trial.program, "serve", "-f", path], stdin=subprocess.DEVNULL, capture_output=True,
            timeout=PATIENCE, check=False)
        same(f"status, {child.stderr}", child.returncode, 4)
        fresh.session()


@only("serve")
def part_stop_after(trial: Trial) -> None:
    """With --stop-after 3 the server ends with 0 once three connections came and went."""
    place = servers.Place()
    server = servers.Serve(trial.program, place, ["--stop-after", "3"]).start()
    for _ in range(3):
        whole(server.connect(), SECOND, INFO, [(5, "ttyout", b"abc")])
    same("status", server.process.wait(PATIENCE), 0)
    same("logs", store.folders(place.store), ["000001", "000002", "000003"])
    shutil.rmtree(place.folder)
