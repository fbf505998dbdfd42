#!/usr/bin/env python3
"""Tries the two layouts of 'Many hosts' in docs/OPERATIONS.md, with all servers on this machine.

usage: hosts.py --server PROGRAM --replay SUDOREPLAY [--hosts N] [--only WORD]

Either each host has a server on its loopback, which relays to a central one, or the hosts are divided among several
central servers. It is no part of the gate. It ends with 1 if something differs.
"""
from __future__ import annotations

import argparse
import dataclasses
import os
import re
import shutil
import socket
import subprocess
import sys
import traceback
from collections.abc import Callable
from typing import Self

import at_root
import client
import servers
import store
from oracle.connection import PATIENCE, Connection
from oracle.records import SECOND
from trial import Differs, same

FORM = servers.OURS + """[relay]
relay_host = 127.0.0.1:{upstream}
store_first = true
"""
PENDING = 8
SESSIONS = 3
MOST_IDLE = 20_000


@dataclasses.dataclass
class Programs:
    """What is tried, and with how many hosts."""

    server: str
    replay: str
    hosts: int


class Site:
    """A server with a place of its own; with `upstream`, one that relays to this port."""

    def __init__(self, on: Programs, upstream: int | None = None) -> None:
        """It runs."""
        self.on = on
        form = servers.OURS if upstream is None else FORM.replace("{upstream}", str(upstream))
        self.place = servers.Place(form)
        self.server = servers.Serve(on.server, self.place).start()

    def __enter__(self) -> Self:
        """It runs already."""
        return self

    def __exit__(self, *_: object) -> None:
        """Ends it, and removes its folder."""
        if self.server.process and self.server.process.poll() is None:
            self.server.process.kill()
            self.server.process.wait()
        shutil.rmtree(self.place.folder, ignore_errors=True)

    def relaying(self) -> subprocess.Popen[bytes]:
        """A run of `relay`, as the timer starts it."""
        words = [self.on.server, "relay", "-f", self.place.conf]
        return subprocess.Popen(words, stdin=subprocess.DEVNULL, stdout=subprocess.DEVNULL, stderr=subprocess.PIPE)

    def relay(self) -> tuple[int, str]:
        """Runs `relay`: its status, and what it said."""
        run = self.relaying()
        said = run.communicate(timeout=PATIENCE)[1]
        return run.returncode, said.decode(errors="replace")

    def listed(self, *search: str) -> list[str]:
        """The hosts of the sessions that a search finds, one for each session."""
        words = [self.on.replay, "-d", self.place.store, "-l", *search]
        done = subprocess.run(words, capture_output=True, text=True, check=True, timeout=PATIENCE)
        return sorted(re.findall(r"HOST=(\w+)", done.stdout))

    def lines(self) -> int:
        """How many event lines it has."""
        return len(store.lines(self.place.events) or [])


def info_of(host: str) -> dict[str, object]:
    """What sudo says of a command on a host."""
    return {"command": "/usr/bin/id", "runargv": ["id", "-u"], "runuser": "root", "runuid": 0, "submituser": "ann",
        "submithost": host, "submitcwd": "/home/ann", "ttyname": "/dev/pts/0", "lines": 24, "columns": 80}


def run_session(link: Connection, host: str) -> None:
    """A whole session of a host."""
    shown = client.record((5, "ttyout", host.encode()))
    link.send(client.hello(), client.accept(SECOND, info_of(host)), shown, client.exited(SECOND))
    names = [name for name, _ in link.rest()]
    link.close()
    if names[:2] != ["hello", "log_id"] or "commit_point" not in names:
        raise Differs(f"{names} came for a session of {host}")


def run_refused(link: Connection, host: str) -> None:
    """A command that sudo refused on a host."""
    link.send(client.hello(), client.refusal("reject", SECOND, "command not allowed", info_of(host)))
    link.rest()
    link.close()


def part_relayed(on: Programs) -> None:
    """Each host's server relays to a central one, all at once. Refused commands stay on their hosts."""
    names = [f"web{number}" for number in range(on.hosts)]
    with Site(on) as central:
        sites = [Site(on, central.place.port) for _ in names]
        try:
            for site, name in zip(sites, names):
                for _ in range(SESSIONS):
                    run_session(site.server.connect(), name)
                run_refused(site.server.connect(), name)
            runs = [site.relaying() for site in sites]
            said = [run.communicate(timeout=PATIENCE)[1].decode(errors="replace") for run in runs]
            same(f"statuses, with {said}", [run.returncode for run in runs], [0] * len(runs))
            same("the central sessions", central.listed(), sorted(names * SESSIONS))
            same("those of one host", central.listed("host", names[1]), [names[1]] * SESSIONS)
            same("event lines of a host", [site.lines() for site in sites], [2 * SESSIONS + 1] * len(sites))
            same("central event lines", central.lines(), 2 * SESSIONS * len(sites))
            same("the next runs", [site.relay()[0] for site in sites], [0] * len(sites))
            same("the central sessions after them", central.listed(), sorted(names * SESSIONS))
        finally:
            for site in sites:
                site.__exit__()


def fill(port: int) -> list[socket.socket]:
    """Takes all places of a server by clients that say nothing."""
    links: list[socket.socket] = []
    while len(links) < MOST_IDLE:
        try:
            link = socket.create_connection(("127.0.0.1", port), timeout=2)
            link.settimeout(2)
            links.append(link)
            if link.recv(1) == b"":
                return links
        except OSError:
            return links
    raise Differs(f"{MOST_IDLE} clients were taken")


def part_full(on: Programs) -> None:
    """While the central server is full, the logs wait on their host. The first run after that sends them."""
    with Site(on) as central, Site(on, central.place.port) as site:
        run_session(site.server.connect(), "web")
        links = fill(central.place.port)
        status, said = site.relay()
        same(f"the status, with {said}", status, PENDING)
        run_session(site.server.connect(), "web")
        for link in links:
            link.close()
        same("the next run", site.relay()[0], 0)
        same("the central sessions", central.listed(), ["web"] * 2)


def part_divided(on: Programs) -> None:
    """Hosts are divided among three servers. If one is down, the others serve, and its hosts may use another."""
    names = [f"web{number}" for number in range(on.hosts)]
    with Site(on) as first, Site(on) as second, Site(on) as third:
        sites = [first, second, third]
        for number, name in enumerate(names):
            for _ in range(SESSIONS):
                run_session(sites[number % 3].server.connect(), name)
        for number, site in enumerate(sites):
            same(f"sessions of server {number}", site.listed(), sorted(names[number::3] * SESSIONS))
        second.server.kill()
        run_session(third.server.connect(), names[1])
        found = [host for site in sites for host in site.listed("host", names[1])]
        same("a host's sessions in all stores", found, [names[1]] * (SESSIONS + 1))


def main() -> int:
    """Tries all parts."""
    words = argparse.ArgumentParser(description=__doc__, formatter_class=argparse.RawDescriptionHelpFormatter)
    words.add_argument("--server", required=True, type=os.path.realpath)
    words.add_argument("--replay", required=True, type=os.path.realpath)
    words.add_argument("--hosts", type=int, default=12)
    words.add_argument("--only", default="")
    args = words.parse_args()
    on = Programs(args.server, args.replay, args.hosts)
    parts: list[Callable[[Programs], None]] = [part_relayed, part_full, part_divided]
    asked = [part for part in parts if args.only in part.__name__]
    differ = 0
    for part in asked:
        try:
            part(on)
        except (Differs, client.Closed, servers.Failed, store.Damaged, TimeoutError) as fault:
            differ += 1
            print(f"{part.__name__[5:]}: {fault}", flush=True)
        except Exception:  # pylint: disable=broad-except
            differ += 1
            print(f"{part.__name__[5:]}: {traceback.format_exc()}", flush=True)
    print(f"hosts.py: {len(asked)} tried, {differ} differ")
    return 1 if differ else 0


if __name__ == "__main__":
    sys.exit(main())
