#!/usr/bin/env python3
"""Tries many clients at once: as many as there are places for, one more, idle ones beside new ones, and a
reader of standard error that has stopped.

usage: many.py --server PROGRAM [--only WORD]

PROGRAM is sudo_logsrvd. It ends with 1 where something differs.
"""
from __future__ import annotations

import argparse
import fcntl
import os
import resource
import select
import socket
import subprocess
import sys
import time
import traceback

import client
import servers
from guards import ACCEPT, Guarded, limit_of, session
from oracle.connection import PATIENCE
from oracle.waits import until
from trial import SECOND, Differs, same

# the places of four workers
PLACES = 512
# the system may let so many clients connect beside the last place, whose handshakes end at the same time
MOST_BESIDE = 4
# the longest wait of a client beside idle ones, in seconds: what a slow machine takes, and not what it should take
LONGEST = 60.0
# what a client meets where nobody listens, or where the listening ends while it connects
REFUSALS = (ConnectionRefusedError, ConnectionResetError)


def connected(port: int, count: int) -> tuple[list[client.Connection], int]:
    """Connects this many clients at once. Gives those that are connected, and how many were refused."""
    links, refused = [], 0
    for _ in range(count):
        try:
            links.append(client.connect(port))
        except REFUSALS:
            refused += 1
    return links, refused


def greeted(links: list[client.Connection]) -> None:
    """Each of these clients gets a hello."""
    for link in links:
        same("the answer", link.read()[0], "hello")


def served(links: list[client.Connection]) -> list[client.Connection]:
    """Those that get a hello. The system resets after some seconds what it let connect beside the last place."""
    kept = []
    for link in links:
        try:
            same("the answer", link.read()[0], "hello")
            kept.append(link)
        except client.Closed as fault:
            same(f"a connection that ended: {fault}", isinstance(fault.__cause__, ConnectionResetError), True)
            link.close()
    return kept


def is_refused(port: int) -> bool:
    """Whether the system refuses a connection, or ends it before the server has taken it."""
    try:
        client.connect(port).close()
    except REFUSALS:
        return True
    return False


def has_session(on: Guarded) -> bool:
    """Stores a session, if the server takes its connection, as its hello shows."""
    try:
        link = on.server.connect()
        link.pull(PATIENCE)
    except (*REFUSALS, client.Closed):
        return False
    session(link)
    return True


def part_more_clients_than_places(program: str) -> None:
    """600 clients connect at once: 512 are served, and the others refused, so that each goes to its other server."""
    with Guarded(program) as on:
        on.start()
        asked, refused = connected(on.place.port, 600)
        links = served(asked)
        same("clients that are served", len(links), PLACES)
        same("clients that are refused", refused >= 600 - PLACES - MOST_BESIDE, True)
        for _ in range(20):
            same("a further client is refused", is_refused(on.place.port), True)
        wanted = f"sudo_logsrvd: {PLACES} clients are connected, which is as many as are served: further ones are" \
            f" refused until one leaves; see who they are by ss -tn 'sport = :{on.place.port}'"
        until("it is said", lambda: f"{wanted}\n" in on.place.said())
        said = [line for line in on.place.said().splitlines() if "clients are connected" in line]
        same("what is said, once", said, [wanted])
        links.pop().close()
        until("a client that comes when one has left is served", lambda: has_session(on))
        for link in links:
            link.close()
        until("clients are served again", lambda: has_session(on))


def part_idle_clients_beside_new_ones(program: str) -> None:
    """500 clients that say nothing hold up no new one."""
    with Guarded(program) as on:
        on.start()
        links, refused = connected(on.place.port, 500)
        same("clients that are refused", refused, 0)
        greeted(links)
        slowest = 0.0
        for _ in range(10):
            began = time.monotonic()
            on.sessions(1)
            slowest = max(slowest, time.monotonic() - began)
        if slowest > LONGEST:
            raise Differs(f"a session beside idle clients took {slowest:.1f} s")
        for link in links:
            link.close()


def part_address_taken_meanwhile(program: str) -> None:
    """Another program listens at the address while all places are taken: the server says so, and tries again."""
    with Guarded(program) as on:
        # one place
        on.server.before = limit_of(256)
        on.start()
        links, _ = connected(on.place.port, 1)
        greeted(links)
        until("a second client is refused", lambda: is_refused(on.place.port))
        with socket.create_server(("127.0.0.1", on.place.port)):
            links.pop().close()
            words = f"port {on.place.port}: it can't listen again, since another program listens there"
            until("it is said that another program listens", lambda: words in on.place.said())
        until("clients are served again", lambda: has_session(on))


def part_no_client_after_stop(program: str) -> None:
    """Once as many connections have ended as --stop-after has, a further one is refused."""
    with Guarded(program, further=("--stop-after", "1")) as on:
        on.start()
        kept, _ = connected(on.place.port, 1)
        greeted(kept)
        on.sessions(1)
        until("a client is refused", lambda: is_refused(on.place.port) or on.server.has_ended())
        kept.pop().close()
        same("status", on.server.process.wait(PATIENCE), 0)


def ended(link: client.Connection) -> None:
    """A client leaves, and the server has ended its connection too."""
    link.link.shutdown(socket.SHUT_WR)
    link.rest()
    link.close()


def resumed(on: Guarded, number: str, point: int) -> None:
    """A client resumes a log, which prints a line, and stores a record more."""
    link = on.server.connect()
    link.send(client.hello(), client.restart(number, point))
    same("the answer", link.read()[0], "hello")
    link.send(client.record((SECOND, "ttyout", b"more")))
    answer = link.read()
    while answer[0] != "commit_point" or answer[1] <= point:
        same(f"the answer at {point}: {answer}", answer[0], "commit_point")
        answer = link.read()
    ended(link)


def read_until(reader: int, words: str) -> str:
    """What comes through a pipe, through these words."""
    said = ""

    def has_words() -> bool:
        """Reads what has come."""
        nonlocal said
        if select.select([reader], [], [], 0)[0]:
            said += os.read(reader, 4096).decode()
        return words in said

    until(f"{words!r} is said", has_words)
    return said


def part_stopped_reader_of_standard_error(program: str) -> None:
    """A full pipe as standard error stops no session. The lines that were left out are counted, and said later."""
    with Guarded(program) as on:
        reader, writer = os.pipe()
        fcntl.fcntl(writer, fcntl.F_SETPIPE_SZ, 4096)
        words = [program, "serve", "-f", on.place.conf]
        child = subprocess.Popen(words, stdin=subprocess.DEVNULL, stdout=subprocess.DEVNULL, stderr=writer)
        on.running.append(child)
        on.server.process = child
        read_until(reader, "listening on")
        os.set_blocking(writer, False)
        try:
            while True:
                os.write(writer, b"x" * 512)
        except BlockingIOError:
            pass
        os.set_blocking(writer, True)
        link = on.server.connect()
        link.send(client.hello(), ACCEPT)
        same("the answer", link.read()[0], "hello")
        number = link.read()[1]
        link.send(client.record((SECOND, "ttyout", b"first")))
        while link.read()[0] != "commit_point":
            pass
        ended(link)
        for times in range(1, 6):
            resumed(on, number, times * SECOND)
        on.sessions(1)
        while select.select([reader], [], [], 0.2)[0]:
            os.read(reader, 4096)
        resumed(on, number, 6 * SECOND)
        read_until(reader, "sudo_logsrvd: 5 lines were left out, since standard error took none\n")
        os.close(reader)
        os.close(writer)


def main() -> int:
    """Tries each part."""
    words = argparse.ArgumentParser(description=__doc__, formatter_class=argparse.RawDescriptionHelpFormatter)
    words.add_argument("--server", required=True)
    words.add_argument("--only", default="")
    args = words.parse_args()
    program = os.path.realpath(args.server)
    _, hard = resource.getrlimit(resource.RLIMIT_NOFILE)
    if hard != resource.RLIM_INFINITY and hard < 2048:
        print(f"many.py: skipped: the limit of open files is {hard}")
        return 0
    resource.setrlimit(resource.RLIMIT_NOFILE, (2048, hard))
    parts = [(name[5:], part) for name, part in globals().items() if name.startswith("part_") and args.only in name]
    bad = 0
    for name, part in parts:
        began = time.monotonic()
        try:
            part(program)
            print(f"{name}: as it should be, {time.monotonic() - began:.1f} s", flush=True)
        except (Differs, servers.Failed, client.Closed, OSError) as fault:
            traceback.print_exc()
            print(f"{name}: {fault}", flush=True)
            bad += 1
    print(f"many.py: {len(parts) - bad} of {len(parts)} parts are as they should be")
    return 1 if bad else 0


if __name__ == "__main__":
    sys.exit(main())
