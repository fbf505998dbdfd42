#!/usr/bin/env python3
"""Measures `relay`: the processor time of a relayed record and of a small log, and the memory of a run.

usage: relay.py PROGRAM [BEFORE] [--records N] [--logs N] [--rounds N]

A log is written into a store by oracle/store.py. `relay` sends it over the loopback to a sink that reads all,
acknowledges the log's time and ends the connection. Then logs of three records are sent to PROGRAM's `serve`. Only the
processor time of `relay` counts, by the system, and the least of the rounds. BEFORE is another build of sudo_logsrvd:
its relay and that of PROGRAM take turns, and after PROGRAM's figures stand the ratios to its. It ends with 1 if a
record takes more than 1.0 microsecond (10 bytes) or 1.6 (1,000 bytes), a log of three records 1.5 ms or more, or the
memory is 6 MiB or more.
"""
from __future__ import annotations

import argparse
import os
import shutil
import socket
import subprocess
import sys
import tempfile
import threading
from collections.abc import Sequence

import at_root
from bench import watched
from interop import servers
from oracle import messages, store
from oracle.records import SECOND, Record, elapsed
from oracle.wire import frame

HEAD = (b'{"info":{"command":"/usr/bin/id","runargv":["id","-u"],"runuser":"root","submithost":"web1",'
    b'"submituser":"ann"},"submit_time":{"nanoseconds":0,"seconds":1700000000}}\n')
EXIT = b'{"dumped_core":false,"exit_value":0,"run_time":{"nanoseconds":0,"seconds":3}}\n'
SETTINGS = """[relay]
relay_host = 127.0.0.1:{port}
store_first = true
[iolog]
iolog_dir = {folder}/store
[logfile]
path = {folder}/events
"""
# microseconds of a record by the bytes of its data, and of a small log, and MiB of a run
MOST = {10: 1.0, 1000: 1.6}
MOST_LOG = 1500.0
MOST_MEMORY = 6.0
PARENT = "/dev/shm" if os.path.isdir("/dev/shm") else None
# processor seconds, and MiB
Run = tuple[float, float]


class Sink:
    """A port that reads each connection to the end of its frames, acknowledges a time after a number of them, and ends
    the connection.
    """

    def __init__(self, frames: int, time: int) -> None:
        """`frames` are those of a whole log: hello, accept, records and exit."""
        self.frames, self.time = frames, time
        self.listener = socket.create_server(("127.0.0.1", 0))
        self.port = self.listener.getsockname()[1]
        threading.Thread(target=self.run, daemon=True).start()

    def run(self) -> None:
        """Serves connections until the port is closed."""
        while True:
            try:
                link, _ = self.listener.accept()
            except OSError:
                return
            with link:
                self.serve(link)

    def serve(self, link: socket.socket) -> None:
        """Serves one connection."""
        link.sendall(frame(messages.server_hello("sink")) + frame(messages.log_id("000001")))
        seen, buffer, at = 0, bytearray(), 0
        while piece := link.recv(1 << 20):
            buffer += piece
            while len(buffer) - at >= 4:
                length = int.from_bytes(buffer[at : at + 4], "big")
                if len(buffer) - at < 4 + length:
                    break
                at += 4 + length
                seen += 1
            del buffer[:at]
            at = 0
            if seen == self.frames:
                link.sendall(frame(messages.commit_point(self.time)))
                link.shutdown(socket.SHUT_WR)

    def close(self) -> None:
        """Closes the port."""
        self.listener.close()


def relays(program: str, folder: str, port: int) -> Run:
    """A run that relays the store of a folder to a port."""
    conf = os.path.join(folder, "conf")
    with open(conf, "w", encoding="utf-8") as file:
        file.write(SETTINGS.format(port=port, folder=folder))
    run = subprocess.Popen([program, "relay", "-f", conf], stdin=subprocess.DEVNULL)
    peak, status, usage = watched(run.pid)
    run.returncode = os.waitstatus_to_exitcode(status)
    if run.returncode != 0:
        raise RuntimeError(f"{program}: status {run.returncode}")
    return usage.ru_utime + usage.ru_stime, peak / 2**20


def relays_one(program: str, count: int, size: int) -> Run:
    """A run that relays one log: its number of records, and the bytes of each."""
    folder = tempfile.mkdtemp(prefix="relay", dir=PARENT)
    try:
        records: list[Record] = [(SECOND // 100, "ttyout", b"x" * size)] * count
        store.write_log(os.path.join(folder, "store"), 1, HEAD, records, EXIT)
        store.write_numbers(os.path.join(folder, "store"), 1)
        sink = Sink(count + 3, elapsed(records))
        found = relays(program, folder, sink.port)
        sink.close()
        return found
    finally:
        shutil.rmtree(folder)


def relays_many(program: str, count: int, port: int) -> Run:
    """A run that relays this number of logs of three records."""
    folder = tempfile.mkdtemp(prefix="relay", dir=PARENT)
    try:
        for number in range(1, count + 1):
            store.write_log(os.path.join(folder, "store"), number, HEAD, [(SECOND, "ttyout", b"0123456789")] * 3, EXIT)
        store.write_numbers(os.path.join(folder, "store"), count)
        return relays(program, folder, port)
    finally:
        shutil.rmtree(folder)


def least(runs: Sequence[Sequence[Run]]) -> tuple[list[float], float]:
    """Of rounds of runs of each program: the least processor seconds of each, and the greatest MiB of the first."""
    return [min(seconds for seconds, _ in of) for of in zip(*runs)], max(of[0][1] for of in runs)


def show(what: str, each: Sequence[float], memory: float) -> None:
    """Prints the figures of the first program, and the ratio to the other one."""
    beside = f"; before {each[1]:.2f}, ratio {each[0] / each[1]:.2f}" if len(each) > 1 else ""
    print(f"relay: {what}: {each[0]:.2f} microseconds each, {memory:.1f} MiB{beside}", flush=True)


def main() -> int:
    """Measures both sizes, and small logs."""
    words = argparse.ArgumentParser(description=__doc__, formatter_class=argparse.RawDescriptionHelpFormatter)
    words.add_argument("program", type=os.path.abspath)
    words.add_argument("before", nargs="?", type=os.path.abspath)
    words.add_argument("--records", type=int, default=1_000_000)
    words.add_argument("--logs", type=int, default=1_000)
    words.add_argument("--rounds", type=int, default=5)
    args = words.parse_args()
    programs = [program for program in (args.program, args.before) if program]
    too_much = 0
    for size, most in MOST.items():
        count = args.records if size < 100 else args.records // 5
        # what a run without records takes is no record's
        start, _ = least([[relays_one(program, 1, size) for program in programs] for _ in range(args.rounds)])
        found, memory = least([[relays_one(program, count, size) for program in programs] for _ in range(args.rounds)])
        each = [(seconds - before) / count * 1e6 for seconds, before in zip(found, start)]
        show(f"{count} records of {size} bytes", each, memory)
        too_much += each[0] > most or memory >= MOST_MEMORY
    place = servers.Place(parent=PARENT)
    served = servers.Serve(args.program, place).start()
    try:
        found, memory = least([[relays_many(program, args.logs, served.port) for program in programs]
            for _ in range(args.rounds)])
    finally:
        served.kill()
        shutil.rmtree(place.folder)
    each = [seconds / args.logs * 1e6 for seconds in found]
    show(f"{args.logs} logs of 3 records", each, memory)
    too_much += each[0] >= MOST_LOG or memory >= MOST_MEMORY
    return 1 if too_much else 0


if __name__ == "__main__":
    sys.exit(main())
