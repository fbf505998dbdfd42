#!/usr/bin/env python3
"""Tries a server with real clients: what each session leaves in the store is compared with what its client sent.

usage: serve.py --server PROGRAM [--as serve|once|sudo] [--lanes N] [--only WORD]

PROGRAM is run as `serve` of this repository, as its `once` behind a port with a process for each connection, or as
sudo's own server, by which the script itself is tried. Between client and server stands a port that keeps all bytes:
the messages are decoded here, and the logs read by store.py (of sudo's server by peer.py). The clients are
`sudo_sendlog`; as root `sudo`, with a sudoers of its own in a mount namespace of its own, so that nothing of the
machine is changed; and client.py. What can't be tried is printed. It ends with 1 where something differs.
"""
from __future__ import annotations

import argparse
import os
import subprocess
import sys
import traceback
from collections.abc import Callable

import process_parts
import protocol_parts
import servers
import store
import sudo_parts
import trial

Part = Callable[[trial.Trial], None]
PARTS: list[tuple[object, str, Part]] = [(module, name[5:], part) for module in (sudo_parts, protocol_parts,
    process_parts) for name, part in vars(module).items() if name.startswith("part_")]


def lacks(name: str) -> str | None:
    """Why a part can't be tried here, or None."""
    if name.startswith("sendlog_") and not servers.tool("sudo_sendlog"):
        return "without sudo_sendlog (Debian's package sudo)"
    if name.startswith("sudo_") and not servers.tool("sudo"):
        return "without sudo"
    if name.startswith("sudo_") and not trial.Namespace.is_possible():
        return "of sudo itself, since only root, where it may make a mount namespace, can give it a sudoers"
    return None


def is_for(part: Part, kind: str) -> bool:
    """Whether a part is for this kind of server: one that names none is for all."""
    return kind in getattr(part, "kinds", ("serve", "once", "sudo"))


def tried(part: Part, on: trial.Trial) -> str | None:
    """Why the part differs, or None."""
    try:
        part(on)
    except (trial.Differs, store.Damaged, servers.Failed) as fault:
        return str(fault)
    except (TimeoutError, subprocess.TimeoutExpired) as fault:
        return f"{fault or type(fault).__name__}; the server: {on.server.seen()}"
    except Exception:  # pylint: disable=broad-except
        return f"{traceback.format_exc()}; the server: {on.server.seen()}"
    return None


def main() -> int:
    """Tries all parts."""
    words = argparse.ArgumentParser(description=__doc__, formatter_class=argparse.RawDescriptionHelpFormatter)
    words.add_argument("--server", required=True)
    words.add_argument("--as", dest="kind", choices=["serve", "once", "sudo"], default="serve")
    words.add_argument("--lanes", type=int, default=1)
    words.add_argument("--only", default="")
    args = words.parse_args()
    on = trial.Trial(os.path.realpath(args.server), args.kind, args.lanes)
    count, differ, left = 0, 0, dict[str, int]()
    for _, name, part in PARTS:
        if args.only not in name or not is_for(part, args.kind):
            continue
        why = lacks(name)
        if why:
            left[why] = left.get(why, 0) + 1
            continue
        count += 1
        fault = tried(part, on)
        if fault:
            differ += 1
            print(f"{name}: {fault}", flush=True)
        on.clear()
        if on.server.has_ended():
            print(f"{name}: the server has ended: {on.place.said()[-1000:]}")
            return 1
    on.end()
    name = on.server.name + (f" with {args.lanes} lanes" if args.lanes > 1 else "")
    print(f"serve.py: {name}: {count} tried, {differ} differ" + "".join(f"; {number} skipped, {why}" for why,
        number in left.items()))
    return 1 if differ else 0


if __name__ == "__main__":
    sys.exit(main())
