"""How long the scripts wait for something before they call it wrong, and what they then say of the server.

A wait ends as soon as what it waits for is there, so a long bound costs nothing but where something is wrong. The
bounds are for a machine that other programs keep busy, with a slow disk.
"""
from __future__ import annotations

import os
import time
from collections.abc import Callable

from oracle.connection import PATIENCE


class Late(TimeoutError):
    """What was waited for didn't come."""


def until(what: str, holds: Callable[[], object], seconds: float = PATIENCE) -> None:
    """Waits until something holds."""
    end = time.monotonic() + seconds
    while not holds():
        if time.monotonic() > end:
            raise Late(f"{what}: not after {seconds:.0f} s")
        time.sleep(0.01)


def text_of(path: str) -> str:
    """What a file of /proc has, or nothing."""
    try:
        with open(path, encoding="utf-8", errors="replace") as file:
            return file.read().strip()
    except OSError:
        return ""


def standing(pid: int) -> str:
    """What each thread of a process does, for the words of a failure: its state, and what it waits for."""
    try:
        tasks = sorted(os.listdir(f"/proc/{pid}/task"), key=int)
    except OSError:
        return f"process {pid} is gone"
    shown = []
    for task in tasks:
        place = f"/proc/{pid}/task/{task}"
        states = [line.split()[1] for line in text_of(place + "/status").splitlines() if line.startswith("State:")]
        call = " ".join(text_of(place + "/syscall").split()[:2])
        shown.append(f"{task} {' '.join(states)} in {text_of(place + '/wchan') or '?'}, system call {call or '?'}")
    return f"threads of {pid}: " + "; ".join(shown)
