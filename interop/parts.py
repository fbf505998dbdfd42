"""Runs the parts of a script, and has what several scripts use: programs that are run, a store that is written."""
from __future__ import annotations

import atexit
import os
import re
import shutil
import subprocess
import sys
import tempfile
import traceback
from collections.abc import Mapping, Sequence
from typing import Any

import at_root
from oracle import alone, lines, store
from oracle.connection import PATIENCE
from oracle.records import SECOND, Record
from oracle.waits import Late, until
from trial import Differs, same

ROOT = os.path.realpath(os.path.join(os.path.dirname(os.path.abspath(__file__)), ".."))
SUBMIT = 1_790_000_000 * SECOND + 500_000_000
INFO = {
    "columns": 90, "command": "/usr/bin/vi", "lines": 33, "runargv": ["vi", "/etc/motd", "a b", "ä"], "runuid": 0,
    "runenv": ["TERM=xterm", "SHELL=/bin/sh", "TOKEN=secret", "PATH"], "runuser": "root", "submitcwd": "/home/ann",
    "submithost": "web1", "submituser": "ann", "ttyname": "/dev/pts/3",
}
Ended = subprocess.CompletedProcess[bytes]
__all__ = ["Ended", "INFO", "ROOT", "SUBMIT", "Skipped", "Unasked", "page_fits", "run", "run_parts", "scripts",
    "status_is", "until", "write"]


class Skipped(Exception):
    """A part that can't be tried here, and why."""


class Unasked(Exception):
    """A part that runs only with a further word, and that nobody misses without it."""


def run_parts(parts: Mapping[str, Any], page: str, fewest: int = 0) -> int:
    """Runs each function whose name begins with part_, with the script's words. 1 if one differs, 2 without words."""
    words = sys.argv[1:]
    if "--help" in words or len(words) < fewest:
        print(page.strip())
        return 0 if "--help" in words else 2
    name = os.path.basename(sys.argv[0])
    count = differ = 0
    for part, run_part in list(parts.items()):
        if not part.startswith("part_"):
            continue
        try:
            run_part(*words[:run_part.__code__.co_argcount])
            count += 1
        except Unasked:
            pass
        except Skipped as why:
            print(f"{name}: {part[5:]} is skipped: {why}", flush=True)
        except Exception as fault:  # pylint: disable=broad-except
            count, differ = count + 1, differ + 1
            print(f"{part[5:]}: {fault if isinstance(fault, (Differs, Late)) else traceback.format_exc()}", flush=True)
    print(f"{name}: {count} tried, {differ} differ")
    return 1 if differ else 0


def run(*words: str, given: bytes = b"", env: Mapping[str, str] | None = None, seconds: float = PATIENCE) -> Ended:
    """Runs a program."""
    return subprocess.run(words, input=given, capture_output=True, check=False, timeout=seconds,
        env={**os.environ, **(env or {})})


def scripts(name: str) -> list[str]:
    """A script of contrib/, and the same as it is installed, alone in a folder."""
    path = os.path.join(ROOT, "contrib", name)
    folder = tempfile.mkdtemp(prefix="interop")
    atexit.register(shutil.rmtree, folder)
    made = os.path.join(folder, name)
    with open(made, "w", encoding="utf-8") as file:
        file.write(alone.alone(path))
    os.chmod(made, 0o755)
    return [path, made]


def write(folder: str, number: int, records: Sequence[Record], info: Mapping[str, Any] = INFO,
    value: int | None = 0) -> str:
    """Writes a log with bytes beyond its length, complete unless `value` is None, and gives its digits."""
    ended = None if value is None else lines.exit_line(3 * SECOND, value)
    place = store.write_log(folder, number, lines.head(SUBMIT + number * SECOND, info), records, ended)
    for name in store.PARTS:
        with open(os.path.join(place, name), "ab") as file:
            file.write(b"\xffbeyond\n")
    store.write_numbers(folder, number)
    return store.digits_of(number)


def status_is(what: str, wanted: int, ended: Ended) -> Ended:
    """A program must have ended with a status."""
    same(f"status of {what}: {ended.stderr.decode('utf-8', 'replace')[-500:]}", ended.returncode, wanted)
    return ended


def page_fits(name: str) -> None:
    """The manual page of a script has the options and statuses that its help and its words have."""
    with open(os.path.join(ROOT, "man", name + ".1"), encoding="utf-8") as file:
        page = file.read()
    with open(os.path.join(ROOT, "contrib", name), encoding="utf-8") as file:
        script = file.read()
    help_text = status_is("--help", 0, run(scripts(name)[1], "--help")).stdout.decode()
    taken = set(re.search(r'options_in\(sys.argv\[1:\], "(.*?)"', script)[1].replace(":", ""))
    same("options of the page", set(re.findall(r"^\.It Fl (\w)\b", page, flags=re.M)), taken)
    synopsis = page.split(".Sh SYNOPSIS")[1].split(".Sh")[0]
    same("options of the synopsis", set("".join(re.findall(r"Fl (\w+)", synopsis))), taken)
    usage = re.search("^usage: .*", help_text, flags=re.M)[0]
    same("options of the form", set("".join(re.findall(r"\[-(\w+)", usage))), taken)
    statuses = re.findall(r"^\.It (\d)$", page.split("EXIT STATUS")[1].split(".Sh")[0], flags=re.M)
    told = re.findall(r"(?<![\w-])(\d) (?:if|for)\b", help_text.split("It ends with")[1].replace("\n", " "))
    same("statuses", statuses, told)
