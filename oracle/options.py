"""What the scripts of contrib/ have in common: their options, their messages, and how they end.

An option is a letter, and may come once, before the other words. So a rule of sudoers that names the store first holds
whatever words follow.
"""
from __future__ import annotations

import getopt
import os
import sys
from collections.abc import Callable, Sequence

OK, NOTHING, USAGE, DAMAGED, READ_FAULT, WRITE_FAULT, NO_LOG = 0, 1, 2, 4, 5, 6, 8
STORE = "/var/log/sudo-io"


class Usage(Exception):
    """Wrong words, and what is wrong with them."""


def options_in(words: Sequence[str], letters: str) -> tuple[dict[str, str], list[str]]:
    """The options by their letters, as getopt names these, and the words after them. `--help` has the letter `help`."""
    try:
        found, rest = getopt.getopt(list(words), letters, ["help"])
    except getopt.GetoptError as fault:
        raise Usage(fault.msg) from fault
    options: dict[str, str] = {}
    for name, value in found:
        if name in options:
            raise Usage(f"{name} may stand once")
        options[name] = value
    return {name.lstrip("-"): value for name, value in options.items()}, rest


def say(*words: object) -> None:
    """Prints a line on standard error, after the script's name."""
    print(f"{os.path.basename(sys.argv[0])}:", *words, file=sys.stderr)


def run(main: Callable[[], int], page: str) -> int:
    """Runs a script, and gives its status. `page` is its help, which has its form in a line that begins with usage."""
    try:
        if "--help" in sys.argv[1:]:
            print(page.strip())
            return OK
        status = main()
        sys.stdout.flush()
        return status
    except Usage as fault:
        say(fault)
        print(next(line for line in page.splitlines() if line.startswith("usage")), file=sys.stderr)
        return USAGE
    except BrokenPipeError:
        # who read it has ended: nothing more is written, also not at the end
        os.dup2(os.open(os.devnull, os.O_WRONLY), 1)
        return WRITE_FAULT
    except OSError as fault:
        say(f"{fault.filename}: {fault.strerror}" if fault.filename else fault.strerror)
        return READ_FAULT if fault.filename else WRITE_FAULT
    except KeyboardInterrupt:
        return 130
