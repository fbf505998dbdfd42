"""Writes stores of sessions: the names that scripts had before oracle/store.py."""
from __future__ import annotations

from typing import Any

import at_root
from oracle import lines
from oracle.records import SECOND, STREAMS, line_of
from oracle.store import PARTS, body_text as body_of, digits_of, files_of, write_log, write_numbers

__all__ = [
    "PARTS", "STREAMS", "body_of", "digits_of", "exit_text", "files_of", "head_text", "line_of", "write_log",
    "write_numbers",
]


def head_text(submit: tuple[int, int], info: dict[str, Any]) -> bytes:
    """log.json of a command that was submitted at these seconds and nanoseconds."""
    return lines.head(submit[0] * SECOND + submit[1], info)


def exit_text(run: tuple[int, int], value: int) -> bytes:
    """exit.json of a command that ran for these seconds and nanoseconds."""
    return lines.exit_line(run[0] * SECOND + run[1], value)
