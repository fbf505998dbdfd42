#!/usr/bin/env python3
"""Reads a store byte by byte, as docs/FORMATS.md has it: the reader is oracle/store.py.

usage: store.py DIR [LINES]
"""
from __future__ import annotations

import sys

import at_root
from oracle.records import SIGNAL, STREAMS, Damaged
from oracle.store import (
    LOG_BODY, NUMBERS_BODY, PARTS, Body, Log, body_of, contents, digits_of, entry, folder_of, folders, lines, main,
    number_of, numbers, read_log, slots_entry,
)

__all__ = [
    "LOG_BODY", "NUMBERS_BODY", "PARTS", "SIGNAL", "STREAMS", "Body", "Damaged", "Log", "body_of", "contents",
    "digits_of", "entry", "folder_of", "folders", "lines", "number_of", "numbers", "read_log", "slots_entry",
]

if __name__ == "__main__":
    sys.exit(main())
