"""Reads and writes the I/O logs of sudo itself: as oracle/sudo.py does."""
from __future__ import annotations

import at_root
from oracle.sudo import read_session, write_session

__all__ = ["read_session", "write_session"]
