"""Puts the repository's root on the path: the packages oracle and interop are found there, from any folder."""
from __future__ import annotations

import os
import sys

sys.path.append(os.path.dirname(os.path.dirname(os.path.abspath(__file__))))
