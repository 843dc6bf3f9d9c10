"""One build at a time in a checkout."""

from __future__ import annotations

import fcntl
import sys
from pathlib import Path
from typing import TextIO


def hold(root: Path, name: str) -> TextIO:
    """Holds the checkout until what is returned is closed, or the process ends. If another run holds it, this one says so and waits: each
    would take away libraries that the other one reads."""
    held = (root / "crates.txt").open()
    try:
        fcntl.flock(held, fcntl.LOCK_EX | fcntl.LOCK_NB)
    except BlockingIOError:
        print(f"{name}: another run builds in this folder. This one waits for it.", file=sys.stderr, flush=True)
        fcntl.flock(held, fcntl.LOCK_EX)
    return held
