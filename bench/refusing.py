"""Runs a program with requests for memory refused, by `refused.c` beside this, which is built into a folder of its own.

A page of shared memory says which requests are refused, and tells how many there were. It can be written while the program runs.
"""

from __future__ import annotations

import mmap
import os
import struct
import subprocess
import tempfile
from collections import Counter
from collections.abc import Callable, Iterator, Sequence
from contextlib import contextmanager
from dataclasses import dataclass
from enum import Enum, auto
from pathlib import Path

BENCH = Path(__file__).resolve().parent
ROOT = BENCH.parent
PROGRAM = ROOT / "crates/stickylb/out/stickylb"
OUT_OF_MEMORY = b"out of memory\n"
ALL = 2**64 - 1
# A job makes fewer requests, so that each can be refused.
MOST = 20000
# How many seconds a run may take that has little to do.
PATIENCE = 20.0
HUNG = -1000


@dataclass(frozen=True)
class Ending:
    """How a run ended: its status, below 0 for a signal and HUNG where it didn't end, and what it wrote."""

    status: int
    out: bytes
    err: bytes

    def __str__(self) -> str:
        how = "no end" if self.status == HUNG else f"status {self.status}"
        return f"{how}, out {self.out[-80:]!r}, err {self.err[-80:]!r}"


class Shim:
    """The library that refuses, and its page: 64-bit numbers, in the order of `struct page` in refused.c."""

    COUNTED, REFUSED, FIRST, LAST, MARKED, INSIDE, TOLD = range(0, 56, 8)

    def __init__(self, library: Path, page_file: Path) -> None:
        self.library, self.page_file = library, page_file
        page_file.write_bytes(bytes(mmap.PAGESIZE))
        with page_file.open("r+b") as file:
            self.page = mmap.mmap(file.fileno(), mmap.PAGESIZE)

    def get(self, field: int) -> int:
        return struct.unpack_from("Q", self.page, field)[0]

    def put(self, field: int, number: int) -> None:
        struct.pack_into("Q", self.page, field, number)

    def begin(self, first: int, last: int, marked: bool) -> None:
        """Refuses these requests of the next run, counted from 1; where `marked`, only those between marks are counted."""
        struct.pack_into("7Q", self.page, 0, 0, 0, first, last, int(marked), 0, 0)

    def refuse_behind(self, ahead: int, count: int) -> None:
        """Of a program that runs, lets so many requests pass, and refuses so many behind them. 0 of them refuses none."""
        self.put(self.FIRST, 0)
        if count:
            now = self.get(self.COUNTED)
            self.put(self.LAST, min(ALL, now + ahead + count))
            self.put(self.FIRST, now + ahead + 1)

    def environment(self) -> dict[str, str]:
        return {**os.environ, "LD_PRELOAD": str(self.library), "REFUSED_PAGE": str(self.page_file)}


def build_program() -> None:
    """Proves and builds the program where it has to be."""
    subprocess.run([ROOT / "stickylb", "--version"], stdout=subprocess.DEVNULL, check=True)


@contextmanager
def built_shim() -> Iterator[Shim]:
    """Builds the library, in a folder that is removed in the end."""
    with tempfile.TemporaryDirectory(prefix="refused-") as folder:
        library = Path(folder, "refused.so")
        words = ["gcc", "-O2", "-Wall", "-shared", "-fPIC", "-o", str(library), str(BENCH / "refused.c")]
        subprocess.run(words, check=True)
        yield Shim(library, Path(folder, "page"))


def run(shim: Shim, words: Sequence[str], first: int = 0, last: int = 0, marked: bool = False) -> Ending:
    """Runs the program once, in the top folder, with nothing on its standard input."""
    shim.begin(first, last, marked)
    try:
        ended = subprocess.run(
            words, cwd=ROOT, env=shim.environment(), stdin=subprocess.DEVNULL, capture_output=True, timeout=PATIENCE, check=False
        )
    except subprocess.TimeoutExpired as late:
        return Ending(HUNG, late.stdout or b"", late.stderr or b"")
    return Ending(ended.returncode, ended.stdout, ended.stderr)


class Verdict(Enum):
    """What became of a run: nothing was refused; it told that memory was wanting; it gave its whole answer all the same; or
    neither."""

    UNREFUSED = auto()
    TOLD = auto()
    WITHOUT = auto()
    WRONG = auto()


def sweep(attempt: Callable[[int], Verdict]) -> Counter[Verdict]:
    """Tries with the first request refused, the second and so on, until a run ends in which none was. Counts the others."""
    found: Counter[Verdict] = Counter()
    for number in range(1, MOST):
        verdict = attempt(number)
        if verdict is Verdict.UNREFUSED:
            return found
        found[verdict] += 1
    raise RuntimeError(f"more than {MOST} requests")


HEADING = f"{'job':40} {'requests':>8} {'refused':>16} {'tried':>6} {'told':>6} {'without':>7} {'wrong':>6}"


def row(name: str, requests: int, how: str, found: Counter[Verdict]) -> str:
    """A line of the table below HEADING."""
    told, without, wrong = (found[verdict] for verdict in (Verdict.TOLD, Verdict.WITHOUT, Verdict.WRONG))
    return f"{name:40} {requests:8} {how:>16} {found.total():6} {told:6} {without:7} {wrong:6}"
