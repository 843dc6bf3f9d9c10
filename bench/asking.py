"""Honest clients: each asks for a page on a timetable of its own, one connection a request, and notes what it got."""

from __future__ import annotations

import math
import re
import socket
import statistics
import threading
import time
from collections import Counter
from collections.abc import Sequence
from dataclasses import dataclass

HOST = "127.0.0.1"
GOOD = "good"


@dataclass(frozen=True)
class Asked:
    """One request: when it began, how many seconds it took, and its answer."""

    begun: float
    seconds: float
    # `good`, or the answer's status, or how there was none: `cut`, `closed`, `reset`, `refused`, `late`.
    what: str


@dataclass(frozen=True)
class Page:
    """What clients ask for: at this port, with this body as the good answer, for which they wait this many seconds. A client sends its head so
    many seconds after it has connected."""

    port: int
    body: bytes = b"a"
    patience: float = 10.0
    gap: float = 0.0


def what_of(answer: bytes, body: bytes) -> str:
    """What this answer is, if only a 200 with this body is good."""
    found = re.match(rb"HTTP/1\.1 (\d{3}) ", answer)
    if not found:
        return "closed"
    if found[1] != b"200":
        return found[1].decode()
    return GOOD if answer.endswith(b"\r\n\r\n" + body) else "cut"


def exchange(page: Page, request: bytes) -> bytes:
    """All that the client of this request gets, as long as its patience lasts."""
    end = time.monotonic() + page.patience
    pieces = []
    with socket.create_connection((HOST, page.port), page.patience) as stream:
        if page.gap:
            time.sleep(page.gap)
        stream.sendall(request)
        while True:
            left = end - time.monotonic()
            if left <= 0:
                raise TimeoutError
            stream.settimeout(left)
            piece = stream.recv(1 << 16)
            if not piece:
                return b"".join(pieces)
            pieces.append(piece)


def ask(page: Page, request: bytes) -> Asked:
    """Asks once."""
    begun = time.monotonic()
    try:
        what = what_of(exchange(page, request), page.body)
    except TimeoutError:
        what = "late"
    except ConnectionRefusedError:
        what = "refused"
    except (ConnectionResetError, BrokenPipeError):
        what = "reset"
    return Asked(begun, time.monotonic() - begun, what)


def turns_of(asked: Asked, every: float) -> int:
    """How many turns of a timetable a request took: one, unless its answer took longer than that. That a client was late itself costs none."""
    return max(1, math.ceil(asked.seconds / every))


class Askers:
    """Clients that ask meanwhile: each its own request, again after so many seconds, or, where it had to wait for longer, at the next turn of
    its timetable. The turns of all are spread over half of that time."""

    def __init__(self, page: Page, requests: Sequence[bytes], every: float) -> None:
        self.page, self.every = page, every
        self.over = threading.Event()
        self.asked: list[Asked] = []
        spread = every / 2 / len(requests)
        self.threads = [
            threading.Thread(target=self.run, args=(request, place * spread), daemon=True) for place, request in enumerate(requests)
        ]

    def __enter__(self) -> Askers:
        for thread in self.threads:
            thread.start()
        return self

    def __exit__(self, *_: object) -> None:
        self.over.set()
        for thread in self.threads:
            thread.join()

    def run(self, request: bytes, wait: float) -> None:
        turn = time.monotonic() + wait
        while not self.over.wait(max(0.0, turn - time.monotonic())):
            asked = ask(self.page, request)
            self.asked.append(asked)
            turn = turn + self.every * turns_of(asked, self.every) if self.every else time.monotonic()


@dataclass(frozen=True)
class Span:
    """What clients got of the requests that they began in a span of time."""

    seconds: float
    # How many of each kind of answer.
    kinds: Counter[str]
    # The seconds that good answers took, in order.
    took: list[float]

    @property
    def good(self) -> int:
        return len(self.took)

    @property
    def pace(self) -> float:
        """Good answers a second."""
        return self.good / self.seconds

    @property
    def others(self) -> Counter[str]:
        """The answers that aren't good."""
        return Counter({kind: count for kind, count in self.kinds.items() if kind != GOOD})

    def within(self, share: float) -> float:
        """The milliseconds within which this share of the good answers came."""
        return self.took[min(self.good - 1, int(self.good * share))] * 1e3 if self.took else math.inf

    def __str__(self) -> str:
        kinds = ", ".join(f"{count} {kind}" for kind, count in self.kinds.most_common())
        if not self.took:
            return kinds or "nothing"
        return f"{kinds}; median {statistics.median(self.took) * 1e3:.1f} ms, p99 {self.within(0.99):.0f} ms, longest {self.took[-1] * 1e3:.0f} ms"


def span(asked: Sequence[Asked], begin: float, end: float) -> Span:
    """What clients got of what they asked from one moment to another."""
    inside = [it for it in asked if begin <= it.begun < end]
    return Span(end - begin, Counter(it.what for it in inside), sorted(it.seconds for it in inside if it.what == GOOD))
