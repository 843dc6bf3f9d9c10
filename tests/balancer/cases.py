"""The list of tests, and what they are judged by."""

from __future__ import annotations

import time
from collections.abc import Callable
from dataclasses import dataclass
from typing import TYPE_CHECKING, TypeVar

if TYPE_CHECKING:
    from .farms import Farm

# How many seconds any wait may take before its test fails: far more than a good run needs, so that a busy machine fails no test.
PATIENCE = 30.0

Body = TypeVar("Body", bound="Callable[[Farm], None]")


class Failure(AssertionError):
    """What was seen is not what is due."""


class Mistimed(Failure):
    """What was due came too early or too late, which a busy machine can bring about."""


@dataclass(frozen=True)
class Case:
    """A test: a sentence, and what tries it."""

    name: str
    group: str
    body: Callable[[Farm], None]


CASES: list[Case] = []


def case(body: Body) -> Body:
    """Puts a test on the list. The function's name is the sentence that it tries."""
    CASES.append(Case(body.__name__.replace("_", " "), body.__module__.rpartition(".")[2], body))
    return body


def expect_equal(what: str, seen: object, due: object) -> None:
    """Fails unless what was seen is what is due."""
    if seen != due:
        raise Failure(f"{what}\n  seen: {seen!r}\n  due:  {due!r}")


def expect(what: str, holds: bool) -> None:
    """Fails unless the sentence holds."""
    if not holds:
        raise Failure(what)


def expect_between(what: str, least: float, seconds: float, most: float) -> None:
    """Fails unless what took so many seconds took at least so many, and at most so many."""
    if not least <= seconds <= most:
        raise Mistimed(f"{what}: {seconds:.2f} s, and not {least:g} to {most:g}")


def wait_until(what: str, holds: Callable[[], bool], limit: float = PATIENCE) -> None:
    """Waits until the sentence holds, and fails where it doesn't in this many seconds."""
    end = time.monotonic() + limit
    while not holds():
        if time.monotonic() > end:
            raise Failure(f"not in {limit} s: {what}")
        time.sleep(0.01)
