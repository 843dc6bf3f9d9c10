"""Runs the tests, several at a time, and tells how many passed."""

from __future__ import annotations

import argparse
import resource
import signal
import sys
import time
import traceback
from concurrent.futures import ThreadPoolExecutor
from dataclasses import dataclass
from pathlib import Path

from . import (
    checks, commands, crowds, faults, floods, forwarding, handed_over, haproxy, keys, limits, machines, manual, operators, pins, queues, restarts, rules,
    sessions, slow, slowness, smuggling, soak, starts, supervised, waits, web_farm, wholes,
)  # fmt: skip
from .cases import CASES, Case, Failure, Mistimed
from .farms import Farm, end_all

ROOT = Path(__file__).resolve().parent.parent.parent
PROGRAM = ROOT / "crates" / "stickylb" / "out" / "stickylb"
GROUPS = (
    checks, commands, crowds, faults, floods, forwarding, handed_over, haproxy, keys, limits, machines, manual, operators, pins, queues, restarts, rules,
    sessions, slowness, smuggling, starts, supervised, waits, web_farm, wholes,
)  # fmt: skip


@dataclass
class Result:
    """What came of a test."""

    case: Case
    fault: str
    is_mistimed: bool
    seconds: float


def tried(case: Case, program: Path) -> Result:
    """Tries a test on a farm of its own."""
    start = time.monotonic()
    fault, is_mistimed = "", False
    try:
        with Farm(program) as farm:
            case.body(farm)
    except Failure as failure:
        fault, is_mistimed = str(failure), isinstance(failure, Mistimed)
    except Exception:  # noqa: BLE001 - whatever hinders a test fails it
        fault = traceback.format_exc()
    return Result(case, fault, is_mistimed, time.monotonic() - start)


def tell(result: Result, with_times: bool) -> None:
    if result.fault:
        print(f"FAILED {result.case.group}: {result.case.name}\n{result.fault}", flush=True)
    elif with_times:
        print(f"{result.seconds:6.2f} s {result.case.group}: {result.case.name}", flush=True)


def run_cases(program: Path, only: str, at_a_time: int, with_times: bool) -> int:
    """Runs the tests whose group or sentence has this text in it. One that failed by the clock alone is run once more, with nothing beside it,
    and that counts. The status is 0 where all passed."""
    chosen = [case for case in CASES if only in f"{case.group}: {case.name}"]
    failed, mistimed = 0, []
    with ThreadPoolExecutor(at_a_time) as pool:
        for result in pool.map(lambda case: tried(case, program), chosen):
            tell(result, with_times)
            failed += bool(result.fault) and not result.is_mistimed
            mistimed += [result.case] * result.is_mistimed
    for case in mistimed:
        print(f"once more, with nothing beside it: {case.group}: {case.name}", flush=True)
        result = tried(case, program)
        tell(result, with_times)
        failed += bool(result.fault)
    print(f"{len(chosen) - failed} passed, {failed} failed")
    return 1 if failed or not chosen else 0


def words() -> argparse.Namespace:
    parser = argparse.ArgumentParser(prog="tests/balance", description="Tests the running balancer over sockets of this machine.")
    parser.add_argument("words", nargs="*", metavar="soak | slow | PROGRAM", help="a long run in place of the tests; the program to test")
    parser.add_argument("--only", default="", metavar="TEXT", help="tests with this text in their group or sentence")
    parser.add_argument("--at-a-time", type=int, default=8, metavar="N", help="how many tests run side by side")
    parser.add_argument("--times", action="store_true", help="tell each test with its seconds")
    parser.add_argument("--list", action="store_true", help="tell the tests, and run none")
    parser.add_argument("--minutes", type=float, default=30, metavar="M", help="how long `soak` goes on")
    return parser.parse_args()


def use_all_descriptors() -> None:
    """Clients and servers of all tests are sockets of this program, and it has as many as the system lets it."""
    _, most = resource.getrlimit(resource.RLIMIT_NOFILE)
    resource.setrlimit(resource.RLIMIT_NOFILE, (most, most))


def main() -> int:
    use_all_descriptors()
    for ending in (signal.SIGINT, signal.SIGTERM, signal.SIGHUP):
        signal.signal(ending, end_all)
    said = words()
    jobs = [word for word in said.words if word in ("soak", "slow")]
    programs = [word for word in said.words if word not in ("soak", "slow")]
    program = Path(programs[0]).resolve() if programs else PROGRAM
    if said.list:
        print("\n".join(f"{case.group}: {case.name}" for case in CASES))
        return 0
    if not program.exists():
        print(f"no program at {program}: build it by `tools/build stickylb`, or name another one", file=sys.stderr)
        return 2
    if "soak" in jobs:
        return soak.run(program, said.minutes)
    if "slow" in jobs:
        return slow.run(program)
    return run_cases(program, said.only, said.at_a_time, said.times)
