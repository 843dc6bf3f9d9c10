"""What a balancer is loaded with, and what it costs: `wrk` as clients and `origin.c` as servers, on processors of their own where there are
enough."""

from __future__ import annotations

import contextlib
import os
import re
import resource
import socket
import subprocess
import sys
import time
from collections.abc import Iterator, Sequence
from dataclasses import dataclass
from pathlib import Path

BENCH = Path(__file__).resolve().parent
ROOT = BENCH.parent
ORIGINS = (18081, 18082)
TICKS = os.sysconf("SC_CLK_TCK")

@dataclass(frozen=True)
class Told:
    """What one load told."""

    answered: int
    # Requests a second.
    pace: float
    # The seconds within which 99 of 100 were answered, and those of the longest answer.
    late: float
    latest: float
    failed: int


def say(text: str) -> None:
    print(text, file=sys.stderr, flush=True)


def processors(most: int = 2) -> tuple[str, str]:
    """The processors of the balancers, so many where there are as many again, and those of clients and origins."""
    mine = sorted(os.sched_getaffinity(0))
    if len(mine) < 2 * most:
        every = ",".join(map(str, mine))
        return every, every
    return ",".join(map(str, mine[:most])), ",".join(map(str, mine[most:]))


def parted(cores: str) -> tuple[str, str]:
    """Of these processors those of clients, and that of servers, each their own where there are two: else a server waits until the system
    takes a processor from a client, and the slowest answers tell of that."""
    each = cores.split(",")
    return (cores, cores) if len(each) < 2 else (",".join(each[:-1]), each[-1])


def ticks(cores: str) -> tuple[int, int]:
    """The ticks in which these processors had nothing to do, and all ticks, since the system began."""
    lines = [it.split() for it in Path("/proc/stat").read_text().splitlines()]
    names = {f"cpu{core}" for core in cores.split(",")}
    counts = [[*map(int, it[1:9])] for it in lines if it[0] in names]
    return sum(it[3] + it[4] for it in counts), sum(map(sum, counts))


def stolen() -> tuple[int, int]:
    """The ticks in which the machine below ran something else on all processors, and all ticks, since the system began."""
    counts = [*map(int, Path("/proc/stat").read_text().splitlines()[0].split()[1:9])]
    return counts[7], sum(counts)


def share(before: tuple[int, int], after: tuple[int, int]) -> float:
    """The share of the ticks between, in percent."""
    return 100 * (after[0] - before[0]) / max(after[1] - before[1], 1)


def raise_files() -> None:
    """Lets this process and those that it starts open as many files as the system allows."""
    most = resource.getrlimit(resource.RLIMIT_NOFILE)[1]
    resource.setrlimit(resource.RLIMIT_NOFILE, (most, most))


def started(words: list[str], cores: str) -> subprocess.Popen[bytes]:
    """Starts a program on these processors, in the session of this script: Linux shares a processor out between sessions, so with sessions of
    their own clients and servers would get other shares of theirs."""
    return subprocess.Popen(["taskset", "-c", cores, *words], stdin=subprocess.DEVNULL, stdout=subprocess.DEVNULL)


@contextlib.contextmanager
def starting_on(cores: str) -> Iterator[None]:
    """What this thread starts meanwhile has these processors."""
    before = os.sched_getaffinity(0)
    os.sched_setaffinity(0, {int(it) for it in cores.split(",")})
    try:
        yield
    finally:
        os.sched_setaffinity(0, before)


def wait_for(port: int) -> None:
    for _ in range(200):
        with contextlib.suppress(OSError), socket.create_connection(("127.0.0.1", port), 1):
            return
        time.sleep(0.05)
    raise SystemExit(f"nobody listens at port {port}")


def family(process: int) -> list[int]:
    """The process and all below it."""
    below = Path(f"/proc/{process}/task/{process}/children").read_text().split()
    return [process, *(it for child in below for it in family(int(child)))]


def spent(process: int) -> float:
    """The processor seconds of a process and all below it."""
    total = 0
    for it in family(process):
        fields = Path(f"/proc/{it}/stat").read_text().rpartition(")")[2].split()
        total += int(fields[11]) + int(fields[12])
    return total / TICKS


def resident(process: int) -> float:
    """The resident megabytes of a process and all below it."""
    kilobytes = 0
    for it in family(process):
        found = re.search(r"^VmRSS:\s+(\d+)", Path(f"/proc/{it}/status").read_text(), re.M)
        kilobytes += int(found[1]) if found else 0
    return kilobytes / 1024


def origins(folder: Path, cores: str, late: int = 0, cookies: bool = False) -> subprocess.Popen[bytes]:
    """Two servers that answer at once, or so many milliseconds late, by `origin.c`, which is built in this folder. With `cookies` each answer
    sets one."""
    program = str(folder / "origin")
    subprocess.run(["gcc", "-O2", "-Wall", "-pthread", "-o", program, str(BENCH / "origin.c")], check=True)
    own = parted(cores)[1]
    running = started([program, "-w", str(late), *(["-c"] if cookies else []), str(len(own.split(","))), *map(str, ORIGINS)], own)
    for port in ORIGINS:
        wait_for(port)
    return running


def seconds_of(text: str) -> float:
    number, unit = re.fullmatch(r"([\d.]+)(us|ms|s|m)", text).groups()
    return float(number) * {"us": 1e-6, "ms": 1e-3, "s": 1, "m": 60}[unit]


def load(port: int, clients: int, seconds: int, cores: str, script: Sequence[str] = ()) -> Told:
    """Loads the balancer at this port with one request a connection, or with what a script of `wrk` says."""
    own = parted(cores)[0]
    told = subprocess.run(
        ["taskset", "-c", own, "wrk", "-t", str(len(own.split(","))), "-c", str(clients), "-d", f"{seconds}s", "--latency", "--timeout", "5s",
         *(("-s", script[0]) if script else ("-H", "Connection: close")), f"http://127.0.0.1:{port}/", *(("--", *script[1:]) if script else ())],
        capture_output=True, text=True, check=True,
    ).stdout
    errors = re.search(r"Socket errors: connect (\d+), read (\d+), write (\d+), timeout (\d+)", told)
    refused = re.search(r"Non-2xx or 3xx responses: (\d+)", told)
    # wrk counts an answer whose end is the connection's as read well.
    failed = sum(map(int, errors.groups())) if errors else 0
    return Told(
        answered=int(re.search(r"(\d+) requests in", told)[1]),
        pace=float(re.search(r"Requests/sec:\s+([\d.]+)", told)[1]),
        late=seconds_of(re.search(r"^\s+99%\s+(\S+)", told, re.M)[1]),
        latest=seconds_of(re.search(r"Latency\s+\S+\s+\S+\s+(\S+)", told)[1]),
        failed=failed + (int(refused[1]) if refused else 0),
    )
