"""Slow clients beside others: 10,000 connections that send nothing, and 1,000 that send a byte of their head a second."""

from __future__ import annotations

import contextlib
import socket
import threading
import time
from pathlib import Path

from .clients import ask
from .farms import HOST, Farm, listen, server
from .origins import Origin, answers, response

IDLE, DRIPPING, CLIENTS = 10_000, 1_000, 64
SECONDS = 15.0
HEAD = b"GET / HTTP/1.1\r\nHost: x\r\nX: " + 1000 * b"x"
A = response(b"a")
# How long one request may take before it counts as lost.
LOST = 10.0


class Slow:
    """The slow clients."""

    def __init__(self, port: int) -> None:
        self.port = port
        self.idle: list[socket.socket] = []
        self.dripping: list[socket.socket] = []
        self.ended = threading.Event()
        self.thread = threading.Thread(target=self.drip, daemon=True)

    def connected(self, count: int) -> list[socket.socket]:
        """So many connections, or as many as are taken."""
        streams = []
        for _ in range(count):
            stream = socket.socket()
            stream.setblocking(False)
            with contextlib.suppress(BlockingIOError):
                stream.connect((HOST, self.port))
            streams.append(stream)
            if len(streams) % 100 == 0:
                time.sleep(0.01)
        return streams

    def start(self) -> None:
        self.dripping = self.connected(DRIPPING)
        self.idle = self.connected(IDLE)
        self.thread.start()

    def drip(self) -> None:
        place = 0
        while not self.ended.wait(1):
            for stream in self.dripping:
                with contextlib.suppress(OSError):
                    stream.send(HEAD[place % len(HEAD) : place % len(HEAD) + 1])
            place += 1

    def end(self) -> int:
        """Closes all, and tells how many the balancer had not closed before."""
        self.ended.set()
        self.thread.join()
        kept = 0
        for stream in (*self.idle, *self.dripping):
            try:
                stream.recv(1)
            except BlockingIOError:
                kept += 1
            except OSError:
                pass
            stream.close()
        return kept


def took(port: int, seconds: float) -> tuple[list[float], int]:
    """How many seconds each request of the normal clients took, and how many were lost."""
    times: list[float] = []
    lost = 0
    end = time.monotonic() + seconds

    def comes_again() -> None:
        nonlocal lost
        while (begin := time.monotonic()) < end:
            try:
                good = ask_within(port, LOST) == A
            except (OSError, AssertionError):
                good = False
            if good:
                times.append(time.monotonic() - begin)
            else:
                lost += 1

    threads = [threading.Thread(target=comes_again, daemon=True) for _ in range(CLIENTS)]
    for thread in threads:
        thread.start()
    for thread in threads:
        thread.join()
    return sorted(times), lost


def ask_within(port: int, limit: float) -> bytes:
    with socket.create_connection((HOST, port), limit) as stream:
        stream.sendall(b"GET / HTTP/1.1\r\nHost: x\r\n\r\n")
        data = b""
        while piece := stream.recv(1 << 16):
            data += piece
        return data


def tell(what: str, times: list[float], lost: int) -> float:
    """Tells of the requests, and gives the time within which 99 of 100 were answered."""
    slowest = times[int(len(times) * 0.99)] if times else float("inf")
    median = times[len(times) // 2] if times else float("inf")
    print(
        f"{what}: {len(times)} answered, {lost} lost, half within {median * 1e3:.1f} ms, 99 of 100 within {slowest * 1e3:.1f} ms",
        flush=True,
    )  # fmt: skip
    return slowest


def run(program: Path) -> int:
    """Compares the same load without slow clients and beside them. The status is 0 where nothing is lost, and 99 of 100 requests take at
    most twice as long beside them."""
    with Farm(program) as farm:
        origin = Origin(farm.port(), answers(b"a"), keeps=False)
        origin.open()
        farm.stack.callback(origin.close)
        port = farm.port()
        limits = ("timeout client 60s", "timeout connect 5s", "timeout server 10s")
        balancer = farm.start(listen(port, *limits, server("a", origin.port)), ("tune.relays 64",))
        alone = tell("alone", *took(port, SECONDS))
        slow = Slow(port)
        slow.start()
        times, lost = took(port, SECONDS)
        beside = tell(f"beside {IDLE} idle and {DRIPPING} slow clients", times, lost)
        print(f"resident: {balancer.resident() / 1e6:.1f} MB with {slow.end()} slow clients connected", flush=True)
        good = lost == 0 and ask(port, b"GET / HTTP/1.1\r\nHost: x\r\n\r\n") == A and beside <= 2 * alone
    print("1 passed, 0 failed" if good else "0 passed, 1 failed")
    return 0 if good else 1
