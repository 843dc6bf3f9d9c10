"""Clients and servers that do harm, for the tests and for `bench/hostile`: floods, drips, and servers that go dark."""

from __future__ import annotations

import contextlib
import selectors
import socket
import threading
from collections.abc import Iterator
from typing import Protocol

from .cases import PATIENCE
from .clients import HOST, Client


# How many connections keep a dark server busy, or wait for it.
DARKENED = 4


class Flag(Protocol):
    """An event, of a thread or of a process."""

    def is_set(self) -> bool: ...


def attack(port: int, count: int, over: Flag) -> int:
    """Keeps so many idle connections, and opens each anew as soon as it is let go. Says how many were opened."""
    opened = 0
    with selectors.DefaultSelector() as waiting, contextlib.ExitStack() as stack:

        def open_one() -> None:
            nonlocal opened
            stream = socket.socket()
            stream.setblocking(False)
            with contextlib.suppress(BlockingIOError):
                stream.connect((HOST, port))
            waiting.register(stream, selectors.EVENT_READ)
            opened += 1

        stack.callback(lambda: [key.fileobj.close() for key in waiting.get_map().values()])  # type: ignore[union-attr]
        for _ in range(count):
            open_one()
        while not over.is_set():
            for key, _ in waiting.select(0.1):
                waiting.unregister(key.fileobj)
                key.fileobj.close()  # type: ignore[union-attr]
                open_one()
    return opened


@contextlib.contextmanager
def dripping(client: Client, every: float) -> Iterator[None]:
    """Meanwhile the client sends a byte each so many seconds, for as long as the balancer lets it."""
    over = threading.Event()

    def drip() -> None:
        with contextlib.suppress(OSError):
            while not over.wait(every):
                client.send(b"x")

    thread = threading.Thread(target=drip, daemon=True)
    thread.start()
    try:
        yield
    finally:
        over.set()
        thread.join(PATIENCE)


def darken(stack: contextlib.ExitStack, listener: socket.socket) -> None:
    """From here on no connection to this server is taken, and none is refused."""
    listener.listen(0)
    # The system keeps one connection or two for a server that doesn't accept, and lets others wait.
    for _ in range(DARKENED):
        waiting = stack.enter_context(socket.socket())
        waiting.setblocking(False)
        with contextlib.suppress(BlockingIOError):
            waiting.connect(listener.getsockname())


def dark_server(stack: contextlib.ExitStack) -> int:
    """The port of a server that is dark from the start."""
    silent = stack.enter_context(socket.socket())
    silent.bind((HOST, 0))
    darken(stack, silent)
    return int(silent.getsockname()[1])
