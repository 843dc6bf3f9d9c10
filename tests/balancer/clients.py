"""Clients of the balancer, and operators at its command socket. Each wait is bounded."""

from __future__ import annotations

import contextlib
import socket
import threading
from collections.abc import Callable, Iterable
from pathlib import Path
from typing import TypeVar

from .cases import PATIENCE, Failure
from .origins import LINGER_NOT

HOST = "127.0.0.1"

Item = TypeVar("Item")
Result = TypeVar("Result")


def read_to_end(stream: socket.socket) -> bytes:
    """All that still comes. A reset ends it too. Fails where the end doesn't come."""
    pieces = []
    try:
        while piece := stream.recv(1 << 16):
            pieces.append(piece)
    except (ConnectionResetError, BrokenPipeError):
        pass
    except TimeoutError as error:
        raise Failure(f"the connection doesn't end behind {b''.join(pieces)[-200:]!r}") from error
    return b"".join(pieces)


class Client:
    """One connection to the balancer."""

    def __init__(self, port: int, limit: float = PATIENCE) -> None:
        self.stream = socket.create_connection((HOST, port), limit)
        self.stream.setsockopt(socket.IPPROTO_TCP, socket.TCP_NODELAY, 1)

    def __enter__(self) -> Client:
        return self

    def __exit__(self, *_: object) -> None:
        self.stream.close()

    def send(self, data: bytes) -> None:
        self.stream.sendall(data)

    def send_what_is_taken(self, data: bytes) -> None:
        """Sends, and is content where the balancer ends the connection meanwhile."""
        with contextlib.suppress(ConnectionResetError, BrokenPipeError):
            self.stream.sendall(data)

    def end_sending(self) -> None:
        with contextlib.suppress(OSError):
            self.stream.shutdown(socket.SHUT_WR)

    def read_bytes(self, count: int) -> bytes:
        """This many bytes, or fewer where the connection ends before."""
        data = b""
        while len(data) < count and (piece := self.stream.recv(count - len(data))):
            data += piece
        return data

    def read_to_end(self) -> bytes:
        return read_to_end(self.stream)

    def reset(self) -> None:
        self.stream.setsockopt(socket.SOL_SOCKET, socket.SO_LINGER, LINGER_NOT)
        self.stream.close()


def ask(port: int, request: bytes, ends: bool = False) -> bytes:
    """All that the client of one request gets. With `ends` it ends its own direction behind the request."""
    with Client(port) as client:
        client.send_what_is_taken(request)
        if ends:
            client.end_sending()
        return client.read_to_end()


def get(port: int, *fields: str, target: str = "/") -> bytes:
    """All that the client gets of a plain request with these fields."""
    lines = [f"GET {target} HTTP/1.1", "Host: x", *fields, "", ""]
    return ask(port, "\r\n".join(lines).encode())


def is_refused(port: int) -> bool:
    """Whether nobody listens there."""
    try:
        with socket.create_connection((HOST, port), 1):
            return False
    except OSError:
        return True


def operator_stream(at: Path | tuple[str, int], limit: float = PATIENCE) -> socket.socket:
    """A connection to a command socket."""
    if isinstance(at, Path):
        stream = socket.socket(socket.AF_UNIX)
        stream.settimeout(limit)
        stream.connect(str(at))
        return stream
    return socket.create_connection(at, limit)


def ask_operator(at: Path | tuple[str, int], data: bytes, ends: bool = False) -> bytes:
    """All that an operator gets for these bytes. With `ends` nothing more is sent behind them."""
    with operator_stream(at) as stream:
        with contextlib.suppress(ConnectionResetError, BrokenPipeError):
            stream.sendall(data)
            if ends:
                stream.shutdown(socket.SHUT_WR)
        return read_to_end(stream)


def at_once(work: Callable[[Item], Result], items: Iterable[Item]) -> list[Result]:
    """The results of the work on all items, each in a thread of its own. Fails with the first failure of them."""
    every = list(items)
    results: dict[int, Result] = {}
    failures: list[BaseException] = []

    def run(place: int, item: Item) -> None:
        try:
            results[place] = work(item)
        except BaseException as failure:  # noqa: BLE001 - told to the caller
            failures.append(failure)

    threads = [threading.Thread(target=run, args=(place, item), daemon=True) for place, item in enumerate(every)]
    for thread in threads:
        thread.start()
    for thread in threads:
        thread.join(2 * PATIENCE)
    if failures:
        raise failures[0]
    if len(results) < len(every):
        raise Failure(f"{len(every) - len(results)} of {len(every)} threads don't end")
    return [results[place] for place in range(len(every))]
