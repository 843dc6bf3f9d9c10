"""Servers behind the balancer. They keep each byte that they get, and answer as their handler says."""

from __future__ import annotations

import contextlib
import socket
import struct
import threading
from collections.abc import Callable

from .cases import PATIENCE, expect_equal, wait_until
from .readers import Whole, read_strictly

HOST = "127.0.0.1"
# Ends a connection by a reset in place of an orderly end.
LINGER_NOT = struct.pack("ii", 1, 0)


class Talk:
    """One connection of the balancer to an origin."""

    def __init__(self, stream: socket.socket) -> None:
        self.stream = stream
        self.received = b""
        # Set where the balancer has ended its direction, or the connection.
        self.ended = threading.Event()
        # Set where the handler is done.
        self.done = threading.Event()

    def read(self) -> bool:
        """Takes in what comes next. False at the end."""
        try:
            piece = self.stream.recv(1 << 16)
        except OSError:
            piece = b""
        self.received += piece
        if not piece:
            self.ended.set()
        return bool(piece)

    def read_until(self, text: bytes) -> bool:
        """Reads until this text stands in what came. False where the end came before."""
        while text not in self.received:
            if not self.read():
                return False
        return True

    def read_request(self) -> bool:
        """Reads one request by its head. False where the end came before its end."""
        while not isinstance(read_strictly(self.received), Whole):
            if not self.read():
                return False
        return True

    def read_to_end(self) -> None:
        while self.read():
            pass

    def send(self, data: bytes) -> None:
        with contextlib.suppress(OSError):
            self.stream.sendall(data)

    def end(self) -> None:
        """Ends in order: no byte that was sent is lost, and what still comes is read."""
        with contextlib.suppress(OSError):
            self.stream.shutdown(socket.SHUT_WR)
        self.read_to_end()

    def reset(self) -> None:
        """Ends the connection by a reset."""
        self.stream.setsockopt(socket.SOL_SOCKET, socket.SO_LINGER, LINGER_NOT)
        self.stream.close()


Handler = Callable[[Talk], None]


class Origin:
    """A server at a port of this machine. Each connection has a thread of its own."""

    def __init__(self, port: int, handler: Handler, keeps: bool = True, host: str = HOST) -> None:
        """Where it doesn't keep what comes, it may serve for hours."""
        self.host = host
        self.port = port
        self.handler = handler
        self.keeps = keeps
        self.talks: list[Talk] = []
        self.listener: socket.socket | None = None

    def open(self) -> None:
        """Begins to listen."""
        listener = socket.socket()
        listener.setsockopt(socket.SOL_SOCKET, socket.SO_REUSEADDR, 1)
        listener.bind((self.host, self.port))
        listener.listen(4096)
        self.listener = listener
        threading.Thread(target=self.accept_all, args=(listener,), daemon=True).start()

    def close(self) -> None:
        """Ends listening, so that connections are refused. Connections that are there go on."""
        if self.listener is not None:
            with contextlib.suppress(OSError):
                self.listener.shutdown(socket.SHUT_RDWR)
            self.listener.close()
            self.listener = None

    def accept_all(self, listener: socket.socket) -> None:
        while True:
            try:
                stream, _ = listener.accept()
            except OSError:
                return
            stream.settimeout(2 * PATIENCE)
            talk = Talk(stream)
            if self.keeps:
                self.talks.append(talk)
            threading.Thread(target=self.serve, args=(talk,), daemon=True).start()

    def serve(self, talk: Talk) -> None:
        try:
            self.handler(talk)
        finally:
            with contextlib.suppress(OSError):
                talk.stream.close()
            talk.done.set()

    def requests(self, count: int) -> list[bytes]:
        """What came over each connection, once this many connections are done. Fails where there are more."""
        wait_until(
            f"{count} connections at an origin are done", lambda: len(self.talks) >= count and all(it.done.is_set() for it in self.talks)
        )
        expect_equal("connections at an origin", len(self.talks), count)
        return [it.received for it in self.talks]


def response(body: bytes, status: str = "200 OK") -> bytes:
    """A whole response."""
    return f"HTTP/1.1 {status}\r\nContent-Length: {len(body)}\r\nConnection: close\r\n\r\n".encode() + body


def answers(body: bytes) -> Handler:
    """Answers each request with this body."""
    return sends(response(body))


def sends(data: bytes) -> Handler:
    """Answers each request with these bytes, whatever they are."""

    def handle(talk: Talk) -> None:
        if talk.read_request():
            talk.send(data)
            talk.end()

    return handle


class Gate:
    """A handler that holds each whole request until the test lets it go on."""

    def __init__(self, behind: Handler) -> None:
        self.behind = behind
        self.opened = threading.Event()
        self.waiting = 0
        self.lock = threading.Lock()

    def __call__(self, talk: Talk) -> None:
        if not talk.read_request():
            return
        with self.lock:
            self.waiting += 1
        self.opened.wait(2 * PATIENCE)
        self.behind(talk)

    def wait_for(self, count: int) -> None:
        """Waits until this many requests have come."""
        wait_until(f"{count} requests at an origin", lambda: self.waiting >= count)

    def open(self) -> None:
        self.opened.set()
