"""A balancer that runs on free ports of 127.0.0.1, with servers of its own, for scripts that try it."""

from __future__ import annotations

import random
import socket
import subprocess
import tempfile
import threading
import time
from collections.abc import Callable, Iterator, Mapping, Sequence
from contextlib import contextmanager
from pathlib import Path

from refusing import PROGRAM, ROOT, Ending, Shim

HOST = "127.0.0.1"
NO_SETTINGS: Mapping[str, str] = {}
# How many seconds anything may take that is to come at once.
PATIENCE = 10.0


def eventually(holds: Callable[[], bool], seconds: float = PATIENCE) -> bool:
    """Whether it holds before so many seconds are over."""
    end = time.monotonic() + seconds
    while not holds():
        if time.monotonic() > end:
            return False
        time.sleep(0.01)
    return True


def is_free(port: int) -> bool:
    """Whether nobody listens on the port now."""
    try:
        socket.create_server((HOST, port)).close()
    except OSError:
        return False
    return True


def free_ports(count: int) -> list[int]:
    """Ports that nobody listens on now, below those that the system gives to connections."""
    ports = random.sample(range(12000, 30000), 20 * count)
    return [port for port in ports if is_free(port)][:count]


def exchange(port: int, data: bytes) -> bytes:
    """Sends the bytes, and reads until the other side ends. What came is the answer where the connection breaks, or nothing where there
    is none."""
    answer = b""
    try:
        with socket.create_connection((HOST, port), timeout=PATIENCE) as connection:
            connection.sendall(data)
            while piece := connection.recv(65536):
                answer += piece
    except OSError:
        pass
    return answer


class Server:
    """A server that answers each request with its name. It can be stopped, and started again at its port."""

    def __init__(self, name: str, port: int) -> None:
        self.name, self.port = name, port
        self.start()

    def start(self) -> None:
        self.listener = socket.create_server((HOST, self.port))
        threading.Thread(target=self.accept, args=(self.listener,), daemon=True).start()

    def stop(self) -> None:
        """Ends the listener: a shutdown wakes the thread that accepts."""
        self.listener.shutdown(socket.SHUT_RDWR)
        self.listener.close()

    def accept(self, listener: socket.socket) -> None:
        while True:
            try:
                connection, _ = listener.accept()
            except OSError:
                return
            threading.Thread(target=self.answer, args=(connection,), daemon=True).start()

    def answer(self, connection: socket.socket) -> None:
        """Reads a request, and answers it. A check connects and says nothing."""
        with connection:
            try:
                connection.settimeout(PATIENCE)
                data = b""
                while not is_whole(data):
                    piece = connection.recv(65536)
                    if not piece:
                        return
                    data += piece
                text = f"HTTP/1.1 200 OK\r\nContent-Length: 1\r\nConnection: close\r\n\r\n{self.name}"
                connection.sendall(text.encode())
            except OSError:
                pass


def is_whole(data: bytes) -> bool:
    """Whether this is a request with its body. A server that closes behind bytes that it hasn't read resets the connection, and its answer
    can be lost."""
    head, end, body = data.partition(b"\r\n\r\n")
    return bool(end) and (b"Transfer-Encoding: chunked" not in head or body.endswith(b"0\r\n\r\n"))


class Farm:
    """Servers, and the ports of a balancer in front of them."""

    def __init__(self, names: Sequence[str]) -> None:
        self.clients, self.operators, *ports = free_ports(2 + len(names))
        self.servers = {name: Server(name, port) for name, port in zip(names, ports)}

    def config(self, each: str, more: str = "", size: int = 1000) -> str:
        """A configuration for these, with words for each server and lines for the backend."""
        lines = "".join(f"    server {server.name} {HOST}:{server.port} {each}\n" for server in self.servers.values())
        return (
            f"global\n    stats socket {HOST}:{self.operators}\n    tune.relays 2\n    tune.journal 100000\n"
            f"frontend f\n    bind {HOST}:{self.clients}\n    default_backend web\n"
            f"backend web\n    stick-table type string size {size}\n    stick on hdr(x-id)\n{more}{lines}"
        )

    def stop(self) -> None:
        for server in self.servers.values():
            server.stop()


class Balancer:
    """The program, as it runs."""

    def __init__(self, farm: Farm, process: subprocess.Popen[bytes]) -> None:
        self.farm, self.process = farm, process

    def request(self, key: str) -> bytes:
        """What a client with this key is answered."""
        return exchange(self.farm.clients, f"GET / HTTP/1.1\r\nHost: x\r\nX-Id: {key}\r\n\r\n".encode())

    def upload(self, key: str) -> bytes:
        """What a client with this key is answered that sends a body in chunks."""
        head = f"POST / HTTP/1.1\r\nHost: x\r\nX-Id: {key}\r\nTransfer-Encoding: chunked\r\n\r\n"
        return exchange(self.farm.clients, head.encode() + b"10\r\n0123456789abcdef\r\n0\r\n\r\n")

    def ask(self, line: str) -> str:
        """What an operator is answered."""
        return exchange(self.farm.operators, line.encode() + b"\n").decode()

    def is_up(self) -> bool:
        """Whether it takes operators' commands, or has ended."""
        return self.process.poll() is not None or bool(self.ask("show table web"))

    def rows(self) -> list[str]:
        return self.ask("show table web").splitlines()

    def journal(self) -> list[str]:
        return self.ask("show journal web").splitlines()

    def end(self) -> Ending:
        """What it ended with. It is killed where it doesn't end in time."""
        try:
            out, err = self.process.communicate(timeout=PATIENCE)
        except subprocess.TimeoutExpired:
            self.process.kill()
            out, err = self.process.communicate()
        return Ending(self.process.returncode, out, err)

    def stop(self) -> Ending:
        """Asks it to end, and waits."""
        self.ask("stop")
        return self.end()


@contextmanager
def running(farm: Farm, config: str, shim: Shim, settings: Mapping[str, str] = NO_SETTINGS) -> Iterator[Balancer]:
    """A balancer with this configuration, from its start on, with these settings in its environment beside the shim's. One that
    still runs in the end is killed."""
    with tempfile.TemporaryDirectory() as folder:
        file = Path(folder, "farm.cfg")
        file.write_text(config, encoding="ascii")
        words = [str(PROGRAM), "run", "-f", str(file)]
        process = subprocess.Popen(
            words,
            cwd=ROOT,
            env={**shim.environment(), **settings},
            stdin=subprocess.DEVNULL,
            stdout=subprocess.PIPE,
            stderr=subprocess.PIPE,
        )
        try:
            yield Balancer(farm, process)
        finally:
            if process.poll() is None:
                process.kill()
                process.communicate()
