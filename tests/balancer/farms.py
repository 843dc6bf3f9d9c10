"""Balancers, each with a folder, ports and origins of its own, that end with the test that made them."""

from __future__ import annotations

import contextlib
import os
import re
import signal
import socket
import subprocess
import tempfile
import threading
import time
from dataclasses import dataclass
from pathlib import Path

from .cases import PATIENCE, expect, expect_equal, wait_until
from .clients import ask_operator
from .origins import Handler, Origin, answers

HOST = "127.0.0.1"


@dataclass(frozen=True)
class Entry:
    """A line of a journal. The moments of the event are told as `N`, since no test knows them."""

    number: int
    event: str
    reply: str

    @property
    def text(self) -> str:
        return f"{self.event} -> {self.reply}"


@dataclass(frozen=True)
class Ending:
    """How a program ended, and what it had printed."""

    status: int
    out: str
    err: str


def entries_of(text: str) -> list[Entry]:
    """The entries of a journal as `show journal` prints it, its last empty line included."""
    entries = []
    for line in text.splitlines()[:-1]:
        found = re.fullmatch(r"(\d+) (.*) -> (.*)", line)
        expect(f"a line of a journal: {line!r}", found is not None)
        assert found is not None
        event = re.sub(r"^(serve|expire|set) \d+", r"\1 N", found[2])
        entries.append(Entry(int(found[1]), event, found[3]))
    return entries


def open_slots(entries: list[Entry]) -> dict[str, int]:
    """How many connections the entries leave open, by their servers."""
    slots: dict[str, int] = {}
    for entry in entries:
        for word, step in (("opened ", 1), ("closed ", -1)):
            if entry.reply.startswith(word):
                server = entry.reply.removeprefix(word)
                slots[server] = slots.get(server, 0) + step
    return {server: count for server, count in slots.items() if count != 0}


class Balancer:
    """A running program, under a configuration that lies in its folder."""

    def __init__(self, process: subprocess.Popen[bytes], out: Path, err: Path, operators: Path | tuple[str, int]) -> None:
        self.process = process
        self.out, self.err = out, err
        self.operators = operators

    def errors(self) -> str:
        """What was written to standard error so far."""
        return self.err.read_text()

    def wait_listening(self, doors: int) -> None:
        """Waits until all addresses are told."""
        wait_until(f"{doors} lines that it listens", lambda: self.has_ended() or self.errors().count("listening on ") >= doors)
        expect(f"it runs: {self.errors()!r}", not self.has_ended())

    def has_ended(self) -> bool:
        return self.process.poll() is not None

    def tell(self, line: str) -> str:
        """The answer to an operator's line."""
        return ask_operator(self.operators, line.encode() + b"\n").decode()

    def journal(self, backend: str) -> list[Entry]:
        return entries_of(self.tell(f"show journal {backend}"))

    def events(self, backend: str) -> list[str]:
        """The journal without its numbers."""
        return [entry.text for entry in self.journal(backend)]

    def wait_all_closed(self, backend: str) -> None:
        """Waits until no connection to a server is open."""
        wait_until(f"no slot of {backend} is open", lambda: open_slots(self.journal(backend)) == {})

    def wait(self) -> Ending:
        """Waits until the program has ended."""
        status = self.process.wait(PATIENCE)
        return Ending(status, self.out.read_text(), self.err.read_text())

    def stop(self) -> Ending:
        """Ends the program by the command for it."""
        expect_equal("the answer to `stop`", self.tell("stop"), "\n")
        return self.wait()

    def end(self, with_signal: signal.Signals = signal.SIGKILL) -> int:
        """Ends the program by a signal, if it still runs."""
        if not self.has_ended():
            self.process.send_signal(with_signal)
        return self.process.wait(PATIENCE)

    def descriptors(self) -> int:
        """How many files and sockets the program has open."""
        return len(os.listdir(f"/proc/{self.process.pid}/fd"))

    def resident(self) -> int:
        """The resident memory of the program, in bytes."""
        pages = int(Path(f"/proc/{self.process.pid}/statm").read_text().split()[1])
        return pages * os.sysconf("SC_PAGE_SIZE")


# Farms that have not ended yet, whether all are to end, and who may look at both.
FARMS: set[Farm] = set()
ENDING = threading.Event()
TURN = threading.RLock()


def end_all(number: int, _: object) -> None:
    """Ends all farms, and then the program: what a signal to it does."""
    with TURN:
        ENDING.set()
    for farm in list(FARMS):
        with contextlib.suppress(Exception):
            farm.stack.close()
    # Tests that fail over it end their farms themselves, and have a while for it.
    end = time.monotonic() + 3
    while FARMS and time.monotonic() < end:
        time.sleep(0.05)
    os._exit(128 + number)


class Farm:
    """What one test has: a folder, reserved ports, origins and balancers. All of it ends with the test."""

    def __init__(self, program: Path) -> None:
        self.program = program
        self.stack = contextlib.ExitStack()
        self.folder = Path(self.stack.enter_context(tempfile.TemporaryDirectory(prefix="balance.")))
        self.operators: Path | tuple[str, int] = self.folder / "operators"
        # What stands on the command line after the configuration.
        self.words: tuple[str, ...] = ()
        self.origins = 0
        self.balancers = 0

    def __enter__(self) -> Farm:
        with TURN:
            FARMS.add(self)
        return self

    def __exit__(self, *_: object) -> None:
        self.stack.close()
        with TURN:
            FARMS.discard(self)

    def port(self) -> int:
        """A port that nobody else gets while the test runs. Nobody listens there, so that connections to it are refused."""
        # Linux gives the port of a bound socket to nobody who asks for any port, and lets others who say so bind it as well.
        holder = self.stack.enter_context(socket.socket())
        holder.setsockopt(socket.SOL_SOCKET, socket.SO_REUSEADDR, 1)
        holder.bind((HOST, 0))
        number: int = holder.getsockname()[1]
        return number

    def origin(self, handler: Handler | None = None, port: int | None = None) -> Origin:
        """A server behind the balancer. Without a handler it answers each request with its name, `a` being the first one's."""
        name = chr(ord("a") + self.origins % 26)
        self.origins += 1
        origin = Origin(port or self.port(), handler or answers(name.encode()))
        self.stack.callback(origin.close)
        origin.open()
        return origin

    def spawn(self, text: str, out: Path, err: Path, most_files: int | None = None, closed: bool = False) -> subprocess.Popen[bytes]:
        """Starts the program under this configuration, with so many open files at most, and with `closed` without standard streams. It is
        killed with the farm, if it still runs."""
        self.balancers += 1
        config = self.folder / f"{self.balancers}.cfg"
        config.write_text(text)
        words = [str(self.program), "run", "-f", str(config), *self.words]
        limit = "" if most_files is None else f"ulimit -n {most_files} && "
        without = " <&- >&- 2>&-" if closed else ""
        if limit or without:
            words = ["sh", "-c", f'{limit}exec "$@"{without}', "sh", *words]
        with out.open("wb") as to_out, err.open("wb") as to_err, TURN:
            expect("the tests go on", not ENDING.is_set())
            process = subprocess.Popen(words, stdin=subprocess.DEVNULL, stdout=to_out, stderr=to_err)
            self.stack.callback(process.wait, PATIENCE)
            self.stack.callback(process.kill)
        return process

    def launch(self, sections: str, settings: tuple[str, ...] = (), operators: bool = True, most_files: int | None = None) -> Balancer:
        """Starts a balancer, and doesn't wait for it. With `operators` it has a command socket in the test's folder."""
        lines = list(settings)
        if operators:
            place = self.operators if isinstance(self.operators, Path) else f"ipv4@{self.operators[0]}:{self.operators[1]}"
            lines.insert(0, f"stats socket {place}")
        out, err = (self.folder / f"{self.balancers}.{word}" for word in ("out", "err"))
        process = self.spawn(section("global", *lines) + sections, out, err, most_files)
        return Balancer(process, out, err, self.operators)

    def start(self, sections: str, settings: tuple[str, ...] = (), operators: bool = True, most_files: int | None = None) -> Balancer:
        """Starts a balancer, and waits until it listens."""
        balancer = self.launch(sections, settings, operators, most_files)
        balancer.wait_listening(sections.count("\n  bind "))
        return balancer


def section(head: str, *lines: str) -> str:
    """A section of a configuration."""
    return "".join([f"{head}\n", *(f"  {line}\n" for line in lines)])


def listen(port: int, *lines: str, name: str = "web") -> str:
    """A section that listens at a port of this machine, and is a backend too."""
    return section(f"listen {name}", f"bind {HOST}:{port}", *lines)


def server(name: str, at: Origin | int, parameters: str = "") -> str:
    """The line of a server."""
    port = at if isinstance(at, int) else at.port
    return f"server {name} {HOST}:{port} {parameters}".rstrip()


TABLE = ("stick-table type string size 1000", "stick on hdr(x-id)")
LIMITS = ("timeout client 20s", "timeout connect 20s", "timeout server 20s")


def ends_well(balancer: Balancer, *backends: str, checked: bool = False, whole: bool = True) -> dict[str, int]:
    """Judges the journals of all backends and the end of the program: no connection to a server is left open, `stop` is answered, and the
    numbers told at the end are the journals'. With `checked` there may be later events. Where a journal isn't `whole`, that slots are
    closed is for the caller to judge. The numbers are answered."""
    names = backends or ("web",)
    counts = {}
    for name in names:
        if whole:
            balancer.wait_all_closed(name)
        entries = balancer.journal(name)
        expect(f"no close without an open in {name}", all(entry.reply != "32 NotOpen" for entry in entries))
        expect_equal(
            f"numbers of {name}", [it.number for it in entries], list(range(entries[0].number, entries[-1].number + 1)) if entries else []
        )
        counts[name] = entries[-1].number + 1 if entries else 0
    ended = balancer.stop()
    expect_equal("the status at the end", ended.status, 0)
    if checked:
        told = re.findall(r"^closed (\S+) events (\d+) rising yes$", ended.out, re.M)
        expect_equal("the backends told at the end", [name for name, _ in told], list(names))
        expect(f"no event is lost: {ended.out!r}", all(int(count) >= counts[name] for name, count in told))
    else:
        expect_equal("what is told at the end", ended.out, "".join(f"closed {name} events {counts[name]} rising yes\n" for name in names))
    return counts
