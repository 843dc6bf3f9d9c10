"""The rows of `hostile`. Each starts a balancer with servers of its own, attacks it, and says what others got."""

from __future__ import annotations

import contextlib
import math
import multiprocessing
import random
import re
import selectors
import shutil
import socket
import statistics
import threading
import time
from collections.abc import Callable, Iterator
from dataclasses import dataclass
from pathlib import Path
from typing import Any

from asking import Askers, Page, Span, span
from balancer.cases import expect, expect_equal, wait_until
from balancer.clients import HOST, Client, at_once
from balancer.farms import TABLE, Balancer, Farm, listen, section, server
from balancer.hostile import attack, darken, dripping
from balancer.origins import LINGER_NOT, Talk, answers, response
from balancer.waits import late
from loading import ORIGINS, Told, load, origins, resident, say, started, starting_on, wait_for

# Without the last line HAProxy would keep the connection, and a client that reads to the end would wait for that.
GET = b"GET / HTTP/1.1\r\nHost: x\r\nConnection: close\r\n\r\n"
WORKERS = "tune.relays 16"
LIMITS = ("timeout client 10s", "timeout connect 3s", "timeout server 10s")


@dataclass(frozen=True)
class Bench:
    """What a run of the script was asked for. A number that isn't None makes it a look."""

    program: Path
    # The processors of balancers, and those of clients and servers.
    own: str
    others: str
    seconds: int | None
    rounds: int | None
    resets: int | None

    @property
    def is_look(self) -> bool:
        return any(it is not None for it in (self.seconds, self.rounds, self.resets))

    def start(self, farm: Farm, sections: str, most_files: int | None = None) -> Balancer:
        """Starts the balancer, on its processors."""
        with starting_on(self.own):
            return farm.start(sections, (WORKERS,), most_files=most_files)


@dataclass(frozen=True)
class Row:
    """What came of a row."""

    goal: str
    seen: str
    met: bool


def stop_well(balancer: Balancer) -> None:
    """Ends the balancer, which has to end well."""
    ended = balancer.stop()
    expect_equal("the status at the end", ended.status, 0)


# --- dark ----------------------------------------------------------------------------------------------------------------------------

SERVERS = 128
# The seconds within which the last dark server has to be down, and for which others are watched before.
SPAN = 9.0
# For how many seconds the last one is waited for.
MOST_DARK = 60.0
# Each client asks again after so many seconds.
PACE = 0.2
LEAST_SHARE = 0.95


class Servers(threading.Thread):
    """Servers that answer each request at once, all in one thread, until some of them go dark."""

    def __init__(self, stack: contextlib.ExitStack) -> None:
        super().__init__(daemon=True)
        self.stack = stack
        self.chosen = stack.enter_context(selectors.DefaultSelector())
        self.listeners = [self.listener() for _ in range(SERVERS)]
        self.to_darken: list[socket.socket] = []
        self.darkened, self.over = threading.Event(), threading.Event()
        stack.callback(self.end)

    def listener(self) -> socket.socket:
        listener = self.stack.enter_context(socket.create_server((HOST, 0), backlog=4096))
        listener.setblocking(False)
        self.chosen.register(listener, selectors.EVENT_READ, self.accept)
        return listener

    def ports(self) -> list[int]:
        return [int(it.getsockname()[1]) for it in self.listeners]

    def run(self) -> None:
        while not self.over.is_set():
            if self.to_darken and not self.darkened.is_set():
                self.go_dark()
            for key, _ in self.chosen.select(0.02):
                key.data(key.fileobj)

    def accept(self, listener: socket.socket) -> None:
        with contextlib.suppress(BlockingIOError):
            stream, _ = listener.accept()
            stream.setblocking(False)
            self.chosen.register(stream, selectors.EVENT_READ, self.answer)

    def answer(self, stream: socket.socket) -> None:
        """A request comes in one piece. A check sends none."""
        self.chosen.unregister(stream)
        with stream, contextlib.suppress(OSError):
            if stream.recv(1 << 16):
                stream.sendall(response(b"a"))

    def go_dark(self) -> None:
        for listener in self.to_darken:
            self.chosen.unregister(listener)
            darken(self.stack, listener)
        self.darkened.set()

    def darken(self, which: slice) -> float:
        """Has these go dark, and says at which moment that began."""
        begun = time.monotonic()
        self.to_darken = self.listeners[which]
        expect("they go dark", self.darkened.wait(10))
        return begun

    def end(self) -> None:
        self.over.set()
        self.join(10)


def keyed(key: str) -> bytes:
    return f"GET / HTTP/1.1\r\nHost: x\r\nConnection: close\r\nx-id: {key}\r\n\r\n".encode()


def pins_of(balancer: Balancer) -> dict[str, str]:
    """The server of each key."""
    return dict(re.findall(r"^key=(\S+) .*?server=(\S+)", balancer.tell("show table web"), re.M))


def down(balancer: Balancer) -> list[int]:
    """The places of the servers that are known to be down."""
    return [int(it) for it in re.findall(r"^Server web/s(\d+) is DOWN$", balancer.errors(), re.M)]


def moment_of(count: int, balancer: Balancer, begun: float) -> float:
    """The moment at which so many servers are known to be down, or that of giving up."""
    while len(down(balancer)) < count and time.monotonic() < begun + MOST_DARK:
        time.sleep(0.01)
    return time.monotonic()


def pinned(page: Page, balancer: Balancer, dark: bool) -> Askers:
    """Clients with pins at servers that go dark, which have odd places, or with pins at the others."""
    keys = [key for key, name in pins_of(balancer).items() if int(name[1:]) % 2 == dark]
    return Askers(page, [keyed(key) for key in keys], PACE)


def dark(bench: Bench) -> Row:
    with Farm(bench.program) as farm:
        servers = Servers(farm.stack)
        servers.start()
        port = farm.port()
        lines = [server(f"s{place}", at, "check inter 2s fall 3") for place, at in enumerate(servers.ports())]
        balancer = bench.start(farm, listen(port, *LIMITS, *TABLE, *lines))
        page = Page(port)
        with Askers(page, [keyed(f"k{place}") for place in range(SERVERS)], PACE):
            wait_until("all keys have pins", lambda: len(pins_of(balancer)) == SERVERS)
        with pinned(page, balancer, False) as well, pinned(page, balancer, True) as lost:
            time.sleep(1 + SPAN)
            fell = servers.darken(slice(1, None, 2))
            last = moment_of(SERVERS // 2, balancer, fell)
            is_down = down(balancer)
            time.sleep(1)
        before, meanwhile = (span(well.asked, *it) for it in ((fell - SPAN, fell), (fell, last)))
        those = span(lost.asked, fell, last)
        stop_well(balancer)
    return judged_dark(last - fell, is_down, before, meanwhile, those)


def judged_dark(took: float, is_down: list[int], before: Span, meanwhile: Span, lost: Span) -> Row:
    of_dark = sum(place % 2 for place in is_down)
    wrong = len(is_down) - of_dark
    ratio = meanwhile.pace / before.pace if before.good else 0.0
    seen = (
        f"{of_dark} of {SERVERS // 2} down after {took:.1f} s, {wrong} others down; clients of the others: {meanwhile.pace:.0f} good answers a"
        f" second, {before.pace:.0f} before ({ratio:.2f} times; {meanwhile}); clients of dark ones: {lost}"
    )
    met = of_dark == SERVERS // 2 and took <= SPAN and not wrong and ratio >= LEAST_SHARE and not meanwhile.others
    return Row(f"9 s; {LEAST_SHARE} times, no other answer", seen, met)


# --- stop ----------------------------------------------------------------------------------------------------------------------------

DRIPPED = {"head": b"GET /", "body": b"POST / HTTP/1.1\r\nHost: x\r\nContent-Length: 1000000\r\n\r\n"}
MOST_STOP = 11.0
# For how many seconds the end is waited for.
PATIENCE_AT_STOP = 30.0


@dataclass(frozen=True)
class Stopped:
    """How long a stop took, or None if it took too long, and how it ended."""

    seconds: float | None
    status: int

    def __str__(self) -> str:
        return f"{self.seconds:.1f} s, status {self.status}" if self.seconds else f"more than {PATIENCE_AT_STOP:.0f} s"

    @property
    def is_good(self) -> bool:
        return self.seconds is not None and self.seconds <= MOST_STOP and self.status == 0


def seconds_to_end(balancer: Balancer) -> float | None:
    """From now to the end of the process."""
    begun = time.monotonic()
    while not balancer.has_ended():
        if time.monotonic() > begun + PATIENCE_AT_STOP:
            return None
        time.sleep(0.01)
    return time.monotonic() - begun


def stopped_beside(bench: Bench, begin: bytes) -> Stopped:
    """A stop beside a client that began so and drips."""
    with Farm(bench.program) as farm:
        port = farm.port()
        balancer = bench.start(farm, listen(port, *LIMITS, server("a", farm.origin(Talk.read_to_end))))
        with Client(port) as client:
            client.send(begin)
            with dripping(client, 1.0):
                time.sleep(3)
                expect_equal("the answer to `stop`", balancer.tell("stop"), "\n")
                took = seconds_to_end(balancer)
        # A client that still drips has left by now.
        return Stopped(took, balancer.wait().status)


def stop(bench: Bench) -> Row:
    ended = dict(zip(DRIPPED, at_once(lambda it: stopped_beside(bench, it), DRIPPED.values())))
    seen = "; ".join(f"with a {what} that drips: {it}" for what, it in ended.items())
    return Row(f"{MOST_STOP:.0f} s", seen, all(it.is_good for it in ended.values()))


# --- flood ---------------------------------------------------------------------------------------------------------------------------

FILES = 1024
HONEST = 8
# For how many seconds an honest client's head is under way once it has connected.
GAP = 0.005
FLOOD_SECONDS = 15


def attack_counted(port: int, count: int, over: Any, opened: Any) -> None:
    """Attacks, and leaves how many connections were opened."""
    opened.value = attack(port, count, over)


class Attacker:
    """A process that keeps so many idle connections meanwhile."""

    def __init__(self, stack: contextlib.ExitStack, port: int, count: int) -> None:
        context = multiprocessing.get_context("spawn")
        self.over, self.opened = context.Event(), context.Value("i", 0)
        self.process = context.Process(target=attack_counted, args=(port, count, self.over, self.opened), daemon=True)
        self.process.start()
        stack.callback(self.process.kill)

    def end(self) -> int:
        """How many connections it has opened."""
        self.over.set()
        self.process.join(30)
        expect_equal("the attacker's end", self.process.exitcode, 0)
        return int(self.opened.value)


def beside_flood(bench: Bench, at_another: bool) -> tuple[Span, str]:
    """What honest clients get at the address that is flooded, or at another one of the same balancer, and of the flood in words."""
    with Farm(bench.program) as farm:
        ports = farm.port(), farm.port()
        lines = (*LIMITS, server("a", farm.origin(answers(b"a")), "check inter 500ms fall 3"))
        sections = "".join(listen(port, *lines, name=name) for port, name in zip(ports, ("flooded", "other")))
        balancer = bench.start(farm, sections, most_files=FILES)
        begun = time.monotonic()
        attacker = Attacker(farm.stack, ports[0], 2 * FILES)
        wait_until("as many are connected as may be", lambda: balancer.descriptors() > FILES // 3)
        time.sleep(1)
        with Askers(Page(ports[at_another], gap=GAP), [GET] * HONEST, 0) as honest:
            begin = time.monotonic()
            time.sleep(bench.seconds or FLOOD_SECONDS)
            end = time.monotonic()
        opened, lasted = attacker.end(), time.monotonic() - begun
        downs = balancer.errors().count("is DOWN")
        stop_well(balancer)
    return span(honest.asked, begin, end), f"{opened / lasted:.0f} connections a second opened, {downs} times DOWN"


def judged_flood(got: Span, words: str) -> Row:
    refused, every = got.others.total(), got.kinds.total()
    seen = f"{refused} of {every} refused ({100 * refused / max(1, every):.1f} %): {got}; {words}"
    return Row("0", seen, refused == 0 and got.good > 0)


def flood(bench: Bench) -> Row:
    return judged_flood(*beside_flood(bench, False))


def binds(bench: Bench) -> Row:
    return judged_flood(*beside_flood(bench, True))


# --- drips ---------------------------------------------------------------------------------------------------------------------------

SLOW = 16
CLIENTS = 64
DRIP_SECONDS = 5
DRIP_ROUNDS = 10
MOST_TIMES = 2.0
LONG = bytes(20 << 20)
# What a reader takes each tenth of a second.
TAKES = 10_000


class Slow(threading.Thread):
    """Clients whose bodies drip a byte a second, and readers at 100 KB a second of a long answer."""

    def __init__(self, stack: contextlib.ExitStack, port: int) -> None:
        super().__init__(daemon=True)
        self.bodies = [stack.enter_context(Client(port)).stream for _ in range(SLOW)]
        self.readers = [stack.enter_context(Client(port)).stream for _ in range(SLOW)]
        for stream in self.bodies:
            stream.sendall(b"POST /slow HTTP/1.1\r\nHost: x\r\nContent-Length: 1000000\r\n\r\n")
        for stream in self.readers:
            stream.sendall(b"GET /slow HTTP/1.1\r\nHost: x\r\n\r\n")
        self.over = threading.Event()
        self.gone: set[socket.socket] = set()

    def run(self) -> None:
        turn = 0
        while not self.over.wait(0.1):
            for stream in self.readers:
                self.go_on(stream, self.take)
            for stream in self.bodies if turn % 10 == 0 else []:
                self.go_on(stream, self.drip)
            turn += 1

    def go_on(self, stream: socket.socket, step: Callable[[socket.socket], bool]) -> None:
        """Notes a connection that the balancer has ended."""
        with contextlib.suppress(BlockingIOError):
            try:
                if not step(stream):
                    self.gone.add(stream)
            except (ConnectionResetError, BrokenPipeError):
                self.gone.add(stream)

    def take(self, stream: socket.socket) -> bool:
        return bool(stream.recv(TAKES, socket.MSG_DONTWAIT))

    def drip(self, stream: socket.socket) -> bool:
        return stream.send(b"x", socket.MSG_DONTWAIT) == 1

    def end(self) -> int:
        """How many were still connected."""
        self.over.set()
        self.join(10)
        for stream in (*self.bodies, *self.readers):
            stream.setsockopt(socket.SOL_SOCKET, socket.SO_LINGER, LINGER_NOT)
        return 2 * SLOW - len(self.gone)


def serve_slow_ones(talk: Talk) -> None:
    """Reads a body to its end, and answers any other request with a long page."""
    if not talk.read_until(b"\r\n\r\n"):
        return
    if talk.received.startswith(b"POST"):
        talk.read_to_end()
    else:
        talk.send(response(LONG))
        talk.end()


@dataclass(frozen=True)
class Drips:
    """A balancer in front of servers that answer at once, and one that slow clients ask."""

    balancer: Balancer
    port: int
    bench: Bench

    def load(self) -> Told:
        return load(self.port, CLIENTS, self.bench.seconds or DRIP_SECONDS, self.bench.others)

    def load_beside(self) -> tuple[Told, int]:
        """A load beside slow clients, and how many of these were still connected at its end."""
        with contextlib.ExitStack() as stack:
            slow = Slow(stack, self.port)
            slow.start()
            # Bodies come to their server, and buffers between it and the readers fill.
            time.sleep(2)
            told = self.load()
            kept = slow.end()
        wait_until("none is held", lambda: open_at(self.balancer, "slow") == 0)
        return told, kept


def open_at(balancer: Balancer, backend: str) -> int:
    """How many connections to its servers are open."""
    replies = [it.reply.split()[0] for it in balancer.journal(backend)]
    return replies.count("opened") - replies.count("closed")


@contextlib.contextmanager
def drip_farm(bench: Bench) -> Iterator[Drips]:
    with Farm(bench.program) as farm:
        quick = origins(farm.folder, bench.others)
        farm.stack.callback(quick.wait)
        farm.stack.callback(quick.kill)
        port = farm.port()
        front = section("frontend web", f"bind {HOST}:{port}", "use_backend slow if { path /slow }", "default_backend quick")
        backends = section("backend quick", *(server(f"s{at}", at) for at in ORIGINS))
        backends += section("backend slow", server("a", farm.origin(serve_slow_ones)))
        balancer = bench.start(farm, section("defaults", *LIMITS) + front + backends)
        yield Drips(balancer, port, bench)
        stop_well(balancer)


def drips(bench: Bench) -> Row:
    alone, beside, kept = [], [], []
    with drip_farm(bench) as farm:
        farm.load()
        for number in range(bench.rounds or DRIP_ROUNDS):
            for is_alone in random.sample([True, False], 2):
                if is_alone:
                    alone.append(farm.load())
                else:
                    told, count = farm.load_beside()
                    beside.append(told)
                    kept.append(count)
            say(f"  round {number + 1}: p99 {late_of(alone[-1]) * 1e3:.1f} ms without, {late_of(beside[-1]) * 1e3:.1f} ms with")
    expect_equal("slow clients that were connected to the end, at the least", min(kept), 2 * SLOW)
    return judged_drips(alone, beside)


def late_of(told: Told) -> float:
    """The seconds within which 99 of 100 were answered. wrk says 0 if nobody was."""
    return told.late if told.answered else math.inf


def judged_drips(alone: list[Told], beside: list[Told]) -> Row:
    pairs = [(late_of(one), late_of(other)) for one, other in zip(beside, alone)]
    times = statistics.median(one / other for one, other in pairs)
    lates = [statistics.median(it) * 1e3 for it in zip(*pairs)]
    paces = [statistics.median(it.pace for it in one) for one in (beside, alone)]
    failed = sum(it.failed for it in (*alone, *beside))
    seen = (
        f"p99 {lates[0]:.1f} ms, without {lates[1]:.1f} ms, {times:.2f} times in the median pair; {paces[0]:.0f} requests a second,"
        f" without {paces[1]:.0f}; {failed} failed"
    )
    return Row(f"{MOST_TIMES:.0f} times", seen, times <= MOST_TIMES and not failed and paces[0] >= paces[1] / MOST_TIMES)


# --- resets --------------------------------------------------------------------------------------------------------------------------

ASKERS = 10
ASKERS_PACE = 0.25
PAGE_SECONDS = 5.0
RESETS = 4
RESET_AFTER = 0.02
# So many requests a second one client can reset in turn.
MOST_RESETS = 20
RESET_SECONDS = 25
# If HAProxy's clients lose more than the rest of their turns, it isn't the attack that holds them up.
LEAST_TURNS = 0.9


class Resetting(threading.Thread):
    """A client that asks for the slow page so often a second, and resets each request a moment later. It has no connection otherwise."""

    def __init__(self, port: int, often: float) -> None:
        super().__init__(daemon=True)
        self.port, self.every = port, 1 / often
        self.over = threading.Event()
        self.sent = 0

    def run(self) -> None:
        turn = time.monotonic()
        while not self.over.wait(max(0.0, turn - time.monotonic())):
            client = self.asked()
            self.over.wait(RESET_AFTER)
            client.reset()
            turn += self.every

    def asked(self) -> Client:
        client = Client(self.port)
        client.send(b"GET /slow HTTP/1.1\r\nHost: x\r\n\r\n")
        self.sent += 1
        return client


@dataclass(frozen=True)
class Reset:
    """What honest clients got beside one that resets, how many of its requests came to the server, and the balancer's threads and resident
    megabytes at the end."""

    got: Span
    sent: int
    came: int
    threads: int
    memory: float

    def __str__(self) -> str:
        return f"{self.got} ({self.came} of {self.sent} reset requests came to the server; {self.threads} threads, {self.memory:.0f} MB)"


def reset_sections(farm: Farm, port: int) -> tuple[str, Callable[[], int]]:
    """A farm with a quick page and a slow one, and how many requests for the slow one have come to their server."""
    slow = farm.origin(late(PAGE_SECONDS, answers(b"slow")))
    front = section("frontend web", f"bind {HOST}:{port}", "use_backend slow if { path /slow }", "default_backend quick")
    backends = section("backend quick", server("a", farm.origin(answers(b"a")))) + section("backend slow", server("a", slow))
    return section("defaults", "mode http", *LIMITS) + front + backends, lambda: sum(b"/slow" in it.received for it in slow.talks)


@contextlib.contextmanager
def resetting(port: int, often: int) -> Iterator[list[Resetting]]:
    """Meanwhile so many requests for the slow page are sent and reset each second."""
    count = math.ceil(often / MOST_RESETS)
    crowd = [Resetting(port, often / count) for _ in range(count)]
    for one in crowd:
        one.start()
    try:
        yield crowd
    finally:
        for one in crowd:
            one.over.set()
        for one in crowd:
            one.join(10)


def beside_resets(bench: Bench, port: int, came: Callable[[], int], process: int) -> Reset:
    seconds = bench.seconds or RESET_SECONDS
    with resetting(port, bench.resets or RESETS) as crowd:
        time.sleep(PAGE_SECONDS)
        begin = time.monotonic()
        # Each has its last turn well before the end, so that no turn is counted by chance.
        end = begin + seconds - ASKERS_PACE / 4
        with Askers(Page(port), [GET] * ASKERS, ASKERS_PACE) as honest:
            time.sleep(end - begin)
            threads = len(list(Path(f"/proc/{process}/task").iterdir()))
            memory = resident(process)
    return Reset(span(honest.asked, begin, end), sum(one.sent for one in crowd), came(), threads, memory)


def stickylb_beside_resets(bench: Bench) -> Reset:
    with Farm(bench.program) as farm:
        port = farm.port()
        sections, came = reset_sections(farm, port)
        balancer = bench.start(farm, sections)
        seen = beside_resets(bench, port, came, balancer.process.pid)
        stop_well(balancer)
    return seen


def haproxy_beside_resets(bench: Bench) -> Reset:
    with Farm(bench.program) as farm:
        port = farm.port()
        sections, came = reset_sections(farm, port)
        config = farm.folder / "haproxy.cfg"
        config.write_text(section("global", "nbthread 2", "maxconn 9000") + sections)
        process = started(["haproxy", "-db", "-f", str(config)], bench.own)
        farm.stack.callback(process.wait)
        farm.stack.callback(process.kill)
        wait_for(port)
        return beside_resets(bench, port, came, process.pid)


def resets(bench: Bench) -> Row:
    ways = {"stickylb": stickylb_beside_resets, "haproxy": haproxy_beside_resets}
    seen: dict[str, Reset] = {}
    for name in random.sample(list(ways), 2):
        seen[name] = ways[name](bench)
        say(f"  {name}: {seen[name].got}")
    turns = ASKERS * (bench.seconds or RESET_SECONDS) / ASKERS_PACE
    expect("HAProxy's clients have hardly to wait", seen["haproxy"].got.good >= LEAST_TURNS * turns)
    words = "; ".join(f"{name}: {it}" for name, it in sorted(seen.items(), reverse=True))
    return Row("at least HAProxy's", words, seen["stickylb"].got.good >= seen["haproxy"].got.good)


ROWS: dict[str, Callable[[Bench], Row]] = {"dark": dark, "stop": stop, "flood": flood, "binds": binds, "drips": drips, "resets": resets}
NEEDS = {"drips": ("wrk", "gcc"), "resets": ("haproxy",)}


def missing(names: list[str], program: Path) -> list[str]:
    """What these rows need and isn't there."""
    needed = {"taskset", *(it for name in names for it in NEEDS.get(name, ()))}
    return [it for it in sorted(needed) if not shutil.which(it)] + ([] if program.exists() else [str(program)])
