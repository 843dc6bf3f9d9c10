"""Load without end: requests at half of what is possible, while servers are drained, come back and shrink, and plans are made, with clients
that reset and stall among them. At the end the sums are told and judged, and the whole journal is run again by `replay`."""

from __future__ import annotations

import contextlib
import random
import re
import subprocess
import sys
import threading
import time
from collections import Counter
from dataclasses import dataclass, field
from pathlib import Path

from .cases import PATIENCE, wait_until
from .clients import Client, ask
from .farms import Balancer, Farm, ends_well, listen, server
from .origins import Origin, answers
from .replaying import split

KEYS = 6000
CLIENTS = 16
CAPACITY, SHRUNK = 4000, 2500
# Seconds between two rounds of an operator, and between two looks at the journal.
ROUND, LOOK = 10.0, 2.0
# Events that the balancer remembers: far more than come between two looks.
JOURNAL = 30_000
LINES = ("stick-table type string size 10000", "stick on hdr(x-id)", "balance leastconn")
LIMITS = ("timeout client 2s", "timeout connect 5s", "timeout server 10s", "timeout queue 10s")


@dataclass
class Sums:
    """What is counted."""

    answers: Counter[str] = field(default_factory=Counter)
    counts: Counter[str] = field(default_factory=Counter)
    resident: list[tuple[float, int]] = field(default_factory=list)
    faults: list[str] = field(default_factory=list)


class Soak:
    """A balancer under load, and those who load it."""

    def __init__(self, farm: Farm, minutes: float) -> None:
        self.farm, self.seconds = farm, minutes * 60
        self.ports = [farm.port() for _ in range(3)]
        for port, name in zip(self.ports, (b"a", b"b", b"c")):
            origin = Origin(port, answers(name), keeps=False)
            origin.open()
            farm.stack.callback(origin.close)
        self.port = farm.port()
        servers = [server(name, port, f"maxpins {CAPACITY} maxconn 100") for name, port in zip("abc", self.ports)]
        self.section = listen(self.port, *LIMITS, *LINES, *servers)
        self.replayed = "backend web\n" + "".join(f"  {line}\n" for line in (*LINES, *servers))
        self.balancer: Balancer = farm.start(self.section, ("tune.relays 32", f"tune.journal {JOURNAL}"))
        self.sums, self.lock = Sums(), threading.Lock()
        self.stopped = threading.Event()
        # Seconds between two requests of a client; 0 where it asks without a rest.
        self.rest = 0.0
        # The number of the next event to keep, and how many connections those before it leave open.
        self.next_number = self.slots = 0
        self.events, self.replies = farm.folder / "events", farm.folder / "replies"

    def count(self, word: str, by: int = 1) -> None:
        with self.lock:
            self.sums.counts[word] += by

    def fault(self, text: str) -> None:
        with self.lock:
            self.sums.faults.append(text)

    def asks(self, chance: random.Random) -> None:
        """A client that asks again and again."""
        while not self.stopped.wait(self.rest * chance.uniform(0.5, 1.5)):
            key = min(chance.randrange(KEYS), chance.randrange(KEYS))
            try:
                answer = ask(self.port, f"GET /{key} HTTP/1.1\r\nHost: x\r\nx-id: k{key}\r\n\r\n".encode())
                text = answer.decode("latin-1")
                word = f"200 {text[-1]}" if text.startswith("HTTP/1.1 200 OK\r\n") else text[:50] or "nothing"
            except (OSError, AssertionError) as error:
                word = repr(error)
            with self.lock:
                self.sums.answers[word] += 1

    def breaks_off(self, chance: random.Random) -> None:
        """A client that leaves at any place."""
        request = b"POST / HTTP/1.1\r\nx-id: k1\r\nContent-Length: 5000\r\n\r\n" + bytes(5000)
        while not self.stopped.wait(chance.uniform(0, 0.2)):
            with contextlib.suppress(OSError):
                client = Client(self.port)
                client.send(request[: chance.randrange(len(request) + 1)])
                self.stopped.wait(chance.choice((0.0, 0.01)))
                client.reset()
                self.count("clients that broke off")

    def stalls(self, chance: random.Random) -> None:
        """A client that falls silent in its head or its body, or doesn't read its answer."""
        head = b"GET / HTTP/1.1\r\nx-id: k2\r\n"
        while not self.stopped.wait(chance.uniform(0, 1)):
            with contextlib.suppress(OSError, AssertionError), Client(self.port) as client:
                client.send(chance.choice((b"", head, head + b"Content-Length: 9\r\n\r\nhello", head + b"\r\n")))
                if chance.random() < 0.5:
                    client.read_to_end()
                else:
                    self.stopped.wait(3)
                self.count("clients that stalled")

    def looks(self) -> None:
        """Keeps the journal before it is forgotten."""
        while not self.stopped.wait(LOOK):
            self.look()

    def look(self) -> None:
        """Keeps what is new in the journal."""
        with self.events.open("a") as events, self.replies.open("a") as replies:
            for number, event, reply in split(self.balancer.tell("show journal web")):
                if number < self.next_number:
                    continue
                if number > self.next_number:
                    self.fault(f"the journal was looked at too late: {number} behind {self.next_number}")
                self.next_number = number + 1
                self.slots += reply.startswith("opened ") - reply.startswith("closed ")
                events.write(f"{event}\n")
                replies.write(f"{reply}\n")

    def has_no_slot(self) -> bool:
        """Whether no connection to a server is open."""
        self.look()
        return self.slots == 0

    def tell(self, line: str, due: str) -> None:
        answer = self.balancer.tell(line)
        if not re.fullmatch(due, answer):
            self.fault(f"{line} is answered {answer!r}")

    def loads(self) -> Counter[str]:
        """How many pins each server has."""
        return Counter(re.findall(r" server=(\S+) ", self.balancer.tell("show table web")))

    def operates(self) -> None:
        """Each ten seconds a drain with a plan, an undrain, a shrink with a plan, and an end of that."""
        scored = r"\n?pins \d+ unplaced 0 moved \d+\n\n"
        turn = 0
        while not self.stopped.wait(ROUND / 4):
            name, other = "abc"[turn % 3], "abc"[(turn + 1) % 3]
            self.tell(f"set server web/{name} state drain; plan backend web", scored)
            if loads := self.loads()[name]:
                self.fault(f"{loads} pins at {name} behind a drain and a plan")
            self.stopped.wait(ROUND / 4)
            self.tell(f"set server web/{name} state ready", "\n")
            self.stopped.wait(ROUND / 4)
            self.tell(f"set maxpins server web/{other} {SHRUNK}; plan backend web", scored)
            if (loads := self.loads()[other]) > SHRUNK:
                self.fault(f"{loads} pins at {other}, which may have {SHRUNK}")
            self.stopped.wait(ROUND / 4)
            self.tell(f"set maxpins server web/{other} {CAPACITY}; plan backend web", scored)
            turn += 1
            self.count("rounds of an operator")

    def measures(self) -> None:
        start = time.monotonic()
        while not self.stopped.wait(5):
            self.sums.resident.append((time.monotonic() - start, self.balancer.resident()))

    def run(self) -> None:
        """Loads the balancer, first without rest for a while to see what is possible, and then with half of that."""
        seeds = random.Random(26)
        work = [lambda it=random.Random(seeds.random()): self.asks(it) for _ in range(CLIENTS)]
        work += [lambda it=random.Random(seeds.random()): self.breaks_off(it) for _ in range(2)]
        work += [lambda it=random.Random(seeds.random()): self.stalls(it) for _ in range(4)]
        threads = [threading.Thread(target=it, daemon=True) for it in (*work, self.looks, self.operates, self.measures)]
        for thread in threads:
            thread.start()
        whole = min(20.0, self.seconds / 10)
        time.sleep(whole)
        possible = sum(self.sums.answers.values()) / whole
        self.rest = 2 * CLIENTS / possible
        say(f"{possible:.0f} requests a second are possible here; now half of that for {self.seconds / 60:.1f} minutes")
        end = time.monotonic() + self.seconds
        while time.monotonic() < end and not self.balancer.has_ended():
            time.sleep(1)
        self.stopped.set()
        for thread in threads:
            thread.join(2 * PATIENCE)


def say(text: str) -> None:
    print(text, flush=True)


def judge_memory(sums: Sums, seconds: float) -> list[str]:
    """Resident memory is level behind the first five minutes, or the first third of a shorter run."""
    begin = min(300.0, seconds / 3)
    step = max(seconds / 15, 5.0)
    by_step: dict[int, int] = {}
    for moment, size in sums.resident:
        by_step[int(moment / step)] = max(size, by_step.get(int(moment / step), 0))
    say(f"most resident MB in each {step:.0f} s: " + " ".join(f"{size / 1e6:.1f}" for _, size in sorted(by_step.items())))
    late = [size for moment, size in sums.resident if moment > begin]
    if len(late) < 4:
        return []
    first, last = max(late[: len(late) // 4]), max(late[-(len(late) // 4) :])
    say(f"resident memory: {first / 1e6:.1f} MB behind the begin, {last / 1e6:.1f} MB at the end")
    return [f"resident memory grew from {first} to {last}"] if last > 1.05 * first + 1e6 else []


def judge_replay(soak: Soak, program: Path, table: str) -> list[str]:
    """The whole journal, run again by one machine without threads, gives the same replies and the same table."""
    config, script, seen = (soak.farm.folder / name for name in ("replay.cfg", "replay.script", "replay.out"))
    config.write_text("global\n  tune.journal 100\n" + soak.replayed)
    write_script(soak.events, soak.replies, script)
    with seen.open("w") as out:
        status = subprocess.run([str(program), "replay", str(config), str(script)], stdout=out, stderr=sys.stderr, check=False).returncode
    differ, lines = 0, 0
    with seen.open() as ours, soak.replies.open() as theirs:
        for due in theirs:
            lines += 1
            differ += next(ours, "") != due
        rest = ours.read()
    say(f"{lines} events were replayed: {differ} replies differ")
    if status or differ or rest != table:
        return [f"replay: status {status}, {differ} replies differ, the table is {'the same' if rest == table else 'another one'}"]
    return []


def write_script(events: Path, replies: Path, script: Path) -> None:
    """The script that makes all events again, and then shows the table."""
    snapshots: dict[str, int] = {}
    count = 0
    with events.open() as lines, replies.open() as answered, script.open("w") as out:
        for event, reply in zip(lines, answered):
            if event == "snapshot\n":
                count += 1
                snapshots[reply.split()[2]] = count
            if event.startswith("install version "):
                event = f"install {snapshots[event.split()[2]]}\n"
            out.write(event)
        out.write("show table web\n")


def judge(soak: Soak, program: Path) -> list[str]:
    """All faults of a run that has ended, the balancer not yet."""
    sums = soak.sums
    lost = {word: count for word, count in sums.answers.items() if not re.fullmatch("200 [abc]", word)}
    faults = sums.faults + ([f"lost or refused: {lost}"] if lost else [])
    wait_until("no slot is open", soak.has_no_slot)
    table = soak.balancer.tell("show table web")[:-1]
    counted = ends_well(soak.balancer, whole=False)["web"]
    loads = dict(Counter(re.findall(r" server=(\S+) ", table)))
    say(f"{counted} events, {soak.next_number} of them kept; pins at the end: {loads}")
    if counted != soak.next_number:
        faults.append(f"{counted} events at the end, and {soak.next_number} kept")
    return faults + judge_memory(sums, soak.seconds) + judge_replay(soak, program, table)


def run(program: Path, minutes: float) -> int:
    """Runs for so many minutes. The status is 0 where nothing is wrong."""
    with Farm(program) as farm:
        soak = Soak(farm, minutes)
        soak.run()
        if soak.balancer.has_ended():
            faults = [f"the balancer ended with status {soak.balancer.process.returncode}: {soak.balancer.errors()[-1000:]}"]
        else:
            faults = judge(soak, program)
        say(f"answers: {dict(soak.sums.answers)}")
        say(", ".join(f"{count} {word}" for word, count in sorted(soak.sums.counts.items())))
        for fault in faults[:20]:
            say(f"FAILED {fault}")
    say(f"{0 if faults else 1} passed, {len(faults)} failed")
    return 1 if faults else 0
