"""Pins that outlive a restart: `run --pins`."""

from __future__ import annotations

import contextlib
import os
import random
import re
import signal
import subprocess
import threading
import time
from collections import Counter
from collections.abc import Iterable
from pathlib import Path

from .cases import PATIENCE, case, expect, expect_equal, wait_until
from .clients import ask_operator, at_once, get
from .farms import HOST, LIMITS, TABLE, Balancer, Ending, Farm, ends_well, listen, section, server
from .handed_over import listening, port_of, words_over
from .origins import Origin, response
from .replaying import replies_differ
from .starts import run_words
from .supervised import SCRIPT, launch

NEVER = ("--pins-every", "0")


def kept(farm: Farm, *more: str) -> Path:
    """The file that keeps the pins of all balancers of the farm from now on."""
    path = farm.folder / "pins"
    farm.words = ("--pins", str(path), *more)
    return path


def pin_lines(text: str) -> list[str]:
    """The lines of a file's pins. Fails unless the text is a whole file of one backend, by the grammar in docs/RESTARTS.md."""
    found = re.fullmatch(r"stickypins 1\nbackend web\n((?:pin \S+ \S+ \S+ \d+ \d+\n)*)end\n", text)
    expect(f"a whole file: {text[:200]!r} .. {text[-100:]!r}", found is not None)
    assert found is not None
    ages = [int(line.split()[-1]) for line in found[1].splitlines()]
    expect("in order of last use", ages == sorted(ages, reverse=True))
    return found[1].splitlines()


def places(text: str) -> list[tuple[str, str]]:
    """The key and the server of each pin, in order of last use, as `show table` shows them."""
    return re.findall(r"^key=(\S+) want=\S+ server=(\S+) ", text, re.M)


def reports_of(balancer: Balancer) -> list[str]:
    """What standard error says of pins."""
    return [line for line in balancer.errors().splitlines() if line.startswith("pins ")]


def sections(port: int, **origins: Origin) -> str:
    return listen(port, *TABLE, *LIMITS, *(server(name, at) for name, at in origins.items()))


@case
def a_key_stays_at_its_server_over_a_restart(farm: Farm) -> None:
    port, a, b = farm.port(), farm.origin(), farm.origin()
    path = kept(farm)
    balancer = farm.start(sections(port, a=a, b=b))
    expect_equal("no pins at first", reports_of(balancer), ["pins web kept 0 left out 0"])
    answers = [get(port, f"x-id: k{number}") for number in range(9)]
    get(port, "x-id: k0")
    before = places(balancer.tell("show table web"))
    expect_equal("the order of last use", [key for key, _ in before], [f"k{number}" for number in [*range(1, 9), 0]])
    ends_well(balancer)
    lines = [line.split() for line in pin_lines(path.read_text())]
    expect_equal("the file", [(it[1], it[2], it[3], it[4]) for it in lines], [(key, "-", place, "1") for key, place in before])
    expect_equal("only its owner reads it", path.stat().st_mode & 0o777, 0o600)

    # Other numbers: the servers stand in the other order.
    balancer = farm.start(sections(port, b=b, a=a))
    expect_equal("the report", reports_of(balancer), ["pins web kept 9 left out 0"])
    expect("pins first, and then clients", balancer.errors().startswith("pins web kept 9 left out 0\nlistening on "))
    expect_equal("the pins", places(balancer.tell("show table web")), before)
    expect_equal("the answers", [get(port, f"x-id: k{number}") for number in range(9)], answers)
    expect_equal("all were kept", [it for it in balancer.events("web") if it.startswith("serve ") and not it.endswith(" kept")], [])
    ends_well(balancer)


@case
def a_stop_within_the_interval_writes(farm: Farm) -> None:
    port, a = farm.port(), farm.origin()
    for every in (("--pins-every", "1d"), NEVER, ()):
        path = kept(farm, *every)
        balancer = farm.start(sections(port, a=a))
        get(port, "x-id: k1")
        expect("it isn't written yet", not path.exists())
        start = time.monotonic()
        ends_well(balancer)
        expect("a stop doesn't wait for the interval", time.monotonic() - start < 8)
        expect_equal("one pin", len(pin_lines(path.read_text())), 1)
        path.unlink()


@case
def it_is_written_while_the_balancer_runs_where_something_changed(farm: Farm) -> None:
    port, a = farm.port(), farm.origin()
    path = kept(farm, "--pins-every", "50ms")
    balancer = farm.start(sections(port, a=a))
    get(port, "x-id: k1")
    wait_until("the pin is written", lambda: path.exists() and len(pin_lines(path.read_text())) == 1)
    get(port, "x-id: k2")
    wait_until("the other pin is written", lambda: len(pin_lines(path.read_text())) == 2)
    written = path.stat()
    time.sleep(0.5)
    expect_equal("nothing changed", (path.stat().st_ino, path.stat().st_mtime_ns), (written.st_ino, written.st_mtime_ns))
    get(port, "x-id: k1")
    wait_until("a use of a pin is written", lambda: pin_lines(path.read_text())[-1].startswith("pin k1 "))
    balancer.tell("clear table web key k1")
    wait_until("a pin that went is gone", lambda: len(pin_lines(path.read_text())) == 1)
    expect_equal("the end", balancer.end(signal.SIGKILL), -signal.SIGKILL)
    balancer = farm.start(sections(port, a=a))
    expect_equal("the report", reports_of(balancer), ["pins web kept 1 left out 0"])
    ends_well(balancer)


@case
def what_does_not_come_back_is_counted(farm: Farm) -> None:
    port, a = farm.port(), farm.origin()
    path = kept(farm, *NEVER)
    path.write_text(
        "stickypins 1\nbackend old\npin k1 - a 1 5\nbackend web\npin k1 - a 1 90\npin k2 - gone 1 80\npin k3 gone a 1 70\npin k4 - - 1 60\n"
        "pin k5 - a 7 50\npin k6 - a 1 40\npin k7 - a 1 30\nend\n"
    )
    balancer = farm.start(listen(port, "stick-table type string size 3", "stick on hdr(x-id)", *LIMITS, server("a", a)))
    expect_equal("the report", reports_of(balancer), ["pins web kept 3 left out 4", "pins old kept 0 left out 1"])
    expect_equal("the newest", places(balancer.tell("show table web")), [("k5", "a"), ("k6", "a"), ("k7", "a")])
    ends_well(balancer)
    lines = [line.split() for line in pin_lines(path.read_text())]
    expect_equal("the costs", [it[4] for it in lines], ["7", "1", "1"])
    ages = [int(it[5]) for it in lines]
    expect("the ages go on", [ages[0] - ages[1], ages[1] - ages[2]] == [10, 10] and 30 <= ages[2] < 30_000)


@case
def a_server_that_was_added_gets_its_share_by_the_fewest_moves(farm: Farm) -> None:
    port, a = farm.port(), farm.origin()
    path = kept(farm, *NEVER)
    lines = [f"pin k{number} - web{number % 4 + 1} 1 {2000 - number}\n" for number in range(2000)]
    path.write_text("".join(["stickypins 1\nbackend web\n", *lines, "end\n"]))
    names = [f"web{number}" for number in range(1, 6)]
    table = ("stick-table type string size 10k", "stick on hdr(x-id)")
    balancer = farm.start(listen(port, *table, *LIMITS, *(server(name, a, "maxpins 1000") for name in names)))
    expect_equal("the report", reports_of(balancer), ["pins web kept 2000 left out 0"])
    # As docs/RESTARTS.md has it.
    limits = "".join(f"set maxpins server web/{name} 420; " for name in names)
    answer = balancer.tell(f"{limits}plan backend web").split("\n")
    expect_equal("the plan", [it for it in answer if it], ["pins 2000 unplaced 0 moved 320"])
    counts = Counter(place for _, place in places(balancer.tell("show table web")))
    expect_equal("the new one's pins", counts["web5"], 320)
    expect("the others keep 420 each", all(counts[name] == 420 for name in names[:4]))
    ends_well(balancer)


@case
def a_pin_that_came_back_expires_when_it_would_have(farm: Farm) -> None:
    port, a = farm.port(), farm.origin()
    path = kept(farm, *NEVER)
    path.write_text("stickypins 1\nbackend web\npin k1 - a 1 30000\npin k2 - a 1 10\nend\n")
    table = ("stick-table type string size 10 expire 30s", "stick on hdr(x-id)")
    balancer = farm.start(listen(port, *table, *LIMITS, server("a", a)))
    expect_equal("the report", reports_of(balancer), ["pins web kept 2 left out 0"])
    get(port, "x-id: k3")
    expect_equal("the old one is gone", [key for key, _ in places(balancer.tell("show table web"))], ["k2", "k3"])
    ends_well(balancer)


def refusal(farm: Farm, path: Path, port: int) -> Ending:
    """How a start ends."""
    config = farm.folder / "refused.cfg"
    config.write_text(listen(port, *TABLE))
    return run_words(farm, "run", "-f", str(config), "--pins", str(path))


@case
def a_file_that_is_cut_is_refused(farm: Farm) -> None:
    # The address is taken, so that shows that a file was read.
    taken = farm.origin().port
    path = farm.folder / "pins"
    whole = "stickypins 1\nbackend web\npin k%201 a,b - 1000 18446744073709551614\npin %2D - a 1 0\nend\n"
    path.write_text(whole)
    expect_equal("the whole file", refusal(farm, path, taken), Ending(1, "", f"cannot bind {HOST}:{taken}\n"))

    def cut(length: int) -> None:
        piece = farm.folder / f"cut{length}"
        piece.write_text(whole[:length])
        expect_equal(f"cut after {whole[:length]!r}", refusal(farm, piece, taken), Ending(1, "", f"{piece}: 43 Truncated\n"))

    for first in range(0, len(whole), 8):
        at_once(cut, range(first, min(first + 8, len(whole))))


FAULTS = [
    ("stickypins 2\nend\n", "40 BadLine 1"),
    ("stickyplan 1\nversion 0\nend\n", "40 BadLine 1"),
    ("", "43 Truncated"),
    ("stickypins 1\nend\n\n", "40 BadLine 3"),
    ("stickypins 1\npin k - a 1 0\nend\n", "40 BadLine 2"),
    ("stickypins 1\nbackend web\nbackend web\nend\n", "40 BadLine 3"),
    ("stickypins 1\nbackend web\npin k - a 0 0\nend\n", "40 BadLine 3"),
    ("stickypins 1\nbackend web\npin k - a 1 0\npin l - a 1 1\nend\n", "40 BadLine 4"),
    ("stickypins 1\nbackend web\npin k  - a 1 0\nend\n", "40 BadLine 3"),
]


@case
def a_file_of_another_version_or_form_is_refused_before_anything_is_bound(farm: Farm) -> None:
    taken = farm.origin().port
    path = farm.folder / "pins"
    for text, fault in FAULTS:
        path.write_text(text)
        expect_equal(repr(text), refusal(farm, path, taken), Ending(1, "", f"{path}: {fault}\n"))
    expect_equal("a folder", refusal(farm, farm.folder, taken), Ending(1, "", f"cannot read {farm.folder}\n"))
    expect_equal("the file is left as it was", path.read_text(), FAULTS[-1][0])


@case
def a_file_that_can_not_be_written_is_reported_and_hinders_nothing(farm: Farm) -> None:
    port, a = farm.port(), farm.origin()
    path = farm.folder / "none" / "pins"
    farm.words = ("--pins", str(path), "--pins-every", "50ms")
    balancer = farm.start(sections(port, a=a))
    get(port, "x-id: k1")
    wait_until("it is reported", lambda: f"cannot write {path}\n" in balancer.errors())
    expect_equal("the answer", get(port, "x-id: k1"), response(b"a"))
    path.parent.mkdir()
    wait_until("it is written", path.exists)
    ends_well(balancer)
    expect_equal("one pin", len(pin_lines(path.read_text())), 1)


class Visitors:
    """Clients that go on asking, one key after another, and note where each key was answered."""

    def __init__(self, port: int, keys: int) -> None:
        self.port, self.keys = port, keys
        self.answers: list[tuple[str, bytes]] = []
        # When each key was answered first.
        self.first: dict[str, float] = {}
        self.ending = threading.Event()
        self.threads = [threading.Thread(target=self.go_on, args=(number,), daemon=True) for number in range(8)]
        for thread in self.threads:
            thread.start()

    def go_on(self, number: int) -> None:
        dice = random.Random(number)
        # Other cases run beside this one.
        while not self.ending.wait(0.02):
            key = f"k{dice.randrange(self.keys)}"
            # Between two balancers nobody listens.
            with contextlib.suppress(OSError):
                answer = get(self.port, f"x-id: {key}")
                self.answers.append((key, answer))
                if answer != b"":
                    self.first.setdefault(key, time.monotonic())

    def wait_for_more(self, count: int) -> None:
        due = len(self.answers) + count
        wait_until(f"{count} answers more", lambda: len(self.answers) >= due, 4 * PATIENCE)

    def end(self) -> list[tuple[str, bytes]]:
        self.ending.set()
        for thread in self.threads:
            thread.join()
        return [(key, answer) for key, answer in self.answers if answer != b""]


@case
def a_restart_under_load_moves_only_whom_it_must(farm: Farm) -> None:
    port = farm.port()
    origins = {name: farm.origin() for name in "abcde"}
    kept(farm)
    for gone, new in [("a", "d"), ("b", "e"), ("c", "a")]:
        balancer = farm.start(sections(port, **{name: at for name, at in origins.items() if name != new}))
        visitors = Visitors(port, 500)
        visitors.wait_for_more(1000)
        ended = balancer.stop()
        expect_equal("the status", ended.status, 0)
        balancer = farm.start(sections(port, **{name: at for name, at in origins.items() if name != gone}))
        visitors.wait_for_more(1000)
        last: dict[str, bytes] = {}
        moved = []
        for key, answer in visitors.end():
            if answer != last.setdefault(key, answer):
                moved.append((key, last[key]))
                last[key] = answer
        expect("many keys were asked for", len(last) > 400)
        expect_equal("clients that moved were at the server that is gone", [it for it in moved if it[1] != response(gone.encode())], [])
        before = places(balancer.tell("show table web"))
        ends_well(balancer, whole=False)
        balancer = farm.start(sections(port, **{name: at for name, at in origins.items() if name != gone}))
        expect_equal("the order of last use", places(balancer.tell("show table web")), before)
        ends_well(balancer)


class Keepers:
    """64 clients, each with keys of its own, that ask for one after another and see whether an answer comes from another server than before."""

    CLIENTS, KEYS = 64, 10_000

    def __init__(self, port: int) -> None:
        self.port = port
        self.present: set[bytes] = set()
        self.last: dict[str, bytes] = {}
        self.wrong: list[str] = []
        self.asked = 0
        # The keys that were asked for, each before its request, and each client's last one.
        self.begun: list[str] = []
        self.latest: dict[int, str] = {}
        self.ending = threading.Event()
        self.threads = [threading.Thread(target=self.go_on, args=(number,), daemon=True) for number in range(self.CLIENTS)]

    def start(self) -> None:
        for thread in self.threads:
            thread.start()

    def go_on(self, number: int) -> None:
        keys = [f"k{key}" for key in range(number, self.KEYS, self.CLIENTS)]
        dice = random.Random(number)
        # Other cases run beside this one.
        for key in keys:
            self.ask(number, key)
            self.ending.wait(0.1)
        while not self.ending.wait(0.1):
            self.ask(number, dice.choice(keys))

    def ask(self, number: int, key: str) -> None:
        present = self.present
        self.latest[number] = key
        self.begun.append(key)
        try:
            answer = get(self.port, f"x-id: {key}")
        except OSError as error:
            self.wrong.append(f"{key}: {error!r}")
            return
        before = self.last.get(key, answer)
        # While the request was under way others may have come in their place.
        if answer != before and before in present & self.present or answer not in present | self.present:
            self.wrong.append(f"{key}: {before!r}, then {answer!r}")
        self.last[key] = answer
        self.asked += 1

    def wait_for_more(self, count: int) -> None:
        due = self.asked + count
        wait_until(f"{count} answers more", lambda: self.asked >= due or bool(self.wrong), 4 * PATIENCE)

    def end(self) -> None:
        self.ending.set()
        for thread in self.threads:
            thread.join(PATIENCE)
        expect_equal("clients that were refused, or whose server changed though it was there", self.wrong[:5], [])
        expect_equal("all keys were asked for", len(self.last), self.KEYS)


class Unit:
    """A balancer that the shipped script runs with a file of pins, over a socket that stays, as the shipped units have systemd do it."""

    def __init__(self, farm: Farm) -> None:
        self.farm, self.holder, self.path = farm, listening(farm), farm.folder / "pins"
        self.port, self.config, self.err = port_of(self.holder), farm.folder / "web.cfg", farm.folder / "script.err"
        words = words_over([self.holder], str(SCRIPT), str(self.config), str(farm.program), "--pins", str(self.path))
        self.words = words

    def start(self, servers: Iterable[str]) -> subprocess.Popen[bytes]:
        operators = section("global", f"stats socket {self.farm.operators}")
        self.config.write_text(operators + listen(self.port, "stick-table type string size 20k", "stick on hdr(x-id)", *LIMITS, *servers))
        out, passed = self.farm.folder / "script.out", (self.holder.fileno(),)
        return launch(self.farm, self.words, out, self.err, os.environ | {"LISTEN_FDS": "1"}, passed)

    def table(self) -> list[tuple[str, str]]:
        """The key and the server of each pin, in order of last use; none where no operator is answered yet."""
        with contextlib.suppress(OSError):
            return places(ask_operator(self.farm.operators, b"show table web\n").decode())
        return []


@case
def ten_restarts_of_the_unit_move_only_clients_whose_server_is_gone_and_refuse_nobody(farm: Farm) -> None:
    unit = Unit(farm)
    # Each name once: the pins of a server that comes back later don't.
    every = "abcdefghijklmn"
    origins = {name: farm.origin() for name in every}
    names = every[:4]
    keepers = Keepers(unit.port)

    def start(servers: str) -> subprocess.Popen[bytes]:
        keepers.present = {response(name.encode()) for name in servers}
        return unit.start(server(name, origins[name]) for name in servers)

    process = start(names)
    keepers.start()
    wait_until("each key has a pin", lambda: len(keepers.last) == keepers.KEYS or bool(keepers.wrong), 4 * PATIENCE)
    for turn in range(10):
        process.send_signal(signal.SIGTERM)
        expect_equal("the status at the end", process.wait(PATIENCE), 0)
        order = [(key, place) for _, key, _, place, _, _ in map(str.split, pin_lines(unit.path.read_text()))]
        names = names[1:] + every[turn + 4]
        # What may be used from now on: the keys whose requests wait in the socket, and those to come.
        mark = len(keepers.begun)
        used = set(keepers.latest.values())
        process = start(names)
        left_out = sum(place not in names for _, place in order)
        wait_until("the pins are back", lambda: f"pins web kept {len(order) - left_out} left out {left_out}\n" in unit.err.read_text())
        wait_until("operators are answered", lambda: unit.table() != [])
        table = unit.table()
        used |= set(keepers.begun[mark:])
        due = [(key, place) for key, place in order if place in names and key not in used]
        seen = [(key, place) for key, place in table if key not in used]
        differ = [it for it in zip(seen, due) if it[0] != it[1]]
        expect_equal("the order of last use", (differ[:3], len(seen)), ([], len(due)))
        keepers.wait_for_more(1_000)
    keepers.end()
    process.send_signal(signal.SIGTERM)
    expect_equal("the status at the end", process.wait(PATIENCE), 0)


@case
def a_journal_from_such_a_start_on_is_replayed_to_the_same_table(farm: Farm) -> None:
    port, a, b = farm.port(), farm.origin(), farm.origin()
    path = kept(farm, *NEVER)
    path.write_text("stickypins 1\nbackend web\n" + "".join(f"pin k{it} - {'ab'[it % 2]} 1 {100 - it}\n" for it in range(100)) + "end\n")
    lines = (*TABLE, server("a", a), server("b", b))
    balancer = farm.start(listen(port, *LIMITS, *lines))
    for key in range(90, 120):
        get(port, f"x-id: k{key}")
    expect_equal("pins that were set", len([it for it in balancer.events("web") if it.startswith("set ")]), 100)
    journal, table = balancer.tell("show journal web"), balancer.tell("show table web")
    expect_equal("what differs", replies_differ(farm.program, farm.folder, section("backend web", *lines), journal, table), [])
    ends_well(balancer)


@case
def a_balancer_that_is_killed_while_it_writes_leaves_a_whole_file(farm: Farm) -> None:
    port, a, b = farm.port(), farm.origin(), farm.origin()
    path = kept(farm, "--pins-every", "1ms")
    path.write_text("stickypins 1\nbackend web\n" + "".join(f"pin first{number} - a 1 1\n" for number in range(900)) + "end\n")
    dice, broken_off, pins = random.Random(1), 0, pin_lines(path.read_text())
    for turn in range(200):
        balancer = farm.start(sections(port, a=a, b=b))
        expect_equal(f"turn {turn}: all come back", reports_of(balancer)[0], f"pins web kept {len(pins)} left out 0")
        visitors = Visitors(port, 100)
        # Some run for longer than a second, in which a write is done on a machine that is busy with other cases too. The interval is 1 ms.
        time.sleep(dice.uniform(0, 0.2) if turn % 5 else dice.uniform(1.2, 2))
        killed = time.monotonic()
        balancer.end(signal.SIGKILL)
        visitors.end()
        broken_off += path.with_name("pins.new").exists()
        before, pins = pins, pin_lines(path.read_text())
        there = {line.split()[1] for line in pins}
        expect_equal(f"turn {turn}: pins of the start that aren't there", {line.split()[1] for line in before} - there, set())
        due = {key for key, first in visitors.first.items() if first < killed - 1}
        expect_equal(f"turn {turn}: pins that are older than a second and aren't there", due - there, set())
    expect("a write was under way at some of these ends", broken_off > 0)
