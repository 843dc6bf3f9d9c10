"""A script answered by the model, line by line, as `replay` answers it.

Two things are left open: which of several best plans is made, and which of several pins of one kind a plan moves. For these the model
looks at what the program shows next: the plan, where it made one, and the table. It judges the plan and the moves by their definitions.
"""
from __future__ import annotations

import re
from dataclasses import dataclass, field
from typing import Callable, Iterator, Optional, Sequence

from model.desk import Desk, Pin
from model.farms import Farm
from model.plans import Place, Plan, plan_in

# How many entries a journal keeps where no word says so.
JOURNAL = 100000
# Bytes of a key, where no word says so.
LENGTH = 32


@dataclass(frozen=True)
class Entry:
    """An event in the journal's words, its reply, and the plan that it installed, if it did."""

    event: str
    reply: str
    plan: Optional[Plan] = None


@dataclass
class Answer:
    """A line of the script, or a plan's lines, and all that is answered."""

    line: str
    lines: list[str]


@dataclass
class Replay:
    farm: Farm
    # What the program wrote.
    written: Sequence[str]
    # Of these so many lines have an answer of the model.
    at: int = 0
    log: list[Entry] = field(default_factory=list)
    # The versions of the sheets that were kept.
    versions: list[int] = field(default_factory=list)
    new_desk: Callable[[Farm], Desk] = Desk

    def __post_init__(self) -> None:
        self.desk = self.new_desk(self.farm)

    def answers(self, script: Sequence[str]) -> Iterator[Answer]:
        lines = iter(script)
        for line in lines:
            if line.startswith("stickyplan "):
                text = [line, *until_end(lines)]
                plan = plan_in(text)
                assert plan is not None, "a script has texts of plans alone"
                answer = Answer(line, [self.install(plan)])
            else:
                answer = Answer(line, self.answered(line))
            self.at += len(answer.lines)
            yield answer

    def answered(self, line: str) -> list[str]:
        match line.split(" "):
            case ["serve", moment, key, *words]:
                return [self.serve(int(moment), key, words)]
            case ["set", moment, key, server, *words] if moment.isdigit():
                return [self.set_pin(int(moment), key, server, words)]
            case ["clear", key, *wanted]:
                return [self.clear(key, wanted)]
            case ["open", name]:
                return [self.noted(line, self.desk.server(name).open)]
            case ["close", name]:
                return [self.noted(line, self.desk.server(name).close)]
            case ["check", name, result]:
                return [self.noted(line, lambda: self.desk.server(name).check(result == "ok"))]
            case ["expire", moment]:
                return [self.noted(line, lambda: self.desk.expire(int(moment)))]
            case ["snapshot"]:
                self.versions.append(self.desk.version)
                return [self.noted(line, self.desk.snapshot)]
            case ["install", number]:
                return [self.install_made(self.versions[int(number) - 1])]
            case ["plan"]:
                self.noted("snapshot", self.desk.snapshot)
                return [self.install_made(self.desk.version)]
            case ["show", what, backend]:
                return self.shown(what) if backend == "web" else ["103 NoBackend"]
            case words:
                return [self.command(words)]

    def noted(self, event: str, act: Callable[[], str], plan: Optional[Plan] = None) -> str:
        """Takes the event, and keeps it in the log."""
        reply = self.desk.step(act)
        self.log.append(Entry(event, reply, plan if reply.startswith("installed") else None))
        return reply

    def serve(self, moment: int, word: str, words: Sequence[str]) -> str:
        key = None if word == "-" else word[: self.key_length()]
        rules, cost = asked(words)
        event = with_cost(["serve", str(moment), "-" if key is None else spelt(key), *rules], cost)
        return self.noted(event, lambda: self.desk.serve(moment, key, rules, cost))

    def set_pin(self, moment: int, word: str, server: str, words: Sequence[str]) -> str:
        wanted, cost = asked(words)
        name = self.desk.name(word[: self.key_length()], wanted)
        event = with_cost(["set", str(moment), spelt(name[0]), server, *name[1]], cost)
        return self.noted(event, lambda: self.desk.set_pin(moment, name, server, cost))

    def clear(self, word: str, wanted: Sequence[str]) -> str:
        name = self.desk.name(word[: self.key_length()], wanted)
        return self.noted(" ".join(["clear", spelt(name[0]), *name[1]]), lambda: self.desk.clear(name))

    def key_length(self) -> int:
        if self.farm.table is None or self.farm.table.length is None:
            return LENGTH
        return self.farm.table.length

    # plans

    def install(self, plan: Plan) -> str:
        """Installs the plan. The pins go where the table, which is shown next, has them."""
        places = [] if self.farm.table is None else self.shown_places(1)
        return self.installed(plan, places)

    def install_made(self, version: int) -> str:
        """Installs the plan that was made for a sheet of this version: it, and then the table, are shown next."""
        if self.desk.is_stale(version):
            return self.installed(Plan(version, [], [], {}), [])
        text = list(until_end(iter(self.written[self.at + 1 :])))
        plan = plan_in(text)
        if plan is None or plan.version != version or plan.lines() != text:
            return f"installed a plan for version {version}, which is shown next"
        return self.installed(plan, [] if self.farm.table is None else self.shown_places(1 + len(text)))

    def installed(self, plan: Plan, places: Sequence[Place]) -> str:
        return self.noted(f"install version {plan.version}", lambda: self.desk.install(plan, places), plan)

    def shown_places(self, after: int) -> list[Place]:
        """The places of the table that the program shows so many lines further on."""
        first = self.at + after + 1
        shown = self.written[first : first + len(self.desk.pins)]
        found = (re.search(" server=([^ ]+) ", line) for line in shown)
        return [None if it is None or it[1] == "-" else it[1] for it in found]

    # what is shown

    def kept(self) -> Sequence[Entry]:
        """What the journal remembers."""
        return self.log[-(self.farm.journal or JOURNAL) :]

    def shown(self, what: str) -> list[str]:
        if what == "table":
            return self.table_lines()
        if what == "plan":
            plans = [entry.plan for entry in self.kept() if entry.plan is not None]
            return plans[-1].lines() if plans else ["no plan"]
        first = len(self.log) - len(self.kept())
        return [f"{number} {entry.event} -> {entry.reply}" for number, entry in enumerate(self.kept(), first)]

    def table_lines(self) -> list[str]:
        if self.farm.table is None:
            return ["no table"]
        table, pins = self.farm.table, self.desk.pins
        return [f"# table web type {table.type} size {table.size} used {len(pins)}", *map(pin_line, pins)]

    # operators' commands

    def command(self, words: Sequence[str]) -> str:
        match words:
            case ["enable", "server", at]:
                return self.command(["set", "server", at, "state", "ready"])
            case ["disable", "server", at]:
                return self.command(["set", "server", at, "state", "maint"])
            case ["set", "server", at, "weight", number]:
                return self.command(["set", "weight", at, number])
        backend, name = next(word for word in words if "/" in word).split("/")
        if backend != "web":
            return "103 NoBackend"
        if name not in [server.name for server in self.desk.servers]:
            return "10 NoSuchServer"
        return self.noted(" ".join(words), lambda: self.change(name, words))

    def change(self, name: str, words: Sequence[str]) -> str:
        server = self.desk.server(name)
        match words:
            case ["set", "server", _, "state", state]:
                return server.set_state(state)
            case ["set", "server", _, "health", health]:
                return server.set_health(health == "up")
            case ["set", "weight", _, number]:
                return server.set_number("weight", int(number))
            case ["set", setting, "server", _, number]:
                return server.set_number(setting, int(number))
        raise ValueError(f"{words} is no command")


def until_end(lines: Iterator[str]) -> Iterator[str]:
    for line in lines:
        yield line
        if line == "end":
            return


def asked(words: Sequence[str]) -> tuple[list[str], int]:
    """The servers that are named after a key, and the cost."""
    names = [name for name in words if not name.startswith("cost=")]
    costs = [int(word.removeprefix("cost=")) for word in words if word.startswith("cost=")]
    return names, costs[0] if costs else 1


def with_cost(words: Sequence[str], cost: int) -> str:
    return " ".join(words if cost == 1 else [*words, f"cost={cost}"])


def spelt(key: str) -> str:
    """The key as tables and journals spell it."""
    if key == "-":
        return "%2D"
    return "".join(letter if "!" <= letter <= "~" and letter != "%" else f"%{ord(letter):02X}" for letter in key)


def pin_line(pin: Pin) -> str:
    key, want = pin.name
    line = f"key={spelt(key)} want={','.join(want) or '-'} server={pin.place or '-'} use={pin.use}"
    return line if pin.cost == 1 else f"{line} cost={pin.cost}"
