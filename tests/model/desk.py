"""One backend: a machine that takes one event at a time, with the sentences of docs/MACHINE.md in Python.

It is slow and plain: pins are a list, the view is compared as a whole before and after each event, and nothing is kept that can be
counted. Replies are as `replay` prints them.
"""
from __future__ import annotations

from collections import Counter
from dataclasses import dataclass
from typing import Any, Callable, Optional, Sequence

from model.farms import Farm
from model.picks import BALANCES, Cursor, Picked
from model.plans import Kind, Place, Plan, Score, Sheet, judged
from model.servers import Server, usable

# A key, and the servers that the matching rules named, in the configuration's order.
Name = tuple[str, tuple[str, ...]]


@dataclass
class Pin:
    name: Name
    place: Place
    cost: int
    use: int


class Desk:
    def __init__(self, farm: Farm) -> None:
        self.allbackups, self.table = farm.allbackups, farm.table
        self.balance = BALANCES[farm.balance or "roundrobin"]
        size = 0 if farm.table is None else farm.table.size
        self.servers = [Server(line, size) for line in farm.servers]
        # The one used last is at the end.
        self.pins: list[Pin] = []
        self.cursor: Cursor = None
        self.latest = 0
        self.version = 0

    def step(self, event: Callable[[], str]) -> str:
        """The reply to the event. The version grows by one if the view has changed."""
        before = self.view()
        reply = event()
        if self.view() != before:
            self.version += 1
        return reply

    def view(self) -> Any:
        """What a planner sees. The order of the pins isn't part of it."""
        rooms = [(server.name, server.maxpins) for server in self.servers]
        return self.usable_names(), rooms, {pin.name: (pin.place, pin.cost) for pin in self.pins}

    def usable_names(self) -> list[str]:
        return [server.name for server in usable(self.servers, self.allbackups)]

    def server(self, name: str) -> Server:
        return next(server for server in self.servers if server.name == name)

    def name(self, key: str, wanted: Sequence[str]) -> Name:
        return key, tuple(server.name for server in self.servers if server.name in wanted)

    def permitted(self, want: Sequence[str]) -> list[str]:
        """The usable servers that the rules name, or all usable ones if none of those is usable."""
        names = self.usable_names()
        return [name for name in names if name in want] or names

    # requests

    def serve(self, moment: int, key: Optional[str], rules: Sequence[str], cost: int) -> str:
        now = max(moment, self.latest)
        if key is None or self.table is None:
            return self.serve_loose(rules, now)
        name = self.name(key, rules)
        for pin in self.pins:
            if pin.name == name:
                return self.serve_pin(pin, rules, now)
        if len(self.pins) < self.table.size:
            return self.serve_new(name, rules, cost, now, self.pins)
        return self.serve_loose(rules, now) if self.table.nopurge else self.serve_new(name, rules, cost, now, self.purged())

    def purged(self) -> list[Pin]:
        """The pins but for the one used least recently."""
        return self.pins[1:]

    def serve_pin(self, pin: Pin, rules: Sequence[str], now: int) -> str:
        how = "kept"
        if not self.is_honoured(pin):
            how, picked = "moved", self.pick(rules, self.roomy(rules, self.pins))
            if picked is None:
                return "80 NoServer"
            pin.place = self.take(picked)
        pin.use = self.latest = now
        self.put_last(pin)
        return f"served {pin.place} {how}"

    def put_last(self, pin: Pin) -> None:
        self.pins.remove(pin)
        self.pins.append(pin)

    def is_honoured(self, pin: Pin) -> bool:
        """It is at a server that serves, and the rules name this one, or none that is usable."""
        if pin.place is None or not self.server(pin.place).serves():
            return False
        return pin.place in pin.name[1] or not set(pin.name[1]) & set(self.usable_names())

    def serve_new(self, name: Name, rules: Sequence[str], cost: int, now: int, staying: list[Pin]) -> str:
        picked = self.pick(rules, self.roomy(rules, staying))
        if picked is None:
            return "80 NoServer"
        pin = Pin(name, self.take(picked), cost, now)
        self.pins, self.latest = [*staying, pin], now
        return f"served {pin.place} made"

    def serve_loose(self, rules: Sequence[str], now: int) -> str:
        picked = self.pick(rules, self.permitted(rules))
        if picked is None:
            return "80 NoServer"
        self.latest = now
        return f"served {self.take(picked)} loose"

    # pins that are set and cleared

    def named(self, name: Name) -> Optional[Pin]:
        return next((pin for pin in self.pins if pin.name == name), None)

    def set_pin(self, moment: int, name: Name, server: str, cost: int) -> str:
        """The pin stands at the server, whatever the server's state is and however many pins it holds."""
        now = max(moment, self.latest)
        if self.table is None:
            return "no table"
        pin = self.named(name)
        if pin is None:
            return self.set_new(Pin(name, server, cost, now))
        how = "kept" if pin.place == server else "moved"
        pin.place, pin.use = server, now
        self.latest = now
        self.put_last(pin)
        return f"pinned {server} {how}"

    def set_new(self, pin: Pin) -> str:
        is_full = len(self.pins) >= self.table.size
        if is_full and self.table.nopurge:
            return "60 TableFull"
        self.pins = [*(self.purged() if is_full else self.pins), pin]
        self.latest = pin.use
        return f"pinned {pin.place} made"

    def clear(self, name: Name) -> str:
        pin = self.named(name)
        if pin is None:
            return "no pin"
        self.pins.remove(pin)
        return "cleared"

    # picks

    def roomy(self, rules: Sequence[str], pins: Sequence[Pin]) -> list[str]:
        """The permitted servers that hold fewer of these pins than their capacity."""
        loads = Counter(pin.place for pin in pins)
        return [name for name in self.permitted(rules) if loads[name] < self.server(name).maxpins]

    def pick(self, rules: Sequence[str], candidates: Sequence[str]) -> Picked:
        """The rules' first candidate where a server that they name is usable, and else the balance's."""
        places = [place for place, server in enumerate(self.servers) if server.name in candidates]
        if not set(rules) & set(self.usable_names()):
            return self.balance(self.servers, places, self.cursor)
        for name in rules:
            if name in candidates:
                return next(place for place in places if self.servers[place].name == name), self.cursor
        return None

    def take(self, picked: tuple[int, Cursor]) -> str:
        place, self.cursor = picked
        return self.servers[place].name

    # time

    def expire(self, moment: int) -> str:
        """Each pin goes whose last use and `expire` aren't after the moment."""
        now, before = max(moment, self.latest), len(self.pins)
        if self.table is not None and self.table.expire is not None:
            self.pins = [pin for pin in self.pins if pin.use + self.table.expire > now]
        return f"expired {before - len(self.pins)}"

    # plans

    def kind(self, pin: Pin) -> Kind:
        return pin.place, tuple(self.permitted(pin.name[1])), pin.cost

    def sheet(self) -> Sheet:
        on = self.usable_names()
        servers = [(server.name, server.maxpins if server.name in on else None) for server in self.servers]
        return Sheet(self.version, servers, Counter(map(self.kind, self.pins)))

    def snapshot(self) -> str:
        sheet = self.sheet()
        return f"sheet version {sheet.version} pins {sheet.groups.total()}"

    def install(self, plan: Plan, places: Sequence[Place]) -> str:
        """Of the pins of one kind any may go where the plan sends some. So the places that they have after it are given."""
        if self.is_stale(plan.version):
            return "70 Stale"
        answer = judged(plan, self.sheet())
        if not isinstance(answer, Score):
            return f"71 Bad {answer}"
        if Counter(zip(map(self.kind, self.pins), places)) != plan.rows:
            return "the pins don't go where the plan sends them"
        for pin, place in zip(self.pins, places):
            pin.place = place
        return f"installed {answer.text()}"

    def is_stale(self, version: int) -> bool:
        return version != self.version
