"""Sheets and plans, and what the check finds of a plan for a sheet."""
from __future__ import annotations

from collections import Counter
from dataclasses import dataclass
from typing import Iterable, Optional, Sequence

# A server's name, or None for no server.
Place = Optional[str]
# A pin's place, the servers that it may be at, in the configuration's order, and what a move of it costs.
Kind = tuple[Place, tuple[str, ...], int]


@dataclass(frozen=True)
class Sheet:
    version: int
    # Each server with its capacity, or None if it is off.
    servers: Sequence[tuple[str, Optional[int]]]
    # How many pins there are of each kind.
    groups: Counter[Kind]


@dataclass(frozen=True)
class Score:
    pins: int
    unplaced: int
    moved: int
    cost: int

    def text(self) -> str:
        words = f"pins {self.pins} unplaced {self.unplaced} moved {self.moved}"
        return words if self.cost == self.moved else f"{words} cost {self.cost}"


@dataclass(frozen=True)
class Plan:
    version: int
    servers: Sequence[tuple[str, Optional[int]]]
    # That of a server that is off is 0.
    prices: Sequence[int]
    # How many pins of each kind go where.
    rows: Counter[tuple[Kind, Place]]

    def lines(self) -> list[str]:
        """The plan's text, whose rows rise by place, set, cost and new place."""
        form = 1 if all(kind[2] == 1 for kind, _ in self.rows) else 2
        lines = [f"stickyplan {form}", f"version {self.version}"]
        for (name, room), price in zip(self.servers, self.prices):
            lines.append(f"server {name} off" if room is None else f"server {name} cap {room} price {price}")
        for row in sorted(self.rows, key=self.order):
            (place, permitted, cost), new = row
            words = f"row {self.rows[row]} {place or '-'} {new or '-'} {','.join(permitted) or '-'}"
            lines.append(words if form == 1 else f"{words} {cost}")
        return [*lines, "end"]

    def order(self, row: tuple[Kind, Place]) -> tuple[int, ...]:
        (place, permitted, cost), new = row
        number = {name: at for at, (name, _) in enumerate(self.servers, 1)}
        as_bits = sum(1 << number[name] for name in permitted)
        return number.get(place, 0), as_bits, cost, number.get(new, 0)


def plan_in(lines: Iterable[str]) -> Optional[Plan]:
    """The plan of a text that is one. Of another text None, or a plan that has another text."""
    try:
        return plan_of(lines)
    except ValueError:
        return None


def plan_of(lines: Iterable[str]) -> Plan:
    version, servers, prices, rows = 0, [], [], Counter()
    for line in lines:
        match line.split(" "):
            case ["version", number]:
                version = int(number)
            case ["server", name, "off"]:
                servers, prices = [*servers, (name, None)], [*prices, 0]
            case ["server", name, "cap", room, "price", price]:
                servers, prices = [*servers, (name, int(room))], [*prices, int(price)]
            case ["row", count, place, new, permitted, *cost]:
                kind = (place_in(place), tuple(permitted.split(",")) if permitted != "-" else (), int(*cost or [1]))
                rows[kind, place_in(new)] += int(count)
    return Plan(version, servers, prices, rows)


def place_in(word: str) -> Place:
    return None if word == "-" else word


def judged(plan: Plan, sheet: Sheet) -> str | Score:
    """The first fault of the plan for the sheet, or its score where it is lawful and its prices show that none is better."""
    groups: Counter[Kind] = Counter()
    loads: Counter[Place] = Counter()
    for (kind, new), count in plan.rows.items():
        groups[kind] += count
        loads[new] += count
    if plan.servers != sheet.servers or groups != sheet.groups:
        return "50 RowsDiffer"
    if any(new is not None and new not in kind[1] for kind, new in plan.rows):
        return "51 NotPermitted"
    if any(loads[name] > (room or 0) for name, room in plan.servers):
        return "52 OverCapacity"
    return score_of(plan) if spent(plan) == bound(plan) else "53 NotShown"


def option_cost(plan: Plan, kind: Kind, new: Place) -> int:
    """What it costs that a pin goes there: a move its cost, and to go without a server one more than if every pin moved."""
    without = 1 + sum(cost * count for ((_, _, cost), _), count in plan.rows.items())
    return (kind[2] if new != kind[0] else 0) + (without if new is None else 0)


def spent(plan: Plan) -> int:
    return sum(option_cost(plan, kind, new) * count for (kind, new), count in plan.rows.items())


def bound(plan: Plan) -> int:
    """What no lawful plan is below: each pin takes its cheapest option, whose place costs its price; less what all places are worth."""
    price = dict(zip((name for name, _ in plan.servers), plan.prices))
    least = 0
    for (kind, _), count in plan.rows.items():
        least += count * min(option_cost(plan, kind, new) + price.get(new, 0) for new in (None, *kind[1]))
    return least - sum((room or 0) * price[name] for name, room in plan.servers)


def score_of(plan: Plan) -> Score:
    moves = [(kind[2], count) for (kind, new), count in plan.rows.items() if new != kind[0]]
    return Score(
        pins=plan.rows.total(),
        unplaced=sum(count for (_, new), count in plan.rows.items() if new is None),
        moved=sum(count for _, count in moves),
        cost=sum(cost * count for cost, count in moves),
    )
