"""Farms and scripts that are drawn by a seed, and plans that are no planner's."""
from __future__ import annotations

from collections import Counter
from dataclasses import replace
from typing import Iterator, Optional, Sequence, TypeVar

from model.farms import Farm, ServerLine, TableLine
from model.plans import Kind, Place, Plan
from running.dice import Dice

NAMES = "abcdef"
KEYS = ["k1", "k2", "k3", "k4", "k5", "-k", "50%", "k8"]
ADDRESSES = [f"10.0.0.{number}" for number in range(1, 9)]
# How many lines a script draws, beside those that follow on one.
LINES = 400
# Lines that follow each plan: the model looks at them.
LOOK = ["show plan web", "show table web"]

Thing = TypeVar("Thing")


def one_of(dice: Dice, things: Sequence[Thing]) -> Thing:
    return things[dice.roll(len(things))]


def is_one_in(dice: Dice, times: int) -> bool:
    return dice.roll(times) == 0


# farms


def drawn_farm(dice: Dice) -> Farm:
    count = 0 if is_one_in(dice, 60) else 1 + dice.roll(6) if is_one_in(dice, 3) else 1 + dice.roll(4)
    backups = 2 if is_one_in(dice, 4) else 6
    return Farm(
        balance=one_of(dice, [None, "roundrobin", "leastconn", "leastconn", "first", "first"]),
        allbackups=is_one_in(dice, 3),
        table=None if is_one_in(dice, 10) else drawn_table(dice),
        servers=[drawn_server(dice, name, backups) for name in NAMES[:count]],
        journal=one_of(dice, [None, 1, 2, 37]),
    )


def drawn_table(dice: Dice) -> TableLine:
    is_of_addresses = is_one_in(dice, 8)
    return TableLine(
        type="ip" if is_of_addresses else "string",
        size=1 + dice.roll(8),
        length=one_of(dice, [None, None, 1, 2]) if not is_of_addresses else None,
        expire=one_of(dice, [None, None, 0, 50 + 10 * dice.roll(40), 50 + 10 * dice.roll(10)]),
        nopurge=is_one_in(dice, 3),
    )


def drawn_server(dice: Dice, name: str, backups: int) -> ServerLine:
    """A server that is a backup once in so many times."""
    is_checked = not is_one_in(dice, 3)
    return ServerLine(
        name,
        weight=one_of(dice, [None, None, 1, 2, 3, 3, 2, dice.roll(3)]),
        maxconn=one_of(dice, [None, 0, 1, 2, 3]),
        maxpins=dice.roll(8) if is_one_in(dice, 2) else None,
        check=is_checked,
        rise=one_of(dice, [None, 1, 2, 3]) if is_checked else None,
        fall=one_of(dice, [None, 1, 2, 3]) if is_checked else None,
        backup=is_one_in(dice, backups),
        disabled=is_one_in(dice, 12),
    )


# scripts


class Script:
    """Draws a script for a farm. No line of it depends on what a line before it is answered."""

    def __init__(self, dice: Dice, farm: Farm) -> None:
        self.dice = dice
        self.names = [server.name for server in farm.servers]
        self.keys = ADDRESSES if farm.table is not None and farm.table.type == "ip" else KEYS
        self.costs = one_of(dice, [1, 2, 1000])
        self.moment, self.snapshots = 0, 0

    def lines(self) -> list[str]:
        drawn = [line for _ in range(LINES) for line in self.some_lines()]
        return [*drawn, *LOOK, "show journal web"]

    def some_lines(self) -> Iterator[str]:
        kind = self.dice.roll(100)
        if kind < 40:
            yield self.serve()
        elif kind < 45:
            yield self.set_pin()
        elif kind < 48:
            yield " ".join(["clear", one_of(self.dice, self.keys), *self.wanted()])
        elif kind < 55:
            yield f"open {self.name()}"
        elif kind < 61:
            yield f"close {self.name()}"
        elif kind < 65:
            yield f"expire {self.some_moment()}"
        elif kind < 78:
            yield f"check {self.name()} {'fail' if is_one_in(self.dice, 3) else 'ok'}"
        elif kind < 90:
            yield self.command()
        elif kind < 95:
            yield from self.snapshot()
        elif kind < 98:
            yield from ["plan", *LOOK]
        else:
            backend = "shop" if is_one_in(self.dice, 20) else "web"
            yield f"show {one_of(self.dice, ['table', 'journal', 'plan'])} {backend}"

    def serve(self) -> str:
        self.moment += 10 * self.dice.roll(4)
        key = "-" if is_one_in(self.dice, 12) else one_of(self.dice, self.keys)
        wanted = self.wanted()
        return self.with_cost(["serve", str(self.some_moment()), key, *wanted])

    def set_pin(self) -> str:
        self.moment += 10 * self.dice.roll(4)
        words = ["set", str(self.some_moment()), one_of(self.dice, self.keys), self.name()]
        return self.with_cost([*words, *self.wanted()])

    def wanted(self) -> list[str]:
        """No server in most cases, and up to three."""
        return [self.name() for _ in range(max(0, self.dice.roll(16) - 12))]

    def with_cost(self, words: Sequence[str]) -> str:
        cost = 1 + self.dice.roll(self.costs)
        return " ".join(words if cost == 1 else [*words, f"cost={cost}"])

    def name(self) -> str:
        return one_of(self.dice, self.names)

    def some_moment(self) -> int:
        """Now, or a moment before."""
        return max(0, self.moment - 10 * self.dice.roll(10)) if is_one_in(self.dice, 5) else self.moment

    def snapshot(self) -> Iterator[str]:
        """A sheet that is kept, and perhaps a plan for it, or for one before it."""
        yield "snapshot"
        self.snapshots += 1
        if not is_one_in(self.dice, 2):
            number = self.snapshots if is_one_in(self.dice, 2) else 1 + self.dice.roll(self.snapshots)
            yield from [f"install {number}", *LOOK]

    def command(self) -> str:
        dice, at = self.dice, f"web/{self.name()}"
        if is_one_in(dice, 40):
            at = one_of(dice, ["web/x", "shop/a"])
        number = dice.roll(10)
        if number < 6:
            return self.state(at, one_of(dice, ["maint", "drain", "ready", "ready", "ready", "ready"]))
        if number == 6:
            return f"set server {at} health {'down' if is_one_in(dice, 4) else 'up'}"
        if number == 7:
            weight = self.number(4, 257) or self.dice.roll(3)
            return one_of(dice, [f"set weight {at} {weight}", f"set server {at} weight {weight}"])
        if number == 8:
            return f"set maxconn server {at} {self.number(3, 4294967296)}"
        return f"set maxpins server {at} {self.number(9, 16777217)}"

    def state(self, at: str, state: str) -> str:
        words = {"ready": f"enable server {at}", "maint": f"disable server {at}"}
        return words[state] if state in words and is_one_in(self.dice, 2) else f"set server {at} state {state}"

    def number(self, sides: int, beyond: int) -> int:
        return beyond if is_one_in(self.dice, 8) else self.dice.roll(sides)


# plans in scripts


def with_plans(dice: Dice, script: Sequence[str], made: dict[int, Plan]) -> list[str]:
    """The script once more, with texts of plans in it. Where a line of it had a plan made and installed, changed ones come before that plan,
    and perhaps one from before. `made` has these plans by the lines' numbers."""
    lines: list[str] = []
    older: Optional[Plan] = None
    for number, line in enumerate(script):
        plan = made.get(number)
        if plan is None:
            lines.append(line)
            continue
        given = [changed(dice, plan) for _ in range(dice.roll(3))]
        if older is not None and is_one_in(dice, 3):
            given.append(older)
        for text in map(Plan.lines, given):
            lines += [*text, "show table web"]
        lines += [line] if is_one_in(dice, 3) else [*plan.lines(), "show table web"]
        older = plan
    return lines


def changed(dice: Dice, plan: Plan) -> Plan:
    """The plan with another price, capacity or version, or with a row that goes elsewhere, has a pin more, or is left out."""
    rows = sorted(plan.rows, key=plan.order)
    way = dice.roll(6)
    if way == 0:
        return replace(plan, version=plan.version + one_of(dice, [1, -1]) if plan.version else 1)
    at = dice.roll(len(plan.servers))
    name, room = plan.servers[at]
    if way == 1 and room is not None:
        return replace(plan, prices=put(plan.prices, at, dice.roll(4)))
    if way == 2:
        return replace(plan, servers=put(plan.servers, at, (name, 1 + dice.roll(9))))
    if not rows:
        return plan
    row = one_of(dice, rows)
    if way == 3:
        return replace(plan, rows=plan.rows + Counter({row: 1}))
    if way == 4:
        return replace(plan, rows=plan.rows - Counter({row: 1}))
    return replace(plan, rows=elsewhere(dice, plan, row))


def elsewhere(dice: Dice, plan: Plan, row: tuple[Kind, Place]) -> Counter[tuple[Kind, Place]]:
    """The rows, where one pin of this row goes to another place."""
    kind, _ = row
    new = one_of(dice, [None, *kind[1], *(name for name, _ in plan.servers)])
    return plan.rows - Counter({row: 1}) + Counter({(kind, new): 1})


def put(things: Sequence[Thing], at: int, thing: Thing) -> list[Thing]:
    return [*things[:at], thing, *things[at + 1 :]]
