"""`verify` against all assignments of small farms, by a count of room and cost of the test's own.

Of each farm every assignment of its pins is written as a plan, once with prices that show the least cost and once with
prices of 0. With the former `verify` has to find best exactly the lawful assignments of least cost, and with the latter
none of another; a plan that isn't best has the fault that comes first.
"""
from __future__ import annotations

from collections import Counter
from dataclasses import dataclass
from itertools import product
from typing import Iterator, Optional, Sequence

from running.dice import Dice
from running.trying import Case, Step

NAMES = "-abc"
FARMS = 60
SEED = 20261122

# A place, or where a pin is sent: 0 is none, and i is the server of number i - 1.
Spot = int
Prices = Sequence[int]
Assignment = Sequence[Spot]


@dataclass(frozen=True)
class Pin:
    place: Spot
    # The servers that it may be at, as bits.
    permitted: int
    cost: int

    def may_go(self, spot: Spot) -> bool:
        return spot == 0 or bool(self.permitted >> (spot - 1) & 1)

    def move_cost(self, spot: Spot) -> int:
        return 0 if spot == self.place else self.cost


@dataclass(frozen=True)
class Farm:
    # How many pins each server has room for; None where it is off.
    rooms: Sequence[Optional[int]]
    pins: Sequence[Pin]

    def unplaced_cost(self) -> int:
        return 1 + sum(pin.cost for pin in self.pins)

    def option_cost(self, pin: Pin, spot: Spot) -> int:
        return pin.move_cost(spot) + (self.unplaced_cost() if spot == 0 else 0)

    def cost(self, assignment: Assignment) -> int:
        return sum(self.option_cost(pin, spot) for pin, spot in zip(self.pins, assignment))

    def assignments(self) -> Iterator[Assignment]:
        return product(range(len(self.rooms) + 1), repeat=len(self.pins))

    def fault(self, assignment: Assignment) -> Optional[str]:
        """Returns what is unlawful: a pin that goes where it may not, or else a server with more pins than room."""
        if not all(pin.may_go(spot) for pin, spot in zip(self.pins, assignment)):
            return "51 NotPermitted"
        loads = Counter(assignment)
        if any(loads[server] > (room or 0) for server, room in enumerate(self.rooms, 1)):
            return "52 OverCapacity"
        return None

    def bound(self, prices: Prices) -> int:
        """Returns the least of cost and price over each pin's options, summed, less what all room is worth."""
        priced = [0, *prices]
        least = sum(
            min(self.option_cost(pin, spot) + price for spot, price in enumerate(priced) if pin.may_go(spot))
            for pin in self.pins
        )
        return least - sum((room or 0) * price for room, price in zip(self.rooms, prices))

    def right_prices(self, cost: int) -> Prices:
        """Returns prices at which the bound is this cost; that of a server that is off is 0."""
        ranges = [range(1 if room is None else self.unplaced_cost() + 4) for room in self.rooms]
        return next(prices for prices in product(*ranges) if self.bound(prices) == cost)

    def text(self, assignment: Assignment, prices: Prices) -> str:
        """Returns the plan of the assignment with these prices."""
        form = 1 if all(pin.cost == 1 for pin in self.pins) else 2
        lines = [f"stickyplan {form}", "version 7"]
        for name, room, price in zip(NAMES[1:], self.rooms, prices):
            lines.append(f"server {name} off" if room is None else f"server {name} cap {room} price {price}")
        rows = Counter((pin.place, pin.permitted, pin.cost, spot) for pin, spot in zip(self.pins, assignment))
        for (place, permitted, cost, spot), count in sorted(rows.items()):
            words = f"row {count} {NAMES[place]} {NAMES[spot]} {set_word(permitted)}"
            lines.append(words if form == 1 else f"{words} {cost}")
        return "\n".join([*lines, "end", ""])

    def best_line(self, assignment: Assignment) -> str:
        """Returns what is said of the assignment where it is best."""
        spent = sum(pin.move_cost(spot) for pin, spot in zip(self.pins, assignment))
        moved = sum(pin.place != spot for pin, spot in zip(self.pins, assignment))
        words = f"best pins {len(self.pins)} unplaced {list(assignment).count(0)} moved {moved}"
        return words if spent == moved else f"{words} cost {spent}"


def set_word(permitted: int) -> str:
    names = [name for bit, name in enumerate(NAMES[1:]) if permitted >> bit & 1]
    return ",".join(names) or "-"


def random_farm(dice: Dice) -> Farm:
    """Returns a farm of up to 3 servers with room for up to 2 pins each, or off, and of up to 5 pins of costs 1 to 3."""
    servers = dice.roll(3) + 1
    rooms = [None if room == 3 else room for room in (dice.roll(4) for _ in range(servers))]
    usable = sum(1 << server for server, room in enumerate(rooms) if room is not None)
    pins = [Pin(dice.roll(servers + 1), dice.roll(8) & usable, 1 + dice.roll(3)) for _ in range(dice.roll(6))]
    return Farm(rooms, pins)


def plan_step(farm: Farm, assignment: Assignment, prices: Prices, least: int) -> Step:
    """Returns a run of `verify` on the plan of the assignment, with what it has to say."""
    fault = farm.fault(assignment)
    if fault is None and not farm.cost(assignment) == least == farm.bound(prices):
        fault = "53 NotShown"
    answer = fault or farm.best_line(assignment)
    files = {"plan": farm.text(assignment, prices).encode()}
    return Step(["verify", "plan"], files, f"{answer}\n".encode(), status=1 if fault else 0)


def farm_steps(farm: Farm) -> list[Step]:
    """Returns the runs of all plans of the farm, each plan once."""
    lawful = [assignment for assignment in farm.assignments() if farm.fault(assignment) is None]
    least = min(farm.cost(assignment) for assignment in lawful)
    right, nothing = farm.right_prices(least), [0] * len(farm.rooms)
    steps: dict[bytes, Step] = {}
    for assignment in farm.assignments():
        for prices in (right, nothing):
            step = plan_step(farm, assignment, prices, least)
            steps[step.files["plan"]] = step
    return list(steps.values())


def farm_cases() -> list[Case]:
    """Returns a case for each farm of a seeded sample."""
    dice = Dice(SEED)
    farms = [random_farm(dice) for _ in range(FARMS)]
    return [
        Case(f"all plans of small farm {number} are judged right: {farm}", farm_steps(farm))
        for number, farm in enumerate(farms, 1)
    ]
