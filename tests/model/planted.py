"""Models that differ from the machine in one way each. The comparison has to see every one."""
from __future__ import annotations

from dataclasses import replace
from typing import Callable, Sequence

from model import picks
from model.desk import Desk, Name, Pin
from model.farms import Farm
from model.picks import Cursor, Picked
from model.servers import Health, Server


class OldPlansAreInstalled(Desk):
    """a plan of an earlier version isn't stale"""

    def is_stale(self, version: int) -> bool:
        return version > self.version


class PinsExpireLate(Desk):
    """a pin stays at the moment at which it is out of time"""

    def expire(self, moment: int) -> str:
        return super().expire(moment - 1)


class DrainingServersGetPins(Desk):
    """a server that drains gets new pins"""

    def __init__(self, farm: Farm) -> None:
        super().__init__(farm)
        for server in self.servers:
            server.is_fit = lambda server=server: server.weight > 0 and server.serves()


class TheNewestPinGoes(Desk):
    """a full table loses the pin that was used last"""

    def purged(self) -> list[Pin]:
        return self.pins[:-1]


class PurgedPinsCount(Desk):
    """a pin that is about to be purged counts in the pick"""

    def serve_new(self, name: Name, rules: Sequence[str], cost: int, now: int, staying: list[Pin]) -> str:
        picked = self.pick(rules, self.roomy(rules, self.pins))
        return super().serve_new(name, rules, cost, now, staying) if picked else "80 NoServer"


class UsedPinsStay(Desk):
    """a pin that is used stays where it is in the order"""

    def put_last(self, pin: Pin) -> None:
        pass


class RoundsForgetWeights(Desk):
    """each server has one stand in a round"""

    def __init__(self, farm: Farm) -> None:
        super().__init__(farm)
        if farm.balance in (None, "roundrobin"):
            self.balance = self.in_turn

    @staticmethod
    def in_turn(servers: Sequence[Server], candidates: Sequence[int], cursor: Cursor) -> Picked:
        after = picks.going_round(candidates, lambda place: cursor is None or place > cursor[0])
        return (after[0], (after[0], 1)) if after else None


class LoadsForgetWeights(Desk):
    """`leastconn` takes the fewest connections, whatever the weights"""

    def __init__(self, farm: Farm) -> None:
        super().__init__(farm)
        if farm.balance == "leastconn":
            self.balance = self.fewest

    @staticmethod
    def fewest(servers: Sequence[Server], candidates: Sequence[int], cursor: Cursor) -> Picked:
        after = picks.going_round(candidates, lambda place: cursor is None or place > cursor[0])
        taken = min(after, key=lambda place: servers[place].connections, default=None)
        return None if taken is None else (taken, (taken, 1))


class EachBackupIsUsable(Desk):
    """all backups are usable, without `option allbackups`"""

    def __init__(self, farm: Farm) -> None:
        super().__init__(replace(farm, allbackups=True))


class ForcedHealth(Health):
    def begin(self) -> None:
        if not hasattr(self, "results"):
            super().begin()


class MaintenanceKeepsResults(Desk):
    """a server that leaves maintenance keeps its results"""

    def __init__(self, farm: Farm) -> None:
        super().__init__(farm)
        for server in self.servers:
            if server.health is not None:
                server.health = ForcedHealth(server.health.rise, server.health.fall)


class FullServersAreSetNoPins(Desk):
    """a pin that is set at a server without room isn't made"""

    def set_new(self, pin: Pin) -> str:
        return super().set_new(pin) if pin.place in self.roomy(pin.name[1], self.pins) else "80 NoServer"


class SetPinsHaveTheNewCost(Desk):
    """a pin that is set has the cost of the event, also where it is in the table"""

    def set_pin(self, moment: int, name: Name, server: str, cost: int) -> str:
        reply = super().set_pin(moment, name, server, cost)
        for pin in self.pins:
            if pin.name == name:
                pin.cost = cost
        return reply


PLANTED: Sequence[Callable[[Farm], Desk]] = [
    OldPlansAreInstalled,
    PinsExpireLate,
    DrainingServersGetPins,
    TheNewestPinGoes,
    PurgedPinsCount,
    UsedPinsStay,
    RoundsForgetWeights,
    LoadsForgetWeights,
    EachBackupIsUsable,
    MaintenanceKeepsResults,
    FullServersAreSetNoPins,
    SetPinsHaveTheNewCost,
]
