"""Servers: their settings, their health by rise and fall, who serves, and who is usable."""
from __future__ import annotations

from typing import Optional, Sequence

from model.farms import ServerLine

# What a setting's number is at most.
LIMITS = {"weight": 256, "maxconn": 4294967295, "maxpins": 16777216}


class Health:
    """All results of a checked server since its base: the start, the end of maintenance, or a forced health."""

    def __init__(self, rise: int, fall: int) -> None:
        self.rise, self.fall = rise, fall
        self.begin()

    def begin(self) -> None:
        """At the start, and when maintenance ends: as if `fall` - 1 failures had just come."""
        self.since([False] * (self.fall - 1))

    def force(self, up: bool) -> None:
        """As if the successes or failures for it had just come."""
        self.since([True] * self.rise if up else [False] * self.fall)

    def add(self, ok: bool) -> None:
        self.since([*self.results, ok])

    def since(self, results: list[bool]) -> None:
        self.results = results
        self.up = self.is_up()

    def is_up(self) -> bool:
        """Down if `fall` in a row have failed and no `rise` in a row have succeeded since, and up otherwise."""
        up, in_a_row, last = True, 0, None
        for ok in self.results:
            in_a_row = in_a_row + 1 if ok == last else 1
            last = ok
            if in_a_row >= (self.rise if ok else self.fall):
                up = ok
        return up


class Server:
    def __init__(self, line: ServerLine, table_size: int) -> None:
        self.name, self.backup = line.name, line.backup
        self.state = "maint" if line.disabled else "ready"
        self.weight = 1 if line.weight is None else line.weight
        self.maxconn = line.maxconn or 0
        self.maxpins = table_size if line.maxpins is None else line.maxpins
        self.health: Optional[Health] = None
        if line.check:
            self.health = Health(2 if line.rise is None else line.rise, 3 if line.fall is None else line.fall)
        self.connections = 0

    def serves(self) -> bool:
        return self.state != "maint" and (self.health is None or self.health.up)

    def is_fit(self) -> bool:
        """Picks and plans may send to it, as far as the others make no difference."""
        return self.state == "ready" and self.weight > 0 and self.serves()

    def is_full(self) -> bool:
        return self.maxconn != 0 and self.connections >= self.maxconn

    def open(self) -> str:
        if not self.serves():
            return "31 NotServing"
        if self.is_full():
            return "30 Full"
        self.connections += 1
        return f"opened {self.name}"

    def close(self) -> str:
        if self.connections == 0:
            return "32 NotOpen"
        self.connections -= 1
        return f"closed {self.name}"

    def check(self, ok: bool) -> str:
        if self.health is None:
            return "12 NotChecked"
        if self.state == "maint":
            return "check ignored"
        before = self.health.up
        self.health.add(ok)
        if self.health.up == before:
            return "check stays"
        return "check up" if self.health.up else "check down"

    def set_state(self, state: str) -> str:
        if self.state == "maint" and state != "maint" and self.health is not None:
            self.health.begin()
        self.state = state
        return "done"

    def set_health(self, up: bool) -> str:
        if self.health is None:
            return "12 NotChecked"
        self.health.force(up)
        return "done"

    def set_number(self, setting: str, number: int) -> str:
        if number > LIMITS[setting]:
            return "11 OutOfRange"
        setattr(self, setting, number)
        return "done"


def usable(servers: Sequence[Server], allbackups: bool) -> list[Server]:
    """Those that are fit and no backups; if there are none, the first backup that is fit, or each one."""
    fit = [server for server in servers if server.is_fit()]
    backups = [server for server in fit if server.backup]
    return [server for server in fit if not server.backup] or (backups if allbackups else backups[:1])
