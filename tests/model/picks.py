"""Which server of the candidates a balance takes, and where its cursor stands then.

A cursor is a stand: a server's place in the configuration's order, and a turn from 1 on. In a round a server has as many stands as its
weight. None is before all stands.
"""
from __future__ import annotations

from typing import Callable, Optional, Sequence

from model.servers import Server

Cursor = Optional[tuple[int, int]]
# The place of the server that is taken, and the cursor after it; None where no candidate can be taken.
Picked = Optional[tuple[int, Cursor]]


def going_round(things: Sequence, is_after: Callable) -> list:
    """Those after the cursor, and then the others."""
    return [it for it in things if is_after(it)] + [it for it in things if not is_after(it)]


def roundrobin(servers: Sequence[Server], candidates: Sequence[int], cursor: Cursor) -> Picked:
    """The first stand of a candidate after the cursor."""
    stands = [(place, turn) for place, server in enumerate(servers) for turn in range(1, server.weight + 1)]
    for stand in going_round(stands, lambda stand: cursor is None or stand > cursor):
        if stand[0] in candidates:
            return stand[0], stand
    return None


def leastconn(servers: Sequence[Server], candidates: Sequence[int], cursor: Cursor) -> Picked:
    """The fewest connections for its weight; of several the first after the cursor's server."""
    if not candidates:
        return None

    def has_least(one: int) -> bool:
        return all(
            servers[one].connections * servers[other].weight <= servers[other].connections * servers[one].weight
            for other in candidates
        )

    least = [place for place in candidates if has_least(place)]
    taken = going_round(least, lambda place: cursor is None or place > cursor[0])[0]
    return taken, (taken, 1)


def first(servers: Sequence[Server], candidates: Sequence[int], cursor: Cursor) -> Picked:
    """The first with a free connection, or the first one. The cursor stays."""
    for place in [place for place in candidates if not servers[place].is_full()] + list(candidates):
        return place, cursor
    return None


BALANCES = {"roundrobin": roundrobin, "leastconn": leastconn, "first": first}
