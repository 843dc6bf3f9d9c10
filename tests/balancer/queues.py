"""Servers with as many connections as they may have, and those who wait for one."""

from __future__ import annotations

import threading

from .answers import own
from .cases import case, expect, expect_equal, wait_until
from .clients import Client, at_once, get
from .farms import Balancer, Farm, ends_well, listen, server
from .origins import Gate, Origin, answers, response

A = response(b"a")
GET = b"GET / HTTP/1.1\r\nHost: x\r\n\r\n"


def full_server(farm: Farm, limit: str) -> tuple[Balancer, int, Gate, Origin]:
    """A server that may have one connection, and holds what it gets."""
    gate, port = Gate(answers(b"a")), farm.port()
    origin = farm.origin(gate)
    lines = ("timeout client 20s", "timeout connect 20s", "timeout server 20s", limit)
    return farm.start(listen(port, *lines, server("a", origin, "maxconn 1"))), port, gate, origin


def count(balancer: Balancer, event: str) -> int:
    return balancer.events("web").count(event)


@case
def one_who_waits_longer_than_the_limit_for_a_full_server_gets_503(farm: Farm) -> None:
    balancer, port, gate, origin = full_server(farm, "timeout queue 120")
    with Client(port) as first:
        first.send(GET)
        gate.wait_for(1)
        expect_equal("the second one's answer", get(port), own(503))
        full = count(balancer, "open a -> 30 Full")
        # 120 ms are three spans of 50 ms, so it is asked at most four times; fewer where the machine is slow.
        expect(f"the server was asked 2 to 4 times: {full}", 2 <= full <= 4)
        gate.open()
        expect_equal("the first one's answer", first.read_to_end(), A)
    expect_equal("what the server got", len(origin.requests(1)), 1)
    ends_well(balancer)


@case
def one_that_resets_while_it_waits_for_a_full_server_leaves_the_queue(farm: Farm) -> None:
    balancer, port, gate, origin = full_server(farm, "timeout queue 20s")
    with Client(port) as first:
        first.send(GET)
        gate.wait_for(1)
        gone = Client(port)
        gone.send(GET.replace(b"/ ", b"/gone "))
        wait_until("it waits", lambda: count(balancer, "open a -> 30 Full") > 0)
        gone.reset()
        full = count(balancer, "open a -> 30 Full")
        threading.Event().wait(1)
        # One question may be under way, and one follows the pause after which the client is missed. There would be 20 in a second.
        asked = count(balancer, "open a -> 30 Full") - full
        expect(f"the server is asked at most twice more: {asked}", asked <= 2)
        gate.open()
        expect_equal("the first one's answer", first.read_to_end(), A)
    expect_equal("what the server got", len(origin.requests(1)), 1)
    balancer.wait_all_closed("web")
    expect_equal("connections that were opened", count(balancer, "open a -> opened a"), 1)
    ends_well(balancer)


@case
def without_any_limit_of_its_queue_one_that_reset_leaves_when_its_turn_comes(farm: Farm) -> None:
    gate, port = Gate(answers(b"a")), farm.port()
    origin = farm.origin(gate)
    balancer = farm.start(listen(port, "timeout client 20s", "timeout server 20s", server("a", origin, "maxconn 1")))
    with Client(port) as first:
        first.send(GET)
        gate.wait_for(1)
        gone = Client(port)
        gone.send(GET.replace(b"/ ", b"/gone "))
        wait_until("it waits", lambda: count(balancer, "open a -> 30 Full") > 0)
        gone.reset()
        # The worker looks after its next pause.
        full = count(balancer, "open a -> 30 Full")
        wait_until("the server is asked again", lambda: count(balancer, "open a -> 30 Full") > full + 1)
        gate.open()
        expect_equal("the first one's answer", first.read_to_end(), A)
        wait_until("its turn came", lambda: count(balancer, "close a -> closed a") == 2)
    expect_equal("what the server got", len(origin.requests(1)), 1)
    ends_well(balancer)


@case
def with_a_limit_of_0_nobody_waits_for_a_full_server(farm: Farm) -> None:
    balancer, port, gate, _ = full_server(farm, "timeout queue 0")
    with Client(port) as first:
        first.send(GET)
        gate.wait_for(1)
        for place in range(1, 4):
            expect_equal("another one's answer", get(port), own(503))
            expect_equal("it was asked once each time", count(balancer, "open a -> 30 Full"), place)
        gate.open()
        expect_equal("the first one's answer", first.read_to_end(), A)
    ends_well(balancer)


@case
def those_who_wait_are_served_once_a_slot_is_free(farm: Farm) -> None:
    balancer, port, gate, origin = full_server(farm, "timeout queue 20s")
    with Client(port) as first, Client(port) as second:
        first.send(GET)
        gate.wait_for(1)
        second.send(GET)
        wait_until("the second one waits", lambda: count(balancer, "open a -> 30 Full") > 0)
        gate.open()
        expect_equal("the first one's answer", first.read_to_end(), A)
        expect_equal("the second one's answer", second.read_to_end(), A)
    expect_equal("each was sent once", origin.requests(2), [b"GET / HTTP/1.1\r\nHost: x\r\nConnection: close\r\n\r\n"] * 2)
    ends_well(balancer)


@case
def without_a_queues_limit_that_of_a_dial_counts(farm: Farm) -> None:
    gate, port = Gate(answers(b"a")), farm.port()
    lines = ("timeout client 20s", "timeout connect 200", "timeout server 20s")
    balancer = farm.start(listen(port, *lines, server("a", farm.origin(gate), "maxconn 1")))
    with Client(port) as first:
        first.send(GET)
        gate.wait_for(1)
        expect_equal("the second one's answer", get(port), own(503))
        expect("the server was asked at most five times", count(balancer, "open a -> 30 Full") <= 5)
        gate.open()
        expect_equal("the first one's answer", first.read_to_end(), A)
    ends_well(balancer)


@case
def one_who_waits_for_a_server_that_goes_into_maintenance_gets_503(farm: Farm) -> None:
    balancer, port, gate, _ = full_server(farm, "timeout queue 20s")
    with Client(port) as first, Client(port) as second:
        first.send(GET)
        gate.wait_for(1)
        second.send(GET)
        wait_until("the second one waits", lambda: count(balancer, "open a -> 30 Full") > 0)
        balancer.tell("set server web/a state maint")
        expect_equal("the second one's answer", second.read_to_end(), own(503))
        expect_equal("the backend's word", count(balancer, "open a -> 31 NotServing"), 1)
        gate.open()
        expect_equal("the first one is served to its end", first.read_to_end(), A)
    ends_well(balancer)


@case
def a_server_never_has_more_connections_than_it_may(farm: Farm) -> None:
    gate, port = Gate(answers(b"a")), farm.port()
    origin = farm.origin(gate)
    lines = ("timeout client 20s", "timeout connect 20s", "timeout server 20s", "timeout queue 20s")
    balancer = farm.start(listen(port, *lines, server("a", origin, "maxconn 3")), ("tune.relays 16",))

    def release() -> None:
        gate.wait_for(3)
        wait_until("the others wait", lambda: count(balancer, "open a -> 30 Full") >= 9)
        expect_equal("connections at the server", len(origin.talks), 3)
        gate.open()

    served = at_once(lambda number: get(port) if number else release(), range(13))
    expect_equal("the answers", served[1:], [A] * 12)
    expect("never more than three are open", most_open(balancer) == 3)
    ends_well(balancer)


def most_open(balancer: Balancer) -> int:
    """The most connections that were open at a time."""
    now = most = 0
    for entry in balancer.journal("web"):
        now += entry.reply.startswith("opened") - entry.reply.startswith("closed")
        most = max(most, now)
    return most


@case
def a_server_that_hangs_holds_as_many_requests_as_it_may_have_connections(farm: Farm) -> None:
    gate, hung, good = Gate(answers(b"a")), farm.port(), farm.port()
    limits = ("timeout client 20s", "timeout connect 20s", "timeout server 20s")
    sections = [
        listen(hung, *limits, "timeout queue 200", server("a", farm.origin(gate), "maxconn 4"), name="hung"),
        listen(good, *limits, server("b", farm.origin()), name="good"),
    ]
    balancer = farm.start("".join(sections), ("tune.relays 2",))
    clients = [farm.stack.enter_context(Client(hung)) for _ in range(4)]
    for client in clients:
        client.send(GET)
    gate.wait_for(4)
    expect_equal("all others", at_once(lambda _: get(hung), range(60)), [own(503)] * 60)
    expect_equal("another backend's answer", get(good), response(b"b"))
    gate.open()
    expect_equal("the four", [client.read_to_end() for client in clients], [A] * 4)
    ends_well(balancer, "hung", "good")
