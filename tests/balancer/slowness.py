"""Clients that are slow with their heads, beside others."""

from __future__ import annotations

import contextlib
import time

from .answers import own
from .cases import case, expect, expect_equal
from .clients import Client, ask
from .farms import LIMITS, Farm, ends_well, listen, server
from .origins import response

A = response(b"a")
GET = b"GET / HTTP/1.1\r\nHost: x\r\n\r\n"


def last_answer(client: Client) -> bytes:
    """All that still comes. Then the client leaves, so that no worker waits for its end."""
    data = client.read_to_end()
    client.stream.close()
    return data


@case
def six_hundred_silent_clients_and_a_hundred_that_drip_hold_up_nobody(farm: Farm) -> None:
    port = farm.port()
    # Without a limit for clients, since a machine that is busy may take its time with so many.
    balancer = farm.start(listen(port, *LIMITS[1:], server("a", farm.origin())), ("tune.relays 2",))
    with contextlib.ExitStack() as stack:
        silent = [stack.enter_context(Client(port)) for _ in range(600)]
        dripping = [stack.enter_context(Client(port)) for _ in range(100)]
        for place in range(len(GET) - 1):
            for client in dripping:
                client.send(GET[place : place + 1])
            expect_equal("another one's answer meanwhile", ask(port, GET), A)
        for client in dripping:
            client.send(GET[-1:])
        expect_equal("the answers to slow heads", [last_answer(client) for client in dripping], [A] * 100)
        for client in silent[:50]:
            client.send(GET)
        expect_equal("the answers to late heads", [last_answer(client) for client in silent[:50]], [A] * 50)
        expect_equal("the balancer has asked nobody for the others", balancer.events("web").count("open a -> opened a"), len(GET) + 149)
    ends_well(balancer)


@case
def a_silent_client_has_its_limit_behind_each_byte_and_no_less(farm: Farm) -> None:
    port = farm.port()
    balancer = farm.start(listen(port, "timeout client 800ms", server("a", farm.origin())))
    for sent in (b"", b"G", GET[:10], GET[:-1]):
        with Client(port) as client:
            if sent:
                # Half of the limit passes before the first byte.
                time.sleep(0.4)
            begin = time.monotonic()
            client.send(sent)
            expect_equal("the answer", client.read_to_end(), own(408))
            # Clocks of systems tick.
            expect(f"it had its limit behind {sent!r}", time.monotonic() - begin > 0.75)
    ends_well(balancer)


@case
def a_client_that_goes_on_in_time_is_served_however_long_its_head_takes(farm: Farm) -> None:
    port = farm.port()
    balancer = farm.start(listen(port, "timeout client 3s", server("a", farm.origin())))
    with Client(port) as client:
        for place in range(0, 20, 4):
            client.send(GET[place : place + 4])
            # Together these are longer than the limit.
            time.sleep(0.8)
        client.send(GET[20:])
        expect_equal("the answer", client.read_to_end(), A)
    ends_well(balancer)


@case
def a_bad_head_that_stays_without_an_end_gets_400_at_the_clients_limit(farm: Farm) -> None:
    port = farm.port()
    balancer = farm.start(listen(port, "timeout client 600ms", server("a", farm.origin())))
    lines = (b"GET  / HTTP/1.1\r\n", b"GET / HTTP/3.0\r\nHost: x\r\n", b"GET / HTTP/1.1\r\nX y: z\r\n")
    for sent in (*lines, b"\x00", b"GET / HTTP/1.1\r\nX: \x01"):
        expect_equal(f"the answer to {sent!r}", ask(port, sent), own(400))
    expect_equal("nobody was asked", balancer.events("web"), [])
    ends_well(balancer)


@case
def a_body_that_comes_with_its_head_or_behind_it_is_forwarded(farm: Farm) -> None:
    port, origin = farm.port(), farm.origin()
    balancer = farm.start(listen(port, *LIMITS, server("a", origin)))
    body = bytes(number % 251 for number in range(40_000))
    head = b"POST / HTTP/1.1\r\nContent-Length: 40000\r\n"
    data = head + b"\r\n" + body
    cuts = (10, len(head), len(head) + 1, len(head) + 2, len(head) + 3, len(head) + 1000, 16384, 16385, 20000, len(data) - 1)
    for number, cut in enumerate(cuts):
        with Client(port) as client:
            client.send(data[:cut])
            # The rest comes when the balancer has had time to take in the first part; whether it has makes no difference.
            time.sleep(0.02)
            client.send(data[cut:])
            expect_equal("the answer", client.read_to_end(), A)
        received = origin.requests(number + 1)[-1]
        due = head + b"Connection: close\r\n\r\n" + body
        expect(f"what the server got of a request that is cut at {cut}", received == due)
    ends_well(balancer)


@case
def those_who_wait_for_a_worker_are_served_in_the_end(farm: Farm) -> None:
    port = farm.port()
    balancer = farm.start(listen(port, *LIMITS, server("a", farm.origin())), ("tune.relays 1",))
    with contextlib.ExitStack() as stack:
        # Some end their sending, some leave, some are good.
        clients = [stack.enter_context(Client(port)) for _ in range(60)]
        for place, client in enumerate(clients):
            client.send_what_is_taken((GET, GET[:-1], GET)[place % 3])
            if place % 3 == 1:
                client.end_sending()
            if place % 3 == 2:
                client.reset()
        for place, client in enumerate(clients):
            if place % 3 != 2:
                expect_equal("the answer", last_answer(client), (A, own(400))[place % 3])
    expect_equal("one behind all others", ask(port, GET), A)
    # Workers on call may still be asked about some who have left.
    ends_well(balancer, checked=True)
