"""Floods of connections, clients that are gone before they are served, and clients that drip at a stop."""

from __future__ import annotations

import contextlib
import socket
import threading
import time

from .cases import PATIENCE, case, expect, expect_between, expect_equal, wait_until
from .clients import Client, ask, at_once, is_refused
from .farms import HOST, LIMITS, Farm, ends_well, listen, server
from .hostile import attack, dripping
from .origins import Talk, response

A = response(b"a")
GET = b"GET / HTTP/1.1\r\nHost: x\r\n\r\n"
# `tune.relays 64`, and those that may be called.
MOST_WORKERS = 64 + 2048
# The events of a request that waits for its server: pins expire, a server is asked for, a connection is opened.
BEGUN = 3


@case
def at_the_limit_of_open_files_no_request_is_refused_while_others_open_connections_anew(farm: Farm) -> None:
    port, over = farm.port(), threading.Event()
    lines = ("timeout client 20s", "timeout connect 20s", "timeout server 20s", server("a", farm.origin(), "check inter 100ms"))
    balancer = farm.start(listen(port, *lines), ("tune.relays 4",), most_files=256)
    attacker = threading.Thread(target=attack, args=(port, 500, over), daemon=True)
    attacker.start()
    try:
        wait_until("as many are connected as may be", lambda: balancer.descriptors() > 100)
        answered = at_once(lambda _: [ask(port, GET) for _ in range(30)], range(10))
    finally:
        over.set()
        attacker.join(PATIENCE)
    # A connection waits to be accepted for longer than its client takes to send a head, so none is taken for a silent one.
    expect_equal("answers that are no server's", [it for it in sum(answered, []) if it != A], [])
    expect("no check failed", "is DOWN" not in balancer.errors())
    wait_until("descriptors are free again", lambda: balancer.descriptors() < 40)
    expect_equal("the answer to another client", ask(port, GET), A)
    ends_well(balancer, checked=True)


def late_server(farm: Farm) -> socket.socket:
    """A server that is connected to and accepts nothing yet."""
    late = farm.stack.enter_context(socket.socket())
    late.bind((HOST, 0))
    late.listen(4096)
    late.settimeout(PATIENCE)
    return late


def answer_next(late: socket.socket) -> bytes:
    """Answers the next request that it has, and tells it."""
    stream, _ = late.accept()
    with stream:
        request = stream.recv(1 << 16)
        stream.sendall(A)
    return request


def hold_all_workers(farm: Farm, port: int) -> list[Client]:
    """Clients that keep all workers waiting for their server."""
    clients = [farm.stack.enter_context(Client(port)) for _ in range(MOST_WORKERS)]
    for client in clients:
        client.send(GET)
    return clients


@case
def a_client_that_resets_while_it_waits_in_the_line_is_dialled_for_by_nobody(farm: Farm) -> None:
    port, late = farm.port(), late_server(farm)
    balancer = farm.start(listen(port, *LIMITS, server("a", late.getsockname()[1])), ("tune.relays 64",))
    clients = hold_all_workers(farm, port)
    wait_until("all workers have a request", lambda: len(balancer.events("web")) == BEGUN * MOST_WORKERS)
    gone = [farm.stack.enter_context(Client(port)) for _ in range(20)]
    for client in gone:
        client.send(GET.replace(b"/ ", b"/gone "))
    stays = [farm.stack.enter_context(Client(port)) for _ in range(20)]
    for client in stays:
        client.send(GET)
        client.end_sending()
    # No worker is free: they are in the line.
    threading.Event().wait(0.5)
    for client in gone:
        client.reset()
    requests = [answer_next(late) for _ in range(MOST_WORKERS + len(stays))]
    expect_equal("requests of those that reset", [it for it in requests if b"/gone" in it], [])
    expect_equal("the answers", [client.read_to_end() for client in (*clients, *stays)], [A] * len(requests))
    expect_equal("events", ends_well(balancer), {"web": 4 * len(requests)})


@case
def a_flood_at_one_address_leaves_another_its_turn(farm: Farm) -> None:
    flooded, quiet, late = farm.port(), farm.port(), late_server(farm)
    sections = listen(flooded, *LIMITS, server("a", late.getsockname()[1]), name="flooded") + listen(
        quiet, *LIMITS, server("b", farm.origin()), name="quiet"
    )
    balancer = farm.start(sections, ("tune.relays 64",))
    clients = hold_all_workers(farm, flooded)
    wait_until("all workers have a request", lambda: len(balancer.events("flooded")) == BEGUN * MOST_WORKERS)
    clients += [farm.stack.enter_context(Client(flooded)) for _ in range(600)]
    for client in clients[MOST_WORKERS:]:
        client.send(GET)
    threading.Event().wait(0.5)
    with Client(quiet) as client:
        client.send(GET)
        for _ in range(20):
            answer_next(late)
        # Others of the flooded one have waited for longer.
        expect_equal("the answer of the quiet one", client.read_to_end(), A)
    for _ in range(len(clients) - 20):
        answer_next(late)
    expect_equal("the answers of the flooded one", [client.read_to_end() for client in clients], [A] * len(clients))
    expect_equal("events", ends_well(balancer, "flooded", "quiet"), {"flooded": 4 * len(clients), "quiet": 4})


@case
def a_stop_waits_for_a_client_that_drips_no_longer_than_its_limit(farm: Farm) -> None:
    port = farm.port()
    balancer = farm.start(listen(port, "timeout client 2s", server("a", farm.origin())))
    with Client(port) as client:
        client.send(b"GET /")
        with dripping(client, 0.3):
            threading.Event().wait(3)
            expect("it may drip for longer than its limit", not balancer.has_ended() and not is_refused(port))
            expect_equal("the answer to `stop`", balancer.tell("stop"), "\n")
            begin = time.monotonic()
            ended = balancer.wait()
            took = time.monotonic() - begin
    expect_between("it ends after the limit", 0, took, 6)
    expect_equal("the end", (ended.status, ended.out), (0, "closed web events 0 rising yes\n"))


@case
def a_stop_waits_for_a_body_that_drips_no_longer_than_the_clients_limit(farm: Farm) -> None:
    port = farm.port()
    balancer = farm.start(listen(port, "timeout client 2s", "timeout server 20s", server("a", farm.origin())))
    heads = (b"POST / HTTP/1.1\r\nHost: x\r\nContent-Length: 1000\r\n\r\n", b"POST / HTTP/1.1\r\nHost: x\r\nTransfer-Encoding: chunked\r\n\r\n3e8\r\n")
    with Client(port) as one, Client(port) as other:
        for client, head in zip((one, other), heads):
            client.send(head)
        with dripping(one, 0.3), dripping(other, 0.3):
            threading.Event().wait(3)
            expect("they may drip for longer than the limit", not balancer.has_ended())
            expect_equal("the answer to `stop`", balancer.tell("stop"), "\n")
            begin = time.monotonic()
            ended = balancer.wait()
            took = time.monotonic() - begin
    expect_between("it ends after the limit, and not before", 1.5, took, 6)
    expect_equal("the end", (ended.status, ended.out), (0, "closed web events 8 rising yes\n"))


def takes_slowly(client: Client, over: threading.Event) -> None:
    """Takes at most 2 MB of the answer a second: enough that the system's buffers have room again within the limit of a write."""
    with contextlib.suppress(OSError):
        while not over.wait(0.05) and client.stream.recv(100_000) != b"":
            pass


@case
def a_stop_waits_for_a_client_that_takes_its_answer_slowly_no_longer_than_its_limit(farm: Farm) -> None:
    def handle(talk: Talk) -> None:
        if talk.read_request():
            talk.send(b"HTTP/1.1 200 OK\r\nContent-Length: 64000000\r\n\r\n" + bytes(64_000_000))

    port, over = farm.port(), threading.Event()
    balancer = farm.start(listen(port, "timeout client 2s", "timeout server 20s", server("a", farm.origin(handle))))
    with Client(port) as client:
        client.send(GET)
        reader = threading.Thread(target=takes_slowly, args=(client, over), daemon=True)
        reader.start()
        threading.Event().wait(3)
        expect("it may read for longer than the limit", not balancer.has_ended())
        expect_equal("the answer to `stop`", balancer.tell("stop"), "\n")
        begin = time.monotonic()
        ended = balancer.wait()
        took = time.monotonic() - begin
        over.set()
        reader.join(PATIENCE)
    expect_between("it ends after the limit, and not before", 1.5, took, 6)
    expect_equal("the end", (ended.status, ended.out), (0, "closed web events 4 rising yes\n"))


@case
def a_stop_waits_for_a_slow_server_although_the_clients_limit_is_over(farm: Farm) -> None:
    port, late = farm.port(), late_server(farm)
    limits = ("timeout client 500", "timeout connect 20s", "timeout server 20s")
    balancer = farm.start(listen(port, *limits, server("a", late.getsockname()[1])))
    with Client(port) as client:
        client.send(GET)
        wait_until("the request is at its server", lambda: len(balancer.events("web")) == BEGUN)
        expect_equal("the answer to `stop`", balancer.tell("stop"), "\n")
        threading.Event().wait(2)
        answer_next(late)
        expect_equal("the answer", client.read_to_end(), A)
    expect_equal("the status", balancer.wait().status, 0)


@case
def a_stop_waits_for_a_server_that_drips_no_longer_than_both_limits(farm: Farm) -> None:
    ended, port = threading.Event(), farm.port()

    def drips(talk: Talk) -> None:
        talk.read_request()
        talk.send(b"HTTP/1.1 200 OK\r\nContent-Length: 1000\r\n\r\n")
        while not ended.wait(0.2):
            talk.send(b"x")

    limits = ("timeout client 1s", "timeout connect 20s", "timeout server 2s")
    balancer = farm.start(listen(port, *limits, server("a", farm.origin(drips))))
    try:
        with Client(port) as client:
            client.send(GET)
            begin = time.monotonic()
            while time.monotonic() - begin < 4:
                expect("its server may drip for longer than the limits", len(client.read_bytes(1)) == 1)
            expect_equal("the answer to `stop`", balancer.tell("stop"), "\n")
            begin = time.monotonic()
            at_end = balancer.wait()
            took = time.monotonic() - begin
    finally:
        ended.set()
    expect_between("it ends after both limits, and not before", 2.5, took, 7)
    expect_equal("the end", (at_end.status, at_end.out), (0, "closed web events 4 rising yes\n"))


@case
def idle_connections_at_one_address_cost_clients_of_another_nothing(farm: Farm) -> None:
    idle, quiet = farm.port(), farm.port()
    limits = ("timeout client 20s", "timeout connect 20s", "timeout server 20s")
    sections = listen(idle, *limits, server("a", farm.origin()), name="idle") + listen(
        quiet, *limits, server("b", farm.origin()), name="quiet"
    )
    balancer = farm.start(sections, ("tune.relays 4",), most_files=256)
    # More than there are descriptors for.
    crowd = [farm.stack.enter_context(Client(idle)) for _ in range(200)]
    wait_until("as many are connected as may be", lambda: balancer.descriptors() > 60)

    def slow(_: int) -> bytes:
        with Client(quiet) as client:
            client.send(GET[:20])
            # Its head is on its way meanwhile.
            threading.Event().wait(0.5)
            client.send(GET[20:])
            return client.read_to_end()

    expect_equal("the answers", at_once(slow, range(20)), [response(b"b")] * 20)
    expect("the others are let go or stay", len(crowd) == 200)
    for client in crowd:
        client.reset()
    ends_well(balancer, "idle", "quiet")
