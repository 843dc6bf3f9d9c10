"""Requests that wait, for servers, in queues and for their clients, before fewer workers than there are such requests."""

from __future__ import annotations

import threading
import time
from pathlib import Path

from .answers import CONTINUE
from .cases import case, expect, expect_between, expect_equal, wait_until
from .clients import Client, ask, at_once, is_refused
from .farms import LIMITS, TABLE, Balancer, Farm, ends_well, listen, server
from .origins import Gate, Handler, Talk, answers, response

A, B = response(b"a"), response(b"b")
GET = b"GET / HTTP/1.1\r\nHost: x\r\n\r\n"


def late(seconds: float, behind: Handler) -> Handler:
    """A handler that takes its time for each request."""

    def handle(talk: Talk) -> None:
        if talk.read_request():
            time.sleep(seconds)
            behind(talk)

    return handle


def threads_of(balancer: Balancer) -> int:
    """How many threads the program has."""
    return len(list(Path(f"/proc/{balancer.process.pid}/task").iterdir()))


def are_all_accepted(port: int) -> bool:
    """Whether no connection to the port still waits to be accepted, as Linux shows it at the socket that listens."""
    lines = [line.split() for line in Path("/proc/net/tcp").read_text().splitlines()[1:]]
    waiting = [line[4].split(":")[1] for line in lines if line[1].endswith(f":{port:04X}") and line[3] == "0A"]
    return waiting == ["00000000"]


@case
def two_hundred_clients_of_servers_that_take_half_a_second_are_all_answered_within_five_by_eight_workers(farm: Farm) -> None:
    port = farm.port()
    servers = [server(name, farm.origin(late(0.5, answers(name.encode())))) for name in "ab"]
    balancer = farm.start(listen(port, *LIMITS, *TABLE, *servers), ("tune.relays 8",))
    ready = threading.Barrier(200)

    def come(number: int) -> tuple[bytes, float]:
        with Client(port) as client:
            ready.wait(30)
            begin = time.monotonic()
            client.send(f"GET / HTTP/1.1\r\nx-id: k{number}\r\n\r\n".encode())
            return client.read_to_end(), time.monotonic() - begin

    came = at_once(come, range(200))
    answered = [answer for answer, _ in came]
    expect_equal("answers of either server", sorted({answered.count(A), answered.count(B)}), [100])
    # The last would wait for 12 s if each held a worker.
    expect_between("the slowest answer", 0.5, max(seconds for _, seconds in came), 5)
    expect_equal("events", ends_well(balancer), {"web": 800})


@case
def a_backend_that_hangs_holds_up_no_other_one(farm: Farm) -> None:
    gate, hung, good = Gate(answers(b"a")), farm.port(), farm.port()
    sections = listen(hung, *LIMITS, server("a", farm.origin(gate)), name="hung") + listen(good, *LIMITS, server("b", farm.origin()), name="good")
    balancer = farm.start(sections, ("tune.relays 2",))
    clients = [farm.stack.enter_context(Client(hung)) for _ in range(40)]
    for client in clients:
        client.send(GET)
    gate.wait_for(40)
    for _ in range(20):
        begin = time.monotonic()
        expect_equal("another one's answer", ask(good, GET), B)
        expect_between("it comes at once", 0, time.monotonic() - begin, 2)
    gate.open()
    expect_equal("the answers of the one that hung", [client.read_to_end() for client in clients], [A] * 40)
    expect_equal("events", ends_well(balancer, "hung", "good"), {"hung": 160, "good": 80})


@case
def a_full_server_s_queue_holds_up_no_other_server(farm: Farm) -> None:
    gate, full, good = Gate(answers(b"a")), farm.port(), farm.port()
    lines = (*LIMITS, "timeout queue 20s", server("a", farm.origin(gate), "maxconn 1"))
    sections = listen(full, *lines, name="full") + listen(good, *LIMITS, server("b", farm.origin()), name="good")
    balancer = farm.start(sections, ("tune.relays 2",))
    clients = [farm.stack.enter_context(Client(full)) for _ in range(20)]
    for client in clients:
        client.send(GET)
    gate.wait_for(1)
    for _ in range(20):
        expect_equal("another one's answer", ask(good, GET), B)
    gate.open()
    expect_equal("the answers of the full one", [client.read_to_end() for client in clients], [A] * 20)
    ends_well(balancer, "full", "good")


@case
def bodies_that_are_kept_back_hold_up_nobody_before_one_worker(farm: Farm) -> None:
    port = farm.port()
    balancer = farm.start(listen(port, *LIMITS, server("a", farm.origin())), ("tune.relays 1",))
    clients = [farm.stack.enter_context(Client(port)) for _ in range(20)]
    for client in clients:
        client.send(b"POST / HTTP/1.1\r\nHost: x\r\nExpect: 100-continue\r\nContent-Length: 2\r\n\r\n")
    for client in clients:
        expect_equal("leave to go on", client.read_bytes(len(CONTINUE)), CONTINUE)
    expect_equal("another one's answer", ask(port, GET), A)
    for client in clients:
        client.send(b"hi")
        expect_equal("the answer", client.read_to_end(), A)
    expect_equal("events", ends_well(balancer), {"web": 84})


@case
def at_a_stop_two_hundred_requests_that_wait_for_their_server_are_finished_by_eight_workers(farm: Farm) -> None:
    gate, port = Gate(answers(b"a")), farm.port()
    balancer = farm.start(listen(port, *LIMITS, server("a", farm.origin(gate))), ("tune.relays 8",))
    clients = [farm.stack.enter_context(Client(port)) for _ in range(200)]
    for client in clients:
        client.send(GET)
    gate.wait_for(200)
    expect_equal("the answer to `stop`", balancer.tell("stop"), "\n")
    wait_until("nobody else is accepted", lambda: is_refused(port))
    expect("it runs on", not balancer.has_ended())
    gate.open()
    expect_equal("the answers", [client.read_to_end() for client in clients], [A] * 200)
    ended = balancer.wait()
    expect_equal("the end", (ended.status, ended.out), (0, "closed web events 800 rising yes\n"))


@case
def clients_that_wait_in_the_line_at_a_stop_are_served_by_workers_on_call(farm: Farm) -> None:
    port = farm.port()
    balancer = farm.start(listen(port, *LIMITS, server("a", farm.origin(late(1, answers(b"a"))))), ("tune.relays 1",))
    clients = [farm.stack.enter_context(Client(port)) for _ in range(100)]
    for client in clients:
        client.send(GET)
    wait_until("all are accepted", lambda: are_all_accepted(port))
    begin = time.monotonic()
    expect_equal("the answer to `stop`", balancer.tell("stop"), "\n")
    expect_equal("the answers", [client.read_to_end() for client in clients], [A] * 100)
    expect_between("they don't wait for one worker", 0, time.monotonic() - begin, 20)
    ended = balancer.wait()
    expect_equal("the end", (ended.status, ended.out), (0, "closed web events 400 rising yes\n"))


@case
def workers_on_call_are_made_once_and_used_again(farm: Farm) -> None:
    gates = [Gate(answers(b"a")) for _ in range(3)]
    port, held = farm.port(), iter(gates)
    current: list[Gate] = []
    balancer = farm.start(listen(port, *LIMITS, server("a", farm.origin(lambda talk: current[-1](talk)))), ("tune.relays 4",))
    counts = []
    for gate in held:
        current.append(gate)
        clients = [farm.stack.enter_context(Client(port)) for _ in range(60)]
        for client in clients:
            client.send(GET)
        gate.wait_for(60)
        counts.append(threads_of(balancer))
        gate.open()
        expect_equal("the answers", [client.read_to_end() for client in clients], [A] * 60)
    expect(f"60 requests that wait have threads: {counts}", min(counts) >= 60)
    # Those that are at work or about to be may be as many more.
    expect(f"no more are made later: {counts}", max(counts) <= 60 + 2 * 4 + 10)
    expect_equal("events", ends_well(balancer), {"web": 720})
