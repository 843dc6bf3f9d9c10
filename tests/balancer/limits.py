"""Balancers at their limits: descriptors, connections that wait, backends, and what the system refuses them."""

from __future__ import annotations

import contextlib
import os
import re
import resource
import selectors
import socket
import threading
from pathlib import Path

from .answers import own
from .cases import PATIENCE, case, expect, expect_equal, wait_until
from .clients import Client, ask, ask_operator, at_once, get, is_refused
from .farms import HOST, LIMITS, TABLE, Balancer, Ending, Farm, ends_well, listen, server
from .hostile import dark_server
from .origins import Gate, answers, response
from .replaying import replies_differ

A, B = response(b"a"), response(b"b")
GET = b"GET / HTTP/1.1\r\nHost: x\r\n\r\n"


def answers_as_they_come(clients: list[Client]) -> list[bytes]:
    """The clients' answers, in whichever order they come. Each client leaves behind its own, as clients do, so that it holds up no worker."""
    answered: dict[Client, bytes] = {}
    with selectors.DefaultSelector() as waiting:
        for client in clients:
            waiting.register(client.stream, selectors.EVENT_READ, client)
        while len(answered) < len(clients):
            ready = waiting.select(PATIENCE)
            expect("answers come", bool(ready))
            for key, _ in ready:
                client = key.data
                answered[client] = client.read_to_end()
                waiting.unregister(client.stream)
                client.stream.close()
    return [answered[client] for client in clients]


def processor_seconds(balancer: Balancer) -> float:
    """The processor time of the program so far."""
    fields = Path(f"/proc/{balancer.process.pid}/stat").read_text().rpartition(")")[2].split()
    return (int(fields[11]) + int(fields[12])) / os.sysconf("SC_CLK_TCK")


@case
def too_many_open_files_end_nothing_and_silent_clients_keep_nobody_out(farm: Farm) -> None:
    port = farm.port()
    balancer = farm.start(listen(port, *LIMITS, server("a", farm.origin())), ("tune.relays 4",))
    # All threads have opened their own files by then.
    expect_equal("the answer to a client", ask(port, GET), A)
    threading.Event().wait(1)
    most = balancer.descriptors() + 24
    resource.prlimit(balancer.process.pid, resource.RLIMIT_NOFILE, (most, most))
    with contextlib.ExitStack() as stack:
        clients = [stack.enter_context(Client(port)) for _ in range(30)]
        before = processor_seconds(balancer)
        threading.Event().wait(1)
        expect("it rests meanwhile", processor_seconds(balancer) - before < 0.5)
        wait_until("another one is served", lambda: ask(port, GET) == A)
        for client in clients:
            client.send_what_is_taken(GET)
            # Silent clients may be let go as if their limit were over. A dial finds its descriptor.
            expect("it is answered", client.read_to_end() in (A, own(408)))
            client.stream.close()
    wait_until("descriptors are free again", lambda: balancer.descriptors() < most - 4)
    expect_equal("the answer to another client", ask(port, GET), A)
    ends_well(balancer)


@case
def more_clients_than_workers_and_the_line_hold_are_served_in_the_end(farm: Farm) -> None:
    port = farm.port()
    with contextlib.ExitStack() as stack:
        late = stack.enter_context(socket.socket())
        late.bind((HOST, 0))
        late.listen(4096)
        # To open so many connections takes long beside other cases.
        patient = [f"timeout {kind} 120s" for kind in ("client", "connect", "server")]
        balancer = farm.start(listen(port, *patient, server("a", late.getsockname()[1])), ("tune.relays 64",))
        # 2,112 workers wait for the server, 1,024 clients wait in the line, and the others as the system has it.
        clients = [stack.enter_context(Client(port)) for _ in range(3300)]
        for client in clients:
            client.send(GET)
        workers = 64 + 2048
        wait_until(f"there are {workers} workers", lambda: len(os.listdir(f"/proc/{balancer.process.pid}/task")) > workers)
        expect_equal("operators are answered meanwhile", balancer.tell("show plan web"), "no plan\n\n")
        threading.Thread(target=answer_all, args=(late, len(clients)), daemon=True).start()
        expect_equal("the answers", answers_as_they_come(clients), [A] * len(clients))
    expect_equal("events", ends_well(balancer), {"web": 4 * 3300})


def answer_all(late: socket.socket, count: int) -> None:
    """Answers so many requests, one after another."""
    for _ in range(count):
        stream, _ = late.accept()
        with stream:
            stream.recv(1 << 16)
            stream.sendall(A)


@case
def sixty_four_backends_run_side_by_side(farm: Farm) -> None:
    origin, ports = farm.origin(), [farm.port() for _ in range(64)]
    names = [f"w{place}" for place in range(64)]
    sections = "".join(listen(port, *TABLE, "option evacuate", server("a", origin), name=name) for port, name in zip(ports, names))
    balancer = farm.start(sections, ("tune.relays 16",))
    expect_equal("the answers", at_once(lambda port: get(port, "x-id: k"), ports), [A] * 64)
    expect_equal("events", ends_well(balancer, *names), dict.fromkeys(names, 4))


@case
def a_dial_that_takes_too_long_is_503(farm: Farm) -> None:
    with contextlib.ExitStack() as stack:
        dark = dark_server(stack)
        port = farm.port()
        lines = ("timeout client 20s", "timeout connect 300ms", "timeout server 20s")
        balancer = farm.start(listen(port, *lines, server("a", dark)))
        expect_equal("the answer", ask(port, GET), own(503))
        ends_well(balancer)


@case
def a_balancer_starts_again_at_once_at_the_same_addresses(farm: Farm) -> None:
    port, origin = farm.port(), farm.origin()
    for _ in range(3):
        balancer = farm.start(listen(port, *LIMITS, server("a", origin)))
        expect_equal("the answers", [ask(port, GET) for _ in range(3)], [A] * 3)
        ends_well(balancer)
        expect("nobody listens", is_refused(port))


@case
def an_address_that_is_said_twice_is_taken(farm: Farm) -> None:
    port = farm.port()
    ended = farm.launch(listen(port, f"bind {HOST}:{port}")).wait()
    expect_equal("the end", ended, Ending(1, "", f"cannot bind {HOST}:{port}\n"))


@case
def a_long_path_and_a_file_beside_the_socket_are_told(farm: Farm) -> None:
    port = farm.port()
    farm.operators = farm.folder / ("x" * (103 - len(str(farm.folder)) - 1))
    ends_well(farm.start(listen(port, server("a", farm.port()))))
    farm.operators = farm.folder / ("x" * (104 - len(str(farm.folder)) - 1))
    ended = farm.launch(listen(port)).wait()
    expect_equal("a path of 104 bytes", ended, Ending(1, "", f"cannot bind {farm.operators}\n"))
    farm.operators = farm.folder / "operators"
    beside = farm.folder / "operators.new"
    beside.write_text("precious")
    ended = farm.launch(listen(port)).wait()
    expect_equal("a file where the socket is made", ended, Ending(1, "", f"cannot bind {farm.operators}\n"))
    expect_equal("the file", beside.read_text(), "precious")


FULL = Path("/dev/full")


@case
def an_end_that_cannot_be_told_is_no_good_end(farm: Farm) -> None:
    port, at, err = farm.port(), farm.folder / "operators", farm.folder / "told"
    process = farm.spawn(f"global\n  stats socket {at}\n" + listen(port, *LIMITS, server("a", farm.origin())), FULL, err)
    wait_until("it listens", lambda: not is_refused(port))
    expect_equal("the answer", ask(port, GET), A)
    expect_equal("the answer to `stop`", ask_operator(at, b"stop\n"), b"\n")
    expect_equal("the status", process.wait(PATIENCE), 1)
    expect_equal("what is told", err.read_text().splitlines()[1:], ["cannot write"])


@case
def a_balancer_whose_complaints_nobody_takes_runs_on(farm: Farm) -> None:
    port, at, out = farm.port(), farm.folder / "operators", farm.folder / "told"
    servers = (server("a", farm.port(), "check inter 50ms fall 1"), server("b", farm.origin()))
    process = farm.spawn(f"global\n  stats socket {at}\n" + listen(port, *LIMITS, *servers), out, FULL)
    wait_until("it listens", lambda: not is_refused(port))
    wait_until("a is down", lambda: all(ask(port, GET) == A for _ in range(4)))
    expect_equal("the answer to `stop`", ask_operator(at, b"stop\n"), b"\n")
    expect_equal("the status", process.wait(PATIENCE), 0)
    expect("the end is told", re.fullmatch(r"closed web events \d+ rising yes\n", out.read_text()) is not None)


def full_pipe(farm: Farm) -> Path:
    """A pipe that is full, and that nobody reads."""
    path = farm.folder / "pipe"
    os.mkfifo(path)
    for way in (os.O_RDONLY, os.O_WRONLY):
        end = os.open(path, way | os.O_NONBLOCK)
        farm.stack.callback(os.close, end)
    with contextlib.suppress(BlockingIOError):
        while True:
            os.write(end, bytes(4096))
    return path


@case
def a_standard_error_that_nobody_reads_holds_up_neither_checks_nor_a_stop(farm: Farm) -> None:
    port, at, out, err = farm.port(), farm.folder / "operators", farm.folder / "told", full_pipe(farm)
    origin = farm.origin()
    servers = (server("a", origin, "check inter 20ms fall 1 rise 1"), server("b", farm.origin()))
    process = farm.spawn(f"global\n  stats socket {at}\n" + listen(port, *LIMITS, *servers), out, err)
    wait_until("it listens", lambda: not is_refused(port))
    # Each change of the server is a line.
    for _ in range(10):
        wait_until("a is up", lambda: A in [ask(port, GET) for _ in range(2)])
        origin.close()
        wait_until("a is down", lambda: [ask(port, GET) for _ in range(4)] == [B] * 4)
        origin.open()
    expect_equal("the answer to `stop`", ask_operator(at, b"stop\n"), b"\n")
    expect_equal("the status", process.wait(PATIENCE), 0)
    expect("the end is told", re.fullmatch(r"closed web events \d+ rising yes\n", out.read_text()) is not None)


@case
def where_standard_streams_are_closed_nothing_else_takes_their_places(farm: Farm) -> None:
    port, at, out, err = farm.port(), farm.folder / "operators", farm.folder / "told", farm.folder / "complaints"
    servers = (server("a", farm.port(), "check inter 20ms fall 1"), server("b", farm.origin()))
    process = farm.spawn(f"global\n  stats socket {at}\n" + listen(port, *LIMITS, *servers), out, err, closed=True)
    wait_until("it listens", lambda: not is_refused(port))
    wait_until("a is down", lambda: [ask(port, GET) for _ in range(4)] == [A] * 4)
    places = [os.readlink(f"/proc/{process.pid}/fd/{number}") for number in range(3)]
    expect_equal("what stands in their places", places, ["/dev/null"] * 3)
    expect_equal("the answer to `stop`", ask_operator(at, b"stop\n"), b"\n")
    expect_equal("the status", process.wait(PATIENCE), 0)
    expect_equal("what is told", (out.read_text(), err.read_text()), ("", ""))


@case
def a_client_is_known_by_its_address(farm: Farm) -> None:
    port, origin = farm.port(), farm.origin()
    lines = ("option forwardfor", "stick-table type ip size 10", "stick on src", "acl near src 127.0.0.2", "use-server b if near")
    balancer = farm.start(listen(port, *LIMITS, *lines, server("a", origin), server("b", farm.origin())))
    for address, due in (("127.0.0.2", B), ("127.0.0.1", A), ("127.0.0.3", B), ("127.0.0.1", A)):
        with socket.create_connection((HOST, port), 20, (address, 0)) as stream:
            stream.sendall(GET)
            data = b""
            while piece := stream.recv(1000):
                data += piece
        expect_equal(f"who answers {address}", data, due)
    expect("the server is told", origin.requests(2)[0].endswith(b"\r\nX-Forwarded-For: 127.0.0.1\r\n\r\n"))
    serves = [it for it in balancer.events("web") if it.startswith("serve")]
    due_serves = ["serve N 127.0.0.2 b -> served b made", "serve N 127.0.0.1 -> served a made", "serve N 127.0.0.3 -> served b made"]
    expect_equal("the requests", serves, [*due_serves, "serve N 127.0.0.1 -> served a kept"])
    ends_well(balancer)


@case
def two_stops_in_a_line_are_one(farm: Farm) -> None:
    gate, port = Gate(answers(b"a")), farm.port()
    balancer = farm.start(listen(port, *LIMITS, server("a", farm.origin(gate))))
    with Client(port) as client:
        client.send(GET)
        gate.wait_for(1)
        expect_equal("two in a line", balancer.tell("stop; stop"), "\n\n")
        wait_until("nobody else is accepted", lambda: is_refused(port))
        threading.Event().wait(0.3)
        gate.open()
        expect_equal("the answer", client.read_to_end(), A)
    ended = balancer.wait()
    expect_equal("the end", (ended.status, ended.out), (0, "closed web events 4 rising yes\n"))


@case
def servers_that_come_and_go_under_load_leave_a_journal_that_is_replayed(farm: Farm) -> None:
    port, origins = farm.port(), [farm.origin() for _ in range(3)]
    servers = [server(name, at, "check inter 50ms fall 1 rise 1") for name, at in zip("abc", origins)]
    lines = ("stick-table type string size 100", "stick on hdr(x-id)", "option evacuate", *servers)
    balancer = farm.start(listen(port, *LIMITS, *lines), ("tune.relays 16",))
    gone = threading.Event()

    def comes(number: int) -> None:
        place = 0
        while not gone.is_set():
            place += 1
            answer = get(port, f"x-id: k{(number * 31 + place * 7) % 90}")
            # A server that has just gone refuses, or ends without a byte.
            expect(f"a server's answer or the balancer's: {answer!r}", answer[-1:] in (b"a", b"b", b"c") or answer in (own(502), own(503)))

    def changes(_: int) -> None:
        for place in range(6):
            origins[place % 3].close()
            wait_until("it is down", lambda: balancer.errors().count("is DOWN") > place)
            balancer.tell(f"set server web/{'bca'[place % 3]} state drain; plan backend web")
            origins[place % 3].open()
            wait_until("it is up", lambda: balancer.errors().count("is UP") > place)
            balancer.tell(f"set server web/{'bca'[place % 3]} state ready")
        gone.set()

    at_once(lambda number: comes(number) if number < 8 else changes(number), range(9))
    for name in "abc":
        balancer.tell(f"set server web/{name} state maint")
    shown: list[str] = []

    def is_still() -> bool:
        shown[:] = [balancer.tell(f"show {what} web") for what in ("journal", "table", "journal")]
        return shown[0] == shown[2]

    # The planner may still empty the last server.
    wait_until("nothing happens between the table and the journal", is_still)
    backend = "backend web\n" + "".join(f"  {line}\n" for line in lines)
    expect_equal("replies that differ", replies_differ(farm.program, farm.folder, backend, shown[2], shown[1]), [])
    ends_well(balancer, checked=True)
