"""Checks of servers: what they send, who is told, and where the clients of a server that is down go."""

from __future__ import annotations

import contextlib
import socket
import threading
import time

from .cases import case, expect, expect_between, expect_equal, wait_until
from .clients import get
from .farms import HOST, LIMITS, Balancer, Farm, ends_well, listen, server
from .hostile import dark_server
from .origins import response
from .pins import shown_keys

A, B = response(b"a"), response(b"b")
CHECK = "check inter 100ms fall 2 rise 2"


def wait_told(balancer: Balancer, line: str, times: int = 1) -> None:
    """Waits until standard error has the line so many times."""
    wait_until(f"{line} is told", lambda: balancer.errors().splitlines().count(line) >= times)


def servers_of(balancer: Balancer) -> list[str]:
    """The servers of the pins, as the table shows them."""
    return [word.removeprefix("server=") for word in balancer.tell("show table web").split() if word.startswith("server=")]


@case
def clients_of_a_server_that_goes_down_are_moved_and_it_comes_up_again(farm: Farm) -> None:
    port, origins = farm.port(), [farm.origin(), farm.origin()]
    table = ("stick-table type string size 100", "stick on hdr(x-id)", "option evacuate")
    balancer = farm.start(listen(port, *LIMITS, *table, server("a", origins[0], CHECK), server("b", origins[1], CHECK)))
    keys = [f"k{number}" for number in range(8)]
    expect_equal("in turn", [get(port, f"x-id: {key}") for key in keys], [A, B] * 4)
    origins[0].close()
    wait_told(balancer, "Server web/a is DOWN")
    wait_until("all pins are at b", lambda: servers_of(balancer) == ["b"] * 8)
    expect_equal("all keys are there", sorted(shown_keys(balancer.tell("show table web"))), keys)
    expect_equal("all are served by b", [get(port, f"x-id: {key}") for key in keys], [B] * 8)
    moved = [entry.reply for entry in balancer.journal("web") if entry.event.startswith("install version ")]
    expect("four pins were moved by a plan", "installed pins 8 unplaced 0 moved 4" in moved)
    origins[0].open()
    wait_told(balancer, "Server web/a is UP")
    expect_equal("nobody goes back", [get(port, f"x-id: {key}") for key in keys], [B] * 8)
    new = {get(port, f"x-id: n{number}") for number in range(2)}
    expect_equal("new keys are served in turn", new, {A, B})
    expect_equal("each flip is told once", [balancer.errors().count(f"Server web/a is {it}\n") for it in ("DOWN", "UP")], [1, 1])
    expect("nothing is told of b", "web/b" not in balancer.errors())
    ends_well(balancer, checked=True)


@case
def without_evacuation_pins_of_a_server_that_is_down_move_when_they_are_used(farm: Farm) -> None:
    port, origins = farm.port(), [farm.origin(), farm.origin()]
    table = ("stick-table type string size 100", "stick on hdr(x-id)")
    balancer = farm.start(listen(port, *LIMITS, *table, server("a", origins[0], CHECK), server("b", origins[1], CHECK)))
    expect_equal("in turn", [get(port, f"x-id: k{number}") for number in range(4)], [A, B, A, B])
    origins[0].close()
    wait_told(balancer, "Server web/a is DOWN")
    expect_equal("one that comes", get(port, "x-id: k0"), B)
    expect_equal("the others stay", servers_of(balancer), ["b", "a", "b", "b"])
    expect_equal("it is moved", [it for it in balancer.events("web") if it.startswith("serve N k0")][-1], "serve N k0 -> served b moved")
    ends_well(balancer, checked=True)


@case
def an_operators_drain_is_evacuated_at_once(farm: Farm) -> None:
    port = farm.port()
    table = ("stick-table type string size 100", "stick on hdr(x-id)", "option evacuate")
    balancer = farm.start(listen(port, *LIMITS, *table, server("a", farm.origin()), server("b", farm.origin())))
    expect_equal("in turn", [get(port, f"x-id: k{number}") for number in range(4)], [A, B, A, B])
    expect_equal("the drain", balancer.tell("set server web/a state drain"), "\n")
    wait_until("all pins are at b", lambda: servers_of(balancer) == ["b"] * 4)
    expect_equal("an old key", get(port, "x-id: k0"), B)
    ends_well(balancer)


@case
def servers_that_take_no_connection_delay_no_other_servers_checks(farm: Farm) -> None:
    every = "check inter 300ms fall 2 rise 2"
    with contextlib.ExitStack() as stack:
        dark = [server(f"d{number}", dark_server(stack), every) for number in range(8)]
        origins = [farm.origin() for _ in range(8)]
        well = [server(f"w{number}", origin, every) for number, origin in enumerate(origins)]
        begun = time.monotonic()
        balancer = farm.start(listen(farm.port(), *LIMITS, "timeout check 2s", *dark, *well))
        for number in range(8):
            wait_told(balancer, f"Server web/d{number} is DOWN")
        expect_between("each is found down by its first check", 0, time.monotonic() - begun, 2 + 1)
        begun = time.monotonic()
        origins[3].close()
        wait_told(balancer, "Server web/w3 is DOWN")
        expect_between("another is found down meanwhile", 0, time.monotonic() - begun, 2 * 0.3 + 1)
        expect_equal("no other flip", balancer.errors().count("Server web/"), 9)
        ends_well(balancer, checked=True)


class Checked:
    """A server that keeps what checks send, and answers them as the test says."""

    def __init__(self, port: int) -> None:
        self.answer = b"HTTP/1.0 204 No Content\r\n\r\n"
        self.seen: list[bytes] = []
        self.listener = socket.socket()
        self.listener.setsockopt(socket.SOL_SOCKET, socket.SO_REUSEADDR, 1)
        self.listener.bind((HOST, port))
        self.listener.listen(100)
        threading.Thread(target=self.run, daemon=True).start()

    def run(self) -> None:
        while True:
            try:
                stream, _ = self.listener.accept()
                with stream:
                    stream.settimeout(10)
                    data = b""
                    while not data.endswith(b"\r\n\r\n") and (piece := stream.recv(1000)):
                        data += piece
                    self.seen.append(data)
                    stream.sendall(self.answer)
            except ValueError:
                return
            except OSError:
                if self.listener.fileno() < 0:
                    return

    def close(self) -> None:
        self.listener.shutdown(socket.SHUT_RDWR)
        self.listener.close()


def checked_by(farm: Farm, *options: str) -> tuple[Balancer, Checked, int]:
    """A balancer whose one server is checked by requests."""
    port = farm.port()
    origin = Checked(port)
    farm.stack.callback(origin.close)
    return farm.start(listen(farm.port(), *options, server("a", port, CHECK))), origin, port


@case
def a_check_by_a_request_sends_what_the_configuration_says(farm: Farm) -> None:
    rows = [
        ("option httpchk", "OPTIONS / HTTP/1.0\r\n\r\n"),
        ("option httpchk /health", "OPTIONS /health HTTP/1.0\r\n\r\n"),
        ("option httpchk HEAD /h", "HEAD /h HTTP/1.0\r\n\r\n"),
        ("option httpchk GET /h HTTP/1.1", "GET /h HTTP/1.1\r\nHost: 127.0.0.1:{port}\r\n\r\n"),
    ]
    for option, due in rows:
        balancer, origin, port = checked_by(farm, option)
        wait_until("two checks", lambda: len(origin.seen) >= 2)
        expect_equal(option, origin.seen[0], due.format(port=port).encode())
        expect("no flip", "Server" not in balancer.errors())
        ends_well(balancer, checked=True)


@case
def statuses_of_200_to_399_keep_a_server_up_and_others_take_it_down(farm: Farm) -> None:
    balancer, origin, _ = checked_by(farm, "option httpchk")
    wait_until("it is checked", lambda: len(origin.seen) >= 2)
    rows = [
        (b"HTTP/1.1 500 Oops\r\n\r\n", "DOWN"), (b"HTTP/1.1 200 OK\r\n\r\n", "UP"), (b"HTTP/1.1 400 Bad\r\n\r\n", "DOWN"),
        (b"HTTP/1.1 399 Odd\r\n\r\n", "UP"), (b"HTTP/1.0 400 No Content\r\n\r\n", "DOWN"),
        (b"HTTP/1.0 204 No Content\r\n\r\n", "UP"),
        (b"HTTP/1.1 199 Odd\r\n\r\n", "DOWN"), (b"HTTP/1.0 301 Moved\r\nLocation: /\r\n\r\nbody", "UP"),
        (b"HTTP/1.0 204 No Content\r\n", "DOWN"), (b"HTTP/1.0 204\r\n\r\n", "UP"),
        (b"", "DOWN"), (b"HTTP/1.1 200 OK\n\n", "UP"), (b"nonsense\r\n\r\n", "DOWN"),
    ]  # fmt: skip
    for number, (answer, state) in enumerate(rows):
        origin.answer = answer
        wait_told(balancer, f"Server web/a is {state}", number // 2 + 1)
    expect_equal("the flips", [it for it in balancer.errors().split() if it in ("UP", "DOWN")], [state for _, state in rows])
    ends_well(balancer, checked=True)


@case
def a_check_that_hangs_ends_at_its_limit_and_holds_up_no_stop(farm: Farm) -> None:
    port = farm.port()
    with socket.socket() as silent:
        silent.setsockopt(socket.SOL_SOCKET, socket.SO_REUSEADDR, 1)
        silent.bind((HOST, port))
        silent.listen(100)
        balancer = farm.start(listen(farm.port(), "option httpchk", "timeout check 200ms", server("a", port, CHECK)))
        wait_told(balancer, "Server web/a is DOWN")
        ends_well(balancer, checked=True)


@case
def checks_of_a_server_in_maintenance_count_for_nothing(farm: Farm) -> None:
    port = farm.port()
    balancer = farm.start(listen(port, *LIMITS, server("a", farm.port(), f"{CHECK} disabled"), server("b", farm.origin())))
    wait_until("three checks are ignored", lambda: balancer.events("web").count("check a fail -> check ignored") >= 3)
    expect_equal("all are served by the other one", {get(port) for _ in range(4)}, {A})
    expect("no flip is told", "Server" not in balancer.errors())
    ends_well(balancer, checked=True)


@case
def a_health_that_an_operator_forces_is_what_later_checks_build_on(farm: Farm) -> None:
    port = farm.port()
    lines = (server("a", farm.origin(), "check inter 100ms fall 2 rise 1000"), server("b", farm.origin()))
    balancer = farm.start(listen(port, *LIMITS, *lines))
    expect_equal("in turn", {get(port) for _ in range(2)}, {A, B})
    expect_equal("forced down", balancer.tell("set server web/a health down"), "\n")
    expect_equal("b alone", {get(port) for _ in range(4)}, {B})
    expect_equal("forced up", balancer.tell("set server web/a health up"), "\n")
    expect_equal("in turn again", {get(port) for _ in range(2)}, {A, B})
    ends_well(balancer, checked=True)
