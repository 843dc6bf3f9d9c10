"""Operators at the command socket: each command with its answer, faults, and operators that don't behave."""

from __future__ import annotations

import contextlib
import os
import random
import re
import socket
import stat
import threading
import time
from pathlib import Path

from .cases import case, expect, expect_between, expect_equal, wait_until
from .clients import Client, ask_operator, at_once, get, is_refused, operator_stream, read_to_end
from .farms import LIMITS, TABLE, Balancer, Ending, Farm, ends_well, listen, section, server
from .origins import HOST, Gate, answers

UNKNOWN = "100 UnknownCommand\n\n"
MISSING = "101 MissingWord\n\n"
BAD_NUMBER = "102 BadNumber\n\n"
NO_BACKEND = "103 NoBackend\n\n"
NO_SERVER = "10 NoSuchServer\n\n"
OUT_OF_RANGE = "11 OutOfRange\n\n"
NOT_CHECKED = "12 NotChecked\n\n"
TWO_64 = 1 << 64

# Commands, and the event that each is in the journal.
CHANGES = [
    ("set server web/a state drain", "set server web/a state drain"),
    ("set server web/a state maint", "set server web/a state maint"),
    ("set server web/a state ready", "set server web/a state ready"),
    ("disable server web/a", "set server web/a state maint"),
    ("enable server web/a", "set server web/a state ready"),
    ("set server web/b health down", "set server web/b health down"),
    ("set server web/b health up", "set server web/b health up"),
    ("set server web/a weight 3", "set weight web/a 3"),
    ("set weight web/a 256", "set weight web/a 256"),
    ("set weight web/a 0", "set weight web/a 0"),
    ("set weight  web/a   007", "set weight web/a 7"),
    ("set maxconn server web/a 4294967295", "set maxconn server web/a 4294967295"),
    ("set maxconn server web/a 0", "set maxconn server web/a 0"),
    ("set maxpins server web/a 16777216", "set maxpins server web/a 16777216"),
    ("set maxpins server web/a 0", "set maxpins server web/a 0"),
    ("set weight web/a 7", "set weight web/a 7"),
    ("set weight web/a 0007", "set weight web/a 7"),
    ("set server web/a weight 7", "set weight web/a 7"),
    ("set maxconn server web/a 7", "set maxconn server web/a 7"),
    ("set maxpins server web/a 7", "set maxpins server web/a 7"),
]

# Commands that the backend is asked for, and refuses.
REFUSED = [
    ("set weight web/a 257", "set weight web/a 257", OUT_OF_RANGE),
    (f"set weight web/a {TWO_64 - 1}", f"set weight web/a {TWO_64 - 1}", OUT_OF_RANGE),
    (f"set server web/a weight {TWO_64 - 1}", f"set weight web/a {TWO_64 - 1}", OUT_OF_RANGE),
    (f"set maxconn server web/a {TWO_64 - 1}", f"set maxconn server web/a {TWO_64 - 1}", OUT_OF_RANGE),
    (f"set maxpins server web/a {TWO_64 - 1}", f"set maxpins server web/a {TWO_64 - 1}", OUT_OF_RANGE),
    ("set server web/a weight 1000", "set weight web/a 1000", OUT_OF_RANGE),
    ("set maxconn server web/a 4294967296", "set maxconn server web/a 4294967296", OUT_OF_RANGE),
    ("set maxpins server web/a 16777217", "set maxpins server web/a 16777217", OUT_OF_RANGE),
    ("set server web/a health up", "set server web/a health up", NOT_CHECKED),
    ("set server web/a health down", "set server web/a health down", NOT_CHECKED),
]

# Lines that make no event.
FAULTS = [
    ("frobnicate", UNKNOWN), ("SHOW plan web", UNKNOWN), ("show plan web now", UNKNOWN), ("set server web/a state stopping", UNKNOWN),
    ("stop now", UNKNOWN),
    ("set server web/b health stopping", UNKNOWN), ("set server weba state drain", UNKNOWN), ("set weight web/a 1 2", UNKNOWN),
    ("help", UNKNOWN),
    ("show plan we!b", UNKNOWN), ("show\tplan web", UNKNOWN), ("show stat", UNKNOWN), ("set server web/a/b state drain", UNKNOWN),
    ("show table -", UNKNOWN),
    ("set", MISSING), ("show", MISSING), ("show plan", MISSING), ("set weight", MISSING), ("set weight web/a", MISSING),
    ("set server web/a", MISSING),
    ("set server web/a state", MISSING), ("enable", MISSING), ("enable server", MISSING), ("plan", MISSING), ("plan backend", MISSING),
    ("set maxconn server web/a", MISSING),
    ("set weight web/a x", BAD_NUMBER), ("set weight web/a -1", BAD_NUMBER), ("set weight web/a +1", BAD_NUMBER),
    ("set weight web/a 50%", BAD_NUMBER),
    (f"set weight web/a {TWO_64}", BAD_NUMBER), ("set maxconn server web/a 0x1", BAD_NUMBER), ("set weight nowhere/x 1e3", BAD_NUMBER),
    ("set weight shop/a 1", NO_BACKEND), ("plan backend shop", NO_BACKEND), ("show table shop", NO_BACKEND),
    ("show plan shop", NO_BACKEND), ("show journal shop", NO_BACKEND),
    ("enable server shop/a", NO_BACKEND), ("set weight shop/a 257", NO_BACKEND),
    ("set server web/x state drain", NO_SERVER), ("set weight web/x 257", NO_SERVER), ("disable server web/A", NO_SERVER),
    ("set server web/x health up", NO_SERVER),
    (";;;", ""), ("", ""), ("   ", ""), (" ; ; ", ""),
]  # fmt: skip


def farm_of_two(farm: Farm) -> Balancer:
    """A backend with a server that isn't checked and one that is, but whose first check comes when the test is long over."""
    origin = farm.origin()
    return farm.start(listen(
        farm.port(), "stick-table type string size 10", server("a", origin, "maxpins 5"),
        server("b", origin, "maxpins 5 check inter 1h rise 1000"),
    ))  # fmt: skip


def own_events(balancer: Balancer) -> list[str]:
    """The journal without what checks filed."""
    return [it for it in balancer.events("web") if not it.startswith("check ")]


@case
def each_change_is_answered_by_an_empty_line_and_is_one_event(farm: Farm) -> None:
    balancer = farm_of_two(farm)
    for line, _ in CHANGES:
        expect_equal(line, balancer.tell(line), "\n")
    expect_equal("the journal", own_events(balancer), [f"{event} -> done" for _, event in CHANGES])
    ends_well(balancer, checked=True)


@case
def a_refused_change_is_told_and_is_an_event_too(farm: Farm) -> None:
    balancer = farm_of_two(farm)
    for line, _, answer in REFUSED:
        expect_equal(line, balancer.tell(line), answer)
    expect_equal("the journal", own_events(balancer), [f"{event} -> {answer.strip()}" for _, event, answer in REFUSED])
    ends_well(balancer, checked=True)


@case
def a_line_that_is_no_command_is_told_as_what_it_lacks_and_is_no_event(farm: Farm) -> None:
    balancer = farm_of_two(farm)
    for line, answer in FAULTS:
        expect_equal(line, balancer.tell(line), answer)
    expect_equal("the journal", own_events(balancer), [])
    ends_well(balancer, checked=True)


@case
def commands_of_one_line_are_answered_in_turn(farm: Farm) -> None:
    balancer = farm_of_two(farm)
    expect_equal("a change and a plan that isn't there", balancer.tell("set weight web/a 2; show plan web"), "\nno plan\n\n")
    line = "set weight web/a 2;;nonsense ; show table web;set weight web/x 1; set weight web/a 999 ;show plan web"
    table = "# table web type string size 10 used 0\n\n"
    expect_equal("good ones between bad ones", balancer.tell(line), "\n" + UNKNOWN + table + NO_SERVER + OUT_OF_RANGE + "no plan\n\n")
    plan = "stickyplan 1\nversion 0\nserver a cap 5 price 0\nserver b cap 5 price 0\nend\n\n"
    expect_equal("a plan without pins", balancer.tell("plan backend web; show plan web"), "pins 0 unplaced 0 moved 0\n\n" + plan)
    changed = "set weight web/a 2 -> done"
    rest = [
        "set weight web/a 999 -> 11 OutOfRange", "snapshot -> sheet version 0 pins 0",
        "install version 0 -> installed pins 0 unplaced 0 moved 0",
    ]  # fmt: skip
    expect_equal("the journal", own_events(balancer), [changed, changed, *rest])
    ends_well(balancer, checked=True)


@case
def a_backend_without_a_table_shows_none(farm: Farm) -> None:
    balancer = farm.start(listen(farm.port(), server("a", farm.origin())))
    expect_equal("no table", balancer.tell("show table web"), "no table\n\n")
    expect_equal("no events", balancer.tell("show journal web"), "\n")
    expect_equal("no plan", balancer.tell("show plan web"), "no plan\n\n")
    expect_equal("a plan of no pins", balancer.tell("plan backend web"), "pins 0 unplaced 0 moved 0\n\n")
    ends_well(balancer)


@case
def a_line_has_at_most_4096_bytes(farm: Farm) -> None:
    balancer = farm_of_two(farm)
    command = "show plan web"
    expect_equal("4096 bytes", balancer.tell(command.ljust(4096)), "no plan\n\n")
    expect_equal("4097 bytes", balancer.tell(command.ljust(4097)), UNKNOWN)
    expect_equal("4097 bytes of commands", balancer.tell("set weight web/a 2;".ljust(4097, ";")), UNKNOWN)
    expect_equal("100,000 bytes", balancer.tell("x" * 100_000), UNKNOWN)
    expect_equal("many commands", balancer.tell(";".join(["show plan web"] * 292)), "no plan\n\n" * 292)
    expect_equal("the journal", own_events(balancer), [])
    ends_well(balancer, checked=True)


@case
def one_line_of_a_connection_is_answered_however_it_ends(farm: Farm) -> None:
    balancer = farm_of_two(farm)
    at = balancer.operators
    expect_equal("the end of input ends a line", ask_operator(at, b"show plan web", ends=True), b"no plan\n\n")
    expect_equal("nothing but an end", ask_operator(at, b"", ends=True), b"")
    expect_equal("a second line isn't read", ask_operator(at, b"show plan web\nset weight web/a 5\n", ends=True), b"no plan\n\n")
    with operator_stream(at) as stream:
        for byte in b"show plan web\n":
            stream.sendall(bytes([byte]))
        expect_equal("a line byte by byte", stream.recv(100), b"no plan\n\n")
    expect_equal("bytes that are no text", ask_operator(at, b"\xff\xfe\x00 x\n"), UNKNOWN.encode())
    expect_equal("the journal", own_events(balancer), [])
    ends_well(balancer, checked=True)


def asked_within(balancer: Balancer, least: float, most: float) -> None:
    """Another operator is answered after between so many seconds and so many."""
    begun = time.monotonic()
    expect_equal("the answer to another one", balancer.tell("show plan web"), "no plan\n\n")
    expect_between("the answer came in time", least, time.monotonic() - begun, most)


@case
def three_operators_that_say_nothing_keep_nobody_out(farm: Farm) -> None:
    balancer = farm_of_two(farm)
    with contextlib.ExitStack() as stack:
        silent = [stack.enter_context(operator_stream(balancer.operators)) for _ in range(3)]
        silent[0].sendall(b"show pl")
        asked_within(balancer, 0, 2)
        # They are let go once their line took 5 seconds.
        expect_equal("what they get", [read_to_end(stream) for stream in silent], [b""] * 3)
    ends_well(balancer, checked=True)


@case
def four_operators_that_send_a_byte_now_and_then_keep_others_out_for_5_seconds(farm: Farm) -> None:
    balancer = farm_of_two(farm)
    ended = threading.Event()

    def drip(stream: socket.socket) -> None:
        with contextlib.suppress(OSError):
            while not ended.wait(0.2):
                stream.sendall(b";")

    with contextlib.ExitStack() as stack:
        streams = [stack.enter_context(operator_stream(balancer.operators)) for _ in range(4)]
        dripping = [threading.Thread(target=drip, args=(stream,)) for stream in streams]
        for thread in dripping:
            thread.start()
        try:
            asked_within(balancer, 3, 8)
        finally:
            ended.set()
            for thread in dripping:
                thread.join()
    ends_well(balancer, checked=True)


@case
def an_operator_that_reads_slowly_holds_up_no_other_one_and_no_stop(farm: Farm) -> None:
    port = farm.port()
    balancer = farm.start(listen(port, *TABLE, server("a", farm.origin())))
    for number in range(200):
        get(port, f"x-id: a-key-with-some-room-{number}")
    ended = threading.Event()
    with operator_stream(balancer.operators) as stream:
        # Some 4 MB, of which it takes 20 KB a second.
        stream.sendall(";".join(["show table web"] * 270).encode() + b"\n")
        begun = time.monotonic()
        reading = threading.Thread(target=lambda: reads_slowly(stream, ended))
        reading.start()
        try:
            asked_within(balancer, 0, 2)
            expect_equal("the answer to `stop`", balancer.tell("stop"), "\n")
            wait_until("nobody else is accepted", lambda: is_refused(port))
            time.sleep(0.5)
            asked_within(balancer, 0, 2)
            due = Ending(0, "closed web events 800 rising yes\n", balancer.errors())
            expect_equal("the end", balancer.wait(), due)
            # By its rule 15 s at most; without a limit the reader would take 200.
            expect_between("it waits for the reader, but not for long", 3, time.monotonic() - begun, 25)
        finally:
            ended.set()
            reading.join()


def reads_slowly(stream: socket.socket, ended: threading.Event) -> None:
    """Takes 1,000 bytes each 50 milliseconds."""
    with contextlib.suppress(OSError):
        while not ended.wait(0.05):
            stream.recv(1000)


@case
def operators_are_answered_while_a_stop_waits_for_requests(farm: Farm) -> None:
    gate, port = Gate(answers(b"a")), farm.port()
    balancer = farm.start(listen(port, *TABLE, server("a", farm.origin(gate))))
    at = balancer.operators
    assert isinstance(at, Path)
    with Client(port) as client:
        client.send(b"GET / HTTP/1.1\r\nx-id: k\r\n\r\n")
        gate.wait_for(1)
        expect_equal("the answer to `stop`", balancer.tell("stop"), "\n")
        wait_until("nobody else is accepted", lambda: is_refused(port))
        expect("the pin is shown", "key=k " in balancer.tell("show table web"))
        expect_equal("a change", balancer.tell("set server web/a weight 2"), "\n")
        expect("it runs on", not balancer.has_ended() and at.exists())
        gate.open()
        client.read_to_end()
    expect_equal("the end", balancer.wait(), Ending(0, "closed web events 5 rising yes\n", balancer.errors()))
    expect("the socket's file is gone", not at.exists())


@case
def a_second_stop_cuts_off_all_open_requests(farm: Farm) -> None:
    gate, port = Gate(answers(b"a")), farm.port()
    limits = ("timeout client 20s", "timeout connect 20s", "timeout server 20s", "timeout queue 20s")
    balancer = farm.start(listen(port, *limits, server("a", farm.origin(gate), "maxconn 2")))
    held, dripping, queued, guest = (farm.stack.enter_context(Client(port)) for _ in range(4))
    held.send(b"GET / HTTP/1.1\r\nHost: x\r\n\r\n")
    dripping.send(b"POST / HTTP/1.1\r\nHost: x\r\nContent-Length: 9\r\n\r\nab")
    wait_until("both have a connection", lambda: balancer.events("web").count("open a -> opened a") == 2)
    queued.send(b"GET / HTTP/1.1\r\nHost: x\r\n\r\n")
    wait_until("one waits for the server", lambda: "open a -> 30 Full" in balancer.events("web"))
    guest.send(b"GET / HT")
    expect_equal("the answer to `stop`", balancer.tell("stop"), "\n")
    wait_until("nobody else is accepted", lambda: is_refused(port))
    threading.Event().wait(0.5)
    expect("it waits for them", not balancer.has_ended())
    begun = time.monotonic()
    expect_equal("a second `stop`", balancer.tell("stop"), "\n")
    ended = balancer.wait()
    expect_between("it ends at once", 0, time.monotonic() - begun, 4)
    expect_equal("the status", ended.status, 0)
    expect(f"the backend is closed: {ended.out!r}", re.fullmatch(r"closed web events \d+ rising yes\n", ended.out) is not None)
    for client in (held, dripping, queued, guest):
        expect_equal("what a client got", client.read_to_end(), b"")
    gate.open()


@case
def at_a_stop_the_command_socket_is_free_before_a_check_that_waits_has_ended(farm: Farm) -> None:
    with socket.socket() as silent:
        silent.bind((HOST, 0))
        silent.listen(100)
        lines = ("option httpchk", "timeout check 4s", server("a", silent.getsockname()[1], "check inter 4s"))
        balancer = farm.start(listen(farm.port(), *lines))
        at = balancer.operators
        assert isinstance(at, Path)
        begun = time.monotonic()
        expect_equal("the answer to `stop`", balancer.tell("stop"), "\n")
        wait_until("the socket's file is gone", lambda: not at.exists(), 2)
        expect_equal("the status", balancer.wait().status, 0)
        expect_between("the check isn't waited for", 0, time.monotonic() - begun, 3)


def pins_in_groups(names: list[str], pins: int) -> str:
    """A file of pins, each with a cost and eight servers at which it may be, which are drawn for it."""
    draw = random.Random(7)
    sets = [sorted(draw.sample(range(len(names)), 8)) for _ in range(20_000)]
    lines = []
    for number in range(pins):
        wanted = draw.choice(sets)
        at = names[draw.choice(wanted)]
        lines.append(f"pin k{number} {','.join(names[it] for it in wanted)} {at} {draw.randint(1, 9)} {pins - number}\n")
    return "".join(["stickypins 1\nbackend web\n", *lines, "end\n"])


@case
def operators_are_answered_at_a_stop_while_another_one_waits_for_a_plan(farm: Farm) -> None:
    names, pins = [f"s{number}" for number in range(128)], 100_000
    path, port, origin = farm.folder / "pins", farm.port(), farm.origin()
    path.write_text(pins_in_groups(names, pins))
    farm.words = ("--pins", str(path), "--pins-every", "0")
    # Without room for 30 % of the pins, so that the plan takes a second or two.
    room = pins * 70 // 100 // 127
    table = ("stick-table type string size 1m", "stick on hdr(x-id)")
    balancer = farm.start(listen(port, *table, *LIMITS, *(server(name, origin, f"maxpins {room}") for name in names)))
    expect_equal("a server drains", balancer.tell("set server web/s0 state drain"), "\n")
    planned: list[str] = []
    planning = threading.Thread(target=lambda: planned.append(balancer.tell("plan backend web")))
    planning.start()
    time.sleep(0.05)
    expect_equal("the answer to `stop`", balancer.tell("stop"), "\n")
    while not planned:
        begun = time.monotonic()
        try:
            answer = balancer.tell("show plan web")
        except OSError:
            answer = ""
        expect_between("the answer, or the end, came in time", 0, time.monotonic() - begun, 1)
        if answer != "no plan\n\n":
            # The end came between.
            planning.join(2)
        expect("another operator is answered until the plan is there", answer == "no plan\n\n" or len(planned) == 1)
    planning.join()
    plan = rf"pins {pins} unplaced {pins - 127 * room} moved \d+ cost \d+\n\n"
    expect(f"the plan {planned}", re.fullmatch(plan, planned[0]) is not None)
    expect_equal("the status", balancer.wait().status, 0)


# What a program sends to an address that it takes for a web server's, with commands in it.
REQUESTS = [
    *(f"{method} /;stop; HTTP/1.1" for method in ("GET", "HEAD", "POST", "PUT", "DELETE", "CONNECT", "OPTIONS", "TRACE", "PATCH")),
    "GET /;stop; HTTP/1.0", "GET /;stop;", "GET ;stop", "OPTIONS *;stop", "BREW /;stop; HTTP/1.1", "get /;stop; HTTP/1.1", "stop; HTTP/1.1",
    "stop; HTTP/1.0", "stop;HTTP/1.1", "stop; HTTP/1.1 ", "stop; HTTP/1.1 ; ;", "set weight web/a 9;;HTTP/1.0", "HTTP/1.1",
    "enable server HTTP/1.1",
]  # fmt: skip

# Lines that look a little like that.
NO_REQUESTS = [
    ("GETS /;show plan web", UNKNOWN + "no plan\n\n"), ("GET;show plan web", UNKNOWN + "no plan\n\n"),
    (" GET /;show plan web", UNKNOWN + "no plan\n\n"), ("show plan web; HTTP/2.0", "no plan\n\n" + UNKNOWN),
    ("show plan web; HTTP/1.1 x", "no plan\n\n" + UNKNOWN), ("HTTP/1.1; show plan web", UNKNOWN + "no plan\n\n"),
    ("show plan web; xHTTP/1.1", "no plan\n\n" + UNKNOWN), ("show plan web; GET /", "no plan\n\n" + UNKNOWN),
]  # fmt: skip


@case
def a_request_of_http_is_one_fault_whatever_stands_in_it(farm: Farm) -> None:
    farm.operators = ("127.0.0.1", farm.port())
    balancer = farm_of_two(farm)
    for line in REQUESTS:
        expect_equal(line, balancer.tell(line), UNKNOWN)
    for line, answer in NO_REQUESTS:
        expect_equal(line, balancer.tell(line), answer)
    asked = b"GET /;stop; HTTP/1.1\r\nHost: 127.0.0.1\r\nUser-Agent: curl\r\n\r\n"
    expect_equal("a whole request", ask_operator(balancer.operators, asked), UNKNOWN.encode())
    posted = b"POST / HTTP/1.1\r\nHost: 127.0.0.1\r\nContent-Length: 5\r\n\r\nstop\n"
    expect_equal("one with a body", ask_operator(balancer.operators, posted), UNKNOWN.encode())
    expect_equal("the journal", own_events(balancer), [])
    ends_well(balancer, checked=True)


@case
def twenty_operators_at_once_are_all_answered(farm: Farm) -> None:
    balancer = farm_of_two(farm)
    answers = at_once(lambda number: balancer.tell(f"set weight web/a {number}; show plan web"), range(20))
    expect_equal("the answers", answers, ["\nno plan\n\n"] * 20)
    expect_equal("the changes", sorted(own_events(balancer)), sorted(f"set weight web/a {number} -> done" for number in range(20)))
    ends_well(balancer, checked=True)


@case
def an_operator_that_hangs_up_is_no_hindrance_and_its_line_is_carried_out(farm: Farm) -> None:
    balancer = farm_of_two(farm)
    for _ in range(5):
        with operator_stream(balancer.operators) as stream:
            stream.sendall(b"set weight web/a 9\n" if _ == 0 else b"show jou")
    wait_until("the change is made", lambda: own_events(balancer) == ["set weight web/a 9 -> done"])
    with operator_stream(balancer.operators) as stream:
        stream.sendall(b"stop\n")
    expect_equal("the status", balancer.wait().status, 0)


@case
def stop_is_answered_with_the_rest_of_its_line(farm: Farm) -> None:
    balancer = farm.start(listen(farm.port(), server("a", farm.origin())))
    expect_equal("the line", balancer.tell("stop; show plan web; set weight web/a 3"), "\nno plan\n\n\n")
    expect_equal("the end", balancer.wait(), Ending(0, "closed web events 1 rising yes\n", balancer.errors()))
    expect("the socket's file is gone", not Path(str(balancer.operators)).exists())


@case
def the_command_socket_may_be_an_address(farm: Farm) -> None:
    farm.operators = ("127.0.0.1", farm.port())
    balancer = farm.start(listen(farm.port(), server("a", farm.origin())))
    expect_equal("an answer", balancer.tell("show table web"), "no table\n\n")
    ends_well(balancer)


@case
def only_the_owner_may_use_the_command_socket(farm: Farm) -> None:
    balancer = farm.start(listen(farm.port(), server("a", farm.origin())))
    found = os.lstat(str(balancer.operators))
    expect("it is a socket", stat.S_ISSOCK(found.st_mode))
    expect_equal("its mode", oct(stat.S_IMODE(found.st_mode)), oct(0o600))
    ends_well(balancer)


@case
def a_socket_that_a_dead_program_left_is_replaced(farm: Farm) -> None:
    assert isinstance(farm.operators, Path)
    with socket.socket(socket.AF_UNIX) as dead:
        dead.bind(str(farm.operators))
        dead.listen()
    expect("its file stays", farm.operators.exists())
    balancer = farm.start(listen(farm.port(), server("a", farm.origin())))
    expect_equal("an answer", balancer.tell("show table web"), "no table\n\n")
    expect_equal("its mode", oct(stat.S_IMODE(os.lstat(str(farm.operators)).st_mode)), oct(0o600))
    # A balancer that was killed leaves its own.
    balancer.end()
    expect("its file stays too", farm.operators.exists())
    ends_well(farm.start(listen(farm.port(), server("a", farm.origin()))))


@case
def a_socket_that_somebody_listens_on_is_left_alone(farm: Farm) -> None:
    first = farm.start(listen(farm.port(), server("a", farm.origin())))
    second = farm.launch(listen(farm.port(), server("a", farm.origin()))).wait()
    expect_equal("the second one's end", second, Ending(1, "", f"cannot bind {farm.operators}\n"))
    expect_equal("the first one answers", first.tell("show table web"), "no table\n\n")
    ends_well(first)


@case
def other_kinds_of_files_in_the_place_of_the_socket_are_left_alone(farm: Farm) -> None:
    assert isinstance(farm.operators, Path)
    path, port = farm.operators, farm.port()
    due = Ending(1, "", f"cannot bind {path}\n")
    path.write_text("precious")
    expect_equal("before a file", farm.launch(listen(port)).wait(), due)
    expect_equal("the file", path.read_text(), "precious")
    path.unlink()
    path.mkdir()
    expect_equal("before a folder", farm.launch(listen(port)).wait(), due)
    expect("the folder is there", path.is_dir())
    path.rmdir()
    path.symlink_to(farm.folder / "elsewhere")
    expect_equal("before a link", farm.launch(listen(port)).wait(), due)
    expect("the link is there", path.is_symlink())
    path.unlink()
    farm.operators = farm.folder / "no such folder" / "socket"
    text = section("global", f"stats socket '{farm.operators}'") + listen(port)
    ended = farm.launch(text, operators=False).wait()
    expect_equal("in no folder", ended, Ending(1, "", f"cannot bind {farm.operators}\n"))


@case
def a_long_journal_is_shown_whole(farm: Farm) -> None:
    port = farm.port()
    balancer = farm.start(listen(port, *TABLE, server("a", farm.origin())))
    count = 5000
    lines = ";".join(["set weight web/a 1"] * 200)
    for _ in range(count // 200):
        expect_equal("answers", balancer.tell(lines), "\n" * 200)
    get(port, "x-id: k")
    expect_equal("the entries", len(balancer.journal("web")), count + 4)
    # One that asks for it and takes nothing is let go, and keeps nobody out for ever.
    with contextlib.ExitStack() as stack:
        stream = stack.enter_context(operator_stream(balancer.operators))
        stream.sendall(b"show journal web\n")
        expect_equal("the answer to another one", balancer.tell("show plan web"), "no plan\n\n")
    ends_well(balancer)
