"""Many clients at once, clients that misbehave beside others, and stops in the midst of requests."""

from __future__ import annotations

import signal
import threading

from .answers import CONTINUE, own
from .cases import case, expect, expect_equal, wait_until
from .clients import Client, ask, at_once, get, is_refused
from .farms import LIMITS, TABLE, Balancer, Farm, ends_well, listen, server
from .origins import Gate, Talk, answers, response
from .pins import shown_keys
from .replaying import replies_differ

A, B = response(b"a"), response(b"b")
GET = b"GET / HTTP/1.1\r\nHost: x\r\n\r\n"
SERVED = (A, B)


@case
def two_hundred_clients_at_once_are_all_answered_by_eight_workers(farm: Farm) -> None:
    port = farm.port()
    balancer = farm.start(listen(port, *LIMITS, *TABLE, server("a", farm.origin()), server("b", farm.origin())), ("tune.relays 8",))
    ready = threading.Barrier(200)

    def come(number: int) -> bytes:
        with Client(port) as client:
            ready.wait(30)
            client.send(f"GET / HTTP/1.1\r\nx-id: k{number}\r\n\r\n".encode())
            return client.read_to_end()

    answered = at_once(come, range(200))
    expect_equal("answers of either server", sorted({answered.count(A), answered.count(B)}), [100])
    expect_equal("pins", sorted(shown_keys(balancer.tell("show table web"))), sorted(f"k{number}" for number in range(200)))
    again = at_once(come, range(200))
    expect("each key stays at its server", again == answered)
    expect_equal("events", ends_well(balancer), {"web": 1600})


@case
def clients_that_break_off_anywhere_do_no_harm_to_others(farm: Farm) -> None:
    port = farm.port()
    upload = b"POST / HTTP/1.1\r\nContent-Length: 100000\r\n\r\n" + bytes(5000)
    balancer = farm.start(listen(port, *LIMITS, server("a", farm.origin())), ("tune.relays 4",))

    def breaks_off(number: int) -> None:
        for place in range(20):
            client = Client(port)
            client.send_what_is_taken((b"", GET[: place + 1], GET, upload)[(number + place) % 4])
            client.reset()

    def stays(_: int) -> None:
        for _ in range(20):
            expect_equal("the answer", ask(port, GET), A)

    before = balancer.descriptors()
    at_once(lambda number: stays(number) if number < 4 else breaks_off(number), range(8))
    wait_until("all descriptors are free again", lambda: balancer.descriptors() <= before + 1)
    # Some who have left may be asked about behind this.
    ends_well(balancer, checked=True)


@case
def heads_of_many_sizes_take_no_memory_for_good(farm: Farm) -> None:
    port = farm.port()
    balancer = farm.start(listen(port, *LIMITS, server("a", farm.origin())), ("tune.relays 16", "tune.journal 100"))

    def asks(requests: int) -> int:
        """Asks with heads of 60 bytes to 960, and tells the resident memory behind the last answer."""

        def come(number: int) -> None:
            for place in range(requests // 8):
                pad = b"x" * (1 + (place * 8 + number) * 61 % 900)
                expect_equal("the answer", ask(port, b"GET / HTTP/1.1\r\nHost: x\r\nx-pad: " + pad + b"\r\n\r\n"), A)

        at_once(come, range(8))
        return balancer.resident()

    # What a thread of the C library keeps for itself of each size is not given back: sizes have to be few.
    first, last = asks(1000), asks(3000)
    expect(f"resident memory is level: {first} bytes, and {last} behind 3,000 more requests", last <= first + 600_000)
    expect_equal("events", ends_well(balancer, whole=False), {"web": 16000})


@case
def a_client_that_never_reads_holds_up_nobody_else_and_is_let_go_at_its_limit(farm: Farm) -> None:
    def sends_much(talk: Talk) -> None:
        if talk.read_request():
            talk.send(bytes(64 << 20))
            talk.end()

    port, other = farm.port(), farm.port()
    sections = listen(
        port, "timeout client 3s", server("m", farm.origin(sends_much)), name="much"
    ) + listen(other, *LIMITS, server("b", farm.origin()))
    balancer = farm.start(sections, ("tune.relays 2",))
    with Client(port) as client:
        client.send(GET)
        wait_until("it is visited", lambda: "open m -> opened m" in balancer.events("much"))
        for _ in range(20):
            expect_equal("another one's answer", ask(other, GET), B)
        balancer.wait_all_closed("much")
        # What it would have read is cut short.
        expect("it doesn't get all", len(client.read_to_end()) < 64 << 20)
    expect_equal("events", ends_well(balancer, "much", "web"), {"much": 4, "web": 80})


def held_requests(farm: Farm, count: int) -> tuple[Balancer, int, Gate, list[Client]]:
    """So many requests that a server has and holds."""
    gate, port = Gate(answers(b"a")), farm.port()
    balancer = farm.start(listen(port, *LIMITS, server("a", farm.origin(gate))), ("tune.relays 64",))
    clients = [farm.stack.enter_context(Client(port)) for _ in range(count)]
    for client in clients:
        client.send(GET)
    gate.wait_for(count)
    return balancer, port, gate, clients


@case
def at_a_stop_fifty_requests_whose_head_was_read_are_finished(farm: Farm) -> None:
    balancer, port, gate, clients = held_requests(farm, 50)
    expect_equal("the answer to `stop`", balancer.tell("stop"), "\n")
    wait_until("nobody else is accepted", lambda: is_refused(port))
    expect("it runs on", not balancer.has_ended())
    gate.open()
    expect_equal("the answers", [client.read_to_end() for client in clients], [A] * 50)
    ended = balancer.wait()
    expect_equal("the end", (ended.status, ended.out), (0, "closed web events 200 rising yes\n"))


@case
def of_two_workers_one_serves_others_while_a_body_is_kept_back(farm: Farm) -> None:
    port = farm.port()
    balancer = farm.start(
        listen(port, *LIMITS, server("a", farm.origin(answers(b"a"))), server("b", farm.origin(answers(b"b")))),
        ("tune.relays 2",),
    )
    with Client(port) as first:
        first.send(b"POST / HTTP/1.1\r\nHost: x\r\nExpect: 100-continue\r\nContent-Length: 2\r\n\r\n")
        expect_equal("leave to go on", first.read_bytes(len(CONTINUE)), CONTINUE)
        expect_equal("the second client's answer", ask(port, GET), B)
        first.send(b"hi")
        expect_equal("the first client's answer", first.read_to_end(), A)
    expect_equal("events", ends_well(balancer), {"web": 8})


@case
def at_a_stop_an_upload_that_is_under_way_is_finished(farm: Farm) -> None:
    port, origin = farm.port(), farm.origin()
    balancer = farm.start(listen(port, server("a", origin)))
    with Client(port) as client:
        client.send(b"POST / HTTP/1.1\r\nContent-Length: 10\r\n\r\nhello")
        wait_until("the server has a part", lambda: bool(origin.talks) and origin.talks[0].received.endswith(b"hello"))
        expect_equal("the answer to `stop`", balancer.tell("stop"), "\n")
        wait_until("nobody else is accepted", lambda: is_refused(port))
        client.send(b"world")
        expect_equal("the answer", client.read_to_end(), A)
    expect_equal("the end", balancer.wait().out, "closed web events 4 rising yes\n")


@case
def at_a_stop_those_without_a_whole_head_wait_for_their_limit_or_leave_at_once(farm: Farm) -> None:
    limited, free = farm.port(), farm.port()
    sections = listen(
        limited, "timeout client 4s", server("a", farm.origin()), name="limited"
    ) + listen(free, server("b", farm.origin()), name="free")
    balancer = farm.start(sections)
    with Client(limited) as slow, Client(limited) as late, Client(free) as silent:
        slow.send(GET[:5])
        late.send(GET[:-1])
        silent.send(GET[:5])
        # All three are accepted before requests that come after them are answered.
        expect_equal("one at the first", ask(limited, GET), A)
        expect_equal("one at the second", ask(free, GET), B)
        expect_equal("the answer to `stop`", balancer.tell("stop"), "\n")
        late.send(GET[-1:])
        expect_equal("one that ends its head in time", late.read_to_end(), A)
        expect_equal("one without a limit", silent.read_to_end(), b"")
        expect_equal("one with a limit", slow.read_to_end(), own(408))
    ended = balancer.wait()
    expect_equal("the end", (ended.status, ended.out), (0, "closed limited events 8 rising yes\nclosed free events 4 rising yes\n"))


@case
def without_a_command_socket_a_signal_ends_it(farm: Farm) -> None:
    port = farm.port()
    balancer = farm.start(listen(port, *LIMITS, server("a", farm.origin())), operators=False)
    expect_equal("the answer", ask(port, GET), A)
    expect_equal("the status", balancer.end(signal.SIGTERM), -signal.SIGTERM)


@case
def a_drain_under_load_moves_every_pin_and_loses_no_request(farm: Farm) -> None:
    port = farm.port()
    balancer = farm.start(
        listen(port, *LIMITS, *TABLE, "option evacuate", server("a", farm.origin()), server("b", farm.origin())), ("tune.relays 16",)
    )
    drained = threading.Event()

    def comes_again(number: int) -> list[bytes]:
        seen = [get(port, f"x-id: k{number}") for _ in range(5)]
        while not drained.is_set():
            seen.append(get(port, f"x-id: k{number}"))
        return [*seen, *(get(port, f"x-id: k{number}") for _ in range(3))]

    def drains(_: int) -> list[bytes]:
        wait_until("all keys have a pin", lambda: len(shown_keys(balancer.tell("show table web"))) == 12)
        balancer.tell("set server web/a state drain")
        wait_until("no pin is at a", lambda: "server=a" not in balancer.tell("show table web"))
        drained.set()
        return []

    seen = at_once(lambda number: comes_again(number) if number < 12 else drains(number), range(13))[:12]
    expect("every request is answered", all(answer in SERVED for answers_of_one in seen for answer in answers_of_one))
    expect_equal("behind the drain", {answer for answers_of_one in seen for answer in answers_of_one[-2:]}, {B})
    changes = [[one != other for one, other in zip(answers_of_one, answers_of_one[1:])].count(True) for answers_of_one in seen]
    expect("no key goes to and fro", max(changes) <= 1)
    ends_well(balancer)


@case
def requests_under_load_are_replayed_to_the_same_replies(farm: Farm) -> None:
    port = farm.port()
    servers = [server(name, farm.origin(), "maxconn 4 maxpins 100") for name in ("a", "b", "c")]
    lines = ("stick-table type string size 100", "stick on hdr(x-id)", "balance leastconn", *servers)
    balancer = farm.start(listen(port, *LIMITS, *lines), ("tune.relays 16",))

    def comes(number: int) -> None:
        for place in range(15):
            expect("it is answered", get(port, f"x-id: k{(number * 31 + place * 7) % 90}").endswith((b"a", b"b", b"c")))

    def changes(_: int) -> None:
        for place in range(6):
            at = f"server web/{'abc'[place % 3]}"
            balancer.tell(f"set {at} state drain; plan backend web; set {at} weight {place}; set maxpins {at} {90 + place}")
            balancer.tell(f"set {at} state ready; plan backend web; set maxconn {at} {3 + place}")

    at_once(lambda number: comes(number) if number < 16 else changes(number), range(17))
    entries = balancer.tell("show journal web")
    table = balancer.tell("show table web")
    expect_equal("replies that differ", replies_differ(farm.program, farm.folder, section_of(lines), entries, table), [])
    ends_well(balancer)


def section_of(lines: tuple[str, ...]) -> str:
    return "backend web\n" + "".join(f"  {line}\n" for line in lines)
