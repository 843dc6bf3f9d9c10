"""Wires that fail: what the client gets, which events the backend has, and that no connection to a server stays open."""

from __future__ import annotations

import contextlib
import re
import signal
import socket
import threading
from pathlib import Path

from .answers import CONTINUE, own
from .cases import PATIENCE, case, expect, expect_equal, wait_until
from .clients import Client, ask, at_once, get
from .farms import HOST, LIMITS, TABLE, Balancer, Farm, ends_well, listen, section, server
from .hostile import DARKENED, dark_server, darken
from .origins import Gate, Handler, Talk, answers, response, sends

A = response(b"a")
GET = b"GET / HTTP/1.1\r\nHost: x\r\n\r\n"
# The limit of tests that wait for one to run out, and limits that don't.
SHORT = "400ms"
# More than the system keeps for a connection whose server doesn't read.
LARGE = 32 << 20
VISIT = ["expire N -> expired 0", "serve N - -> served a loose", "open a -> opened a", "close a -> closed a"]


def limits(client: str = "20s", server_limit: str = "20s") -> tuple[str, ...]:
    return (f"timeout client {client}", "timeout connect 20s", f"timeout server {server_limit}")


def post(length: int) -> bytes:
    return f"POST / HTTP/1.1\r\nHost: x\r\nContent-Length: {length}\r\n\r\n".encode()


def one_server(farm: Farm, handler: Handler, *lines: str) -> tuple[Balancer, int]:
    """A balancer before one server, and its port."""
    port = farm.port()
    return farm.start(listen(port, *lines, server("a", farm.origin(handler)))), port


@case
def a_client_that_takes_too_long_with_its_head_gets_408(farm: Farm) -> None:
    balancer, port = one_server(farm, answers(b"a"), *limits(client=SHORT))
    for sent in (b"", b"\r\n", b"GET / HT", b"GET / HTTP/1.1\r\nHost: x\r\n"):
        expect_equal(f"the answer to {sent!r}", ask(port, sent), own(408))
    expect_equal("nobody was asked", balancer.events("web"), [])
    ends_well(balancer)


@case
def each_read_of_a_head_has_the_clients_limit_and_not_all_together(farm: Farm) -> None:
    balancer, port = one_server(farm, answers(b"a"), *limits(client="2s"))
    with Client(port) as client:
        for place in range(5):
            client.send(GET[place : place + 1])
            # Five of these are longer than the limit.
            threading.Event().wait(0.5)
        client.send(GET[5:])
        expect_equal("the answer", client.read_to_end(), A)
    ends_well(balancer)


@case
def a_client_that_ends_in_its_head_gets_400(farm: Farm) -> None:
    balancer, port = one_server(farm, answers(b"a"), *LIMITS)
    for sent in (b"", b"\r\n", b"GET / HT", GET[:-2], GET[:-1]):
        expect_equal(f"the answer to {sent!r}", ask(port, sent, ends=True), own(400))
    expect_equal("nobody was asked", balancer.events("web"), [])
    ends_well(balancer)


@case
def a_client_that_breaks_off_in_its_head_is_no_matter(farm: Farm) -> None:
    balancer, port = one_server(farm, answers(b"a"), *LIMITS)
    for sent in (b"", b"GET / HT", GET[:-1]):
        for _ in range(10):
            client = Client(port)
            client.send(sent)
            client.reset()
    expect_equal("another client's answer", ask(port, GET), A)
    expect_equal("the events are that one's", balancer.events("web"), VISIT)
    ends_well(balancer)


def body_cut(farm: Farm, sent: bytes, due: bytes, ends: bool, client_limit: str = "20s") -> None:
    """A client that sends this much and then ends, or waits."""
    port, origin = farm.port(), farm.origin()
    balancer = farm.start(listen(port, *limits(client=client_limit), server("a", origin)))
    expect_equal("the answer", ask(port, sent, ends=ends), due)
    expect_equal("the events", balancer.events("web"), VISIT)
    head = sent.partition(b"\r\n\r\n")[0]
    expect("the server got a beginning", origin.requests(1)[0].startswith(head + b"\r\nConnection: close\r\n\r\n"))
    ends_well(balancer)


CHUNKED = b"POST / HTTP/1.1\r\nHost: x\r\nTransfer-Encoding: chunked\r\n\r\n"


@case
def a_client_that_ends_in_its_body_gets_400(farm: Farm) -> None:
    body_cut(farm, post(10) + b"hello", own(400), ends=True)


@case
def a_client_that_ends_in_its_chunks_gets_400(farm: Farm) -> None:
    body_cut(farm, CHUNKED + b"5\r\nhel", own(400), ends=True)


@case
def a_client_that_ends_between_the_digits_of_a_size_gets_400(farm: Farm) -> None:
    body_cut(farm, CHUNKED + b"1", own(400), ends=True)


@case
def a_client_that_takes_too_long_with_its_body_gets_nothing(farm: Farm) -> None:
    body_cut(farm, post(10) + b"hello", b"", ends=False, client_limit=SHORT)


@case
def a_bad_chunk_gets_400_behind_the_dial(farm: Farm) -> None:
    body_cut(farm, CHUNKED + b"5\r\nhello\r\nzz\r\n", own(400), ends=False)


@case
def a_client_that_breaks_off_in_its_body_leaves_no_slot(farm: Farm) -> None:
    port, origin = farm.port(), farm.origin()
    balancer = farm.start(listen(port, *LIMITS, server("a", origin)))
    client = Client(port)
    client.send(post(10) + b"hello")
    wait_until("the server has it", lambda: bool(origin.talks) and origin.talks[0].received.endswith(b"hello"))
    client.reset()
    balancer.wait_all_closed("web")
    expect_equal("the events", balancer.events("web"), VISIT)
    ends_well(balancer)


@case
def a_server_that_refuses_the_dial_is_503(farm: Farm) -> None:
    port = farm.port()
    balancer = farm.start(listen(port, *LIMITS, server("a", farm.port())))
    expect_equal("the answer", ask(port, GET), own(503))
    waiting = b"POST / HTTP/1.1\r\nExpect: 100-continue\r\nContent-Length: 2\r\n\r\n"
    expect_equal("no leave to go on", ask(port, waiting), own(503))
    expect_equal("the events", balancer.events("web"), 2 * VISIT)
    ends_well(balancer)


def served_by(farm: Farm, handler: Handler, due: bytes, server_limit: str = "20s", request: bytes = GET) -> None:
    """The answer to a request that this server gets."""
    balancer, port = one_server(farm, handler, *limits(server_limit=server_limit))
    expect_equal("the answer", ask(port, request), due)
    balancer.wait_all_closed("web")
    expect_equal("the events", balancer.events("web"), VISIT)
    ends_well(balancer)


@case
def a_server_that_ends_without_a_byte_is_502(farm: Farm) -> None:
    def ends(talk: Talk) -> None:
        talk.read_request()
        talk.end()

    served_by(farm, ends, own(502))


@case
def a_server_that_breaks_off_without_a_byte_is_502(farm: Farm) -> None:
    def resets(talk: Talk) -> None:
        talk.read_request()
        talk.reset()

    served_by(farm, resets, own(502))


@case
def a_server_that_takes_a_connection_and_resets_it_at_once_is_502_and_one_that_refuses_it_503(farm: Farm) -> None:
    port = farm.port()
    origin = farm.origin(Talk.reset)
    balancer = farm.start(listen(port, *LIMITS, server("a", origin)))
    # The reset comes before the first write, during it, or behind it.
    expect_equal("the answers", at_once(lambda _: [ask(port, GET) for _ in range(20)], range(10)), [[own(502)] * 20] * 10)
    origin.close()
    expect_equal("the answer where nobody listens", ask(port, GET), own(503))
    balancer.wait_all_closed("web")
    ends_well(balancer)


def dials(port: int) -> int:
    """How many connections to this port of the machine are begun and not made."""
    return len(re.findall(rf"(?m)^ *\d+: \S+ [0-9A-F]{{8}}:{port:04X} 02 ", Path("/proc/net/tcp").read_text()))


@case
def a_connection_that_is_reset_before_anything_was_sent_is_502(farm: Farm) -> None:
    dark, port = farm.stack.enter_context(socket.socket()), farm.port()
    dark.bind((HOST, 0))
    darken(farm.stack, dark)
    dark.settimeout(PATIENCE)
    at = int(dark.getsockname()[1])
    balancer = farm.start(listen(port, *LIMITS, server("a", at)))
    with Client(port) as client:
        before = dials(at)
        client.send(GET)
        wait_until("the dial waits", lambda: dials(at) == before + 1)
        # The balancer doesn't see that its connection is made before that is reset.
        balancer.process.send_signal(signal.SIGSTOP)
        dark.listen(2 * DARKENED)
        for _ in range(DARKENED + 1):
            Talk(dark.accept()[0]).reset()
        balancer.process.send_signal(signal.SIGCONT)
        expect_equal("the answer", client.read_to_end(), own(502))
    balancer.wait_all_closed("web")
    expect_equal("the events", balancer.events("web"), VISIT)
    ends_well(balancer)


@case
def a_server_that_breaks_off_in_the_midst_of_a_body_is_502(farm: Farm) -> None:
    def resets(talk: Talk) -> None:
        talk.read_until(b"\r\n\r\n")
        talk.reset()

    served_by(farm, resets, own(502), request=post(LARGE) + bytes(LARGE))


@case
def a_server_that_answers_before_the_body_ended_and_leaves_is_502(farm: Farm) -> None:
    def leaves(talk: Talk) -> None:
        talk.read_until(b"\r\n\r\n")
        talk.send(response(b"too early", "413 Content Too Large"))
        talk.reset()

    served_by(farm, leaves, own(502), request=post(LARGE) + bytes(LARGE))


@case
def a_server_that_says_nothing_is_504(farm: Farm) -> None:
    served_by(farm, Talk.read_to_end, own(504), server_limit=SHORT)


@case
def a_server_that_falls_silent_behind_a_byte_ends_the_answer_there(farm: Farm) -> None:
    def stalls(talk: Talk) -> None:
        talk.read_request()
        talk.send(b"HTTP/1.1 200 OK\r\nContent-Length: 10\r\n\r\nhel")
        talk.read_to_end()

    served_by(farm, stalls, b"HTTP/1.1 200 OK\r\nContent-Length: 10\r\n\r\nhel", server_limit=SHORT)


@case
def a_server_that_keeps_its_connection_has_its_slot_until_its_limit_although_its_client_has_all(farm: Farm) -> None:
    def keeps(talk: Talk) -> None:
        talk.read_request()
        talk.send(A)
        talk.read_to_end()

    balancer, port = one_server(farm, keeps, *limits(server_limit="1s"))
    with Client(port) as client:
        client.send(GET)
        expect_equal("the whole answer", client.read_bytes(len(A)), A)
        expect_equal("the slot is open", balancer.events("web"), VISIT[:3])
        expect_equal("nothing more", client.read_to_end(), b"")
    balancer.wait_all_closed("web")
    expect_equal("the events", balancer.events("web"), VISIT)
    ends_well(balancer)


@case
def a_server_that_breaks_off_behind_a_byte_ends_the_answer_there(farm: Farm) -> None:
    begun = threading.Event()

    def breaks(talk: Talk) -> None:
        talk.read_request()
        talk.send(b"HTTP/1.1 200")
        begun.wait(20)
        talk.reset()

    balancer, port = one_server(farm, breaks, *LIMITS)
    with Client(port) as client:
        client.send(GET)
        expect_equal("the beginning", client.read_bytes(12), b"HTTP/1.1 200")
        begun.set()
        expect_equal("nothing more", client.read_to_end(), b"")
    expect_equal("the events", balancer.events("web"), VISIT)
    ends_well(balancer)


@case
def a_body_that_the_server_does_not_take_is_502(farm: Farm) -> None:
    left = threading.Event()

    def reads_no_body(talk: Talk) -> None:
        talk.read_until(b"\r\n\r\n")
        left.wait(20)

    try:
        served_by(farm, reads_no_body, own(502), server_limit=SHORT, request=post(LARGE) + bytes(LARGE))
    finally:
        left.set()


@case
def nothing_of_a_response_goes_out_before_the_whole_request_was_sent(farm: Farm) -> None:
    answered = threading.Event()

    def answers_early(talk: Talk) -> None:
        talk.read_until(b"\r\n\r\n")
        talk.send(A)
        answered.set()
        talk.end()

    balancer, port = one_server(farm, answers_early, *LIMITS)
    with Client(port) as client:
        client.send(post(10) + b"hello")
        expect("the server has answered", answered.wait(20))
        client.stream.settimeout(0.3)
        try:
            seen: bytes | None = client.stream.recv(1)
        except TimeoutError:
            seen = None
        expect_equal("nothing yet", seen, None)
        client.stream.settimeout(20)
        client.send(b"world")
        expect_equal("the answer", client.read_to_end(), A)
    ends_well(balancer)


@case
def a_client_that_breaks_off_in_a_response_leaves_no_slot(farm: Farm) -> None:
    def sends_for_ever(talk: Talk) -> None:
        talk.read_request()
        while not talk.ended.is_set():
            try:
                talk.stream.sendall(bytes(1 << 16))
            except OSError:
                return

    balancer, port = one_server(farm, sends_for_ever, *LIMITS)
    client = Client(port)
    client.send(GET)
    client.read_bytes(1 << 20)
    client.reset()
    balancer.wait_all_closed("web")
    expect_equal("the events", balancer.events("web"), VISIT)
    ends_well(balancer)


@case
def a_request_without_a_backend_is_503(farm: Farm) -> None:
    port, other = farm.port(), farm.port()
    front = section("frontend f", f"bind 127.0.0.1:{port}", "use_backend web if { path /web }")
    bare = section("frontend g", f"bind 127.0.0.1:{other}")
    balancer = farm.start(front + bare + section("backend web", server("a", farm.origin())))
    expect_equal("one that the rule doesn't take", get(port), own(503))
    expect_equal("one that the rule takes", get(port, target="/web"), A)
    expect_equal("one at a frontend that says nothing", get(other), own(503))
    expect_equal("the events", balancer.events("web"), VISIT)
    ends_well(balancer)


@case
def a_backend_without_a_server_for_a_request_is_503(farm: Farm) -> None:
    port, other = farm.port(), farm.port()
    sections = listen(port, *TABLE, server("a", farm.origin(), "maxpins 1")) + listen(other, name="empty")
    balancer = farm.start(sections)
    expect_equal("the first pin", get(port, "x-id: k1"), A)
    expect_equal("one beyond what servers may hold", get(port, "x-id: k2"), own(503))
    expect_equal("one without a key", get(port), A)
    balancer.tell("set server web/a state maint")
    expect_equal("one where nobody serves", get(port), own(503))
    expect_equal("one where there is no server", get(other), own(503))
    expect_equal("the last events", balancer.events("web")[-2:], ["expire N -> expired 0", "serve N - -> 80 NoServer"])
    expect_equal("the events", ends_well(balancer, "web", "empty"), {"web": 13, "empty": 2})


@case
def an_answer_is_not_lost_where_more_bytes_come_than_are_read(farm: Farm) -> None:
    big = response(bytes(3 << 20))
    origin, port, none = farm.origin(sends(big)), farm.port(), farm.port()
    balancer = farm.start(listen(port, *LIMITS, server("a", origin)) + section(
        "frontend f", f"bind 127.0.0.1:{none}", "timeout client 20s"
    ))
    for _ in range(5):
        expect_equal("all of a response, with another request behind", len(ask(port, GET + GET)), len(big))
        expect_equal("an own answer, with 32 KiB behind", ask(none, GET + bytes(32 << 10)), own(503))
        expect_equal("a refusal, with 32 KiB behind", ask(none, b"GET  / HTTP/1.1\r\n\r\n" + bytes(32 << 10)), own(400))
    ends_well(balancer)


@case
def leave_to_go_on_is_given_once_the_server_is_dialled(farm: Farm) -> None:
    port, origin = farm.port(), farm.origin()
    balancer = farm.start(listen(port, *LIMITS, server("a", origin)))
    with Client(port) as client:
        client.send(b"POST /e HTTP/1.1\r\nHost: x\r\nExpect: 100-continue\r\nContent-Length: 2\r\n\r\n")
        expect_equal("leave to go on", client.read_bytes(len(CONTINUE)), CONTINUE)
        wait_until("the server is dialled", lambda: len(origin.talks) == 1)
        client.send(b"hi")
        expect_equal("the answer", client.read_to_end(), A)
    due = b"POST /e HTTP/1.1\r\nHost: x\r\nContent-Length: 2\r\nConnection: close\r\n\r\nhi"
    expect_equal("what the server got", origin.requests(1), [due])
    ends_well(balancer)


@case
def a_client_that_resets_while_its_server_is_waited_for_gives_its_connection_back(farm: Farm) -> None:
    gate, port = Gate(answers(b"a")), farm.port()
    balancer = farm.start(listen(port, *LIMITS, server("a", farm.origin(gate), "maxconn 1")))
    client = Client(port)
    client.send(GET)
    gate.wait_for(1)
    client.reset()
    # The server hasn't answered, and its limit is 20 s.
    wait_until("the connection is given back", lambda: balancer.events("web") == VISIT, 3)
    expect_equal("events", balancer.events("web"), VISIT)
    gate.open()
    expect_equal("another client's answer", ask(port, GET), A)
    ends_well(balancer)


@case
def a_client_that_resets_while_its_server_is_dialled_gives_its_connection_back(farm: Farm) -> None:
    with contextlib.ExitStack() as stack:
        port, dark = farm.port(), dark_server(stack)
        balancer = farm.start(listen(port, *LIMITS, server("a", dark, "maxconn 1")))
        client = Client(port)
        client.send(GET)
        wait_until("the dial is begun", lambda: balancer.events("web") == VISIT[:-1])
        client.reset()
        # The dial isn't taken, and its limit is 20 s.
        wait_until("the connection is given back", lambda: balancer.events("web") == VISIT, 3)
        expect_equal("events", balancer.events("web"), VISIT)
        ends_well(balancer)


@case
def a_client_that_ends_its_direction_while_its_server_is_waited_for_is_answered(farm: Farm) -> None:
    gate, port = Gate(answers(b"a")), farm.port()
    balancer = farm.start(listen(port, *LIMITS, server("a", farm.origin(gate))))
    with Client(port) as client:
        client.send(GET)
        client.end_sending()
        gate.wait_for(1)
        threading.Event().wait(0.3)
        gate.open()
        expect_equal("the answer", client.read_to_end(), A)
    ends_well(balancer)
