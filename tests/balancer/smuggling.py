"""Request smuggling: each form is refused, or servers of both kinds see the same one request, and nothing of a second one reaches them."""

from __future__ import annotations

from collections.abc import Callable
from dataclasses import dataclass, field

from .answers import CONTINUE, own
from .cases import Failure, case, expect, expect_equal
from .chunk_forms import body_forms, trailers_by_line_feed
from .clients import ask, at_once
from .farms import LIMITS, Balancer, Farm, ends_well, listen, server
from .forms import Due, Form, head_forms
from .origins import Handler, Origin, Talk, response
from .readers import Partial, Refused, Seen, Whole, read_leniently, read_strictly

# How many forms are tried at a time.
LANES = 4
# Each request that reaches a backend is four events: an expiry, a question, an open and a close.
EVENTS = 4
SEEN = response(b"seen")
NOT_SEEN = response(b"not seen", "400 Bad Request")


def sees(reader: Callable[[bytes], Seen]) -> Handler:
    """A server that reads as this reader does, and takes in what comes behind a request too."""

    def handle(talk: Talk) -> None:
        while isinstance(seen := reader(talk.received), Partial):
            if not talk.read():
                return
        talk.send(SEEN if isinstance(seen, Whole) else NOT_SEEN)
        talk.end()

    return handle


@dataclass
class Door:
    """A frontend of its own, with one server behind it."""

    name: str
    port: int
    origin: Origin
    strict: bool
    events: int = 0
    dialled: int = 0

    def section(self, *limits: str) -> str:
        return listen(self.port, *limits, server("a", self.origin), name=self.name)


@dataclass
class Lane:
    """The same forms before a strict server and before a lenient one."""

    strict: Door
    lenient: Door
    failures: list[str] = field(default_factory=list)


def lanes_of(farm: Farm, count: int) -> list[Lane]:
    lanes = []
    for number in range(count):
        strict = Door(f"strict{number}", farm.port(), farm.origin(sees(read_strictly)), True)
        lanes.append(Lane(strict, Door(f"lenient{number}", farm.port(), farm.origin(sees(read_leniently)), False)))
    return lanes


def doors_of(lanes: list[Lane]) -> list[Door]:
    return [door for lane in lanes for door in (lane.strict, lane.lenient)]


def expected_fields(client: Whole) -> tuple[tuple[bytes, bytes], ...]:
    """The fields that a server is to get of the client's."""
    gone = {b"connection", b"expect"}
    for name, value in client.fields:
        if name == b"connection":
            gone |= {option.strip(b" \t").lower() for option in value.split(b",")}
    kept = [(name, value) for name, value in client.fields if name not in gone]
    return (*kept, (b"connection", b"close"))


def judge_one(form: Form, received: bytes) -> None:
    """The server got the client's first request, in one spelling, and nothing behind it."""
    strict, lenient = read_strictly(received), read_leniently(received)
    if not isinstance(strict, Whole):
        raise Failure(f"a strict server sees {strict} in {received[-200:]!r}")
    expect_equal("what a lenient server sees", lenient, strict)
    expect_equal("where the request ends", strict.length, len(received))
    client = read_strictly(form.data)
    if not isinstance(client, Whole):
        client = read_leniently(form.data)
    assert isinstance(client, Whole)
    expect_equal("the request line", (strict.method, strict.target, strict.version), (client.method, client.target, client.version))
    expect_equal("the fields", strict.fields, expected_fields(client))
    expect_equal("the body", strict.body, client.body)


def judge_lax(form: Form, received: bytes) -> None:
    """A lenient server sees one request, and a strict one none."""
    lenient = read_leniently(received)
    if not isinstance(lenient, Whole):
        raise Failure(f"a lenient server sees {lenient}")
    expect_equal("where the request ends", lenient.length, len(received))
    expect("a strict server sees none", not isinstance(read_strictly(received), Whole))


def judge_cut(received: bytes) -> None:
    """No server sees a whole request."""
    for reader in (read_strictly, read_leniently):
        expect(f"no whole request in {received[-200:]!r}", not isinstance(reader(received), Whole))


def due_answer(due: Due, strict: bool) -> bytes:
    """What the client is to get, leave to go on left out."""
    if due in (Due.REFUSED, Due.CUT):
        return own(400)
    if due is Due.LAX and strict:
        return NOT_SEEN
    return own(504) if due is Due.WAITS and strict else SEEN


def try_at(balancer: Balancer, door: Door, form: Form) -> None:
    """Sends the form, and judges what client, backend and server saw."""
    answer = ask(door.port, form.data, ends=True)
    expect_equal("the answer", answer.removeprefix(CONTINUE), due_answer(form.due, door.strict))
    dialled = form.due is not Due.REFUSED
    door.events += EVENTS * dialled
    door.dialled += dialled
    entries = balancer.journal(door.name)
    expect_equal("events at the backend", entries[-1].number + 1 if entries else 0, door.events)
    received = door.origin.requests(door.dialled)
    if form.due is Due.ONE:
        judge_one(form, received[-1])
    elif form.due is Due.CUT:
        judge_cut(received[-1])
    elif dialled:
        judge_lax(form, received[-1])


def try_all(balancer: Balancer, lane: Lane, forms: list[Form]) -> None:
    """Tries the forms before both servers, and keeps what fails."""
    for form in forms:
        for door in (lane.strict, lane.lenient):
            try:
                try_at(balancer, door, form)
            except Failure as failure:
                lane.failures.append(f"{form.name} at {door.name}: {failure}\n  sent: {form.data[:300]!r}")
                # What came of it is no longer known, so the counts begin anew.
                entries = balancer.journal(door.name)
                door.events = entries[-1].number + 1 if entries else 0
                door.dialled = len(door.origin.talks)


def try_forms(farm: Farm, forms: list[Form], *limits: str) -> None:
    lanes = lanes_of(farm, LANES)
    doors = doors_of(lanes)
    balancer = farm.start("".join(door.section(*limits) for door in doors), (f"tune.journal {EVENTS}",))
    at_once(lambda place: try_all(balancer, lanes[place], forms[place::LANES]), range(LANES))
    failures = [failure for lane in lanes for failure in lane.failures]
    if failures:
        raise Failure(f"{len(failures)} of {2 * len(forms)} forms\n" + "\n".join(failures[:20]))
    ends_well(balancer, *(door.name for door in doors))


@case
def two_kinds_of_servers_see_the_same_one_request_or_none_whatever_a_head_says(farm: Farm) -> None:
    forms = list(head_forms())
    expect("there are at least 300 different heads", len({form.data for form in forms}) >= 300)
    try_forms(farm, forms, *LIMITS)


@case
def two_kinds_of_servers_see_the_same_one_request_or_none_whatever_chunks_say(farm: Farm) -> None:
    try_forms(farm, list(body_forms()), *LIMITS)


@case
def a_strict_server_waits_in_vain_behind_a_trailer_that_ends_with_a_line_feed_alone(farm: Farm) -> None:
    try_forms(farm, list(trailers_by_line_feed()), "timeout client 20s", "timeout connect 20s", "timeout server 700ms")


@case
def the_readers_of_these_tests_tell_requests_apart(farm: Farm) -> None:
    two = b"GET / HTTP/1.1\r\nContent-Length: 5\r\nTransfer-Encoding : chunked\r\n\r\n0\r\n\r\nGET /x HTTP/1.1\r\n\r\n"
    expect("a strict server refuses a blank before a colon", isinstance(read_strictly(two), Refused))
    lenient = read_leniently(two)
    expect_equal("a lenient server takes the coding", lenient.body if isinstance(lenient, Whole) else lenient, b"")
    expect(
        "a body that is short is partial", isinstance(read_strictly(two[:20]), Partial) and isinstance(read_leniently(two[:20]), Partial)
    )
    hidden = b"POST / HTTP/1.1\r\nTransfer-Encoding: chunked\r\n\r\n2;\nxx\r\n0\r\n\r\n"
    expect("a strict server refuses a line feed in a size line", isinstance(read_strictly(hidden), Refused))
    expect(
        "a lenient server ends the line there",
        read_leniently(hidden) == Whole(b"POST", b"/", b"HTTP/1.1", ((b"transfer-encoding", b"chunked"),), b"xx", len(hidden)),
    )  # fmt: skip
