"""Sessions that servers begin: what a `Set-Cookie` of an answer teaches."""

from __future__ import annotations

import itertools
import re
from collections.abc import Callable, Iterator
from dataclasses import dataclass, field

from .cases import case, expect, expect_equal, wait_until
from .clients import at_once, get
from .farms import Balancer, Farm, ends_well, listen, server
from .origins import Handler, Origin, Talk, response, sends

# How an origin writes the field for a session of this number, and the cookie's name.
FORMS: list[tuple[str, str, str]] = [
    ("PHP", "PHPSESSID", "Set-Cookie: PHPSESSID={}; path=/; HttpOnly"),
    ("Java", "JSESSIONID", "Set-Cookie: JSESSIONID={}; Path=/shop; Secure; HttpOnly"),
    ("by hand", "sid", "set-cookie:sid={}"),
]


@dataclass
class Sessions:
    """An origin that knows its own sessions alone, and begins one for each request that brings none of them."""

    name: str
    cookie: str
    form: str
    known: set[str] = field(default_factory=set)
    numbers: Iterator[int] = field(default_factory=itertools.count)

    def __call__(self, talk: Talk) -> None:
        if not talk.read_request():
            return
        found = re.search(rf"^cookie:.*\b{self.cookie}=([^;\s]*)".encode(), talk.received, re.I | re.M)
        session = found[1].decode() if found else ""
        if session in self.known and b"GET /login " not in talk.received:
            talk.send(response(f"{self.name} {session}".encode()))
        else:
            session = f"{self.name}{next(self.numbers)}"
            self.known.add(session)
            talk.send(with_fields(f"{self.name} {session}".encode(), self.form.format(session)))
        talk.end()


class Jar:
    """A visitor's browser, with the cookies that it was given."""

    def __init__(self, port: int) -> None:
        self.port = port
        self.cookies: dict[str, str] = {}

    def get(self, target: str = "/") -> str:
        """The body of the answer to a request with all cookies."""
        pairs = "; ".join(f"{name}={value}" for name, value in self.cookies.items())
        head, _, body = get(self.port, *([f"Cookie: {pairs}"] if pairs else []), target=target).partition(b"\r\n\r\n")
        for name, value in re.findall(rb"^set-cookie:\s*([^=;\s]+)=([^;\r]*)", head, re.I | re.M):
            self.cookies[name.decode()] = value.decode()
        return body.decode()


def with_fields(body: bytes, *fields: str) -> bytes:
    """A whole response with these fields more."""
    head, end, rest = response(body).partition(b"\r\n\r\n")
    return head + "".join(f"\r\n{it}" for it in fields).encode("latin-1") + end + rest


def farm_of(farm: Farm, cookie: str, handlers: list[Handler], pattern: str = "req.cook({})") -> tuple[Balancer, int, list[Origin]]:
    """Servers s1, s2 .. with these handlers, and the port for clients."""
    port = farm.port()
    origins = [farm.origin(it) for it in handlers]
    servers = [server(f"s{place}", it, "maxpins 1000") for place, it in enumerate(origins, 1)]
    lines = ("balance roundrobin", "stick-table type string len 32 size 1000", f"stick on {pattern.format(cookie)}")
    return farm.start(listen(port, *lines, *servers)), port, origins


def three(cookie: str, form: str) -> list[Handler]:
    return [Sessions(name, cookie, form) for name in ("s1", "s2", "s3")]


def set_events(balancer: Balancer) -> list[str]:
    """The pins that were set, with what became of them."""
    return [it for it in balancer.events("web") if it.startswith("set N ")]


@case
def a_visitor_stays_in_the_session_that_a_server_began(farm: Farm) -> None:
    for what, cookie, form in FORMS:
        with Farm(farm.program) as one:
            balancer, port, _ = farm_of(one, cookie, three(cookie, form))
            jar = Jar(port)
            expect_equal(f"{what}: five requests", [jar.get() for _ in range(5)], ["s1 s10"] * 5)
            expect_equal(f"{what}: one pin was set", set_events(balancer), ["set N s10 s1 -> pinned s1 made"])
            expect_equal(f"{what}: the next request is kept", balancer.events("web")[-3], "serve N s10 -> served s1 kept")
            ends_well(balancer)


@case
def the_pin_is_set_between_open_and_close(farm: Farm) -> None:
    balancer, port, _ = farm_of(farm, "sid", three("sid", FORMS[2][2]))
    Jar(port).get()
    expect_equal("the journal", balancer.events("web"), [
        "expire N -> expired 0", "serve N - -> served s1 loose", "open s1 -> opened s1",
        "set N s10 s1 -> pinned s1 made", "close s1 -> closed s1",
    ])  # fmt: skip
    ends_well(balancer)


@case
def a_session_that_is_renewed_at_log_in_stays_too(farm: Farm) -> None:
    balancer, port, _ = farm_of(farm, "sid", three("sid", FORMS[2][2]))
    jar, other = Jar(port), Jar(port)
    expect_equal("the first session", jar.get(), "s1 s10")
    expect_equal("another visitor", other.get(), "s2 s20")
    expect_equal("log in", jar.get("/login"), "s1 s11")
    expect_equal("after it", [jar.get() for _ in range(3)], ["s1 s11"] * 3)
    expect_equal("the other visitor", other.get(), "s2 s20")
    expect_equal("the pins", set_events(balancer), [
        "set N s10 s1 -> pinned s1 made", "set N s20 s2 -> pinned s2 made", "set N s11 s1 -> pinned s1 made",
    ])  # fmt: skip
    ends_well(balancer)


@case
def a_session_that_another_server_begins_moves_its_pin(farm: Farm) -> None:
    taking = sends(with_fields(b"taken over", "Set-Cookie: sid=k"))
    balancer, port, _ = farm_of(farm, "sid", [taking, taking])
    expect_equal("the first answer sets the pin", get(port), with_fields(b"taken over", "Set-Cookie: sid=k"))
    expect_equal("the second one moves it", get(port), with_fields(b"taken over", "Set-Cookie: sid=k"))
    expect_equal("the pins", set_events(balancer), ["set N k s1 -> pinned s1 made", "set N k s2 -> pinned s2 moved"])
    ends_well(balancer)


@case
def a_head_that_comes_byte_by_byte_teaches_and_passes_untouched(farm: Farm) -> None:
    text = b"HTTP/1.1 103 Early Hints\r\nLink: </a>\r\n\r\n" + with_fields(b"slow", "Set-Cookie: other=1", "Set-Cookie: sid=k; Path=/")

    def slowly(talk: Talk) -> None:
        if talk.read_request():
            for place in range(len(text)):
                talk.send(text[place : place + 1])
            talk.end()

    balancer, port, _ = farm_of(farm, "sid", [slowly])
    expect_equal("the answer", get(port), text)
    expect_equal("the pin", set_events(balancer), ["set N k s1 -> pinned s1 made"])
    ends_well(balancer)


@case
def other_keys_learn_nothing(farm: Farm) -> None:
    for pattern in ("hdr(sid)", "req.hdr(Cookie)", "cook(other)"):
        with Farm(farm.program) as one:
            balancer, port, _ = farm_of(one, "sid", three("sid", FORMS[2][2]), pattern)
            Jar(port).get()
            expect_equal(f"{pattern}: no pin is set", set_events(balancer), [])
            ends_well(balancer)


def visit_all(jars: list[Jar]) -> list[str]:
    """The bodies that these visitors get, who come in 16 lines."""
    lines = [jars[first::16] for first in range(16)]
    bodies = at_once(lambda line: [jar.get() for jar in line], lines)
    return [bodies[place % 16][place // 16] for place in range(len(jars))]


@case
def ten_thousand_visitors_keep_their_sessions_through_a_drain(farm: Farm) -> None:
    port = farm.port()
    servers = [server(name, farm.origin(Sessions(name, "sid", FORMS[2][2])), "maxpins 20000") for name in ("s1", "s2", "s3")]
    lines = ("balance roundrobin", "stick-table type string len 32 size 20k", "stick on req.cook(sid)", "option evacuate")
    balancer = farm.start(listen(port, *lines, *servers), ("tune.relays 16",))
    jars = [Jar(port) for _ in range(10_000)]
    first = visit_all(jars)
    of_first = [place for place, body in enumerate(first) if body.startswith("s1 ")]
    expect("a third begins at each server", 3_300 < len(of_first) < 3_400)
    expect_equal("the drain", balancer.tell("set server web/s1 state drain"), "\n")
    wait_until("no pin is left there", lambda: " server=s1 " not in balancer.tell("show table web"))
    second = visit_all(jars)
    expect_equal("all others stay", [it for it in range(10_000) if second[it] != first[it]], of_first)
    expect("the drained server gets no one", not any(it.startswith("s1 ") for it in second))
    expect_equal("a new session stays too", visit_all([jars[it] for it in of_first]), [second[it] for it in of_first])
    ends_well(balancer, whole=False)


# What comes after the status line of an answer, and the key of the pin that it teaches, or none.
HEADS: list[tuple[str, bytes, str | None]] = [
    ("the last field counts", b"Set-Cookie: sid=a\r\nSet-Cookie: sid=b\r\n\r\n", "b"),
    ("another name", b"Set-Cookie: sidd=a\r\nSet-Cookie: si=b\r\n\r\n", None),
    ("an empty value", b"Set-Cookie: sid=; Path=/\r\n\r\n", None),
    ("a deletion", b"Set-Cookie: sid=gone; Max-Age=0\r\n\r\n", None),
    ("a deletion by a date", b"Set-Cookie: sid=gone; Expires=Thu, 01 Jan 1970 00:00:00 GMT\r\n\r\n", None),
    ("a deletion after a value", b"Set-Cookie: sid=a\r\nSet-Cookie: sid=gone; Max-Age=0\r\n\r\n", None),
    ("the table's length", b"Set-Cookie: sid=" + b"x" * 40 + b"\r\n\r\n", "x" * 32),
    ("500 fields", b"".join(b"Set-Cookie: c%d=1\r\n" % it for it in range(499)) + b"Set-Cookie: sid=a\r\n\r\n", "a"),
    ("a name of 16 KiB", b"Set-Cookie: " + b"n" * 16384 + b"=1\r\nSet-Cookie: sid=a\r\n\r\n", None),
    ("a head of more than 16 KiB", b"X: " + b"x" * 16384 + b"\r\nSet-Cookie: sid=a\r\n\r\n", None),
    ("no end of the head", b"Set-Cookie: sid=a\r\n", None),
    ("no end of a large head", b"Set-Cookie: sid=a\r\n" + b"X: y\r\n" * 5000, None),
    ("a NUL in a name", b"A\0B: c\r\nSet-Cookie: sid=a\r\n\r\n", None),
    ("a NUL in the value", b"Set-Cookie: sid=a\0b\r\n\r\n", None),
    ("a line without a colon", b"nonsense\r\nSet-Cookie: sid=a\r\n\r\n", None),
    ("a field in the body", b"Content-Length: 17\r\n\r\nSet-Cookie: sid=a", None),
]


@case
def hostile_and_odd_answers_teach_what_they_say_and_pass_untouched(farm: Farm) -> None:
    status = b"HTTP/1.1 200 OK\r\n"
    chosen: list[bytes] = []

    def send_chosen(talk: Talk) -> None:
        if talk.read_request():
            talk.send(chosen[-1])
            talk.end()

    balancer, port, _ = farm_of(farm, "sid", [send_chosen])
    told = 0
    for what, rest, key in HEADS:
        chosen.append(status + rest)
        expect_equal(f"{what}: the answer", get(port), status + rest)
        new = set_events(balancer)[told:]
        expect_equal(f"{what}: the pin", [it.split(" ")[2] for it in new], [] if key is None else [key])
        told += len(new)
    expect("no status line", not told == 0)
    chosen.append(b"Set-Cookie: sid=a\r\n\r\n")
    expect_equal("no status line: the answer", get(port), chosen[-1])
    expect_equal("no status line: no pin", len(set_events(balancer)), told)
    ends_well(balancer)


@case
def a_full_table_that_keeps_its_pins_changes_nothing_of_the_answer(farm: Farm) -> None:
    port = farm.port()
    text = with_fields(b"a", "Set-Cookie: sid=k2")
    lines = ("stick-table type string size 1 nopurge", "stick on cook(sid)")
    balancer = farm.start(listen(port, *lines, server("a", farm.origin(sends(text)))))
    expect_equal("the only pin", balancer.tell("set table web key k1 server a"), "\n")
    expect_equal("an answer that teaches", get(port), text)
    expect_equal("the journal", balancer.events("web")[-2:], ["set N k2 a -> 60 TableFull", "close a -> closed a"])
    ends_well(balancer)


@case
def the_servers_that_a_rule_names_are_part_of_the_pin(farm: Farm) -> None:
    port = farm.port()
    handlers: list[Callable[[Talk], None]] = [Sessions("a", "sid", FORMS[2][2]), Sessions("b", "sid", FORMS[2][2])]
    servers = [server(name, farm.origin(it), "maxpins 5") for name, it in zip("ab", handlers)]
    lines = ("stick-table type string size 10", "stick on cook(sid)", "acl api path_beg /api", "use-server b if api")
    balancer = farm.start(listen(port, *lines, *servers))
    jar = Jar(port)
    expect_equal("two requests that a rule names", [jar.get("/api"), jar.get("/api")], ["b b0"] * 2)
    expect("the row", "key=b0 want=b server=b " in balancer.tell("show table web"))
    ends_well(balancer)
