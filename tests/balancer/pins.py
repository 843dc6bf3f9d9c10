"""Keys, the pins that they make, and where requests go."""

from __future__ import annotations

import re

from .answers import own
from .cases import case, expect_equal, wait_until
from .clients import get
from .farms import LIMITS, TABLE, Farm, ends_well, listen, server
from .origins import response

A, B = response(b"a"), response(b"b")
DRAIN_AND_PLAN = "set server web/a state drain; plan backend web"


def pins_move(farm: Farm, *settings: str) -> None:
    """Two requests with one key, a drain, a plan, and a third request, which the other server gets."""
    port = farm.port()
    servers = [server(name, farm.origin(), "maxpins 5") for name in ("a", "b")]
    balancer = farm.start(listen(port, "stick-table type string size 10", "stick on hdr(x-id)", *servers), settings)
    expect_equal("the first answer", get(port, "x-id: k1"), A)
    expect_equal("the second answer", get(port, "x-id: k1"), A)
    expect_equal(
        "the pin is kept", balancer.events("web")[-3:], ["serve N k1 -> served a kept", "open a -> opened a", "close a -> closed a"]
    )
    expect_equal("drain and plan", balancer.tell(DRAIN_AND_PLAN), "\npins 1 unplaced 0 moved 1\n\n")
    expect_equal("the third answer", get(port, "x-id: k1"), B)
    expect_equal("the pin is kept where the plan put it", balancer.events("web")[-3], "serve N k1 -> served b kept")
    expect_equal("events", ends_well(balancer), {"web": 15})


@case
def a_key_stays_at_its_server_until_a_plan_moves_it(farm: Farm) -> None:
    pins_move(farm)


@case
def a_journal_of_three_events_forgets_and_counts_on(farm: Farm) -> None:
    pins_move(farm, "tune.journal 3")


@case
def a_backend_without_servers_refuses_each_request_and_plans_for_nobody(farm: Farm) -> None:
    port = farm.port()
    balancer = farm.start(listen(port, *TABLE))
    for fields in (["x-id: k1"], [], ["x-id: k1"]):
        expect_equal(f"the answer to {fields}", get(port, *fields), own(503))
    # No pin moved, so that the version still stands.
    for _ in range(2):
        expect_equal("a plan", balancer.tell("plan backend web"), "pins 0 unplaced 0 moved 0\n\n")
    expect_equal("the plan", balancer.tell("show plan web"), "stickyplan 1\nversion 0\nend\n\n")
    planned = ["snapshot -> sheet version 0 pins 0", "install version 0 -> installed pins 0 unplaced 0 moved 0"]
    refused = ["expire N -> expired 0", "serve N k1 -> 80 NoServer"]
    bare = ["expire N -> expired 0", "serve N - -> 80 NoServer"]
    expect_equal("the journal", balancer.events("web"), refused + bare + refused + 2 * planned)
    ends_well(balancer)


@case
def all_events_of_a_day_stand_in_the_journal_with_their_replies(farm: Farm) -> None:
    port = farm.port()
    balancer = farm.start(listen(port, *TABLE, server("a", farm.origin(), "maxpins 5"), server("b", farm.origin(), "maxpins 5")))
    get(port, "x-id: k1")
    get(port)
    expect_equal("a plan", balancer.tell("set server web/a state drain; plan backend web"), "\npins 1 unplaced 0 moved 1\n\n")
    # Version 1 is the pin's, version 2 the drain's.
    due = [
        "expire N -> expired 0", "serve N k1 -> served a made", "open a -> opened a", "close a -> closed a",
        "expire N -> expired 0", "serve N - -> served b loose", "open b -> opened b", "close b -> closed b",
        "set server web/a state drain -> done", "snapshot -> sheet version 2 pins 1",
        "install version 2 -> installed pins 1 unplaced 0 moved 1",
    ]  # fmt: skip
    expect_equal("the journal", balancer.events("web"), due)
    plan = "stickyplan 1\nversion 2\nserver a off\nserver b cap 5 price 0\nrow 1 a b b\nend\n\n"
    expect_equal("the plan", balancer.tell("show plan web"), plan)
    ends_well(balancer)


def shown_keys(text: str) -> list[str]:
    """The keys of a table as `show table` prints it."""
    return re.findall(r"^key=(\S+) ", text, re.M)


KEYS = [
    ("string size 9", "hdr(x-id)", ["x-id: a b", "X-ID: c d"], "c%20d"),
    ("string size 9", "hdr(x-id)", ["X: c", "x-id: a, b"], "b"),
    ("string size 9", "hdr(x-id)", ["x-id: a", "x-id: b,"], None),
    ("string size 9", "hdr(x-id)", ["x-id:"], None),
    ("string size 9", "hdr(x-id)", ["X: a"], None),
    ("string size 9", "hdr(x-id)", ["x-id: -"], "%2D"),
    ("string size 9", "hdr(x-id)", ["x-id: 100%"], "100%25"),
    ("string size 9", "hdr(x-id)", ["x-id: \u00e9"], "%C3%A9"),
    ("string len 2 size 9", "hdr(x-id)", ["x-id: abc"], "ab"),
    ("string size 9", "req.cook(s)", ["Cookie: s=1; t=2", "Cookie: s=3"], "3"),
    ("string size 9", "cook(s)", ["Cookie: t=2; s=a=b ;u"], "a=b"),
    ("string size 9", "cook(s)", ["Cookie: S=1"], None),
    ("string size 9", "cook(s)", ["Cookie: a=b, s=1"], None),
    ("string size 9", "cook(s)", ["Cookie: s =1"], None),
    ("string size 9", "cook(s)", ["Cookie: s=a,b"], "a,b"),
    ("string size 9", "src", [], "127.0.0.1"),
    ("ip size 9", "src", [], "127.0.0.1"),
    ("ip size 9", "hdr(x-id)", ["x-id: 10.0.0.7"], "10.0.0.7"),
    ("ip size 9", "hdr(x-id)", ["x-id: 01.2.3.4"], None),
    # Keys see the head as it came, with the fields that `Connection` names.
    ("string size 9", "hdr(x-id)", ["Connection: x-id", "x-id: k"], "k"),
]  # fmt: skip


@case
def each_request_has_the_key_that_the_configuration_finds_in_it(farm: Farm) -> None:
    origin = farm.origin()
    ports = [farm.port() for _ in KEYS]
    names = [f"w{place}" for place in range(len(KEYS))]
    sections = [
        listen(port, f"stick-table type {table}", f"stick on {pattern}", server("a", origin), name=name)
        for port, name, (table, pattern, _, _) in zip(ports, names, KEYS)
    ]
    balancer = farm.start("".join(sections))
    for port, name, (_, pattern, fields, key) in zip(ports, names, KEYS):
        expect_equal("the answer", get(port, *fields), A)
        seen = shown_keys(balancer.tell(f"show table {name}"))
        expect_equal(f"the keys of {fields} under {pattern}", seen, [] if key is None else [key])
    ends_well(balancer, *names)


@case
def a_table_is_shown_in_the_order_of_last_use(farm: Farm) -> None:
    port = farm.port()
    balancer = farm.start(listen(
        port, "stick-table type string size 10", "stick on hdr(x-id)", server("a", farm.origin()), server("b", farm.origin())
    ))
    for key in ("k1", "k2", "k1"):
        get(port, f"x-id: {key}")
    text = re.sub(r"use=\d+", "use=N", balancer.tell("show table web"))
    due = "# table web type string size 10 used 2\nkey=k2 want=- server=b use=N\nkey=k1 want=- server=a use=N\n\n"
    expect_equal("the table", text, due)
    ends_well(balancer)


@case
def a_pin_that_was_not_used_for_its_time_is_made_anew(farm: Farm) -> None:
    port = farm.port()
    lines = ("stick-table type string size 10 expire 1", "stick on hdr(x-id)")
    balancer = farm.start(listen(port, *lines, server("a", farm.origin())))
    get(port, "x-id: k1")
    first = int(re.findall(r"use=(\d+)", balancer.tell("show table web"))[0])

    def is_later() -> bool:
        get(port, "x-id: k2")
        return int(re.findall(r"use=(\d+)", balancer.tell("show table web"))[-1]) > first

    wait_until("a millisecond has passed", is_later)
    expect_equal("the first pin is gone", shown_keys(balancer.tell("show table web")), ["k2"])
    ends_well(balancer)


@case
def rules_name_the_servers_of_a_request(farm: Farm) -> None:
    port = farm.port()
    rules = ("acl api path_beg /api", "use-server b if api", "acl dear hdr(x-cost) high", "pin-cost 7 if dear")
    balancer = farm.start(listen(port, *TABLE, *rules, server("a", farm.origin()), server("b", farm.origin())))
    expect_equal("a request of the rule", get(port, "x-id: k1", target="/api/x"), B)
    expect_equal("another of the same key", get(port, "x-id: k1"), A)
    expect_equal("one whose move is dear", get(port, "x-id: k2", "x-cost: high"), B)
    due = ["serve N k1 b -> served b made", "serve N k1 -> served a made", "serve N k2 cost=7 -> served b made"]
    expect_equal("the requests", [it for it in balancer.events("web") if it.startswith("serve")], due)
    ends_well(balancer)


@case
def two_backends_have_their_own_requests_and_tables(farm: Farm) -> None:
    port, other = farm.port(), farm.port()
    rules = ("acl shop path_beg /shop", "use_backend shop if shop", "default_backend web")
    front = "frontend f\n" + "".join(f"  {it}\n" for it in (f"bind 127.0.0.1:{port}", *LIMITS[:1], *rules))
    back = "".join(
        f"backend {name}\n" + "".join(f"  {it}\n" for it in (*TABLE, server("s", farm.origin()))) for name in ("web", "shop")
    )
    alone = listen(other, server("s", farm.origin()), name="alone")
    balancer = farm.start(front + back + alone)
    expect_equal("one backend", get(port, "x-id: k1"), A)
    expect_equal("the other backend", get(port, "x-id: k1", target="/shop/1"), B)
    expect_equal("the section itself", get(other), response(b"c"))
    expect_equal("one key in each table", [shown_keys(balancer.tell(f"show table {it}")) for it in ("web", "shop")], [["k1"], ["k1"]])
    expect_equal("events", ends_well(balancer, "web", "shop", "alone"), {"web": 4, "shop": 4, "alone": 4})


@case
def a_table_of_at_most_its_servers_room_refuses_no_new_key_and_a_larger_one_does(farm: Farm) -> None:
    small, large = farm.port(), farm.port()
    servers = [server(name, farm.origin(), "maxpins 5") for name in ("a", "b")]
    sections = [
        listen(port, f"stick-table type string size {size}", "stick on hdr(x-id)", *servers, name=name)
        for port, size, name in ((small, 10, "small"), (large, 11, "large"))
    ]
    balancer = farm.start("".join(sections))
    for port, refused in ((small, 0), (large, 10)):
        answers = [get(port, f"x-id: k{number}") for number in range(20)]
        expect_equal("new keys that are refused", answers.count(own(503)), refused)
        expect_equal("the others", answers.count(A) + answers.count(B), 20 - refused)
    expect_equal("the pins used last", shown_keys(balancer.tell("show table small")), [f"k{number}" for number in range(10, 20)])
    expect_equal("the first pins", shown_keys(balancer.tell("show table large")), [f"k{number}" for number in range(10)])
    expect_equal("one that has its pin", get(large, "x-id: k3"), B)
    expect_equal("one without a key", get(large), A)
    ends_well(balancer, "small", "large")
