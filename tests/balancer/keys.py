"""Pins by their keys, in operators' hands; sheets, and plans that aren't made."""

from __future__ import annotations

import re

from .cases import case, expect_equal
from .clients import get
from .farms import TABLE, Balancer, Farm, ends_well, listen, server
from .origins import HOST, response

A, B = response(b"a"), response(b"b")
UNKNOWN = "100 UnknownCommand\n\n"
HEADING = "# table web type string size 1000 used {}\n"


def farm_of_two(farm: Farm, *lines: str) -> tuple[Balancer, int]:
    """Two servers with room for five pins each, and the port for clients."""
    port = farm.port()
    servers = [server(name, farm.origin(), "maxpins 5") for name in ("a", "b")]
    return farm.start(listen(port, *TABLE, *lines, *servers)), port


def without_moments(text: str) -> str:
    """The rows of a table without the moments of their last use."""
    return re.sub(r" use=\d+", " use=N", text)


def tell(balancer: Balancer, line: str) -> str:
    return without_moments(balancer.tell(line))


def served(key: str, name: str, how: str) -> list[str]:
    """The events of a request with the key."""
    return ["expire N -> expired 0", f"serve N {key} -> served {name} {how}", f"open {name} -> opened {name}", f"close {name} -> closed {name}"]


@case
def a_pin_that_is_set_takes_the_next_request_of_its_key(farm: Farm) -> None:
    balancer, port = farm_of_two(farm)
    expect_equal("a new pin", tell(balancer, "set table web key k1 server b"), "\n")
    expect_equal("a request at b", get(port, "x-id: k1"), B)
    expect_equal("the pin elsewhere", tell(balancer, "set table web key k1 server a"), "\n")
    expect_equal("a request at a", get(port, "x-id: k1"), A)
    expect_equal("the pin where it is", tell(balancer, "set table web key k1 server a"), "\n")
    expire = "expire N -> expired 0"
    expect_equal("the journal", balancer.events("web"), [
        expire, "set N k1 b -> pinned b made", *served("k1", "b", "kept"),
        expire, "set N k1 a -> pinned a moved", *served("k1", "a", "kept"),
        expire, "set N k1 a -> pinned a kept",
    ])  # fmt: skip
    ends_well(balancer)


@case
def a_pin_that_is_cleared_is_gone(farm: Farm) -> None:
    balancer, port = farm_of_two(farm)
    expect_equal("a request", get(port, "x-id: k1"), A)
    expect_equal("the pin goes", tell(balancer, "clear table web key k1"), "\n")
    expect_equal("it is gone", tell(balancer, "show table web"), HEADING.format(0) + "\n")
    expect_equal("there is none", tell(balancer, "clear table web key k1"), "no pin\n\n")
    expect_equal("a new client's request", get(port, "x-id: k1"), B)
    ends_well(balancer)


@case
def the_rows_of_one_key_are_shown(farm: Farm) -> None:
    balancer, port = farm_of_two(farm)
    for key in ("k1", "k2", "k3"):
        get(port, f"x-id: {key}")
    expect_equal("one row", tell(balancer, "show table web key k2"), HEADING.format(3) + "key=k2 want=- server=b use=N\n\n")
    expect_equal("no row", tell(balancer, "show table web key k4"), HEADING.format(3) + "\n")
    expect_equal("no prefix", tell(balancer, "show table web key k"), HEADING.format(3) + "\n")
    ends_well(balancer)


@case
def a_key_with_pins_for_several_rules_is_shown_set_and_cleared_whole(farm: Farm) -> None:
    balancer, port = farm_of_two(farm, "acl api path_beg /api", "use-server b if api")
    expect_equal("a request that no rule names", get(port, "x-id: k1"), A)
    expect_equal("a request that a rule names", get(port, "x-id: k1", target="/api"), B)
    rows = "key=k1 want=- server=a use=N\nkey=k1 want=b server=b use=N\n\n"
    expect_equal("both pins", tell(balancer, "show table web key k1"), HEADING.format(2) + rows)
    expect_equal("both are set", tell(balancer, "set table web key k1 server b"), "\n")
    rows = "key=k1 want=- server=b use=N\nkey=k1 want=b server=b use=N\n\n"
    expect_equal("both stand there", tell(balancer, "show table web key k1"), HEADING.format(2) + rows)
    expect_equal("both go", tell(balancer, "clear table web key k1"), "\n")
    expect_equal("none is left", tell(balancer, "show table web"), HEADING.format(0) + "\n")
    ends_well(balancer)


@case
def keys_are_read_as_they_are_shown(farm: Farm) -> None:
    balancer, port = farm_of_two(farm)
    for number, (sent, shown) in enumerate([("a b", "a%20b"), ("50%", "50%25"), ("-", "%2D"), ("caf\u00e9", "caf%C3%A9"), ("x=/\"'", "x=/\"'")], 1):
        get(port, f"x-id: {sent}")
        row = f"key={shown} want=- server={'ab'[(number + 1) % 2]} use=N\n\n"
        expect_equal(f"the row of {sent}", tell(balancer, f"show table web key {shown}"), HEADING.format(number) + row)
    expect_equal("an escape that isn't due", tell(balancer, "clear table web key %61%20b"), "\n")
    expect_equal("a byte that isn't escaped", tell(balancer, "clear table web key caf\u00e9"), "\n")
    expect_equal("the three others", tell(balancer, "show table web key k")[: len(HEADING.format(3))], HEADING.format(3))
    # A semicolon ends a command, so it is the one byte that has to be escaped although it is shown as it is.
    expect_equal("a semicolon", tell(balancer, "set table web key p%3Bq server b"), "\n")
    expect_equal("its row", tell(balancer, "show table web key p%3Bq"), HEADING.format(4) + "key=p;q want=- server=b use=N\n\n")
    ends_well(balancer)


@case
def what_is_no_key_is_an_unknown_command(farm: Farm) -> None:
    balancer, _ = farm_of_two(farm)
    for line in ("show table web key %", "clear table web key a%4", "set table web key %zz server a", "set table web key a%2 server a"):
        expect_equal(line, balancer.tell(line), UNKNOWN)
    for line, answer in [
        ("clear", "101 MissingWord\n\n"), ("clear table", "101 MissingWord\n\n"), ("clear table web", "101 MissingWord\n\n"),
        ("clear table web key", "101 MissingWord\n\n"), ("set table web key k1", "101 MissingWord\n\n"),
        ("set table web key k1 server", "101 MissingWord\n\n"), ("show table web key", "101 MissingWord\n\n"),
        ("show sheet", "101 MissingWord\n\n"),
        ("clear web", UNKNOWN), ("clear table web k1", UNKNOWN), ("clear table web key k1 k2", UNKNOWN),
        ("set table web key k1 data.server_id 2", UNKNOWN), ("set table web key k1 server a b", UNKNOWN),
        ("show table web data.server_id eq 2", UNKNOWN), ("plan backend web wet", UNKNOWN), ("plan backend web dry now", UNKNOWN),
        ("clear table shop key k1", "103 NoBackend\n\n"), ("set table shop key k1 server x", "103 NoBackend\n\n"),
        ("show sheet shop", "103 NoBackend\n\n"), ("plan backend shop dry", "103 NoBackend\n\n"),
        ("set table web key k1 server x", "10 NoSuchServer\n\n"), ("set table web key %zz server x", "10 NoSuchServer\n\n"),
    ]:  # fmt: skip
        expect_equal(line, balancer.tell(line), answer)
    expect_equal("the journal", balancer.events("web"), [])
    ends_well(balancer)


@case
def keys_of_a_table_of_addresses_are_addresses(farm: Farm) -> None:
    port = farm.port()
    servers = [server(name, farm.origin()) for name in ("a", "b")]
    balancer = farm.start(listen(port, "stick-table type ip size 10", "stick on src", *servers))
    expect_equal("a pin", tell(balancer, f"set table web key {HOST} server b"), "\n")
    expect_equal("a request", get(port), B)
    expect_equal("no address", tell(balancer, "set table web key nonsense server b"), UNKNOWN)
    expect_equal("nor this", tell(balancer, "clear table web key 127.0.0.1.1"), UNKNOWN)
    row = f"# table web type ip size 10 used 1\nkey={HOST} want=- server=b use=N\n\n"
    expect_equal("the row", tell(balancer, f"show table web key {HOST}"), row)
    ends_well(balancer)


@case
def a_backend_without_a_table_has_no_pins(farm: Farm) -> None:
    balancer = farm.start(listen(farm.port(), server("a", farm.origin())))
    for line, answer in [
        ("show table web key k1", "no table\n\n"), ("clear table web key k1", "no pin\n\n"), ("set table web key k1 server a", "no table\n\n"),
    ]:  # fmt: skip
        expect_equal(line, balancer.tell(line), answer)
    ends_well(balancer)


@case
def a_full_table_that_keeps_its_pins_takes_none(farm: Farm) -> None:
    lines = ("stick-table type string size 1 nopurge", "stick on hdr(x-id)")
    balancer = farm.start(listen(farm.port(), *lines, server("a", farm.origin())))
    expect_equal("the only pin", balancer.tell("set table web key k1 server a"), "\n")
    expect_equal("another one", balancer.tell("set table web key k2 server a"), "60 TableFull\n\n")
    expect_equal("the same one", balancer.tell("set table web key k1 server a"), "\n")
    ends_well(balancer)


@case
def a_pin_stands_also_where_the_server_is_drained_or_full(farm: Farm) -> None:
    port = farm.port()
    servers = [server("a", farm.origin(), "maxpins 0"), server("b", farm.origin())]
    balancer = farm.start(listen(port, *TABLE, *servers))
    expect_equal("a full server", balancer.tell("set table web key k1 server a"), "\n")
    expect_equal("a request", get(port, "x-id: k1"), A)
    expect_equal("a drained server", balancer.tell("set server web/a state drain; set table web key k2 server a"), "\n\n")
    expect_equal("a request", get(port, "x-id: k2"), A)
    ends_well(balancer)


@case
def a_dry_plan_is_shown_and_moves_nothing(farm: Farm) -> None:
    balancer, port = farm_of_two(farm)
    expect_equal("a request", get(port, "x-id: k1"), A)
    plan = "pins 1 unplaced 0 moved 1\n"
    tables = "from\tto\tpins\na\tb\t1\nserver\tbefore\tafter\tcapacity\tprice\n-\t0\t0\t-\t-\na\t1\t0\toff\t0\nb\t0\t1\t5\t0\n"
    expect_equal("drain and dry plan", balancer.tell("set server web/a state drain; plan backend web dry"), "\n" + plan + tables + "\n")
    expect_equal("nothing was planned", balancer.tell("show plan web"), "no plan\n\n")
    expect_equal("the pin", tell(balancer, "show table web"), HEADING.format(1) + "key=k1 want=- server=a use=N\n\n")
    expect_equal("the plan itself", balancer.tell("plan backend web"), plan + "\n")
    ends_well(balancer)


@case
def the_sheet_of_the_moment_is_shown(farm: Farm) -> None:
    balancer, port = farm_of_two(farm)
    expect_equal("a request", get(port, "x-id: k1"), A)
    sheet = "stickysheet 1\nversion 1\nserver a cap 5\nserver b cap 5\ngroup 1 a a,b\nend\n\n"
    expect_equal("the sheet", balancer.tell("show sheet web"), sheet)
    ends_well(balancer)
