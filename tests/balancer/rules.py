"""Rules of a configuration as clients and operators see them: which backend a request goes to, which servers and cost it has there, and
which names are found."""

from __future__ import annotations

from .answers import own
from .cases import case, expect_equal
from .clients import ask, get
from .farms import TABLE, Farm, ends_well, listen, section, server
from .origins import response
from .pins import shown_keys

A, B, C = response(b"a"), response(b"b"), response(b"c")


def plain(port: int, method: str, target: str = "/", *fields: str) -> bytes:
    """All that the client of a request without a body gets."""
    return ask(port, "\r\n".join([f"{method} {target} HTTP/1.1", *fields, "", ""]).encode())


@case
def the_first_rule_that_applies_names_the_backend(farm: Farm) -> None:
    many, same, bare = (farm.port() for _ in range(3))
    conditions = (
        "use_backend b if post up", "use_backend a if get or { path /both }", "use_backend b unless !up", "acl get method GET",
        "acl post method POST", "acl up path_beg /up", "acl get method HEAD",
    )  # fmt: skip
    sections = [
        section("frontend f", f"bind *:{many}", f"bind :{same}", *conditions),
        # A rule without a condition always applies.
        section("frontend bare", f"bind 127.0.0.1:{bare}", "use_backend a if { method GET }", "use_backend b"),
        section("frontend nowhere", "use_backend b"),
        section("backend a", server("s", farm.origin())),
        section("backend b", server("s", farm.origin())),
    ]
    balancer = farm.start("".join(sections))
    rows = [("POST", "/up", B), ("GET", "/up", A), ("HEAD", "/", A), ("PUT", "/both", A), ("PUT", "/upper", B), ("POST", "/", own(503))]
    for method, target, due in rows:
        expect_equal(f"{method} {target} at both ports", [plain(it, method, target) for it in (many, same)], [due, due])
    expect_equal("without conditions", [plain(bare, it) for it in ("GET", "PUT")], [A, B])
    expect_equal("a frontend without `bind` listens nowhere", balancer.errors().count("listening on "), 3)
    ends_well(balancer, "a", "b")


@case
def a_section_goes_by_its_rules_then_to_its_default_backend_then_to_itself(farm: Farm) -> None:
    ports = [farm.port() for _ in range(4)]
    binds = [f"bind 127.0.0.1:{port}" for port in ports]
    sections = [
        section("listen own", binds[0], "use_backend b if { method PUT }", server("s", farm.origin())),
        section("listen other", binds[1], "default_backend b", server("s", farm.origin())),
        section("frontend none", binds[2], "use_backend own if { method GET }"),
        section(
            "frontend f", binds[3], "use_backend b if get", "use_backend own if get", "acl get method GET", "default_backend other"
        ),
        section("backend b", server("s", farm.origin())),
    ]  # fmt: skip
    balancer = farm.start("".join(sections))
    for port, due in zip(ports, [(A, C), (C, C), (A, own(503)), (C, B)]):
        expect_equal("a GET and a PUT", (plain(port, "GET"), plain(port, "PUT")), due)
    ends_well(balancer, "own", "other", "b")


@case
def each_use_server_that_applies_names_a_server_and_the_first_pin_cost_the_cost(farm: Farm) -> None:
    port, other = farm.port(), farm.port()
    rules = (
        "use-server y if up", "use-server x if up { method GET }", "pin-cost 7 unless up", "pin-cost 20 if { method GET }",
        "acl up path_beg /up",
    )  # fmt: skip
    origins = [farm.origin(), farm.origin()]
    first = listen(port, *TABLE, *rules, server("x", origins[0]), server("y", origins[1]))
    rules = ("use-server b if { method GET }", "use-server a if { method GET HEAD }", "pin-cost 20 unless { method GET }")
    second = listen(other, *TABLE, *rules, server("a", origins[0]), server("b", origins[1]), name="shop")
    balancer = farm.start(first + second)
    for number, (method, target) in enumerate([("GET", "/up"), ("GET", "/"), ("PUT", "/up")]):
        plain(port, method, target, f"x-id: k{number}")
    for number, method in enumerate(["GET", "HEAD"]):
        plain(other, method, "/", f"x-id: k{number}")
    seen = [[it for it in balancer.events(name) if it.startswith("serve")] for name in ("web", "shop")]
    due = [
        ["serve N k0 y x cost=20 -> served y made", "serve N k1 cost=7 -> served x made", "serve N k2 y -> served y made"],
        ["serve N k0 b a -> served b made", "serve N k1 a cost=20 -> served a made"],
    ]
    expect_equal("the requests", seen, due)
    ends_well(balancer, "web", "shop")


@case
def a_key_may_be_named_before_its_table_and_a_table_may_have_no_key(farm: Farm) -> None:
    port, other = farm.port(), farm.port()
    keyed = listen(port, "stick on hdr(x-id)", "stick-table type string size 10", server("a", farm.origin()))
    balancer = farm.start(keyed + listen(other, "stick-table type ip size 1k", server("b", farm.origin()), name="shop"))
    expect_equal("with a key", get(port, f"x-id: {'k' * 32}l"), A)
    expect_equal("a key of 32 bytes", shown_keys(balancer.tell("show table web")), ["k" * 32])
    expect_equal("its table", balancer.tell("show table web").splitlines()[0], "# table web type string size 10 used 1")
    expect_equal("without a key", get(other, f"x-id: {'k' * 32}l"), B)
    expect_equal("a table without pins", balancer.tell("show table shop"), "# table shop type ip size 1024 used 0\n\n")
    ends_well(balancer, "web", "shop")


@case
def backends_and_servers_are_found_by_their_names_and_a_frontend_is_no_backend(farm: Farm) -> None:
    front = section("frontend f", f"bind 127.0.0.1:{farm.port()}")
    back = section("backend web", server("a", farm.origin()), server("b", farm.origin()))
    balancer = farm.start(front + back + section("listen shop"))
    rows = [
        ("show table web", "no table\n\n"), ("show table shop", "no table\n\n"), ("show table f", "103 NoBackend\n\n"),
        ("set weight web/b 2", "\n"), ("set weight shop/a 2", "10 NoSuchServer\n\n"), ("set weight f/a 2", "103 NoBackend\n\n"),
    ]  # fmt: skip
    for line, due in rows:
        expect_equal(line, balancer.tell(line), due)
    expect_equal("the journal", [balancer.events(it) for it in ("web", "shop")], [["set weight web/b 2 -> done"], []])
    ends_well(balancer, "web", "shop")


# Targets of a page below /staff, as many servers understand them, that `path_beg /staff` doesn't find.
PASSING = (
    "//staff/s", "/./staff/s", "/x/../staff/s", "/%73taff/s", "/%2fstaff/s", "http://x//staff/s", "/STAFF/s", "staff/s", "a/../staff/s",
)  # fmt: skip
FOUND = ("/staff", "/staff/s", "/staffroom", "/staff?x", "http://x/staff/s", "https://x/staff")


@case
def a_rule_about_a_path_or_a_host_is_no_lock(farm: Farm) -> None:
    port = farm.port()
    conditions = ("use_backend closed if { path_beg /staff }", "use_backend closed if { hdr(host) admin }", "default_backend web")
    sections = [
        section("frontend f", f"bind 127.0.0.1:{port}", *conditions), section("backend web", server("a", farm.origin())),
        section("backend closed"),
    ]  # fmt: skip
    balancer = farm.start("".join(sections))
    for targets, due in ((PASSING, A), (FOUND, own(503))):
        for target in targets:
            expect_equal(target, plain(port, "GET", target, "Host: x"), due)
    for target in ("http://admin/", "http://ADMIN/", "http://admin:80/", "https://admin/"):
        expect_equal(target, plain(port, "GET", target, "Host: x"), A)
    for host in ("ADMIN", "admin:80", "admin."):
        expect_equal(host, plain(port, "GET", "/", f"Host: {host}"), A)
    for fields in (("Host: admin",), ("Host: admin", "Host: x"), ("Host: x", "Host: admin")):
        expect_equal(f"{fields}", plain(port, "GET", "/", *fields), own(503))
    ends_well(balancer, "web", "closed")
