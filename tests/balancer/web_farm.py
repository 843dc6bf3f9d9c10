"""The web farm of `examples/web.cfg`, as the file is shipped: what its clients, its servers and its operators see of it."""

from __future__ import annotations

import re
import socket
import threading
from pathlib import Path

from .answers import own
from .cases import PATIENCE, case, expect, expect_equal, wait_until
from .clients import read_to_end
from .farms import HOST, Balancer, Farm, ends_well, open_slots
from .origins import Handler, Origin, Talk, response
from .pins import shown_keys

TEXT = (Path(__file__).resolve().parent.parent.parent / "examples" / "web.cfg").read_text()
BACKENDS = ("pages", "api", "pictures", "closed", "tools")
OFFICE, INSIDE, ELSEWHERE, PARTNER = "127.20.7.9", "127.21.7.9", "127.0.2.1", "127.51.100.7"


class WebFarm:
    """The balancer under the shipped text, with all its servers, which answer with their names. What can't be had on one machine is
    replaced: the socket's path, the networks of the company, its office and the partner by some of 127.0.0.0/8, and each port by a free
    one."""

    def __init__(self, farm: Farm) -> None:
        self.farm = farm
        # Where clients get in, by what the file says behind `bind`, and the servers by their names.
        self.doors: dict[str, tuple[str, int]] = {}
        self.servers: dict[str, Origin] = {}
        # Until this is set, requests whose heads say `held` aren't answered.
        self.released = threading.Event()
        text = TEXT.replace("/run/stickylb/operators.sock", str(farm.operators))
        text = text.replace(" 198.51.100.", " 127.51.100.").replace(" 10.20.", " 127.20.").replace(" 10.0.0.0/8", " 127.16.0.0/12")
        text = re.sub(r"\bbind (\S+:\d+)", self.door, text)
        text = re.sub(r"\bserver (\w+) (\S+):\d+", self.server, text)
        out, err = farm.folder / "farm.out", farm.folder / "farm.err"
        self.balancer = Balancer(farm.spawn(text, out, err), out, err, farm.operators)
        self.balancer.wait_listening(3)

    def door(self, found: re.Match[str]) -> str:
        """The line of an address to listen at."""
        address, port = found[1].rpartition(":")[0], self.farm.port()
        self.doors[found[1]] = (HOST if address == "*" else address, port)
        return f"bind {address}:{port}"

    def server(self, found: re.Match[str]) -> str:
        """The line of a server, which listens from here on."""
        name, address = found[1], found[2]
        origin = Origin(self.farm.port(), self.answers(name), host=address)
        self.farm.stack.callback(origin.close)
        origin.open()
        self.servers[name] = origin
        return f"server {name} {address}:{origin.port}"

    def answers(self, name: str) -> Handler:
        def handle(talk: Talk) -> None:
            if talk.read_request():
                if b"held" in talk.received:
                    self.released.wait(PATIENCE)
                talk.send(response(name.encode()))
                talk.end()

        return handle

    def send(self, source: str, method: str, target: str, *fields: str, door: str = "*:80") -> socket.socket:
        """A client at this address, that has sent a request without a body."""
        client = socket.create_connection(self.doors[door], PATIENCE, (source, 0))
        client.sendall("\r\n".join([f"{method} {target} HTTP/1.1", "Host: shop", *fields, "", ""]).encode())
        return client

    def ask(self, source: str, method: str, target: str, *fields: str, door: str = "*:80") -> str:
        """The server that answers, or the status of an answer of the balancer's own."""
        with self.send(source, method, target, *fields, door=door) as client:
            answer = read_to_end(client)
        return "503" if answer == own(503) else answer.rpartition(b"\r\n\r\n")[2].decode()

    def backend_of(self, source: str, method: str, target: str, door: str = "*:80") -> str:
        """The backend of a request, by the name of the server that answers it."""
        return self.ask(source, method, target, door=door).rstrip("0123456789")

    def served(self, backend: str) -> list[str]:
        """The requests of a backend's journal."""
        return [it for it in self.balancer.events(backend) if it.startswith("serve ")]

    def ends_well(self) -> None:
        expect(f"no server goes up or down: {self.balancer.errors()!r}", "Server " not in self.balancer.errors())
        ends_well(self.balancer, *BACKENDS, checked=True)


@case
def requests_of_the_shop_go_to_their_backends_and_those_of_the_tools_to_theirs(farm: Farm) -> None:
    web = WebFarm(farm)
    rows = [
        ("GET", "/", ELSEWHERE, "page"), ("GET", "/api/basket?x=1", ELSEWHERE, "api"), ("POST", "/api", ELSEWHERE, "page"),
        ("GET", "/big.JPG?width=9", ELSEWHERE, "picture"), ("POST", "/big.jpg", ELSEWHERE, "page"),
        ("HEAD", "/api/a.png", ELSEWHERE, "api"),
        # Of the company's networks the office's alone may come, whatever it asks for.
        ("GET", "/", INSIDE, ""), ("GET", "/", OFFICE, "page"), ("GET", "/a.webp", OFFICE, "picture"),
    ]  # fmt: skip
    expect_equal("the doors", sorted(web.doors), ["*:80", "127.0.0.1:8080", "127.20.0.2:8081"])
    for method, target, source, due in rows:
        seen = [web.backend_of(source, method, target, door=door) for door in ("*:80", "127.0.0.1:8080", "127.20.0.2:8081")]
        expect_equal(f"{method} {target} of {source} at each door", seen, [due, due, "tools"])
    expect_equal("nobody is there", web.ask(INSIDE, "GET", "/api/"), "503")
    refused = "serve N - -> 80 NoServer"
    expect_equal("what the closed backend was asked", web.served("closed"), [refused] * 3)
    received = [talk.received for name in ("picture1", "picture2") for talk in web.servers[name].talks if b"webp" in talk.received]
    sent = f"GET /a.webp HTTP/1.1\r\nHost: shop\r\nConnection: close\r\nX-Forwarded-For: {OFFICE}\r\n\r\n".encode()
    expect_equal("servers read the client's address", received, [sent, sent])
    web.ends_well()


@case
def visitors_of_the_farm_are_shared_out_by_weights_and_stay_where_they_are(farm: Farm) -> None:
    web = WebFarm(farm)
    sessions = [f"Cookie: a=1; shop_session=s{number}" for number in range(5)]
    due = ["page1", "page2", "page3", "page3", "page4"]
    for what in ("new visitors", "the same visitors"):
        expect_equal(what, [web.ask(ELSEWHERE, "GET", "/", cookie) for cookie in sessions], due)
    long = web.ask(ELSEWHERE, "GET", "/", f"Cookie: shop_session={'s' * 64}t")
    expect_equal("the round begins again", long, "page1")
    # The next version of the pages.
    preview = ("Cookie: a=1; shop_session=s7", "X-Preview: no, yes")
    expect_equal("a partner who looks at the next version", web.ask(PARTNER, "GET", "/", *preview), "page4")
    shown = web.balancer.tell("show table pages").splitlines()
    expect_equal("the table", shown[0], "# table pages type string size 409600 used 7")
    expect_equal("the last pin", shown[-2].partition(" use=")[0], "key=s7 want=page4 server=page4")
    expect_equal("the last request", web.served("pages")[-1], "serve N s7 page4 -> served page4 made")
    expect_equal("keys of at most 64 bytes", shown_keys("\n".join(shown))[-2], "s" * 64)
    web.ends_well()


@case
def clients_of_the_farms_api_go_to_the_fewest_connections_and_a_partners_pins_are_dear(farm: Farm) -> None:
    web = WebFarm(farm)
    with web.send(ELSEWHERE, "GET", "/api/held") as held:
        wait_until("a request is held", lambda: any(b"held" in it.received for it in web.servers["api1"].talks))
        for _ in range(3):
            wait_until("the held one alone is open", lambda: open_slots(web.balancer.journal("api")) == {"api1": 1})
            expect_equal("meanwhile", web.ask(ELSEWHERE, "GET", "/api/"), "api2")
        web.released.set()
        expect_equal("the held one", read_to_end(held), response(b"api1"))
    web.balancer.wait_all_closed("api")
    for source, token in ((PARTNER, "t1"), (OFFICE, "t2"), (ELSEWHERE, "t" * 41)):
        web.ask(source, "GET", "/api/", f"X-Token: {token}")
        web.balancer.wait_all_closed("api")
    # The round goes on behind the server of the last one.
    due = [
        "serve N t1 cost=20 -> served api1 made", "serve N t2 -> served api2 made", f"serve N {'t' * 40} -> served api1 made",
    ]  # fmt: skip
    expect_equal("clients with tokens", web.served("api")[-3:], due)
    shown = web.balancer.tell("show table api").splitlines()
    expect_equal("the table", shown[0], "# table api type string size 102400 used 3")
    web.ends_well()


@case
def each_workstation_keeps_its_server_of_the_farms_tools(farm: Farm) -> None:
    web = WebFarm(farm)
    stations = ["127.20.5.1", "127.20.5.2", "127.20.5.3"]
    for what in ("first requests", "further requests"):
        seen = [web.ask(station, "GET", "/", door="127.20.0.2:8081") for station in stations]
        expect_equal(what, seen, ["tools1", "tools2", "tools1"])
    shown = web.balancer.tell("show table tools")
    expect_equal("the keys", shown_keys(shown), stations)
    expect_equal("the table", shown.splitlines()[0], "# table tools type ip size 4096 used 3")
    expect_equal("pictures in turn", [web.ask(ELSEWHERE, "GET", "/a.png") for _ in range(3)], ["picture1", "picture2", "picture1"])
    expect_equal("no tables", [web.balancer.tell(f"show table {it}") for it in ("pictures", "closed")], ["no table\n\n"] * 2)
    web.ends_well()


@case
def the_farms_servers_are_checked_as_their_backends_say(farm: Farm) -> None:
    web = WebFarm(farm)
    due = {"tools1": b"", "tools2": b"", "picture1": b"", "picture2": b""}
    due |= {it: b"HEAD /v2/up HTTP/1.0\r\n\r\n" for it in ("api1", "api2", "api3")}
    for name in ("page1", "page2", "page3", "page4", "sorry"):
        origin = web.servers[name]
        due[name] = f"GET /health HTTP/1.1\r\nHost: {origin.host}:{origin.port}\r\n\r\n".encode()
    expect_equal("the servers", sorted(web.servers), sorted(due))
    for name, sent in due.items():
        talks = web.servers[name].talks
        wait_until(f"{name} is checked twice", lambda: len([it for it in talks if it.done.is_set()]) >= 2)
        expect_equal(f"what {name} is sent", {it.received for it in talks if it.done.is_set()}, {sent})
    web.ends_well()


def plan_of(web: WebFarm, backend: str) -> str:
    """A new plan of the backend, without its version."""
    expect_equal("a plan", web.balancer.tell(f"plan backend {backend}"), "pins 0 unplaced 0 moved 0\n\n")
    return re.sub(r"^version \d+$", "version N", web.balancer.tell(f"show plan {backend}"), flags=re.M)


@case
def the_farms_servers_have_room_for_pins_and_stand_by_as_their_lines_say(farm: Farm) -> None:
    web = WebFarm(farm)
    pages = ("page1", "page2", "page3", "page4")
    caps = (200000, 200000, 200000, 410000)
    # A full table then drops a pin before its servers refuse a new one, also if a server is lost. The table's size is below.
    expect("room for the table's pins without any server", sum(caps) - max(caps) >= 409600)
    expect("room for them at the server that a rule names", caps[3] >= 409600)
    rooms = "".join(f"server {name} cap {cap} price 0\n" for name, cap in zip(pages, caps))
    expect_equal("the pages", plan_of(web, "pages"), f"stickyplan 1\nversion N\n{rooms}server sorry off\nend\n\n")
    rooms = "server api1 cap 102400 price 0\nserver api2 cap 102400 price 0\n"
    expect_equal("the API", plan_of(web, "api"), f"stickyplan 1\nversion N\n{rooms}server api3 off\nend\n\n")
    expect_equal("its disk is there", web.balancer.tell("enable server api/api3"), "\n")
    rooms += "server api3 cap 102400 price 0\n"
    expect_equal("the API, whole", plan_of(web, "api"), f"stickyplan 1\nversion N\n{rooms}end\n\n")
    rooms = "server tools1 cap 4096 price 0\nserver tools2 cap 4096 price 0\n"
    expect_equal("the tools", plan_of(web, "tools"), f"stickyplan 1\nversion N\n{rooms}end\n\n")
    rooms = "server picture1 cap 0 price 0\nserver picture2 cap 0 price 0\n"
    expect_equal("the pictures", plan_of(web, "pictures"), f"stickyplan 1\nversion N\n{rooms}end\n\n")
    for name in pages:
        expect_equal(f"{name} goes", web.balancer.tell(f"disable server pages/{name}"), "\n")
    gone = "".join(f"server {name} off\n" for name in pages)
    due = f"stickyplan 1\nversion N\n{gone}server sorry cap 409600 price 0\nend\n\n"
    expect_equal("the pages without their servers", plan_of(web, "pages"), due)
    expect_equal("who answers", web.ask(ELSEWHERE, "GET", "/"), "sorry")
    web.ends_well()


@case
def api_clients_of_the_farm_are_moved_as_soon_as_a_server_drains_and_visitors_by_a_plan(farm: Farm) -> None:
    web = WebFarm(farm)
    expect_equal("a visitor", web.ask(ELSEWHERE, "GET", "/", "Cookie: shop_session=s"), "page1")
    expect_equal("an API client", web.ask(ELSEWHERE, "GET", "/api/", "X-Token: t"), "api1")
    expect_equal("one of the tools", web.ask(OFFICE, "GET", "/", door="127.20.0.2:8081"), "tools1")
    for name in ("pages/page1", "api/api1", "tools/tools1"):
        expect_equal(f"{name} drains", web.balancer.tell(f"set server {name} state drain"), "\n")
    wait_until(
        "a plan of the API moves the pin",
        lambda: any(it.endswith("-> installed pins 1 unplaced 0 moved 1") for it in web.balancer.events("api")),
    )
    expect_equal("the visitor stays", web.ask(ELSEWHERE, "GET", "/", "Cookie: shop_session=s"), "page1")
    expect_equal("a plan", web.balancer.tell("plan backend pages"), "pins 1 unplaced 0 moved 1\n\n")
    expect("the visitor moved", web.ask(ELSEWHERE, "GET", "/", "Cookie: shop_session=s") in ("page2", "page3", "page4"))
    expect_equal("the API client", web.ask(ELSEWHERE, "GET", "/api/", "X-Token: t"), "api2")
    expect_equal("what had moved before", web.served("api")[-1], "serve N t -> served api2 kept")
    expect("the tools make no plan", not any(it.startswith("install ") for it in web.balancer.events("tools")))
    web.ends_well()
