"""More than one machine: two balancers and a spare behind nginx under the text of `examples/nginx-two.conf`, as the file is shipped.

The tests need nginx with its stream module (Debian: nginx and libnginx-mod-stream). Without it each prints that it is skipped.
"""

from __future__ import annotations

import os
import re
import shutil
import socket
import subprocess
from collections.abc import Callable
from pathlib import Path

from .cases import PATIENCE, case, expect, expect_equal, wait_until
from .clients import at_once, is_refused, read_to_end
from .farms import HOST, LIMITS, Balancer, Farm, ends_well, listen, server
from .origins import response
from .pins import shown_keys

TEXT = (Path(__file__).resolve().parent.parent.parent / "examples" / "nginx-two.conf").read_text()
CLIENTS = 1000
# How many clients ask at a time.
THREADS = 16
ANSWERS = {response(name): name.decode() for name in (b"a", b"b", b"c", b"d")}


def nginx_program() -> str:
    """Where nginx is, and nothing if it isn't installed."""
    return shutil.which("nginx", path=os.pathsep.join([os.environ.get("PATH", ""), "/usr/sbin"])) or ""


def nginx_words(farm: Farm, text: str) -> list[str]:
    """The words that start nginx under this text, in the foreground and as one process, which dies with the test."""
    config = farm.folder / "nginx.conf"
    config.write_text(text)
    errors = str(farm.folder / "nginx.err")
    return [nginx_program(), "-e", errors, "-c", str(config), "-g", "daemon off; master_process off;"]


def lacks_stream(farm: Farm) -> bool:
    """Whether nginx, or its stream module, isn't installed. Prints so."""
    why = "nginx isn't installed"
    if nginx_program():
        bare = f"include /etc/nginx/modules-enabled/*.conf;\npid {farm.folder}/nginx.pid;\nevents {{}}\nstream {{}}\n"
        tried = subprocess.run([*nginx_words(farm, bare), "-t"], capture_output=True, text=True, timeout=PATIENCE, check=False)
        if 'unknown directive "stream"' not in tried.stderr + tried.stdout:
            return False
        why = "nginx has no stream module"
    print(f"SKIPPED machines: {why}", flush=True)
    return True


class Front:
    """nginx in front of two balancers at these ports. What can't be had on one machine is replaced in the shipped text: addresses, the
    paths of files, and the seconds for which a balancer counts as lost."""

    def __init__(self, farm: Farm, first: int, second: int) -> None:
        self.port = farm.port()
        text = TEXT
        for old, new in (
            ("10.20.0.11:8080", f"{HOST}:{first}"), ("10.20.0.12:8080", f"{HOST}:{second}"), ("listen 80;", f"listen {HOST}:{self.port};"),
            ("/run/nginx-two.pid", f"{farm.folder}/nginx.pid"), ("/var/log/nginx/two.log", f"{farm.folder}/nginx.log"),
            ("fail_timeout=10s", "fail_timeout=1s"),
        ):  # fmt: skip
            expect(f"the shipped text has {old}", old in text)
            text = text.replace(old, new)
        nginx = subprocess.Popen(
            nginx_words(farm, text), stdin=subprocess.DEVNULL, stdout=subprocess.DEVNULL, stderr=subprocess.DEVNULL
        )
        farm.stack.callback(nginx.wait, PATIENCE)
        farm.stack.callback(nginx.kill)
        wait_until("nginx listens", lambda: nginx.poll() is not None or not is_refused(self.port))
        expect("nginx runs", nginx.poll() is None)

    def ask(self, client: int) -> str:
        """The server that answers this client, which has an address and a key of its own."""
        source = (f"127.0.{1 + client // 250}.{1 + client % 250}", 0)
        with socket.create_connection((HOST, self.port), PATIENCE, source) as stream:
            stream.sendall(f"GET / HTTP/1.1\r\nHost: x\r\nx-id: k{client}\r\n\r\n".encode())
            answer = read_to_end(stream)
        expect(f"client {client} gets a server's answer and not {answer!r}", answer in ANSWERS)
        return ANSWERS[answer]

    def ask_all(self) -> list[str]:
        """The servers of all clients."""
        parts = at_once(lambda thread: {it: self.ask(it) for it in range(thread, CLIENTS, THREADS)}, range(THREADS))
        every = {client: name for part in parts for client, name in part.items()}
        return [every[client] for client in range(CLIENTS)]


def clients_of(balancer: Balancer) -> set[int]:
    """The clients that have a pin there."""
    return {int(key.removeprefix("k")) for key in shown_keys(balancer.tell("show table web"))}


def served(balancer: Balancer) -> list[str]:
    """The requests of the balancer's journal with their replies."""
    return [it for it in balancer.events("web") if it.startswith("serve ")]


def replies(entries: list[str], clients: set[int]) -> set[str]:
    """Whether pins of these clients were made or kept."""
    found = (re.fullmatch(r"serve N k(\d+) -> served \S+ (\w+)", it) for it in entries)
    return {it[2] for it in found if it and int(it[1]) in clients}


def starter(farm: Farm, *words: str) -> Callable[[str, int], Balancer]:
    """Starts a balancer of this name at a port, all of them with the same servers. `NAME` in the words is the name."""
    servers = [server(name, farm.origin(), "maxpins 1000") for name in ("a", "b", "c", "d")]
    lines = ("stick-table type string size 1000", "stick on hdr(x-id)", *LIMITS, *servers)

    def start(name: str, port: int) -> Balancer:
        farm.operators = farm.folder / name
        farm.words = tuple(word.replace("NAME", name) for word in words)
        return farm.start(listen(port, *lines), ("tune.relays 16",))

    return start


@case
def of_two_balancers_behind_nginx_one_is_lost_and_its_clients_alone_lose_their_pins(farm: Farm) -> None:
    if lacks_stream(farm):
        return
    ports = farm.port(), farm.port()
    start = starter(farm)
    first, second = start("first", ports[0]), start("second", ports[1])
    front = Front(farm, *ports)
    everyone = set(range(CLIENTS))

    # Each client is at one balancer, and stays at its server.
    at = front.ask_all()
    of_first, of_second = clients_of(first), clients_of(second)
    expect_equal("clients with a pin", of_first | of_second, everyone)
    expect_equal("clients with two pins", of_first & of_second, set())
    expect(f"clients are shared out: {len(of_first)} and {len(of_second)}", min(len(of_first), len(of_second)) >= CLIENTS // 10)
    expect("each client stays at its server", front.ask_all() == at)
    expect_equal("nothing new at either balancer", (clients_of(first), clients_of(second)), (of_first, of_second))

    # One is lost: the other one makes new pins for its clients, and its own keep theirs.
    first.end()
    before = len(served(second))
    moved = front.ask_all()
    expect_equal("clients of the other one that moved", [it for it in sorted(of_second) if moved[it] != at[it]], [])
    entries = served(second)[before:]
    expect_equal("requests, each client's", len(entries), CLIENTS)
    expect_equal("pins of the other one's clients", replies(entries, of_second), {"kept"})
    expect_equal("pins of the lost one's clients", replies(entries, of_first), {"made"})
    expect("each client stays at its server", front.ask_all() == moved)

    # The spare has the lost one's address. As soon as nginx tries that again, the lost one's clients go there, and no others.
    spare = start("spare", ports[0])
    one = min(of_first)
    wait_until("nginx has found the spare", lambda: front.ask(one) != "" and clients_of(spare) == {one})
    settled = front.ask_all()
    expect_equal("clients of the spare", clients_of(spare), of_first)
    expect_equal("clients of the other one that moved", [it for it in sorted(of_second) if settled[it] != at[it]], [])
    expect("each client stays at its server", front.ask_all() == settled)
    ends_well(second)
    ends_well(spare)


@case
def a_spare_with_the_pins_of_the_lost_balancer_sends_its_clients_where_they_were(farm: Farm) -> None:
    if lacks_stream(farm):
        return
    ports = farm.port(), farm.port()
    start = starter(farm, "--pins", f"{farm.folder}/NAME.pins", "--pins-every", "100ms")
    first, second = start("first", ports[0]), start("second", ports[1])
    front = Front(farm, *ports)
    at = front.ask_all()
    of_first = clients_of(first)
    kept = farm.folder / "first.pins"
    wait_until("all its pins are in its file", lambda: kept.exists() and kept.read_text().count("\npin ") == len(of_first))
    first.end()

    # One of its clients comes to the other balancer meanwhile.
    one = min(of_first)
    front.ask(one)
    expect("it has a pin there", one in clients_of(second))
    shutil.copy(kept, farm.folder / "spare.pins")
    spare = start("spare", ports[0])
    wait_until("nginx has found the spare", lambda: front.ask(one) != "" and "serve " in "".join(spare.events("web")))
    expect("each client is at its server of before", front.ask_all() == at)
    expect_equal("clients of the spare", clients_of(spare), of_first)
    ends_well(second, whole=False)
    ends_well(spare, whole=False)
