"""`examples/drain-haproxy`, as it is shipped, at a running HAProxy: which clients it moves, and what it leaves alone.

The tests need haproxy (Debian: haproxy). Without it each prints that it is skipped.
"""

from __future__ import annotations

import os
import shutil
import socket
import subprocess
import threading
from collections import Counter
from pathlib import Path

from .cases import PATIENCE, case, expect, expect_equal, wait_until
from .clients import at_once, is_refused, read_to_end
from .farms import HOST, Ending, Farm, section, server
from .origins import answers

SCRIPT = Path(__file__).resolve().parent.parent.parent / "examples" / "drain-haproxy"
NAMES = [f"web{number}" for number in range(1, 9)]
THREADS = 16
# Keys that a shell, HAProxy's command line or its list of entries spell in ways of their own.
HOSTILE = [
    b"a b", b"a;b", b"a\\b", b'q"q', b"it's", b"caf\xc3\xa9", b"a\tb", b"#a", b"$a", b"a=b", b"key=b", b"a\\ b", b"\\", b"\\x41", b"server_id=1",
    b"-", b"<<", b"a<<", b"<", b"a;set server web/web2 state maint", b"x" * 1000,
]  # fmt: skip


def haproxy_program() -> str:
    """Where HAProxy is, and nothing if it isn't installed."""
    return shutil.which("haproxy", path=os.pathsep.join([os.environ.get("PATH", ""), "/usr/sbin"])) or ""


def lacks_haproxy() -> bool:
    """Whether HAProxy isn't installed. Prints so."""
    if haproxy_program():
        return False
    print("SKIPPED haproxy: HAProxy isn't installed", flush=True)
    return True


class Rival:
    """A HAProxy whose clients stick by the field `x-id`."""

    def __init__(self, farm: Farm, table: str = "") -> None:
        self.farm, self.port, self.socket = farm, farm.port(), farm.folder / "admin"
        servers = [server(name, farm.origin(answers(name.encode()))) for name in NAMES]
        limits = ("mode http", "timeout client 20s", "timeout connect 20s", "timeout server 20s")
        config = farm.folder / "haproxy.cfg"
        config.write_text(
            section("global", f"stats socket {self.socket} level admin")
            + section("defaults", *limits)
            + section("frontend in", f"bind {HOST}:{self.port}", "default_backend web")
            + section("backend web", "balance roundrobin", f"stick-table type string len 1024 size 100k{table}", "stick on hdr(x-id)", *servers)
        )
        words = [haproxy_program(), "-db", "-f", str(config)]
        running = subprocess.Popen(words, stdin=subprocess.DEVNULL, stdout=subprocess.DEVNULL, stderr=subprocess.DEVNULL)
        farm.stack.callback(running.wait, PATIENCE)
        farm.stack.callback(running.kill)
        wait_until("HAProxy listens", lambda: running.poll() is not None or not is_refused(self.port))
        expect("HAProxy runs", running.poll() is None)

    def ask(self, key: bytes) -> str:
        """The server that answers this client."""
        with socket.create_connection((HOST, self.port), PATIENCE) as stream:
            stream.sendall(b"GET / HTTP/1.1\r\nHost: x\r\nConnection: close\r\nx-id: " + key + b"\r\n\r\n")
            name = read_to_end(stream)[-4:].decode()
        expect(f"client {key!r} gets a server's answer and not {name!r}", name in NAMES)
        return name

    def ask_all(self, keys: list[bytes]) -> dict[bytes, str]:
        """The servers of these clients."""
        parts = at_once(lambda thread: [(key, self.ask(key)) for key in keys[thread::THREADS]], range(THREADS))
        return {key: name for part in parts for key, name in part}

    def tell(self, line: str) -> None:
        """Sends a command that answers nothing."""
        with socket.socket(socket.AF_UNIX) as stream:
            stream.settimeout(PATIENCE)
            stream.connect(str(self.socket))
            stream.sendall(f"{line}\n".encode())
            expect_equal(line, read_to_end(stream).strip(), b"")

    def ask_first(self, keys: list[bytes]) -> dict[bytes, str]:
        """The servers of these clients, which is the first one for all."""
        others = NAMES[1:]
        self.tell(";".join(f"set server web/{name} state maint" for name in others))
        found = {key: self.ask(key) for key in keys}
        self.tell(";".join(f"set server web/{name} state ready" for name in others))
        expect_equal("their servers", set(found.values()), {NAMES[0]})
        return found

    def drain(self, *words: str, answer: str = "") -> Ending:
        """How the script ends, which empties the first server."""
        own = ("--socket", str(self.socket), "--backend", "web", "--stickylb", str(self.farm.program))
        done = subprocess.run(
            [str(SCRIPT), NAMES[0], *own, *words], input=answer, capture_output=True, text=True, timeout=PATIENCE, check=False
        )
        return Ending(done.returncode, done.stdout, done.stderr)


def moved(before: dict[bytes, str], after: dict[bytes, str]) -> set[bytes]:
    """The clients that changed their server."""
    return {key for key, name in before.items() if after[key] != name}


@case
def the_script_empties_a_server_of_haproxy_by_the_fewest_moves(farm: Farm) -> None:
    if lacks_haproxy():
        return
    rival = Rival(farm)
    keys = [*HOSTILE, *(b"k%d" % number for number in range(800 - len(HOSTILE)))]
    before = rival.ask_first(HOSTILE) | rival.ask_all(keys)
    of_first = {key for key, name in before.items() if name == NAMES[0]}
    done = rival.drain("--yes")
    expect_equal("what went wrong", (done.status, done.err), (0, ""))
    last = [f"{len(of_first)} entries moved; since then 0 of them went elsewhere, and 0 others changed their server", "web1 is empty"]
    expect_equal("what it says at the end", done.out.splitlines()[-2:], last)
    after = rival.ask_all(keys)
    expect_equal("who moved", moved(before, after), of_first)
    # 800 clients, and seven servers with 5 per cent of room: 120 each.
    expect("no server has more than its room", max(Counter(after.values()).values()) <= 120)


@case
def under_load_all_clients_that_the_script_moves_are_the_servers_own(farm: Farm) -> None:
    if lacks_haproxy():
        return
    rival = Rival(farm)
    keys = [b"k%d" % number for number in range(240)]
    before = rival.ask_all(keys)
    ended = threading.Event()

    def asks_on(thread: int) -> None:
        while not ended.is_set():
            for key in keys[thread::8]:
                rival.ask(key)

    def drains() -> Ending:
        try:
            return rival.drain("--yes")
        finally:
            ended.set()

    results = at_once(lambda thread: drains() if thread < 0 else asks_on(thread), range(-1, 8))
    done = results[0]
    assert done is not None
    expect_equal("what went wrong", (done.status, done.err), (0, ""))
    expect("none is left", done.out.endswith("\nweb1 is empty\n"))
    after = rival.ask_all(keys)
    expect_equal("who moved", moved(before, after), {key for key, name in before.items() if name == NAMES[0]})


@case
def the_script_changes_nothing_unless_it_may(farm: Farm) -> None:
    if lacks_haproxy():
        return
    rival = Rival(farm, " store http_req_cnt")
    keys = [b"k%d" % number for number in range(80)]
    before = rival.ask_all(keys)
    lacking = [word for name in NAMES[1:] for word in ("--cap", f"{name}=10")]
    refused = [
        ((), "", Ending(2, "", "drain-haproxy: entries have http_req_cnt, which a move forgets; say --forget if they may\n")),
        (
            ("--forget", *lacking), "",
            Ending(2, "", "drain-haproxy: the other servers lack room (best pins 80 unplaced 10 moved 10): raise --cap\n"),
        ),
        (("--table", "none"), "", Ending(2, "", "drain-haproxy: table none: No such table\n")),
    ]  # fmt: skip
    for words, answer, due in refused:
        expect_equal(f"the script with {words}", rival.drain(*words, answer=answer), due)
    asked = rival.drain("--forget", answer="n\n")
    expect("it shows the plan and asks", asked.status == 1 and asked.out.endswith("best pins 80 unplaced 0 moved 10\nDo it? [y/N] "))
    expect_equal("who moved", moved(before, rival.ask_all(keys)), set())
    expect_equal("with leave it goes on", rival.drain("--forget", answer="y\n").status, 0)
    expect_equal("who moved then", moved(before, rival.ask_all(keys)), {key for key, name in before.items() if name == NAMES[0]})
