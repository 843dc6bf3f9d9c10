"""Sockets that are handed over to the balancer, as systemd does it (sd_listen_fds(3)), and restarts while they stay."""

from __future__ import annotations

import contextlib
import fcntl
import os
import re
import signal
import socket
import struct
import subprocess
import sys
import tempfile
import threading
from collections.abc import Sequence
from pathlib import Path
from typing import Protocol

from .cases import PATIENCE, case, expect, expect_equal, wait_until
from .clients import Client, ask, is_refused
from .farms import ENDING, HOST, LIMITS, TURN, Balancer, Ending, Farm, ends_well, listen, section, server
from .origins import response
from .supervised import EXAMPLES, SCRIPT, launch

A = response(b"a")
GET = b"GET / HTTP/1.1\r\nHost: x\r\n\r\n"
RESTARTS, CLIENTS = 10, 16
NO_SOCKET = "descriptor 3 was handed over, and is no listening IPv4 stream socket\n"
# Puts the descriptors of its first words, up to `--`, at 3 and the numbers that follow, closes all others, and becomes the program of the
# further words. LISTEN_PID is then its own number, unless it is set.
HAND_OVER = """
import fcntl, os, sys
words = sys.argv[1:]
end = words.index("--")
high = [fcntl.fcntl(int(number), fcntl.F_DUPFD, 100) for number in words[:end]]
for place, number in enumerate(high):
    os.dup2(number, 3 + place)
os.closerange(3 + len(high), 200)
os.environ.setdefault("LISTEN_PID", str(os.getpid()))
os.execvp(words[end + 1], words[end + 1:])
"""


class Holder(Protocol):
    """What has a descriptor, as a socket or a file."""

    def fileno(self) -> int: ...


def listening(farm: Farm, host: str = HOST, port: int = 0, shared: bool = False) -> socket.socket:
    """A socket that listens, as long as the test runs."""
    holder = farm.stack.enter_context(socket.socket())
    holder.setsockopt(socket.SOL_SOCKET, socket.SO_REUSEADDR, 1)
    if shared:
        holder.setsockopt(socket.SOL_SOCKET, socket.SO_REUSEPORT, 1)
    holder.bind((host, port))
    holder.listen(4096)
    return holder


def port_of(holder: socket.socket) -> int:
    number: int = holder.getsockname()[1]
    return number


def words_over(holders: Sequence[Holder], *words: str) -> list[str]:
    """These words, with the sockets at 3 and the numbers that follow."""
    return [sys.executable, "-c", HAND_OVER, *(str(it.fileno()) for it in holders), "--", *words]


def start_over(farm: Farm, sections: str, holders: Sequence[Holder], **variables: str) -> Balancer:
    """Starts the program with these sockets. `LISTEN_FDS` is how many there are, unless it is said."""
    farm.balancers += 1
    config, out, err = (farm.folder / f"{farm.balancers}.{word}" for word in ("cfg", "out", "err"))
    config.write_text(section("global", f"stats socket {farm.operators}") + sections)
    environment = os.environ | {"LISTEN_FDS": str(len(holders))} | variables
    words = words_over(holders, str(farm.program), "run", "-f", str(config))
    passed = [it.fileno() for it in holders]
    with out.open("wb") as to_out, err.open("wb") as to_err, TURN:
        expect("the tests go on", not ENDING.is_set())
        process = subprocess.Popen(words, stdin=subprocess.DEVNULL, stdout=to_out, stderr=to_err, env=environment, pass_fds=passed)
        farm.stack.callback(process.wait, PATIENCE)
        farm.stack.callback(process.kill)
    return Balancer(process, out, err, farm.operators)


class Load:
    """Clients that ask one after another, until they are ended."""

    def __init__(self, port: int) -> None:
        self.port = port
        self.over = threading.Event()
        self.answers: list[bytes] = []
        self.errors: list[str] = []
        self.threads = [threading.Thread(target=self.run, daemon=True) for _ in range(CLIENTS)]
        for thread in self.threads:
            thread.start()

    def run(self) -> None:
        while not self.over.is_set():
            try:
                self.answers.append(ask(self.port, GET))
            except OSError as error:
                self.errors.append(repr(error))

    def wait_for_more(self, count: int) -> None:
        due = len(self.answers) + count
        wait_until(f"{count} answers more", lambda: len(self.answers) >= due or bool(self.errors))

    def end(self) -> None:
        """Each client was answered, and none was refused."""
        self.over.set()
        for thread in self.threads:
            thread.join(PATIENCE)
        expect_equal("clients that were refused, or failed", self.errors, [])
        expect_equal("answers that aren't the server's", [it for it in self.answers if it != A], [])


@case
def a_bind_uses_the_socket_of_its_address_and_answers_who_waited_in_it(farm: Farm) -> None:
    holder = listening(farm)
    port = port_of(holder)
    with Client(port) as early:
        early.send(GET)
        balancer = start_over(farm, listen(port, *LIMITS, server("a", farm.origin())), [holder])
        expect_equal("a client that came before the program", early.read_to_end(), A)
    expect_equal("a later client", ask(port, GET), A)
    expect_equal("standard error", balancer.errors(), f"listening on {HOST}:{port}\n")
    ends_well(balancer)
    expect("the socket still listens", not is_refused(port))


@case
def a_socket_has_the_options_and_limits_of_one_that_is_bound(farm: Farm) -> None:
    holder = listening(farm)
    port = port_of(holder)
    balancer = start_over(farm, listen(port, "timeout client 7s", server("a", farm.origin())), [holder])
    balancer.wait_listening(1)
    limits = [struct.unpack("ll", holder.getsockopt(socket.SOL_SOCKET, it, 16)) for it in (socket.SO_RCVTIMEO, socket.SO_SNDTIMEO)]
    expect_equal("the limits", limits, [(7, 0), (7, 0)])
    expect_equal("it sends at once", holder.getsockopt(socket.IPPROTO_TCP, socket.TCP_NODELAY), 1)
    expect("it doesn't block", fcntl.fcntl(holder, fcntl.F_GETFL) & os.O_NONBLOCK != 0)
    expect("it shares its port with nobody", holder.getsockopt(socket.SOL_SOCKET, socket.SO_REUSEPORT) == 0)
    ends_well(balancer)
    # Without a limit an earlier one goes.
    balancer = start_over(farm, listen(port, server("a", farm.origin())), [holder])
    balancer.wait_listening(1)
    expect_equal("no limit", struct.unpack("ll", holder.getsockopt(socket.SOL_SOCKET, socket.SO_RCVTIMEO, 16)), (0, 0))
    ends_well(balancer)


@case
def ten_restarts_under_load_refuse_nobody(farm: Farm) -> None:
    holder = listening(farm)
    text = listen(port_of(holder), *LIMITS, server("a", farm.origin()))
    balancer = start_over(farm, text, [holder])
    load = Load(port_of(holder))
    for _ in range(RESTARTS):
        load.wait_for_more(2 * CLIENTS)
        expect_equal("the status at the end", balancer.stop().status, 0)
        balancer = start_over(farm, text, [holder])
    load.wait_for_more(2 * CLIENTS)
    load.end()
    ends_well(balancer)


@case
def ten_restarts_of_the_shipped_script_refuse_nobody(farm: Farm) -> None:
    holder = listening(farm)
    port, config = port_of(holder), farm.folder / "web.cfg"
    config.write_text(section("global", f"stats socket {farm.operators}") + listen(port, *LIMITS, server("a", farm.origin())))
    words = words_over([holder], str(SCRIPT), str(config), str(farm.program))

    def start() -> tuple[subprocess.Popen[bytes], Path]:
        err = farm.folder / "script.err"
        return launch(farm, words, farm.folder / "script.out", err, os.environ | {"LISTEN_FDS": "1"}, (holder.fileno(),)), err

    process, err = start()
    load = Load(port)
    for _ in range(RESTARTS):
        load.wait_for_more(2 * CLIENTS)
        process.send_signal(signal.SIGTERM)
        expect_equal("the status at the end", process.wait(PATIENCE), 0)
        expect_equal("standard error", err.read_text(), f"listening on {HOST}:{port}\n")
        process, err = start()
    load.wait_for_more(2 * CLIENTS)
    load.end()


@case
def of_two_binds_one_may_be_handed_over(farm: Farm) -> None:
    for place in (0, 1):
        with Farm(farm.program) as own:
            ports, holder = [own.port(), own.port()], listening(own)
            ports[place] = port_of(holder)
            binds = [f"bind {HOST}:{port}" for port in ports]
            balancer = start_over(own, section("listen web", *binds, *LIMITS, server("a", own.origin())), [holder])
            balancer.wait_listening(2)
            expect_equal("both answer", [ask(port, GET) for port in ports], [A, A])
            expect_equal("standard error", balancer.errors(), "".join(f"listening on {HOST}:{port}\n" for port in ports))
            ends_well(balancer)
            expect_equal("which are closed", [is_refused(port) for port in ports], [place != 0, place != 1])


@case
def each_of_several_sockets_goes_to_the_bind_of_its_address(farm: Farm) -> None:
    holders = [listening(farm), listening(farm), listening(farm, "0.0.0.0")]
    ports = [port_of(it) for it in holders]
    text = "".join(
        section(f"listen {name}", f"bind {host}:{port}", *LIMITS, server(name, farm.origin()))
        for name, host, port in zip("abc", (HOST, HOST, "*"), ports, strict=True)
    )
    balancer = start_over(farm, text, [holders[1], holders[2], holders[0]])
    balancer.wait_listening(3)
    expect_equal("who answers where", [ask(port, GET) for port in ports], [response(name.encode()) for name in "abc"])
    ends_well(balancer, "a", "b", "c")


@case
def a_socket_that_no_bind_takes_is_told_before_anything_is_bound(farm: Farm) -> None:
    holder, free, other = listening(farm), farm.port(), farm.port()
    at, text = f"socket {HOST}:{port_of(holder)} was handed over, and no bind takes it", "backend web\n"
    expect_equal("no bind at all", start_over(farm, text, [holder]).wait(), Ending(1, "", f"{at}\n"))
    text = listen(free, server("a", farm.origin()))
    ended = start_over(farm, text, [holder]).wait()
    expect_equal("one bind", ended, Ending(1, "", f"{at} (bind {HOST}:{free})\n"))
    text += section("listen more", f"bind *:{other}")
    ended = start_over(farm, text, [holder]).wait()
    expect_equal("two", ended, Ending(1, "", f"{at} (bind {HOST}:{free}, bind 0.0.0.0:{other})\n"))
    expect("nothing listens there", is_refused(free))
    # The socket keeps that bind from being made, which isn't what is wrong.
    ended = start_over(farm, section("listen web", f"bind *:{port_of(holder)}"), [holder]).wait()
    expect_equal("a bind that has its port", ended, Ending(1, "", f"{at} (bind 0.0.0.0:{port_of(holder)})\n"))


@case
def a_second_socket_of_one_address_is_told(farm: Farm) -> None:
    first = listening(farm, shared=True)
    second = listening(farm, port=port_of(first), shared=True)
    at = f"{HOST}:{port_of(first)}"
    ended = start_over(farm, listen(port_of(first), server("a", farm.origin())), [first, second]).wait()
    expect_equal("the end", ended, Ending(1, "", f"socket {at} was handed over, and no bind takes it (bind {at})\n"))
    expect("there is no command socket", not (farm.folder / "operators").exists())


@case
def sockets_for_another_process_are_left_alone(farm: Farm) -> None:
    holder, port = listening(farm), farm.port()
    text = listen(port, *LIMITS, server("a", farm.origin()))
    for variables in ({"LISTEN_PID": "1"}, {"LISTEN_PID": "1", "LISTEN_FDS": "x"}):
        balancer = start_over(farm, text, [holder], **variables)
        balancer.wait_listening(1)
        expect_equal("the answer at the bind", ask(port, GET), A)
        ends_well(balancer)
    text = listen(port_of(holder), server("a", farm.origin()))
    ended = start_over(farm, text, [holder], LISTEN_PID="1").wait()
    expect_equal("its address is taken", ended, Ending(1, "", f"cannot bind {HOST}:{port_of(holder)}\n"))


@case
def words_that_are_no_numbers_are_told(farm: Farm) -> None:
    port = farm.port()
    text = listen(port, *LIMITS, server("a", farm.origin()))
    for word in ("", "x", "0", "-1", "1 ", "1.5", "4294967296", "9" * 40):
        ended = start_over(farm, text, [], LISTEN_FDS=word).wait()
        expect_equal(f"LISTEN_FDS={word}", ended, Ending(1, "", "LISTEN_FDS is not a number of sockets\n"))
        ended = start_over(farm, text, [], LISTEN_PID=word).wait()
        expect_equal(f"LISTEN_PID={word}", ended, Ending(1, "", "LISTEN_PID is not the number of a process\n"))
    expect("nothing listens there", is_refused(port))


@case
def what_is_no_listening_socket_of_ipv4_is_told(farm: Farm) -> None:
    held, port = farm.stack, farm.port()
    text = listen(port, *LIMITS, server("a", farm.origin()))
    bound, datagrams = held.enter_context(socket.socket()), held.enter_context(socket.socket(type=socket.SOCK_DGRAM))
    bound.bind((HOST, 0))
    datagrams.bind((HOST, 0))
    local = held.enter_context(socket.socket(socket.AF_UNIX))
    local.bind(str(farm.folder / "local"))
    local.listen()
    connected = held.enter_context(socket.create_connection((HOST, port_of(listening(farm)))))
    wrong: dict[str, Holder] = {"bound": bound, "of datagrams": datagrams, "local": local, "connected": connected}
    wrong |= {"unbound": held.enter_context(socket.socket()), "a file": held.enter_context(tempfile.TemporaryFile())}
    with contextlib.suppress(OSError):
        wrong["of IPv6"] = held.enter_context(socket.create_server(("::1", 0), family=socket.AF_INET6))
    for name, holder in wrong.items():
        expect_equal(name, start_over(farm, text, [holder]).wait(), Ending(1, "", NO_SOCKET))
    expect_equal("nothing is open there", start_over(farm, text, [], LISTEN_FDS="1").wait(), Ending(1, "", NO_SOCKET))
    expect_equal("many", start_over(farm, text, [], LISTEN_FDS="4294967295").wait(), Ending(1, "", NO_SOCKET))
    good = listening(farm)
    ended = start_over(farm, listen(port_of(good), server("a", farm.origin())), [good], LISTEN_FDS="2").wait()
    expect_equal("the second one", ended, Ending(1, "", NO_SOCKET.replace("3", "4")))


@case
def the_shipped_socket_unit_has_the_binds_of_the_shipped_configuration(farm: Farm) -> None:
    del farm
    unit, service = ((EXAMPLES / f"stickylb.{kind}").read_text() for kind in ("socket", "service"))
    streams = re.findall(r"^ListenStream=(.*)$", unit, re.M)
    binds = re.findall(r"^ *bind (\S+)", (EXAMPLES / "web.cfg").read_text(), re.M)
    expect_equal("its addresses", streams, [it.replace("*", "0.0.0.0") for it in binds])
    for word in ("Requires", "After"):
        [units] = re.findall(rf"^{word}=(.*)$", service, re.M)
        expect(f"{word}= names it", "stickylb.socket" in units.split())
    expect("no port is shared", "ReusePort" not in unit)
