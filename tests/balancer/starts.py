"""How the program starts: addresses, configurations that it refuses, words."""

from __future__ import annotations

import subprocess

from .cases import case, expect, expect_equal, wait_until
from .clients import ask, is_refused
from .farms import HOST, LIMITS, Ending, Farm, ends_well, listen, section, server
from .origins import response

A = response(b"a")
GET = b"GET / HTTP/1.1\r\nHost: x\r\n\r\n"


def run_words(farm: Farm, *words: str) -> Ending:
    """How the program ends that is given these words."""
    done = subprocess.run([str(farm.program), *words], capture_output=True, text=True, timeout=30, check=False)
    return Ending(done.returncode, done.stdout, done.stderr)


@case
def each_address_is_told_when_it_is_bound(farm: Farm) -> None:
    ports = [farm.port() for _ in range(3)]
    binds = (f"bind {HOST}:{ports[0]}", f"bind localhost:{ports[1]}")
    balancer = farm.start(section(
        "listen web", *binds, *LIMITS, server("a", farm.origin())
    ) + listen(ports[2], server("b", farm.origin()), name="other"))
    expect_equal("what is told", balancer.errors(), "".join(f"listening on {HOST}:{port}\n" for port in ports))
    expect_equal("both addresses of one section", [ask(port, GET) for port in ports[:2]], [A, A])
    expect_equal("events", ends_well(balancer, "web", "other"), {"web": 8, "other": 0})


@case
def a_bind_of_all_addresses_is_reached_here(farm: Farm) -> None:
    port = farm.port()
    balancer = farm.start(section("listen web", f"bind *:{port}", *LIMITS, server("a", farm.origin())))
    expect_equal("the answer", ask(port, GET), A)
    ends_well(balancer)


@case
def nothing_is_told_of_requests(farm: Farm) -> None:
    port = farm.port()
    balancer = farm.start(listen(port, *LIMITS, server("a", farm.origin())))
    told = balancer.errors()
    for _ in range(3):
        expect_equal("the answer", ask(port, GET), A)
    ask(port, b"nonsense\r\n\r\n")
    ends_well(balancer)
    expect_equal("standard error", balancer.errors(), told)


@case
def an_address_that_is_taken_is_told_before_anything_runs(farm: Farm) -> None:
    free, taken = farm.port(), farm.origin()
    ended = farm.launch(listen(free, server("a", taken)) + listen(taken.port, server("b", taken), name="other")).wait()
    expect_equal("the end", ended, Ending(1, "", f"cannot bind {HOST}:{taken.port}\n"))
    expect("the other address is free", is_refused(free))
    expect("there is no command socket", not (farm.folder / "operators").exists())
    expect_equal("no check reached the server", taken.talks, [])
    farm.operators = (HOST, taken.port)
    ended = farm.launch(listen(free, server("a", taken))).wait()
    expect_equal("the end at the command socket", ended, Ending(1, "", f"cannot bind {HOST}:{taken.port}\n"))


@case
def an_address_of_another_machine_is_told(farm: Farm) -> None:
    # An address for documentation, which no machine has.
    ended = farm.launch(section("listen web", "bind 192.0.2.1:18080")).wait()
    expect_equal("the end", ended, Ending(1, "", "cannot bind 192.0.2.1:18080\n"))


FAULTS = [
    ("backend web\n  balance uri\n", "line 2: 29 LeftOut uri\n"),
    ("backend web\n  server a 127.0.0.1\n", "line 2: 23 Missing\n"),
    ("frontend f\n  default_backend web\n", "line 2: 27 NoSuchName\n"),
    ("backend web\n  stick on src\n", "line 2: 23 Missing\n"),
    ("backend web\n  server a 127.0.0.1:80 weight 257\n", "line 2: 24 BadNumber\n"),
    ("backend web\n  server a 127.0.0.1:80\n  server a 127.0.0.1:81\n", "line 3: 26 Duplicate\n"),
    ("global\n  log 127.0.0.1 local0\n\nbackend web\n  chek\n", "line 5: 22 UnknownWord\n"),
    ("web\n", "line 1: 21 UnknownSection\n"),
]


@case
def a_configurations_fault_is_printed_as_check_prints_it(farm: Farm) -> None:
    path = farm.folder / "bad.cfg"
    for text, line in FAULTS:
        path.write_text(text)
        expect_equal(text, run_words(farm, "run", "-f", str(path)), Ending(1, line, ""))
        expect_equal(f"check of {text}", run_words(farm, "check", "-f", str(path)), Ending(1, line, ""))


@case
def a_configurations_fault_is_told_although_its_address_is_taken(farm: Farm) -> None:
    path, taken = farm.folder / "bad.cfg", farm.origin()
    path.write_text(f"listen web\n  bind {HOST}:{taken.port}\n  balance uri\n")
    expect_equal("the end", run_words(farm, "run", "-f", str(path)), Ending(1, "line 3: 29 LeftOut uri\n", ""))


@case
def warnings_of_a_configuration_are_not_printed(farm: Farm) -> None:
    port = farm.port()
    balancer = farm.start(listen(port, "log global", "option httplog", *LIMITS, server("a", farm.origin())), ("daemon", "nbthread 4"))
    expect_equal("the answer", ask(port, GET), A)
    expect_equal("standard error", balancer.errors(), f"listening on {HOST}:{port}\n")
    ends_well(balancer)


@case
def wrong_words_and_files_that_are_not_there_are_told(farm: Farm) -> None:
    missing = str(farm.folder / "no.cfg")
    expect_equal("no file", run_words(farm, "run", "-f", missing), Ending(1, "", f"cannot read {missing}\n"))
    folder = str(farm.folder)
    expect_equal("a folder", run_words(farm, "run", "-f", folder), Ending(1, "", f"cannot read {folder}\n"))
    for words in (("run",), ("run", "-f"), ("run", missing), ("run", "-f", missing, "more")):
        ended = run_words(farm, *words)
        expect_equal(f"the status of {words}", (ended.status, ended.out), (2, ""))
        expect("something is told", ended.err != "")
    ended = run_words(farm, "run", "--help")
    expect_equal("help", (ended.status, ended.err), (0, ""))
    expect("help tells of the file", "-f" in ended.out)


@case
def a_configuration_without_an_address_runs_until_it_is_stopped(farm: Farm) -> None:
    balancer = farm.launch(section("backend web", server("a", farm.origin())))
    wait_until("it answers operators", lambda: (farm.folder / "operators").exists() and balancer.tell("show plan web") == "no plan\n\n")
    ends_well(balancer)
