"""The parts of `refused` that refuse requests for memory of a balancer that runs.

A client's request has to be answered 500, and an operator's command `out of memory`; nothing may have changed then but for pins
that had expired, or a sheet that was taken, and the same has to be answered right once there is memory. In the end the desk is
closed, with `rising yes`.
"""

from __future__ import annotations

import re
import resource
import sys
import time
from collections import Counter
from collections.abc import Callable, Iterator, Mapping
from contextlib import contextmanager
from itertools import count, repeat
from pathlib import Path
from typing import TypeVar

from balancer import NO_SETTINGS, Balancer, Farm, eventually, running
from refusing import ALL, OUT_OF_MEMORY, Ending, Shim, Verdict, build_program, row, sweep

SERVERS = ("a", "b", "c")
CLOSED = re.compile(rb"closed web events [0-9]+ rising yes\n")
NO_MEMORY = b"HTTP/1.1 500 Internal Server Error\r\nContent-Length: 0\r\nConnection: close\r\n\r\n"
PLANNED = re.compile(r"pins [0-9]+ unplaced 0 moved [0-9]+\n\n")
# How often each request of a client is tried with all its requests for memory refused in turn: the table grows meanwhile.
ROUNDS = 12
# One request for memory is refused, or all from it on.
MODES = (("one", 1), ("all from it on", ALL))
Given = TypeVar("Given")
# Seconds without a request for memory after which none is expected.
QUIET = 0.05


def is_served(answer: bytes) -> bool:
    """Whether a server answered."""
    return answer.startswith(b"HTTP/1.1 200 OK\r\n") and answer[-1:].decode() in SERVERS


def settle(shim: Shim, balancer: Balancer) -> None:
    """Waits until the balancer asks for no more memory, or has ended."""
    seen, since = -1, time.monotonic()
    while balancer.process.poll() is None and time.monotonic() - since < QUIET:
        time.sleep(0.005)
        if (counted := shim.get(Shim.COUNTED)) != seen:
            seen, since = counted, time.monotonic()


@contextmanager
def up(shim: Shim, farm: Farm, config: str, settings: Mapping[str, str] = NO_SETTINGS) -> Iterator[Balancer]:
    """A balancer that has started, with nothing refused, and with these settings in its environment."""
    shim.begin(0, 0, False)
    with running(farm, config, shim, settings) as balancer:
        if not eventually(balancer.is_up) or balancer.process.poll() is not None:
            sys.exit(f"refused-run: the balancer doesn't start: {balancer.end()}")
        settle(shim, balancer)
        yield balancer


def has_closed(ending: Ending) -> bool:
    """Whether the desk was closed, and the receipts have rising numbers."""
    return ending.status == 0 and CLOSED.fullmatch(ending.out) is not None


def told_memory(ending: Ending) -> bool:
    """Whether it ended as out of memory, with nothing but where clients could connect before."""
    lines = ending.err.splitlines(keepends=True)
    rest_is_told = all(line.startswith(b"listening on ") for line in lines[:-1])
    return (ending.status, ending.out) == (1, b"") and lines[-1:] == [OUT_OF_MEMORY] and rest_is_told


def refused_while(shim: Shim, balancer: Balancer, ahead: int, many: int, act: Callable[[], Given]) -> tuple[Given, int]:
    """Acts while requests for memory are refused: what that gave, and how many were refused."""
    shim.put(Shim.REFUSED, 0)
    shim.refuse_behind(ahead, many)
    given = act()
    settle(shim, balancer)
    refused = shim.get(Shim.REFUSED)
    shim.refuse_behind(0, 0)
    return given, refused


def requests_of(shim: Shim, balancer: Balancer, act: Callable[[], object]) -> int:
    """How many requests for memory it takes to act."""
    before = shim.get(Shim.COUNTED)
    act()
    settle(shim, balancer)
    return shim.get(Shim.COUNTED) - before


def is_as_before(balancer: Balancer, rows: list[str], journal: list[str], word: str) -> bool:
    """Whether the table is as it was, and the journal too but for events of this word behind."""
    now = balancer.journal()
    behind = now[len(journal) - 1 : -1]
    return balancer.rows() == rows and now[: len(journal) - 1] == journal[:-1] and all(line.split()[1] == word for line in behind)


def tell(what: str, number: int, how: str, told: object) -> Verdict:
    """Tells of a run that went wrong."""
    print(f"{what}: request {number} refused ({how}): {told}", flush=True)
    return Verdict.WRONG


def try_start(shim: Shim, farm: Farm) -> int:
    """Refuses requests from the first one of the program on, until it serves."""
    config = farm.config("maxpins 100")
    with up(shim, farm, config) as balancer:
        wrong = int(not has_closed(balancer.stop()))
    for how, many in MODES:

        def attempt(number: int) -> Verdict:
            shim.begin(number, min(ALL, number + many - 1), False)
            with running(farm, config, shim) as balancer:
                settle(shim, balancer)
                refused = shim.get(Shim.REFUSED)
                shim.refuse_behind(0, 0)
                answer = balancer.request("k") if eventually(balancer.is_up) and balancer.process.poll() is None else b""
                ending = balancer.stop()
            if told_memory(ending):
                return Verdict.TOLD
            if has_closed(ending) and is_served(answer):
                return Verdict.WITHOUT if refused else Verdict.UNREFUSED
            return tell("start", number, how, f"{answer!r}, {ending}")

        found = sweep(attempt)
        wrong += found[Verdict.WRONG]
        print(row("run CONFIG, until it serves", found.total(), how, found), flush=True)
    return wrong


def try_request(shim: Shim, balancer: Balancer, what: str, keys: Iterator[str], send: Callable[[str], bytes]) -> int:
    """Refuses requests for memory while a client is served that sends the next key, as often as ROUNDS says."""
    wrong = 0
    requests = requests_of(shim, balancer, lambda: send(next(keys)))
    for how, many in MODES:

        def attempt(number: int) -> Verdict:
            key, rows, journal = next(keys), balancer.rows(), balancer.journal()
            answer, refused = refused_while(shim, balancer, number - 1, many, lambda: send(key))
            if is_served(answer):
                return Verdict.WITHOUT if refused else Verdict.UNREFUSED
            is_kept = is_as_before(balancer, rows, journal, "expire")
            again = send(key)
            if answer == NO_MEMORY and is_kept and is_served(again):
                return Verdict.TOLD
            return tell(what, number, how, f"{answer!r}, as before: {is_kept}, again: {again!r}")

        found: Counter[Verdict] = Counter()
        for _ in range(ROUNDS):
            found += sweep(attempt)
        wrong += found[Verdict.WRONG]
        print(row(what, requests, how, found), flush=True)
    return wrong


def try_requests(shim: Shim, farm: Farm) -> int:
    """Tries requests of clients with keys of pins, with new ones, and without."""
    with up(shim, farm, farm.config("maxpins 1000")) as balancer:
        wrong = try_request(shim, balancer, "a client with a new key", (f"new-{n}" for n in count()), balancer.request)
        wrong += try_request(shim, balancer, "a client with a key that has a pin", repeat("new-1"), balancer.request)
        wrong += try_request(shim, balancer, "a client without a key", repeat(""), balancer.request)
        wrong += try_request(shim, balancer, "a client with a body in chunks", repeat("new-2"), balancer.upload)
        return wrong + int(not has_closed(balancer.stop()))


def try_command(shim: Shim, balancer: Balancer, line: str, owed: Callable[[str], bool], made: str) -> int:
    """Refuses requests for memory while an operator's command is carried out. `made` is what events it may have made before."""
    wrong = 0
    requests = requests_of(shim, balancer, lambda: balancer.ask(line))
    for how, many in MODES:

        def attempt(number: int) -> Verdict:
            if made:
                drain_next(balancer)
            rows, journal = balancer.rows(), balancer.journal()
            text, refused = refused_while(shim, balancer, number - 1, many, lambda: balancer.ask(line))
            if owed(text):
                return Verdict.WITHOUT if refused else Verdict.UNREFUSED
            is_kept = is_as_before(balancer, rows, journal, made)
            again = balancer.ask(line)
            if text == "out of memory\n\n" and is_kept and owed(again):
                return Verdict.TOLD
            return tell(line, number, how, f"{text!r}, as before: {is_kept}, again: {again!r}")

        found = sweep(attempt)
        wrong += found[Verdict.WRONG]
        print(row(line, requests, how, found), flush=True)
    return wrong


DRAINED = count()


def drain_next(balancer: Balancer) -> None:
    """Another server is to be left, in turn."""
    number = next(DRAINED)
    balancer.ask(f"set server web/{SERVERS[number % 3]} state ready")
    balancer.ask(f"set server web/{SERVERS[(number + 1) % 3]} state drain")


def fill(balancer: Balancer, pins: int) -> None:
    """Makes pins."""
    for number in range(pins):
        if not is_served(balancer.request(f"k{number}")):
            sys.exit("refused-run: a request with nothing refused isn't served")


def try_commands(shim: Shim, farm: Farm) -> int:
    """Tries each kind of an operator's command."""
    with up(shim, farm, farm.config("maxpins 100")) as balancer:
        fill(balancer, 30)
        wrong = try_command(shim, balancer, "set weight web/a 2", "\n".__eq__, "")
        wrong += try_command(shim, balancer, "set server web/b state ready", "\n".__eq__, "")
        wrong += try_command(shim, balancer, "show table web", lambda text: text.count("key=k") == 30, "")
        wrong += try_command(shim, balancer, "show journal web", lambda text: "0 expire" in text, "")
        wrong += try_command(shim, balancer, "plan backend web", lambda text: bool(PLANNED.fullmatch(text)), "snapshot")
        wrong += try_command(shim, balancer, "show plan web", lambda text: text.startswith("stickyplan 1\n"), "")
        wrong += try_command(shim, balancer, "set weight web/x 2", "10 NoSuchServer\n\n".__eq__, "")
        return wrong + int(not has_closed(balancer.stop()))


def has_check(balancer: Balancer, end: str) -> bool:
    """Whether a check of server c made it go up or down."""
    return any(" check c " in line and line.endswith(end) for line in balancer.journal())


def try_checks(shim: Shim, farm: Farm) -> int:
    """Refuses all requests for memory while a server goes down, and while it comes up again. Checks go on."""
    wrong = 0
    with up(shim, farm, farm.config("check inter 100ms fall 3 rise 2 maxpins 100")) as balancer:
        fill(balancer, 30)
        for act, end in ((farm.servers["c"].stop, "down"), (farm.servers["c"].start, "up")):
            shim.put(Shim.REFUSED, 0)
            shim.refuse_behind(0, ALL)
            act()
            time.sleep(1)
            answers = [balancer.request("k1"), balancer.request("another")]
            refused = shim.get(Shim.REFUSED)
            shim.refuse_behind(0, 0)
            is_filed = eventually(lambda: has_check(balancer, f"check {end}"))
            is_right = answers == [NO_MEMORY] * 2 and is_filed and is_served(balancer.request("k1"))
            told = "filed" if is_right else f"WRONG {answers}, filed: {is_filed}"
            print(f"a server goes {end}, {refused} requests refused: {told}", flush=True)
            wrong += int(not is_right)
        return wrong + int(not has_closed(balancer.stop()))


def try_planner(shim: Shim, farm: Farm) -> int:
    """Refuses requests for memory while pins are moved off a server that drains. The next notice moves them."""
    wrong = 0
    drain = "set server web/a state drain"
    with up(shim, farm, farm.config("maxpins 100")) as balancer:
        asked = requests_of(shim, balancer, lambda: balancer.ask(drain))
    with up(shim, farm, farm.config("maxpins 100", "    option evacuate\n")) as balancer:
        fill(balancer, 30)
        for how, many in MODES:

            def attempt(number: int) -> Verdict:
                number_of_drain = next(DRAINED)
                left, back = SERVERS[(number_of_drain + 1) % 3], SERVERS[number_of_drain % 3]
                balancer.ask(f"set server web/{back} state ready")
                settle(shim, balancer)
                line = f"set server web/{left} state drain"
                text, refused = refused_while(shim, balancer, asked + number - 1, many, lambda: balancer.ask(line))
                is_left = not any(f" server={left} " in pin for pin in balancer.rows())
                if text == "\n" and is_left:
                    return Verdict.WITHOUT if refused else Verdict.UNREFUSED
                balancer.ask(f"set weight web/{left} 1")
                later = eventually(lambda: not any(f" server={left} " in pin for pin in balancer.rows()))
                if text == "\n" and later:
                    return Verdict.TOLD
                return tell("planner", number, how, f"{text!r}, left later: {later}")

            found = sweep(attempt)
            wrong += found[Verdict.WRONG]
            print(row("a planner, behind its notice", found.total(), how, found), flush=True)
        return wrong + int(not has_closed(balancer.stop()))


def stop_and_wait(balancer: Balancer) -> tuple[str, bool]:
    """What is answered to `stop`, and whether the balancer ends then."""
    text = balancer.ask("stop")
    return text, eventually(lambda: balancer.process.poll() is not None, 1.5)


def try_stop(shim: Shim, farm: Farm) -> int:
    """Refuses requests for memory from the command `stop` on. Where its line was refused, it is sent once more."""
    wrong = 0
    config = farm.config("check inter 100ms maxpins 100", "    option evacuate\n")
    for how, many in MODES:

        def attempt(number: int) -> Verdict:
            with up(shim, farm, config) as balancer:
                fill(balancer, 3)
                (text, has_ended), refused = refused_while(shim, balancer, number - 1, many, lambda: stop_and_wait(balancer))
                ending = balancer.end() if has_ended else balancer.stop()
            if has_closed(ending) and not refused:
                return Verdict.UNREFUSED
            if has_closed(ending) and has_ended:
                return Verdict.WITHOUT
            if told_memory(ending) or (has_closed(ending) and text == "out of memory\n\n"):
                return Verdict.TOLD
            return tell("stop", number, how, f"{text!r}, ended at once: {has_ended}, {ending}")

        found = sweep(attempt)
        wrong += found[Verdict.WRONG]
        print(row("stop", found.total(), how, found), flush=True)
    return wrong


# What the system limits of a process, and the line of its status that tells how much of it is used.
LIMITS = {resource.RLIMIT_AS: ("VmSize", "address space"), resource.RLIMIT_DATA: ("VmData", "data")}
# The C library maps room for its threads ahead, which a limit of the address space doesn't touch, but for one that all of them share.
ONE_ARENA = {"MALLOC_ARENA_MAX": "1"}
# New keys that are tried under a limit at most, and how many may be answered 500 before the try ends.
MOST_KEYS = 20000
ENOUGH = 50


def limit_to_what_is_used(pid: int, which: int) -> None:
    """Lets the process have no more than it has. The limit can be raised again."""
    text = Path(f"/proc/{pid}/status").read_text(encoding="ascii", errors="replace")
    used = next(int(line.split()[1]) for line in text.splitlines() if line.startswith(LIMITS[which][0] + ":"))
    resource.prlimit(pid, which, (used * 1024, resource.prlimit(pid, which)[1]))


def raise_limit(pid: int, which: int) -> None:
    """Lifts the limit."""
    most = resource.prlimit(pid, which)[1]
    resource.prlimit(pid, which, (most, most))


def ask_new_keys(balancer: Balancer) -> tuple[int, list[str], bool]:
    """Makes pins until enough were refused: how many were made, the keys of the others, and whether these were all answered 500."""
    made, refused, is_told = 0, [], True
    for number in range(MOST_KEYS):
        answer = balancer.request(f"more-{number}")
        if is_served(answer):
            made += 1
            continue
        refused.append(f"more-{number}")
        is_told = is_told and answer == NO_MEMORY
        if len(refused) == ENOUGH:
            break
    return made, refused, is_told


def try_limit(shim: Shim, farm: Farm) -> int:
    """Makes pins until the system refuses memory for some, then lifts the limit."""
    wrong = 0
    for which, (_, name) in LIMITS.items():
        with up(shim, farm, farm.config("maxpins 1000000", size=1000000), ONE_ARENA) as balancer:
            pid = balancer.process.pid
            fill(balancer, 30)
            limit_to_what_is_used(pid, which)
            made, refused, is_told = ask_new_keys(balancer)
            shown, known = balancer.ask("show table web"), balancer.request("k1")
            raise_limit(pid, which)
            is_kept = len(balancer.rows()) == 2 + 30 + made
            are_served = all(is_served(balancer.request(key)) for key in refused)
            ending = balancer.stop()
        is_right = bool(refused) and is_told and is_kept and are_served and has_closed(ending)
        wrong += int(not is_right)
        told = "out of memory" if shown == "out of memory\n\n" else f"{len(shown)} bytes"
        print(
            f"no more {name}: {made} pins made, then {len(refused)} requests answered 500; a known key: {known[9:12].decode()}; "
            f"show table: {told}; once there is more: "
            f"{'as owed' if is_right else f'WRONG {is_told} {is_kept} {are_served} {ending}'}",
            flush=True,
        )
    return wrong


PARTS = {
    "start": try_start,
    "requests": try_requests,
    "commands": try_commands,
    "checks": try_checks,
    "planner": try_planner,
    "stop": try_stop,
    "limit": try_limit,
}


def try_run(shim: Shim, part: str) -> int:
    """Tries a part, over servers of its own: how many runs ended otherwise than they should."""
    build_program()
    farm = Farm(SERVERS)
    try:
        return PARTS[part](shim, farm)
    finally:
        farm.stop()
