"""The commands of README.md and docs/OPERATING.md, run as the pages have them, and what these show of their output."""

from __future__ import annotations

import re
import subprocess
import sys
from pathlib import Path

from .cases import PATIENCE, case, expect, expect_equal, wait_until
from .clients import at_once, get
from .farms import Balancer, Ending, Farm, listen, server
from .origins import answers

ROOT = Path(__file__).resolve().parent.parent.parent
PAGE = (ROOT / "docs/OPERATING.md").read_text()
README = (ROOT / "README.md").read_text()
FIRST = (ROOT / "examples/run.cfg").read_text()
# In place of `nc -U PATH` and `curl -s -H FIELD URL`, which need not be installed.
CLIENTS = """
import socket, sys, urllib.request
if sys.argv[1] == "nc":
    to = socket.socket(socket.AF_UNIX)
    to.connect(sys.argv[3])
    to.sendall(sys.stdin.buffer.read())
    print(to.makefile().read(), end="")
else:
    name, _, value = sys.argv[4].partition(": ")
    print(urllib.request.urlopen(urllib.request.Request(sys.argv[5], headers={name: value})).read().decode(), end="")
"""
COMMAND = re.compile(r"(curl|echo|op|stickylb|\./stickylb|examples/origins) ")


def blocks(title: str) -> list[str]:
    """The blocks of code below this title, down to the next one."""
    text = re.split(r"^#+ ", "\n" + PAGE.partition(f"# {title}\n")[2], flags=re.M)[0]
    found = re.findall(r"(?<=\n\n)(?: {4}.*\n)+", text)
    expect(f"the page has code below '{title}'", bool(found))
    return [re.sub(r"^ {4}", "", it, flags=re.M) for it in found]


def block(title: str, beginning: str) -> str:
    """The block below this title that begins so."""
    [found] = [it for it in blocks(title) if it.startswith(beginning)]
    return found


def steps(title: str) -> list[tuple[str, list[str]]]:
    """The commands below this title, each with the lines that the page shows after it."""
    found: list[tuple[str, list[str]]] = []
    for line in "".join(blocks(title)).splitlines():
        if COMMAND.match(line):
            found.append((line, []))
        else:
            found[-1][1].append(line)
    return found


class Shell:
    """Runs commands of the page by bash, in the test's folder."""

    def __init__(self, farm: Farm) -> None:
        self.folder = farm.folder
        (farm.folder / "clients.py").write_text(CLIENTS)
        (farm.folder / "stickylb").symlink_to(farm.program)
        clients = f"{sys.executable} {farm.folder}/clients.py"
        self.before = (
            f'PATH="{farm.folder}:$PATH" SOCK="{farm.operators}"\n'
            f'nc() {{ {clients} nc "$@"; }}\ncurl() {{ {clients} curl "$@"; }}\ncolumn() {{ cat; }}\n'
        )

    def run(self, commands: str) -> str:
        """What the commands print."""
        done = subprocess.run(
            ["bash", "-c", self.before + commands], cwd=self.folder, capture_output=True, text=True, timeout=PATIENCE, check=False
        )
        expect_equal(f"standard error of {commands!r}", done.stderr, "")
        return done.stdout


def without_numbers(text: str) -> str:
    """The text without moments, and without the number of events, which no page can know."""
    return re.sub(r"\b(use=|events )\d+", r"\1N", text)


def first_farm(farm: Farm) -> tuple[Balancer, int]:
    """A balancer with the shipped configuration, before servers a and b, and its port."""
    ports = {"8080": farm.port()}
    for number, name in (("8081", b"a"), ("8082", b"b")):
        ports[number] = farm.origin(answers(b"this is " + name + b"\n")).port
    text = FIRST.replace("/tmp/stickylb.sock", str(farm.operators))
    expect("the shipped text has the socket", text != FIRST)
    for number, port in ports.items():
        expect(f"the shipped text has {number}", f":{number}" in text)
        text = text.replace(f":{number}", f":{port}")
    out, err = farm.folder / "out", farm.folder / "err"
    balancer = Balancer(farm.spawn(text, out, err), out, err, farm.operators)
    balancer.wait_listening(1)
    return balancer, ports["8080"]


@case
def a_farm_from_nothing_goes_as_the_page_shows(farm: Farm) -> None:
    balancer, port = first_farm(farm)
    shell, count = Shell(farm), 0
    for command, shown in steps("A farm from nothing"):
        due = "".join(f"{line}\n" for line in shown)
        if command.startswith("examples/origins"):
            continue
        if command.startswith("./stickylb run"):
            expect_equal(command, balancer.errors().replace(str(port), "8080"), due)
            continue
        here = command.replace("/tmp/stickylb.sock", str(farm.operators)).replace(":8080", f":{port}")
        answer = shell.run(here)
        count += 1
        if command.startswith("echo 'stop'"):
            ended = balancer.wait()
            expect_equal(command, Ending(ended.status, without_numbers(ended.out), answer), Ending(0, without_numbers(due), "\n"))
        elif command.startswith("echo"):
            expect_equal(command, without_numbers(answer), without_numbers(due) + "\n")
            wait_until("the pin is moved", lambda: "drain" not in command or "server=a" not in balancer.tell("show table web"))
        else:
            expect_equal(command, answer, due)
    expect("its commands were found", count >= 7)


def drain_commands() -> list[str]:
    """The commands of README's drain, in their order, each a line's first words in backticks."""
    text = README.partition("## Drain a server\n")[2].partition("\n## ")[0]
    return re.findall(r"^(?:\d\. )?`(op '[^`]*)`", text, flags=re.M)


@case
def a_drain_goes_as_readme_shows(farm: Farm) -> None:
    balancer, port = first_farm(farm)
    shell = Shell(farm)
    [function] = re.findall(r"^    (op\(\) .*?)  ", README, flags=re.M)
    shell.before += function.replace("/tmp/stickylb.sock", str(farm.operators)) + "\n"
    for name, answer in (("ann", b"this is a\n"), ("bob", b"this is b\n")):
        expect(name, get(port, f"x-id: {name}").endswith(answer))
    sheet, drain, plan, count, disable, ready = drain_commands()
    expect("the sheet has the group that the page shows", "\ngroup 1 a a,b\n" in shell.run(sheet))
    expect_equal(drain, shell.run(drain), "\n")
    wait_until("the pin is moved", lambda: "server=a" not in balancer.tell("show table web"))
    expect_equal(plan, shell.run(plan), "pins 2 unplaced 0 moved 0\n\n")
    expect_equal(count, shell.run(count), "0\n")
    expect_equal(disable, shell.run(disable), "\n")
    expect("ann's next answer", get(port, "x-id: ann").endswith(b"this is b\n"))
    expect_equal(ready, shell.run(ready), "\n")
    expect_equal("the pins after it", shell.run("op 'show table web' | grep -c ' server=b '"), "2\n")
    expect_equal("the answer to `stop`", balancer.tell("stop"), "\n")
    expect_equal("the status", balancer.wait().status, 0)


@case
def a_day_of_drains_and_plans_goes_as_the_page_shows(farm: Farm) -> None:
    port = farm.port()
    servers = [server(f"web{number}", farm.origin(), "maxpins 1000") for number in range(1, 5)]
    balancer = farm.start(listen(port, "stick-table type string size 4000", "stick on hdr(x-id)", *servers), ("tune.relays 16",))
    at_once(lambda part: [get(port, f"x-id: k{part}.{it}") for it in range(250)], range(8))
    shell = Shell(farm)
    shell.before += block("Day 2", "op() ")

    def pins() -> dict[str, int]:
        """The pins of each server, as the page's function counts them."""
        words = [line.split() for line in shell.run("pins web").splitlines()]
        return {name.removeprefix("server="): int(count) for count, name in words}

    expect_equal("the pins", pins(), {"web1": 500, "web2": 500, "web3": 500, "web4": 500})
    drain, shown = block("Drain a server", "op "), block("Drain a server", "pins ")
    expect_equal("a drain", shell.run(drain), f"\n{shown}\n")
    expect("none is left there", "web1" not in pins())
    saved = shell.run(block("Commands of operators", "echo 'show plan web'"))
    expect_equal("the plan that is saved", saved, f"best {shown}")
    shell.run(block("Commands of operators", "echo 'plan backend web; show plan web'"))
    expect_equal("one that is saved in the same line", shell.run("stickylb verify web.plan"), "best pins 2000 unplaced 0 moved 0\n")
    # A sheet by hand, of the pins before the drain.
    (farm.folder / "web.sheet").write_text(block("See what a drain would move", "stickysheet "))
    rows = [line.split() for line in shell.run(block("See what a drain would move", "stickylb plan ")).splitlines()]
    expect_equal("moves by hand", sum(int(row[2]) for row in rows[1:] if len(row) == 3), 500)
    back = "op 'set server web/web1 state ready'; op 'plan backend web'"
    expect_equal("the server is back", shell.run(back), "\npins 2000 unplaced 0 moved 0\n\n")
    filled = "pins 2000 unplaced 0 moved 425"
    expect("the page shows what fills it", f"The plan's answer is `{filled}`" in PAGE)
    expect_equal("it is filled", shell.run(block("Fill a server that is back", "limits() ")).strip(), filled)
    expect_equal("the pins", pins(), {"web1": 425, "web2": 525, "web3": 525, "web4": 525})
    expect_equal("it shrinks", shell.run(block("Shrink a server", "op ")), "\npins 2000 unplaced 0 moved 125\n\n")
    expect_equal("what is left there", pins()["web1"], 300)
    expect_equal("the end", balancer.stop().status, 0)
