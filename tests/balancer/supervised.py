"""A balancer under a supervisor: `examples/stickylb-supervised`, and the unit of systemd that runs it, as both are shipped."""

from __future__ import annotations

import contextlib
import os
import re
import resource
import shlex
import shutil
import signal
import subprocess
import sys
from pathlib import Path

from .cases import PATIENCE, case, expect, expect_equal, wait_until
from .clients import Client, is_refused
from .farms import HOST, LIMITS, Balancer, Ending, Farm, listen, section, server
from .origins import Gate, answers, response

EXAMPLES = Path(__file__).resolve().parent.parent.parent / "examples"
SCRIPT = EXAMPLES / "stickylb-supervised"
A = response(b"a")
GET = b"GET / HTTP/1.1\r\nHost: x\r\n\r\n"
SERVED = "closed web events 4 rising yes\n"
# What the script uses besides bash, and what of these can speak to a socket at a path.
TOOLS = ("bash", "awk", "cat", "sleep")
SPEAKERS = ("perl", "python3", "nc")


def unit_lines() -> dict[str, list[str]]:
    """The settings of the shipped unit's service."""
    lines: dict[str, list[str]] = {}
    text = (EXAMPLES / "stickylb.service").read_text().partition("[Service]")[2].partition("[Install]")[0]
    for line in text.splitlines():
        if "=" in line and not line.startswith("#"):
            name, _, value = line.partition("=")
            lines.setdefault(name, []).append(value)
    return lines


def path_with(farm: Farm, *names: str) -> str:
    """A PATH that has only these commands."""
    folder = farm.folder / "bin"
    folder.mkdir()
    for name in names:
        (folder / name).symlink_to(sys.executable if name == "python3" else str(shutil.which(name)))
    return str(folder)


def can_speak(name: str) -> bool:
    """Whether this command is installed. Some kinds of nc can't speak to a socket at a path."""
    if name != "nc":
        return shutil.which(name) is not None
    return shutil.which("nc") is not None and "UNIX" in subprocess.run(["nc", "-h"], capture_output=True, text=True, check=False).stderr


class Supervised:
    """A balancer that a script runs, with one request at a server that holds it back."""

    def __init__(self, farm: Farm, socket: str = "", before: tuple[str, ...] = (), path: str = "", after: tuple[str, ...] = ()) -> None:
        self.gate, self.port = Gate(answers(b"a")), farm.port()
        place = socket or str(farm.folder / "operators")
        config = farm.folder / "web.cfg"
        text = listen(self.port, *LIMITS, server("a", farm.origin(self.gate)))
        config.write_text(section("global", f"stats socket {place}") + text)
        words = [*before, str(SCRIPT), str(config), str(farm.program), *after]
        out, err = farm.folder / "out", farm.folder / "err"
        environment = os.environ | ({"PATH": path} if path else {})
        self.process = launch(farm, words, out, err, environment)
        self.balancer = Balancer(self.process, out, err, farm.operators)
        self.balancer.wait_listening(1)
        self.client = farm.stack.enter_context(Client(self.port))
        self.client.send(GET)
        self.gate.wait_for(1)

    def signal(self, number: signal.Signals, to_all: bool = False) -> None:
        """A signal to the script, or to each process of its group, as Ctrl-C sends it."""
        os.kill(-self.process.pid if to_all else self.process.pid, number)

    def stops_well(self) -> None:
        """After the signal the request is finished, and the program ends by itself."""
        wait_until("no further client is accepted", lambda: is_refused(self.port))
        expect("it runs on", not self.balancer.has_ended())
        self.gate.open()
        expect_equal("the whole answer", self.client.read_to_end(), A)
        ended = self.balancer.wait()
        expect_equal("the end", (ended.status, ended.out), (0, SERVED))
        expect_equal("standard error", ended.err, f"listening on {HOST}:{self.port}\n")


def launch(
    farm: Farm, words: list[str], out: Path, err: Path, environment: dict[str, str], passed: tuple[int, ...] = ()
) -> subprocess.Popen[bytes]:
    """Starts a script in a group of its own, which is killed with the farm. It has the descriptors that are passed to it."""
    with out.open("wb") as to_out, err.open("wb") as to_err:
        process = subprocess.Popen(
            words, stdin=subprocess.DEVNULL, stdout=to_out, stderr=to_err, env=environment, start_new_session=True, pass_fds=passed
        )

    def end() -> None:
        with contextlib.suppress(ProcessLookupError):
            os.killpg(process.pid, signal.SIGKILL)
        process.wait(PATIENCE)

    farm.stack.callback(end)
    return process


def run_script(farm: Farm, *words: str) -> Ending:
    """How the script ends with these words."""
    out, err = farm.folder / "script.out", farm.folder / "script.err"
    status = launch(farm, [str(SCRIPT), *words], out, err, dict(os.environ)).wait(PATIENCE)
    return Ending(status, out.read_text(), err.read_text())


@case
def a_stop_of_the_shipped_unit_finishes_the_request_in_flight(farm: Farm) -> None:
    unit = unit_lines()
    # At a stop systemd then sends SIGTERM to the main process alone, and nothing before.
    expect_equal("how the unit is stopped", unit.get("KillMode"), ["mixed"])
    expect("there is no other command or signal", not {"ExecStop", "ExecStopPost", "KillSignal", "Type"} & set(unit))
    pins = farm.folder / "pins"
    files = {"stickylb-supervised": SCRIPT, "stickylb": farm.program, "web.cfg": farm.folder / "web.cfg", "pins": pins}
    checked, started = ([str(files.get(Path(word).name, word)) for word in unit[name][0].split()] for name in ("ExecStartPre", "ExecStart"))
    supervised = Supervised(farm, after=("--pins", str(pins)))
    expect_equal("the unit's command", started, supervised.process.args)
    done = subprocess.run(checked, capture_output=True, text=True, timeout=PATIENCE, check=False)
    expect_equal("its check", (done.returncode, done.stdout), (0, "configuration is valid\n"))
    supervised.signal(signal.SIGTERM)
    supervised.stops_well()
    expect_equal("the file of pins", pins.read_text(), "stickypins 1\nbackend web\nend\n")


@case
def a_reload_of_the_shipped_unit_restarts_only_what_the_check_takes(farm: Farm) -> None:
    [reload] = unit_lines()["ExecReload"]
    expect("as root, which may restart units", reload.startswith("+/"))
    config, calls, folder = farm.folder / "web.cfg", farm.folder / "calls", farm.folder / "bin"
    folder.mkdir()
    (folder / "systemctl").write_text(f'#!/bin/sh\necho "$@" >>{calls}\n')
    (folder / "systemctl").chmod(0o755)
    own = f"{farm.program} check -f {config}"
    words = [re.sub(r"\S+/stickylb check -f \S+", own, word) for word in shlex.split(reload[1:])]
    path = f"{folder}:{os.environ['PATH']}"
    for text, status, called in (("backend web\n balance uri\n", 1, False), ("backend web\n", 0, True)):
        config.write_text(text)
        done = subprocess.run(words, env=os.environ | {"PATH": path}, capture_output=True, text=True, timeout=PATIENCE, check=False)
        expect_equal(f"the status for {text!r}", done.returncode, status)
        expect_equal(f"whether the unit is restarted for {text!r}", calls.exists(), called)
    expect_equal("the command", calls.read_text(), "--no-block restart stickylb.service\n")


@case
def term_finishes_the_request_in_flight_by_whatever_can_speak_to_the_socket(farm: Farm) -> None:
    for speaker in filter(can_speak, SPEAKERS):
        with Farm(farm.program) as own:
            supervised = Supervised(own, path=path_with(own, *TOOLS, speaker))
            supervised.signal(signal.SIGTERM)
            supervised.stops_well()


@case
def term_finishes_the_request_in_flight_over_an_address_without_any_other_program(farm: Farm) -> None:
    for host in (HOST, f"ipv4@{HOST}", "localhost"):
        with Farm(farm.program) as own:
            supervised = Supervised(own, socket=f'"{host}:{own.port()}" level admin # operators', path=path_with(own, *TOOLS))
            supervised.signal(signal.SIGTERM)
            supervised.stops_well()


@case
def ctrl_c_finishes_the_request_in_flight_and_a_hangup_does_nothing(farm: Farm) -> None:
    supervised = Supervised(farm)
    supervised.signal(signal.SIGHUP, to_all=True)
    expect_equal("it answers operators", supervised.balancer.tell("show plan web"), "no plan\n\n")
    supervised.signal(signal.SIGINT, to_all=True)
    supervised.stops_well()


@case
def the_program_may_open_as_many_files_as_the_hard_limit_allows(farm: Farm) -> None:
    supervised = Supervised(farm, before=("bash", "-c", 'ulimit -Sn 500 && ulimit -Hn 2000 && exec "$0" "$@"'))
    [program] = children(supervised.process.pid)
    expect_equal("its limits", resource.prlimit(program, resource.RLIMIT_NOFILE), (2000, 2000))
    supervised.signal(signal.SIGTERM)
    supervised.stops_well()


@case
def a_second_term_ends_it_immediately(farm: Farm) -> None:
    supervised = Supervised(farm)
    supervised.signal(signal.SIGTERM)
    wait_until("no further client is accepted", lambda: is_refused(supervised.port))
    supervised.signal(signal.SIGTERM)
    expect_equal("nothing of the answer", supervised.client.read_to_end(), b"")
    ended = supervised.balancer.wait()
    expect_equal("the end", (ended.status, ended.out), (128 + signal.SIGTERM, ""))


@case
def a_program_that_ends_by_itself_gives_the_script_its_status(farm: Farm) -> None:
    supervised = Supervised(farm)
    expect_equal("the answer to `stop`", supervised.balancer.tell("stop"), "\n")
    supervised.stops_well()
    config, program = farm.folder / "bad.cfg", str(farm.program)
    config.write_text(f"global\n  stats socket {farm.folder}/operators\nbackend web\n  balance uri\n")
    expect_equal("a fault", run_script(farm, str(config), program), Ending(1, "line 4: 29 LeftOut uri\n", ""))
    missing = str(farm.folder / "no.cfg")
    expect_equal("no file", run_script(farm, missing, program), Ending(1, "", f"cannot read {missing}\n"))


@case
def without_a_command_socket_or_with_wrong_words_the_script_starts_nothing(farm: Farm) -> None:
    config = farm.folder / "web.cfg"
    config.write_text("# stats socket /run/none\n" + listen(farm.port(), "stats timeout 1s"))
    ended = run_script(farm, str(config), str(farm.program))
    expect_equal("the end", (ended.status, ended.out), (2, ""))
    expect("why is said", "stats socket" in ended.err)
    for words in ((), (str(config), str(farm.program), "more")):
        ended = run_script(farm, *words)
        expect_equal(f"{len(words)} words", (ended.status, ended.out), (2, ""))


def children(pid: int) -> dict[int, str]:
    """The processes whose parent this is, with their states."""
    found = {}
    for stat in Path("/proc").glob("[0-9]*/stat"):
        with contextlib.suppress(OSError):
            state, parent = stat.read_text().rpartition(")")[2].split()[:2]
            if int(parent) == pid:
                found[int(stat.parent.name)] = state
    return found


@case
def as_process_1_of_a_container_it_waits_for_lost_processes_and_stops_at_term(farm: Farm) -> None:
    contained = ("unshare", *(() if os.geteuid() == 0 else ("--user", "--map-root-user")), "--pid", "--fork", "--kill-child")
    if shutil.which("unshare") is None or subprocess.run([*contained, "true"], stderr=subprocess.DEVNULL, check=False).returncode != 0:
        print("SKIPPED supervised: no process may be made process 1 here", flush=True)
        return
    # A process that loses its parent before the script begins.
    supervised = Supervised(farm, before=(*contained, "bash", "-c", '(sleep 0.3 &); exec "$0" "$@"'))
    [first] = children(supervised.process.pid)
    wait_until("the program alone is left, and nothing that ended", lambda: list(children(first).values()) in (["S"], ["R"]))
    os.kill(first, signal.SIGTERM)
    supervised.stops_well()
