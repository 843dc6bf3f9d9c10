"""A farm and its scripts, tried with the program and with the model."""
from __future__ import annotations

import subprocess
import tempfile
from collections import Counter
from dataclasses import dataclass
from pathlib import Path
from typing import Callable, Optional, Sequence

from model.desk import Desk
from model.drawing import Script, drawn_farm, with_plans
from model.farms import Farm
from model.plans import Plan
from model.replay import Entry, Replay
from running.dice import Dice

# Seconds after which a run counts as one that doesn't end.
LIMIT = 120
# What there is to see of a farm without servers.
NO_BACKEND = b"replay needs one backend\n"
# The kinds of replies that come in a long run. In a script no event is refused in another way.
KINDS = [
    "served kept", "served moved", "served made", "served loose", "80 NoServer",
    "pinned kept", "pinned moved", "pinned made", "60 TableFull", "no table", "cleared", "no pin",
    "opened", "30 Full", "31 NotServing", "closed", "32 NotOpen", "expired none", "expired some",
    "check stays", "check up", "check down", "check ignored", "12 NotChecked", "done", "11 OutOfRange",
    "sheet", "installed, none moved", "installed, some moved", "70 Stale",
    "71 Bad 50 RowsDiffer", "71 Bad 51 NotPermitted", "71 Bad 52 OverCapacity", "71 Bad 53 NotShown",
]


@dataclass(frozen=True)
class Trial:
    """Tries farms with a program, against the model or a changed one."""

    program: Path
    new_desk: Callable[[Farm], Desk] = Desk

    def tried(self, seed: int) -> Tried:
        dice = Dice(seed)
        farm = drawn_farm(dice)
        with tempfile.TemporaryDirectory(prefix="stickylb-") as folder:
            configuration = Path(folder, "configuration")
            configuration.write_text(farm.text())
            if not farm.servers:
                return without_servers(seed, self.run(configuration, ["serve 0 k1"]))
            script = Script(dice, farm).lines()
            plain = self.compared(seed, farm, script, configuration)
            if plain.difference:
                return plain
            more = self.compared(seed, farm, with_plans(dice, script, plain.made), configuration)
            return Tried(seed, more.difference, plain.kinds + more.kinds)

    def run(self, configuration: Path, script: Sequence[str]) -> subprocess.CompletedProcess:
        text = "".join(f"{line}\n" for line in script).encode()
        words = [str(self.program), "replay", str(configuration), "/dev/stdin"]
        try:
            return subprocess.run(words, input=text, capture_output=True, timeout=LIMIT)
        except subprocess.TimeoutExpired as late:
            return subprocess.CompletedProcess(words, -1, late.stdout or b"", f"after {LIMIT} s it had not ended".encode())

    def compared(self, seed: int, farm: Farm, script: Sequence[str], configuration: Path) -> Tried:
        """Hands the script to both. The comparison ends at the first line whose answers differ."""
        ran = self.run(configuration, script)
        written = ran.stdout.decode(errors="backslashreplace").split("\n")[:-1]
        replay = Replay(farm, written, new_desk=self.new_desk)
        made: dict[int, Plan] = {}
        for number, answer in enumerate(replay.answers(script)):
            first = replay.at - len(answer.lines)
            if written[first : replay.at] != answer.lines:
                shown = "\n".join([answer.line, "  model", *answer.lines, "  program", *written[first : replay.at]])
                return Tried(seed, f"answer {number + 1}, to {shown}", Counter())
            if answer.line.startswith(("plan", "install")) and replay.log[-1].plan is not None:
                made[number] = replay.log[-1].plan
        kinds = Counter(map(kind_of, replay.log))
        if (ran.stderr, ran.returncode, len(written)) != (b"", 0, replay.at):
            return Tried(seed, f"the end: status {ran.returncode}, {ran.stderr!r}, {written[replay.at:]}", kinds)
        return Tried(seed, "", kinds, made)


@dataclass(frozen=True)
class Tried:
    seed: int
    # What differs, or nothing.
    difference: str
    # How many replies of each kind came.
    kinds: Counter[str]
    # The plans that were made and installed, by the lines of the script.
    made: Optional[dict[int, Plan]] = None


def without_servers(seed: int, ran: subprocess.CompletedProcess) -> Tried:
    is_right = (ran.stdout, ran.stderr, ran.returncode) == (b"", NO_BACKEND, 1)
    return Tried(seed, "" if is_right else f"no servers: {ran}", Counter())


def kind_of(entry: Entry) -> str:
    match entry.reply.split(" "):
        case ["served", _, how]:
            return f"served {how}"
        case ["pinned", _, how]:
            return f"pinned {how}"
        case ["expired", number]:
            return "expired none" if number == "0" else "expired some"
        case ["installed", *words]:
            return "installed, none moved" if words[5] == "0" else "installed, some moved"
        case ["opened" | "closed" | "sheet" as word, *_]:
            return word
    return entry.reply
