"""Journals of a balancer that ran, run again by `stickylb replay`, which is one machine without threads and sockets."""

from __future__ import annotations

import re
import subprocess
from collections.abc import Iterable
from pathlib import Path


def script_of(entries: Iterable[tuple[str, str]]) -> list[str]:
    """The lines of a script that makes these events, each with the reply that it got. An install is of the last snapshot of its version,
    since a planner makes its plan of that one."""
    lines = []
    snapshots: dict[str, int] = {}
    count = 0
    for event, reply in entries:
        if event == "snapshot":
            count += 1
            snapshots[reply.split()[2]] = count
        if event.startswith("install version "):
            event = f"install {snapshots[event.split()[2]]}"
        lines.append(event)
    return lines


def split(journal: str) -> list[tuple[int, str, str]]:
    """The number, the event and the reply of each line of a journal."""
    found = re.findall(r"^(\d+) (.*) -> (.*)$", journal, re.M)
    return [(int(number), event, reply) for number, event, reply in found]


def replay(program: Path, folder: Path, configuration: str, lines: Iterable[str]) -> list[str]:
    """What `replay` answers to these lines."""
    config, script = folder / "replay.cfg", folder / "replay.script"
    config.write_text(configuration)
    with script.open("w") as out:
        out.writelines(f"{line}\n" for line in lines)
    done = subprocess.run([str(program), "replay", str(config), str(script)], capture_output=True, text=True, timeout=600, check=False)
    return (done.stdout + done.stderr).splitlines()


def replies_differ(program: Path, folder: Path, configuration: str, journal: str, table: str) -> list[str]:
    """The first entries of the journal, from its first event on, whose replies `replay` has otherwise, and whether the table is another one
    at the end. The configuration has one backend, `web`."""
    entries = split(journal)
    lines = script_of((event, reply) for _, event, reply in entries)
    seen = replay(program, folder, configuration, [*lines, "show table web"])
    due = [reply for _, _, reply in entries] + table.splitlines()[:-1]
    differ = [f"{place}: {one!r} was {other!r}" for place, (one, other) in enumerate(zip(seen, due)) if one != other]
    if len(seen) != len(due):
        differ.append(f"{len(seen)} lines in place of {len(due)}")
    return differ[:10]
