"""Runs of the program, and what differs from what was expected of them."""
from __future__ import annotations

import os
import subprocess
import tempfile
from concurrent.futures import ThreadPoolExecutor
from contextlib import nullcontext
from dataclasses import dataclass, field
from pathlib import Path
from typing import BinaryIO, ContextManager, Iterator, Mapping, Optional, Sequence

# Seconds after which a run counts as one that doesn't end.
LIMIT = 120
# Characters of a text that are printed: enough for all but the generated ones.
SHOWN = 4000


@dataclass(frozen=True)
class Step:
    """One run of the program, in the folder of its case."""

    words: Sequence[str]
    # Written before the run, by their names.
    files: Mapping[str, bytes] = field(default_factory=dict)
    # What has to stand on standard output, or None where a later step judges that.
    output: Optional[bytes] = b""
    # What has to stand on standard error, or None where only a part is told.
    errors: Optional[bytes] = b""
    status: int = 0
    # A file of the folder that gets what the run writes on standard output.
    kept_as: Optional[str] = None
    # A device that gets standard output or standard error, in place of being compared.
    output_to: Optional[str] = None
    errors_to: Optional[str] = None
    # Where nothing is told of the whole stream, a part that has to stand on standard output or on standard error.
    output_has: bytes = b""
    errors_has: bytes = b""
    # The name that the program is called by, in place of its own.
    called: Optional[str] = None


@dataclass(frozen=True)
class Case:
    """A sentence, and the runs that have to bear it out."""

    name: str
    steps: Sequence[Step]


@dataclass(frozen=True)
class Ran:
    """What a run wrote, and how it ended: a status, a signal's number below 0, or None where it took too long."""

    output: bytes
    errors: bytes
    status: Optional[int]


@dataclass(frozen=True)
class Trial:
    """Tries cases on one program."""

    program: Path

    def told(self, case: Case) -> str:
        """Returns what differs in the case, and nothing where all is as expected. The first step that differs ends it."""
        with tempfile.TemporaryDirectory(prefix="stickylb-") as folder:
            for step in case.steps:
                ran = self.ran(step, folder)
                differences = "".join(difference_lines(step, ran))
                if differences:
                    return f"FAILED {case.name}\n  stickylb {' '.join(step.words)}\n{differences}"
        return ""

    def ran(self, step: Step, folder: str) -> Ran:
        for name, content in step.files.items():
            Path(folder, name).write_bytes(content)
        words = [step.called or str(self.program), *step.words]
        with target(step.output_to) as output, target(step.errors_to) as errors:
            try:
                run = subprocess.run(
                    words, executable=str(self.program), cwd=folder, stdin=subprocess.DEVNULL, stdout=output, stderr=errors,
                    timeout=LIMIT,
                )
                ran = Ran(run.stdout or b"", run.stderr or b"", run.returncode)
            except subprocess.TimeoutExpired as late:
                ran = Ran(late.stdout or b"", late.stderr or b"", None)
        if step.kept_as:
            Path(folder, step.kept_as).write_bytes(ran.output)
        return ran


def target(device: Optional[str]) -> ContextManager[int | BinaryIO]:
    """Opens what gets a stream of a run: a pipe that is read here, or the device, of which nothing is known then."""
    return open(device, "wb", buffering=0) if device else nullcontext(subprocess.PIPE)


def difference_lines(step: Step, ran: Ran) -> Iterator[str]:
    if ran.status != step.status:
        status = f"after {LIMIT} s it had not ended" if ran.status is None else f"status {ran.status}"
        yield f"  {status}, and not {step.status}\n"
    if step.output is not None and ran.output != step.output:
        yield text_lines("standard output", step.output, ran.output)
    if step.errors is not None and ran.errors != step.errors:
        yield text_lines("standard error", step.errors, ran.errors)
    if step.output_has not in ran.output:
        yield part_lines("standard output", step.output_has, ran.output)
    if step.errors_has not in ran.errors:
        yield part_lines("standard error", step.errors_has, ran.errors)


def text_lines(what: str, wanted: bytes, given: bytes) -> str:
    """Returns both texts under headings, and where they begin to differ."""
    at = len(os.path.commonprefix([wanted, given]))
    line = wanted.count(b"\n", 0, at) + 1
    head = f"  {what} differs in line {line}"
    return f"{head}\n  expected:\n{shown(wanted)}  written:\n{shown(given)}"


def part_lines(what: str, part: bytes, given: bytes) -> str:
    """Returns a part of a text that isn't there, and the text, under headings."""
    return f"  {what} lacks a part\n  expected:\n{shown(part)}  written:\n{shown(given)}"


def shown(text: bytes) -> str:
    """Returns the text with a bar before each line, cut where it is long; a last line without its end is marked."""
    if not text:
        return "    (nothing)\n"
    words = text[:SHOWN].decode("utf-8", "backslashreplace")
    lines = [f"    | {line}\n" for line in words.removesuffix("\n").split("\n")]
    if len(text) > SHOWN:
        lines.append(f"    (and {len(text) - SHOWN} bytes more)\n")
    elif not text.endswith(b"\n"):
        lines.append("    (without a line end)\n")
    return "".join(lines)


def try_all(trial: Trial, cases: Sequence[Case]) -> Iterator[str]:
    """Tries the cases, as many at a time as there are processors, and gives what differs in each, in their order."""
    with ThreadPoolExecutor(max_workers=os.cpu_count() or 1) as pool:
        yield from pool.map(trial.told, cases)
