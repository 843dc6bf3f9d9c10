"""Builds what the crates under trial stand on, and tries their edits, each crate in a scratch repository of its own."""
from __future__ import annotations

import concurrent.futures
import os
import re
import shutil
import subprocess
import threading
import time
from typing import Callable, Dict, List, NamedTuple, Optional, Sequence, Tuple, Union

from trying.edits import PARTS, Edit, Fault, read_edit, rounds_of, together
from trying.refusals import Refusal, judged, refused_itself, verdict_alone
from trying.repository import Repository
from trying.source import types_of

KEPT = "out/incremental"
BYTES_A_JOB = 3_000_000_000
RT = os.path.join(os.path.dirname(os.path.realpath(__file__)), "../../tools/rt")


class Runs:
    """The commands under way, so that a signal can end them."""

    def __init__(self) -> None:
        self.lock, self.running, self.is_stopped = threading.Lock(), set(), False

    def rt(self, folder: str, *words: str) -> Tuple[int, str]:
        """Runs rt in a folder, and returns its status and what it printed."""
        with self.lock:
            if self.is_stopped:
                raise Fault("stopped")
            started = subprocess.Popen(
                [RT, *words], cwd=folder, stdin=subprocess.DEVNULL, stdout=subprocess.PIPE, stderr=subprocess.STDOUT
            )
            self.running.add(started)
        try:
            output = started.communicate()[0].decode(errors="replace")
        finally:
            with self.lock:
                self.running.discard(started)
        if self.is_stopped:
            raise Fault("stopped")
        return started.returncode, output

    def stop(self) -> None:
        """Ends what runs, and has nothing more begin."""
        with self.lock:
            self.is_stopped = True
            for it in self.running:
                it.terminate()


def copied(source: str, to: str, links: bool = False) -> None:
    """Copies a folder where there is one. With links, its files are the same ones, as fits what rt only reads."""

    def link(one: str, other: str) -> None:
        try:
            os.link(one, other)
        except OSError:
            shutil.copy2(one, other)

    if os.path.isdir(source):
        shutil.rmtree(to, ignore_errors=True)
        shutil.copytree(source, to, copy_function=link if links else shutil.copy2)


class Tried(NamedTuple):
    """What the trial of a crate came to."""

    refused: int
    failures: List[str]
    remarks: List[str]
    checks: int
    seconds: float


class Trials:
    """Builds what the crates under trial stand on, and tries their edits, so many side by side."""

    def __init__(self, repository: Repository, runs: Runs, log: Optional[str]) -> None:
        self.repository, self.runs, self.log = repository, runs, log

    def laid_out(self, crate: str, purpose: str) -> str:
        """Makes a scratch repository of the crate and those below it, and returns the crate's folder there."""
        repository = self.repository
        top, below = f"{repository.room}/{purpose}/{crate}", repository.below(crate)
        os.makedirs(f"{top}/crates")
        with open(f"{top}/crates.txt", "w", encoding="utf-8") as it:
            for name in [*below, crate]:
                head, uses = repository.lines[name]
                it.write(f"{head}: {' '.join(uses)}\n")
        if os.path.isfile(f"{repository.root}/HANDLES"):
            shutil.copy2(f"{repository.root}/HANDLES", f"{top}/HANDLES")
        for name in [*below, crate]:
            folder = f"{top}/crates/{name}"
            copied(repository.texts(name), folder)
            os.makedirs(f"{folder}/out", exist_ok=True)
            if name != crate:
                copied(f"{repository.room}/built/{name}/rlib", f"{folder}/out/rlib", links=True)
        kept = f"{repository.room}/built/{crate}"
        if not os.path.isdir(kept):
            kept = f"{repository.root}/crates/{crate}/out"
        copied(f"{kept}/incremental", f"{top}/crates/{crate}/{KEPT}")
        if purpose == "build":
            copied(f"{kept}/rlib", f"{top}/crates/{crate}/out/rlib")
        return f"{top}/crates/{crate}"

    def build(self, crate: str) -> float:
        """Builds a crate that others stand on, over the crates below it, and returns the seconds that it took."""
        started, folder = time.time(), self.laid_out(crate, "build")
        status, output = self.runs.rt(folder, "lib", "--jobs", "1")
        self.keep_log(crate, "build", output)
        if status:
            raise Fault(f"{crate} is not proved with no edit: {first_error(output)}")
        os.makedirs(f"{self.repository.room}/built", exist_ok=True)
        os.rename(f"{folder}/out", f"{self.repository.room}/built/{crate}")
        shutil.rmtree(f"{self.repository.room}/build/{crate}")
        return time.time() - started

    def keep_log(self, crate: str, name: str, output: str) -> None:
        if self.log:
            os.makedirs(f"{self.log}/{crate}", exist_ok=True)
            with open(f"{self.log}/{crate}/{name}.txt", "w", encoding="utf-8") as it:
                it.write(output)

    def try_crate(self, crate: str) -> Tried:
        """Tries all edits of a crate."""
        started, folder = time.time(), self.laid_out(crate, "try")
        edits, failures = [], []
        for name, said in self.repository.edits(crate).items():
            try:
                if not re.fullmatch(r"[A-Za-z0-9_][\w.-]*\.edit", name):
                    raise Fault("is no edit: its name ends in .edit and has letters, digits, _, - and . alone")
                edits.append(read_edit(name, said, self.repository.texts(crate)))
            except Fault as fault:
                failures.append(f"{name}: {fault}")
        status, output = self.runs.rt(folder, "check", "--jobs", "1")
        self.keep_log(crate, "unedited", output)
        if status or not re.search(r"(?m)^logic=proved\b", output):
            raise Fault(f"{crate} is not proved with no edit: {first_error(output)}")
        copied(f"{folder}/{KEPT}", f"{folder}-kept")
        one = CrateTrial(self, crate, folder)
        for group in rounds_of(edits):
            one.try_group(group)
        shutil.rmtree(f"{self.repository.room}/try/{crate}")
        return Tried(one.refused, sorted(failures + one.failures), one.remarks, one.checks, time.time() - started)


def first_error(output: str) -> str:
    lines = [it for it in output.split("\n") if it.strip()]
    bad = [it for it in lines if re.search(r"\berror\b|not proved|no proof|no verdict", it)]
    return (bad or lines[-1:] or ["rt printed nothing"])[0][:300]


class CrateTrial:
    """The rounds of one crate, over a scratch copy of it."""

    def __init__(self, trials: Trials, crate: str, folder: str) -> None:
        self.trials, self.crate, self.folder = trials, crate, folder
        self.types = types_of(folder)
        self.refused, self.checks = 0, 0
        self.failures: List[str] = []
        self.remarks: List[str] = []

    def check(self, edits: Sequence[Edit]) -> Tuple[Refusal, Dict[str, str]]:
        """Checks the crate with these edits, from what was kept of the unedited one."""
        whole = self.trials.repository.texts(self.crate)
        texts = together(edits, whole)
        for part in PARTS:
            copied(f"{whole}/{part}", f"{self.folder}/{part}")
        copied(f"{self.folder}-kept", f"{self.folder}/{KEPT}")
        for path, text in texts.items():
            with open(f"{self.folder}/{path}", "w", encoding="utf-8") as it:
                it.write(text)
        status, output = self.trials.runs.rt(self.folder, "check", "--jobs", "1")
        self.checks += 1
        names = "".join(f"edit {it.name}\n" for it in edits)
        self.trials.keep_log(self.crate, f"check-{self.checks}", names + output)
        return judged(output, status, texts), texts

    def try_group(self, edits: Sequence[Edit]) -> None:
        """Tries edits together, then those that are not found refused so, and at last each of these alone."""
        found, texts = self.check(edits)
        if len(edits) == 1:
            is_well, why = verdict_alone(edits[0], self.types, found)
            self.refused += is_well
            if why:
                (self.remarks if is_well else self.failures).append(f"{edits[0].name}: {why}")
            return
        if found.kind in ("broken", "unread"):
            half = len(edits) // 2
            self.try_group(edits[:half])
            self.try_group(edits[half:])
            return
        is_refused = lambda it: found.kind == "refused" and refused_itself(it, self.types, texts, found) == "yes"
        left = [it for it in edits if not is_refused(it)]
        self.refused += len(edits) - len(left)
        # The prover may pass over a function that calls a refused one, so a smaller group can show more.
        for group in [left] if 0 < len(left) < len(edits) else [[it] for it in left]:
            self.try_group(group)


def jobs_that_fit() -> int:
    """Returns as many jobs as there are processors, at most one for each 3 GB of free memory."""
    jobs = len(os.sched_getaffinity(0))
    with open("/proc/meminfo", encoding="utf-8") as it:
        free = re.search(r"MemAvailable:\s+(\d+)", it.read())
    return max(min(jobs, int(free[1]) * 1024 // BYTES_A_JOB if free else jobs), 1)


Result = Union[Fault, Tried, float]


def run_all(
    repository: Repository,
    trials: Trials,
    crates: Sequence[str],
    jobs: int,
    told: Callable[[str, str, Result], None],
) -> None:
    """Builds and tries these crates, lowest first, and tells of each as it ends."""
    needed = {low for it in crates for low in repository.below(it)}
    by_depth = lambda it: (len(repository.below(it)), it)
    waiting = [("build", it) for it in sorted(needed, key=by_depth)]
    waiting += [("try", it) for it in sorted(crates, key=by_depth)]
    done: Dict[str, Optional[Fault]] = {}
    with concurrent.futures.ThreadPoolExecutor(jobs) as pool:
        running: Dict[concurrent.futures.Future, Tuple[str, str]] = {}
        while waiting or running:
            for task in list(waiting):
                kind, crate = task
                lacking = [*repository.below(crate), *([crate] if kind == "try" and crate in needed else [])]
                if len(running) < jobs and all(it in done for it in lacking):
                    waiting.remove(task)
                    fault = next((done[it] for it in lacking if done[it]), None)
                    running[pool.submit(work, trials, kind, crate, fault)] = task
            ended, _ = concurrent.futures.wait(running, return_when=concurrent.futures.FIRST_COMPLETED)
            for it in ended:
                kind, crate = running.pop(it)
                result = it.result()
                if kind == "build":
                    done[crate] = result if isinstance(result, Fault) else None
                told(kind, crate, result)


def work(trials: Trials, kind: str, crate: str, fault: Optional[Fault]) -> Result:
    """Does one task, and returns what it came to, or the fault that stopped it."""
    if fault:
        return fault
    try:
        return trials.build(crate) if kind == "build" else trials.try_crate(crate)
    except Fault as found:
        return found
    except OSError as error:
        return Fault(f"{crate} could not be tried: {error}")
