"""The cases that stand in files tests/JOB/NAME.toml. The form of each is told in tests/README.md."""
from __future__ import annotations

import tomllib
from collections import Counter
from dataclasses import dataclass
from pathlib import Path
from typing import Any, Callable, Iterator, Mapping, Optional, Sequence

from running.trying import Case, Step

VALID = "configuration is valid"
IGNORED = " ignored"
# How the faults of texts that are no plans begin: those have the numbers 40 to 43.
TEXT_FAULTS = b"4"
# What stands for the number of a copy in a text that is repeated.
NUMBER = "<n>"

Table = Mapping[str, Any]


class BadCase(Exception):
    """A file that holds no cases, or a case that is not of its form."""


@dataclass(frozen=True)
class Source:
    """One table of a file: a case, or a name with many rows."""

    path: Path
    kind: str
    table: Table

    def bad(self, why: str) -> BadCase:
        return BadCase(f"{self.path}: {self.kind} \"{self.table.get('name', '')}\": {why}")

    def name(self, row: Any = None) -> str:
        """Returns what the case is called: its place and its sentence, and the row where it is one of many."""
        sentence = f"{self.path.parent.name}/{self.path.name}: {self.get('name')}"
        return sentence if row is None else f"{sentence}: {shortened(repr(row))}"

    def get(self, key: str) -> Any:
        if key not in self.table:
            raise self.bad(f"there is no {key}")
        return self.table[key]

    def only(self, *keys: str) -> None:
        """Refuses keys that are misspelt."""
        for key in self.table:
            if key not in ("name", *keys):
                raise self.bad(f"{key} is no key of it")

    def text(self, key: str, default: Optional[str] = None) -> bytes:
        """Returns the text under the key, in bytes."""
        value = self.get(key) if default is None else self.table.get(key, default)
        return self.bytes_of(value)

    def bytes_of(self, value: Any) -> bytes:
        """Returns a text: a string, or a list of strings and of strings that are repeated."""
        if isinstance(value, str):
            return value.encode(self.table.get("encoding", "utf-8"))
        if isinstance(value, list):
            return b"".join(self.bytes_of(part) for part in value)
        if isinstance(value, dict) and {"text", "times"} <= value.keys() <= {"text", "times", "from"}:
            return self.repeated(value["text"], value["times"], value.get("from", 0))
        raise self.bad(f"{value!r} is no text")

    def repeated(self, text: Any, times: int, first: int) -> bytes:
        """Returns as many copies of the text, each with its number, counted from the first one's. Copies within it have theirs already."""
        copied, mark = self.bytes_of(text), NUMBER.encode()
        if mark not in copied:
            return copied * times
        return b"".join(copied.replace(mark, str(first + copy).encode()) for copy in range(times))


def shortened(text: str) -> str:
    return text if len(text) <= 200 else f"{text[:200]}.."


def line(text: str) -> bytes:
    return f"{text}\n".encode()


def expected_step(source: Source, words: list[str], files: dict[str, bytes]) -> Step:
    """Returns a run of which the case tells the output, and else no errors and status 0."""
    output_to, errors_to = source.table.get("output_to"), source.table.get("errors_to")
    output = source.text("output", None if output_to is None else "")
    return Step(
        words, files, output, source.text("errors", ""), source.table.get("status", 0),
        output_to=output_to, errors_to=errors_to,
    )


EXPECTED = ("output", "errors", "status", "encoding")


# check: configurations with their reports


def check_words(options: Sequence[str]) -> list[str]:
    return ["check", *options, "-f", "configuration"]


def check_step(text: bytes, report: bytes, options: Sequence[str] = ()) -> Step:
    """Returns a run of `check`, whose status is 0 where the report has that line. Warnings may follow it."""
    status = 0 if VALID.encode() in report.split(b"\n") else 1
    return Step(check_words(options), {"configuration": text}, report, status=status)


def check_case(source: Source) -> Iterator[Case]:
    source.only("configuration", "options", *EXPECTED)
    words = check_words(source.table.get("options", []))
    yield Case(source.name(), [expected_step(source, words, {"configuration": source.text("configuration")})])


def check_texts(source: Source) -> Iterator[Case]:
    """Each row is a configuration, and its report but for the last line end."""
    source.only("rows", "options", "encoding")
    for text, report in source.get("rows"):
        step = check_step(source.bytes_of(text), line(report), source.table.get("options", []))
        yield Case(source.name(text), [step])


def check_lines(source: Source) -> Iterator[Case]:
    """Each row is a line below the text of each section, and `valid`, `WORDS ignored`, or its fault."""
    source.only("section", "sections", "behind", "rows")
    sections = source.table["sections"] if "sections" in source.table else [source.get("section")]
    for words, verdict in source.get("rows"):
        for section in sections:
            text = section + words + source.table.get("behind", "")
            report = line_report(section.count("\n") + 1, verdict)
            yield Case(source.name(words if len(sections) == 1 else section + words), [check_step(text.encode(), report)])


def line_report(number: int, verdict: str) -> bytes:
    """Returns the report of a configuration where this is found of the line, and nothing of another one."""
    if verdict == "valid":
        return line(VALID)
    told = line(f"line {number}: {verdict}")
    return told + line(VALID) if verdict.endswith(IGNORED) else told


def check_keywords(source: Source) -> Iterator[Case]:
    """Each row is a line, the sections that have its keyword, a line of that keyword that is refused, and its fault."""
    source.only("sections", "rows")
    around: Mapping[str, list[str]] = source.get("sections")
    for accepted, places, refused, fault in source.get("rows"):
        if not set(places.split()) <= around.keys():
            raise source.bad(f"{places} are not all sections")
        for section, (before, behind) in around.items():
            has_it = section in places.split()
            told = VALID if has_it else "line 2: 22 UnknownWord"
            text = f"{before}{accepted}{behind}".encode()
            yield Case(source.name(f"{accepted} in {section}"), [check_step(text, line(told))])
            if has_it:
                text = f"{before}{refused}{behind}".encode()
                yield Case(source.name(f"{refused} in {section}"), [check_step(text, line(fault))])


# verify: plans, for their own sheets or for given ones, with what is found of them


def verify_words(files: Mapping[str, bytes]) -> list[str]:
    return ["verify", "--sheet", "sheet", "plan"] if "sheet" in files else ["verify", "plan"]


def verdict_step(files: dict[str, bytes], words: list[str], answer: str) -> Step:
    """Returns a run with one line for an answer, whose status is 0 where that begins so."""
    return Step(words, files, line(answer), status=0 if answer.startswith("best ") else 1)


def verify_case(source: Source) -> Iterator[Case]:
    """A plan without a sheet is judged alone and, where its text is a plan's, once more for its own sheet."""
    source.only("plan", "sheet", *EXPECTED)
    files = {name: source.text(name) for name in ("plan", "sheet") if name in source.table}
    steps = [expected_step(source, verify_words(files), files)]
    if "sheet" not in files and not source.text("output").startswith(TEXT_FAULTS):
        files = {**files, "sheet": own_sheet(files["plan"].decode()).encode()}
        steps.append(expected_step(source, verify_words(files), files))
    yield Case(source.name(), steps)


def own_sheet(plan: str) -> str:
    """Returns the text of a plan's own sheet: of each place, set and cost it has as many pins as the plan's rows."""
    head, version, *lines, end = plan.splitlines()
    servers, groups = [], Counter()
    for words in map(str.split, lines):
        if words[0] == "server":
            # A sheet has no prices.
            servers.append(" ".join(words[:4]))
        else:
            _, count, place, _, *kind = words
            groups[" ".join([place, *kind])] += int(count)
    counted = [f"group {count} {group}" for group, count in groups.items()]
    return "\n".join([head.replace("plan", "sheet"), version, *servers, *counted, end, ""])


def verify_texts(source: Source) -> Iterator[Case]:
    """Each row is a plan's text, or a sheet's where the plan stands above, and the one line of the answer."""
    source.only("plan", "rows")
    for text, answer in source.get("rows"):
        files = {"plan": text.encode()}
        if "plan" in source.table:
            files = {"plan": source.text("plan"), "sheet": text.encode()}
        yield Case(source.name(text), [verdict_step(files, verify_words(files), answer)])


# plan: sheets with their plans, or with what is found of these


def plan_case(source: Source) -> Iterator[Case]:
    source.only("sheet", "options", *EXPECTED)
    words = ["plan", *source.table.get("options", []), "sheet"]
    yield Case(source.name(), [expected_step(source, words, {"sheet": source.text("sheet")})])


def plan_judged(source: Source) -> Iterator[Case]:
    """The plan that is written for the sheet is judged so, for itself and for the sheet."""
    source.only("sheet", "verdict")
    verdict = source.get("verdict")
    yield Case(source.name(), [
        Step(["plan", "sheet"], {"sheet": source.text("sheet")}, output=None, kept_as="plan"),
        verdict_step({}, ["verify", "plan"], verdict),
        verdict_step({}, ["verify", "--sheet", "sheet", "plan"], verdict),
    ])


def plan_texts(source: Source) -> Iterator[Case]:
    """Each row is a text between two others, and the one line of the answer."""
    source.only("before", "behind", "rows")
    for text, answer in source.get("rows"):
        sheet = source.text("before", "") + text.encode() + source.text("behind", "")
        yield Case(source.name(text), [verdict_step({"sheet": sheet}, ["plan", "sheet"], answer)])


def plan_beginnings(source: Source) -> Iterator[Case]:
    """Each beginning of the text that is shorter than it has this answer."""
    source.only("text", "answer")
    text = source.text("text")
    for length in range(len(text)):
        step = verdict_step({"sheet": text[:length]}, ["plan", "sheet"], source.get("answer"))
        yield Case(source.name(f"{length} bytes of it"), [step])


# replay: scripts for a farm, with their answers


REPLAY = ["replay", "configuration", "script"]
SHOW = "show journal web"


def configuration_of(source: Source) -> bytes:
    """Returns the text of the farm that the table names, or the one that it holds."""
    if "farm" not in source.table:
        return source.text("configuration")
    farm = source.path.parent / "farms" / f"{source.get('farm')}.cfg"
    if not farm.is_file():
        raise source.bad(f"there is no {farm}")
    return farm.read_bytes()


def replay_case(source: Source) -> Iterator[Case]:
    source.only("farm", "configuration", "script", *EXPECTED)
    files = {"configuration": configuration_of(source), "script": source.text("script")}
    yield Case(source.name(), [expected_step(source, REPLAY, files)])


def replay_lines(source: Source) -> Iterator[Case]:
    """Each row is a script's line, what it is answered, and the event that the journal has of it, if any."""
    source.only("farm", "configuration", "rows")
    for words, answer, *events in source.get("rows"):
        entries = [line(f"{number} {event} -> {answer}") for number, event in enumerate(events)]
        files = {"configuration": configuration_of(source), "script": line(words) + line(SHOW)}
        yield Case(source.name(words), [Step(REPLAY, files, b"".join([line(answer), *entries]))])


def replay_bad(source: Source) -> Iterator[Case]:
    """Each row is a script's line of no form."""
    source.only("farm", "configuration", "rows")
    for words in source.get("rows"):
        files = {"configuration": configuration_of(source), "script": line(words)}
        yield Case(source.name(words), [Step(REPLAY, files, errors=line("line 1: bad script line"), status=1)])


def replay_bytes(source: Source) -> Iterator[Case]:
    """Each byte but some is the key of a request, which the journal spells; the farm has one server."""
    source.only("farm", "configuration", "but")
    keys = [byte for byte in range(256) if byte not in source.text("but")]
    script = b"".join(b"serve 0 %c\n" % byte for byte in keys) + line(SHOW)
    answers = ["served a made" for _ in keys]
    answers += [f"{number} serve 0 {spelled(byte)} -> served a made" for number, byte in enumerate(keys)]
    files = {"configuration": configuration_of(source), "script": script}
    yield Case(source.name(), [Step(REPLAY, files, b"".join(map(line, answers)))])


def spelled(byte: int) -> str:
    """Returns a key's byte as journals have it: itself where it is printed and no percent sign, else its number."""
    return chr(byte) if 0x21 <= byte <= 0x7E and byte != ord("%") else f"%{byte:02X}"


# program: words of the command line and files, whatever the job


def program_case(source: Source) -> Iterator[Case]:
    source.only("words", "files", "output_to", "errors_to", *EXPECTED)
    files = {name: source.bytes_of(text) for name, text in source.table.get("files", {}).items()}
    yield Case(source.name(), [expected_step(source, source.get("words"), files)])


def program_jobs(source: Source) -> Iterator[Case]:
    """Each row is words, and the names of the files that they name: one for each text, and no other file is there."""
    source.only("texts", "called", "output", "status", "rows")
    for words, *names in source.get("rows"):
        texts = [source.bytes_of(text) for text in source.get("texts")]
        if len(names) != len(texts):
            raise source.bad(f"{words} names {len(names)} files of {len(texts)}")
        step = Step(
            words, dict(zip(names, texts)), source.text("output"), status=source.table.get("status", 0),
            called=source.table.get("called"),
        )
        yield Case(source.name(words), [step])


# The name that the program prints of itself, whatever its file is called.
CALLED = "stickylb"


def program_printed(source: Source) -> Iterator[Case]:
    """Each row is words that ask for a text, and a part of what is printed."""
    source.only("rows")
    for words, part in source.get("rows"):
        yield Case(source.name(words), [Step(words, output=None, output_has=part.encode(), called=CALLED)])


def program_wrong(source: Source) -> Iterator[Case]:
    """Each row is wrong words, and a part of what is told of them."""
    source.only("rows")
    for words, part in source.get("rows"):
        yield Case(source.name(words), [Step(words, errors=None, errors_has=part.encode(), status=2, called=CALLED)])


Reader = Callable[[Source], Iterator[Case]]

OF_WORDS: Mapping[str, Reader] = {"case": program_case, "jobs": program_jobs, "printed": program_printed, "wrong": program_wrong}

# The folders, and the kinds of tables that their files may have.
READERS: Mapping[str, Mapping[str, Reader]] = {
    "check": {"case": check_case, "texts": check_texts, "lines": check_lines, "keywords": check_keywords},
    "verify": {"case": verify_case, "texts": verify_texts},
    "plan": {"case": plan_case, "judged": plan_judged, "texts": plan_texts, "beginnings": plan_beginnings},
    "replay": {"case": replay_case, "lines": replay_lines, "bad": replay_bad, "bytes": replay_bytes},
    "program": OF_WORDS,
    "small": OF_WORDS,
}

# The folders for the whole program, and those for the small one.
WHOLE = ("check", "verify", "plan", "replay", "program")
PLANS = ("verify", "plan", "small")


def cases_of(folder: Path, jobs: Sequence[str]) -> list[Case]:
    """Returns the cases of all files in these folders below the folder, in the order of their names. Raises `BadCase`."""
    cases = []
    for job in jobs:
        readers, paths = READERS[job], sorted((folder / job).glob("*.toml"))
        if not paths:
            raise BadCase(f"{folder / job} holds no cases")
        for path in paths:
            cases += file_cases(path, readers)
    return cases


def file_cases(path: Path, readers: Mapping[str, Reader]) -> list[Case]:
    try:
        tables = tomllib.loads(path.read_text(encoding="utf-8"))
    except (tomllib.TOMLDecodeError, UnicodeDecodeError) as fault:
        raise BadCase(f"{path}: {fault}") from fault
    cases: list[Case] = []
    for kind, sources in tables.items():
        if kind not in readers or not isinstance(sources, list):
            raise BadCase(f"{path}: {kind} is none of [[{']], [['.join(readers)}]]")
        for table in sources:
            cases += readers[kind](Source(path, kind, table))
    if not cases:
        raise BadCase(f"{path} holds no case")
    return cases
