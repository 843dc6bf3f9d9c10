"""Reads what the prover says of an edited crate, and judges whether an edit is refused for its own function."""
from __future__ import annotations

import re
from typing import Dict, List, NamedTuple, Sequence, Tuple

from trying.edits import Edit
from trying.source import Function, functions_of, paths_of

Types = Dict[str, List[Tuple[str, ...]]]


class Refusal(NamedTuple):
    """What a check of an edited crate came to, in one word, and for a refusal where it lies."""

    kind: str  # proved, refused, unread, broken
    why: str
    places: List[Tuple[str, int]]  # notes and errors in src/, by line
    folders: List[Tuple[str, bool]]  # errors in proofs/ and specs/, and whether each says more than that a name is gone
    functions: Dict[str, str]  # what is said of each function


NOTE = re.compile(r"note: (?:\./)?(src/\S+?):(\d+):\d+: .*?\bit is not proved\b")
ERROR = re.compile(r"(?:\./)?((?:src|specs|proofs)/\S+?):(\d+):\d+: error\b(.*)")
NAMES = re.compile(r"has no field|is not in scope|has no `|was not admitted")
UNREADABLE = re.compile(
    r"is not in scope|has no field|is no name|operand is missing|expected the end|cannot continue"
)
STALE = "Run the lower steps again"


def is_unread(file: str, said: str, changed: Dict[str, str]) -> bool:
    """Returns whether an error says that the edited text cannot be read, and not that a statement is false."""
    if file not in changed and file.startswith("proofs/"):
        return False
    found = re.match(r": (?:(`[^`]*`): )?(.*)", said)
    return bool(found) and (not found[1] or bool(UNREADABLE.search(re.sub(r"`[^`]*`", "", found[2]))))


def judged(output: str, status: int, changed: Dict[str, str]) -> Refusal:
    """Reads what a check of a crate printed, where these texts of it were changed."""
    lines = output.split("\n")
    errors = [it for it in map(ERROR.match, lines) if it]
    functions = dict(re.findall(r"(?m)^fn (\S+): (.*)$", output))
    places = [(it[1], int(it[2])) for it in map(NOTE.match, lines) if it]
    places += [(it[1], int(it[2])) for it in errors if it[1].startswith("src/")]
    folders = [(it[1], not NAMES.search(it[3])) for it in errors if not it[1].startswith("src/")]
    made = lambda kind, why="": Refusal(kind, why, places, folders, functions)
    if status == 0 and re.search(r"(?m)^logic=proved\b", output):
        return made("proved")
    if STALE in output:
        return made("broken", "the kept work of a library could not be used")
    unread = next((it for it in errors if is_unread(it[1], it[3], changed)), None)
    if status == 1 and re.search(r"(?m)^logic=not-proved", output):
        return made("unread", f"does not compile: {unread[0][:240]}") if unread else made("refused")
    first = next((it for it in lines if re.search(r"\berror\b|no verdict|killed", it)), lines[0])
    what = "does not compile" if errors else f"no verdict (status {status})"
    return made("broken", f"{what}: {first[:240]}")


def own_words(said: str) -> str:
    """Returns what the prover says against a function itself, without what it says of those that it calls."""
    if re.match(r"proved\b|assumed\b", said):
        return ""
    parts = [re.sub(r"^no proof:? ?", "", it) for it in said.split("; ")]
    return "; ".join(it for it in parts if it and not it.startswith("it calls "))


def plain_path(words: Sequence[str]) -> List[str]:
    """Returns a path of the prover's with no marks of closures and cycles, as a::fn::f::map+FnOnce is a::f::map."""
    return [it.lstrip("+").partition("+")[0] for it in words if it != "fn"]


def own_failure(function: Function, types: Types, text: str, found: Refusal) -> str:
    """Returns how the function itself is refused: 'yes', 'by a name' that a proof file misses alone, or ''."""
    paths = [list(it) for it in paths_of(function, types)]
    said = [it for name, it in found.functions.items() if plain_path(name.split("::")[1:]) in paths]
    if said and all(it.startswith("proved") for it in said):
        return ""
    lead = len(text[function.start :]) - len(text[function.start :].lstrip())
    first, last = text.count("\n", 0, function.start + lead) + 1, text.count("\n", 0, function.end) + 1
    if any(file == function.file and first <= line <= last for file, line in found.places):
        return "yes"
    in_proofs = [(file.split("/")[1:-1], says) for file, says in found.folders if file.startswith("proofs/")]
    own = [says for folder, says in in_proofs if any(plain_path(folder)[: len(it)] == it for it in paths)]
    return "yes" if any(own) else "by a name" if own else ""


def refused_itself(edit: Edit, types: Types, texts: Dict[str, str], found: Refusal) -> str:
    """Returns how the best refused of the functions that the edit touches is refused."""
    ways = set()
    for file, path in edit.touched:
        function = functions_of(file, texts[file]).get(path)
        ways.add(own_failure(function, types, texts[file], found) if function else "")
    return "yes" if "yes" in ways else "by a name" if "by a name" in ways else ""


def refused_functions(found: Refusal) -> List[str]:
    """Returns the functions that are refused themselves, by the prover's words on each."""
    return [name for name, said in found.functions.items() if own_words(said)]


def verdict_alone(edit: Edit, types: Types, found: Refusal) -> Tuple[bool, str]:
    """Returns whether an edit that was tried alone is refused as it must be, and a remark or why not."""
    if found.kind == "proved":
        return False, "accepted"
    if found.kind != "refused":
        return False, found.why
    others = refused_functions(found)
    if edit.refused_at:
        wanted = edit.refused_at.split("::")
        ends = lambda name: plain_path(name.split("::"))[-len(wanted) :] == wanted
        if any(map(ends, others)):
            return True, f"refused at {edit.refused_at}"
        return False, f"not refused at {edit.refused_at}, but at: {', '.join(others) or 'no function'}"
    if not edit.touched:
        where = [*others, *dict.fromkeys(file for file, _ in found.folders)]
        return (True, f"it is of no function, and refused at {where[0]}") if where else (False, "refused nowhere")
    way = refused_itself(edit, types, edit.texts, found)
    if way == "by a name":
        return True, "refused only since a proof names what the edit took away: change a value, and keep the names"
    if way:
        return True, ""
    where = others or [name for name, said in found.functions.items() if not said.startswith("proved")]
    return False, f"refused for another function: {', '.join(where) or 'none is named'}"
