"""Finds the functions of a source text in Rattle: where each begins, where its body does, and where it ends."""
from __future__ import annotations

import os
import re
from typing import Dict, Iterator, List, NamedTuple, Tuple


class Function(NamedTuple):
    """A function of a source file: its path by that file, and where it lies in the text, with what stands above it."""

    file: str
    path: Tuple[str, ...]
    owner: str  # the type of the impl that it stands in, or nothing
    start: int
    body: int
    end: int


TOKEN = re.compile(
    r"""(?P<comment>//[^\n]*|/\*)|(?P<raw>b?r(?P<hashes>\#*)")|(?P<string>b?"(?:[^"\\]|\\.)*")"""
    r"""|(?P<char>b?'(?:\\(?:u\{[^}]*\}|x..|.)|[^'\\\n])')""",
    re.S,
)


def pieces(text: str) -> Iterator[Tuple[str, int, int]]:
    """Yields the comments and literals of a source text, each as its kind and place."""
    at = 0
    while True:
        found = TOKEN.search(text, at)
        if not found:
            return
        start, at = found.span()
        if found["comment"] == "/*":
            depth = 1
            while depth and at < len(text):
                step = re.compile(r"/\*|\*/").search(text, at)
                depth += (1 if step[0] == "/*" else -1) if step else -depth
                at = step.end() if step else len(text)
        elif found["raw"]:
            close = text.find('"' + found["hashes"], at)
            at = len(text) if close < 0 else close + 1 + len(found["hashes"])
        yield ("comment" if found["comment"] else "literal"), start, at


def masked(text: str) -> str:
    """Returns the text with its comments and literals blanked, at the same length and with the same lines."""
    parts, last = [], 0
    for _, start, end in pieces(text):
        parts += [text[last:start], re.sub(r"[^\n]", " ", text[start:end])]
        last = end
    return "".join([*parts, text[last:]])


def code_of(text: str) -> str:
    """Returns the code of a text: without comments, and with one space for each blank outside literals."""
    parts, last = [], 0
    for kind, start, end in pieces(text):
        parts += [re.sub(r"\s+", " ", text[last:start]), text[start:end] if kind == "literal" else " "]
        last = end
    return re.sub(r" +", " ", "".join([*parts, re.sub(r"\s+", " ", text[last:])])).strip()


def closing(mask: str, at: int) -> int:
    """Returns where the brace group that opens at this place ends."""
    depth = 0
    for found in re.compile(r"[{}]").finditer(mask, at):
        depth += 1 if found[0] == "{" else -1
        if not depth:
            return found.end()
    return len(mask)


CLAUSE = re.compile(r"\b(?:requires|ensures|ghost)\b[^{};]*$")


def function_end(mask: str, at: int) -> Tuple[int, int]:
    """Returns where the body of the function whose name ends at this place begins, and where the function ends."""
    last, depth = at, 0
    for found in re.compile(r"[{;()\[\]]").finditer(mask, at):
        if found.start() < last:
            continue
        if found[0] in "([":
            depth += 1
        elif found[0] in ")]":
            depth -= 1
        elif depth:
            continue
        elif found[0] == ";":
            return found.start(), found.end()
        elif CLAUSE.search(mask, last, found.start()):
            last = closing(mask, found.start())
        else:
            return found.start(), closing(mask, found.start())
    return len(mask), len(mask)


def impl_names(head: str) -> Tuple[str, str]:
    """Returns what the prover calls an impl by its head, and its type: for 'From<AllocError> for JobError' these are
    JobErrorFromAllocError and JobError."""
    at = re.match(r"\s*<", head) and re.match(r"\s*(<(?:[^<>]|<(?:[^<>]|<[^<>]*>)*>)*>)", head)
    head = re.sub(r"'\w+|\w+\s*::\s*", "", head[at.end() :] if at else head).partition(" where ")[0]
    trait, _, name = head.rpartition(" for ")
    owner = "".join(re.findall(r"\w+", name)[:1])
    return owner + "".join(re.findall(r"\w+", trait)), owner


def module_of(file: str) -> Tuple[str, ...]:
    """Returns the path of the module that a file of src/ is."""
    return tuple(filter(None, re.sub(r"^src/|(/?\b(lib|main|mod))?\.rt$", "", file).split("/")))


def functions_of(file: str, text: str) -> Dict[Tuple[str, ...], Function]:
    """Returns the functions of a source file, each from the end of what stands before it to its closing brace."""
    mask, found = masked(text), {}
    item = re.compile(r"\bfn\s+(\w+)|\b(impl|trait|mod)\b[^;{}]*\{|[{};]")

    def walk(start: int, end: int, above: Tuple[str, ...], owner: str) -> None:
        at = since = start
        while True:
            it = item.search(mask, at, end)
            if not it:
                return
            if it[1]:
                body, close = function_end(mask, it.end())
                path = (*above, it[1])
                while path in found:
                    path = (*path[:-1], path[-1] + "'")
                found[path] = Function(file, path, owner, since, body, close)
                at = since = close
            elif it[2]:
                close = closing(mask, it.end() - 1)
                head = mask[it.start() + len(it[2]) : it.end() - 1]
                name, of = impl_names(head) if it[2] == "impl" else (re.findall(r"\w+", head)[0], "")
                walk(it.end(), close - 1, (*above, name), of)
                at = since = close
            else:
                at = since = closing(mask, it.start()) if it[0] == "{" else it.end()

    walk(0, len(text), module_of(file), "")
    return found


def types_of(folder: str) -> Dict[str, List[Tuple[str, ...]]]:
    """Returns the modules of a crate that declare types, by the types' names."""
    found: Dict[str, List[Tuple[str, ...]]] = {}
    for at, _, names in os.walk(f"{folder}/src"):
        for name in names:
            with open(f"{at}/{name}", encoding="utf-8") as it:
                types = re.findall(r"\b(?:struct|enum)\s+(\w+)", masked(it.read()))
            for one in types:
                found.setdefault(one, []).append(module_of(os.path.relpath(f"{at}/{name}", folder)))
    return found


def paths_of(function: Function, types: Dict[str, List[Tuple[str, ...]]]) -> List[Tuple[str, ...]]:
    """Returns the paths by which the prover may name a function: a method's begins with the module of its type."""
    return [function.path, *[(*it, *function.path[-2:]) for it in types.get(function.owner, [])]]
