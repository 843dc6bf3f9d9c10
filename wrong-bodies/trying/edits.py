"""Reads edits, tells which functions they change, and puts them in rounds."""
from __future__ import annotations

import os
import re
from typing import Dict, FrozenSet, List, NamedTuple, Sequence, Set, Tuple

from trying.source import Function, code_of, functions_of

PARTS = ("src", "specs", "proofs")


class Fault(Exception):
    """Why an edit, or a crate, cannot be tried."""


class Edit(NamedTuple):
    """An edit of a crate: the texts that it makes, the functions that it changes, and whether it may share a round."""

    name: str
    texts: Dict[str, str]
    touched: FrozenSet[Tuple[str, Tuple[str, ...]]]
    refused_at: str
    is_of_bodies: bool


def read_text(path: str) -> str:
    with open(path, encoding="utf-8") as it:
        return it.read()


def edited(said: str, folder: str) -> Dict[str, str]:
    """Returns the texts that an edit makes, by their path in the crate."""
    path, old, texts = "", "", {}
    for line in said.split("\n"):
        if line.startswith("file: "):
            path = line[len("file: ") :].strip()
            if os.path.normpath(path) != path or not path.startswith(tuple(f"{it}/" for it in PARTS)):
                raise Fault(f"cannot be read: '{line}' names no file below src/, specs/ or proofs/")
        elif line.startswith("old: "):
            old = line[len("old: ") :]
        elif line.startswith("new:"):
            if not path or not old:
                raise Fault("cannot be read: a line 'new:' with no 'file:' or 'old:' above it")
            if path not in texts:
                try:
                    texts[path] = read_text(f"{folder}/{path}")
                except (OSError, UnicodeDecodeError):
                    raise Fault(f"its place in the source is gone: there is no file {path}") from None
            count = texts[path].count(old)
            if count != 1:
                where = f"'{old.strip()}' is in {path} {count} times, and not once"
                raise Fault(f"its place in the source is gone: {where}")
            texts[path] = texts[path].replace(old, re.sub(r"\A ", "", line[len("new:") :]))
            old = ""
    if not texts:
        raise Fault("cannot be read: it has no pair of lines 'old:' and 'new:'")
    return texts


def changes(file: str, old: str, new: str) -> Tuple[Set[Tuple[str, Tuple[str, ...]]], bool]:
    """Returns which functions differ between two texts of a file, and whether nothing but bodies of functions does."""
    if not file.startswith("src/"):
        return set(), False
    were, are = functions_of(file, old), functions_of(file, new)
    touched, is_of_bodies = set(), were.keys() == are.keys()
    for path in were.keys() | are.keys():
        a, b = were.get(path), are.get(path)
        if a is None or b is None or code_of(old[a.start : a.end]) != code_of(new[b.start : b.end]):
            touched.add((file, path))
            if a and b and code_of(old[a.start : a.body]) != code_of(new[b.start : b.body]):
                is_of_bodies = False
    if code_of(without(old, were)) != code_of(without(new, are)):
        is_of_bodies = False
    return touched, is_of_bodies


def without(text: str, functions: Dict[Tuple[str, ...], Function]) -> str:
    parts, last = [], 0
    for it in sorted(functions.values(), key=lambda it: it.start):
        parts.append(text[last : it.start])
        last = it.end
    return "{}".join([*parts, text[last:]])


def read_edit(name: str, said: str, folder: str) -> Edit:
    """Reads an edit of the crate in this folder."""
    texts, touched, is_of_bodies, differs = edited(said, folder), set(), True, False
    for file, text in texts.items():
        old = read_text(f"{folder}/{file}")
        found, are_bodies = changes(file, old, text)
        touched |= found
        is_of_bodies = is_of_bodies and are_bodies
        differs = differs or code_of(old) != code_of(text)
    if not differs:
        raise Fault("accepted: it changes no code")
    at = re.search(r"(?m)^refused-at:(.*)$", said)
    return Edit(name, texts, frozenset(touched), at[1].strip() if at else "", is_of_bodies and bool(touched))


def rounds_of(edits: Sequence[Edit]) -> List[List[Edit]]:
    """Puts edits of different functions' bodies together, and each other edit alone."""
    rounds: List[List[Edit]] = []
    taken: List[Set[Tuple[str, Tuple[str, ...]]]] = []
    alone = []
    for edit in edits:
        if not edit.is_of_bodies or edit.refused_at:
            alone.append([edit])
            continue
        at = next((i for i, it in enumerate(taken) if not it & edit.touched), len(rounds))
        if at == len(rounds):
            rounds.append([])
            taken.append(set())
        rounds[at].append(edit)
        taken[at] |= edit.touched
    return rounds + alone


def together(edits: Sequence[Edit], folder: str) -> Dict[str, str]:
    """Returns the texts of a round: each function as the one edit that touches it makes it."""
    if len(edits) == 1:
        return edits[0].texts
    swaps: Dict[str, List[Tuple[int, int, str]]] = {}
    for edit in edits:
        for file, path in edit.touched:
            old, new = read_text(f"{folder}/{file}"), edit.texts[file]
            a, b = functions_of(file, old)[path], functions_of(file, new)[path]
            swaps.setdefault(file, []).append((a.start, a.end, new[b.start : b.end]))
    texts = {}
    for file, found in swaps.items():
        text = read_text(f"{folder}/{file}")
        for start, end, new in sorted(found, reverse=True):
            text = text[:start] + new + text[end:]
        texts[file] = text
    return texts
