"""What a crate defines for those above it: what their contracts are said in."""
from __future__ import annotations

import re
from typing import Set, Tuple

from trying.source import closing, code_of, functions_of, masked, module_of

# A file of a crate's specs.
Module = Tuple[str, str]

CITATION = re.compile(r"\bRattle\.(\w+)\.specs\.([\w.]+)")
WORD = re.compile(r"\w+")
NAMING = re.compile(r"\b(?:struct|enum|trait|const|type|for)\s+(\w+)")
GHOST_IMPORT = re.compile(r"\bghost use (Rattle\.\w+\.specs\.[\w.]+)(?:\{([^}]*)\})?;")


def cited(text: str) -> Set[Module]:
    """Returns the crates and names of the modules of specs that a text names."""
    return {(crate, name) for crate, name in CITATION.findall(text)}


def names_of_definitions(file: str, text: str) -> Set[Module]:
    """Returns the crates and names of the modules of specs by which a source file's types, models and traits are defined."""
    named: Set[Module] = set()
    said = definitions_of(file, text)
    words = {*WORD.findall(said)}
    for path, names in GHOST_IMPORT.findall(text):
        # An operator's name says little about how it is written.
        if said and (not names or any(it in words or "◌" in it for it in re.findall(r"[^\s,]+", names))):
            named |= cited(path)
    return named


def is_named(definitions: str, words: Set[str]) -> bool:
    """Returns whether one of these words is a type, trait or constant that is defined so, or for which a trait's words are taken."""
    names = {*NAMING.findall(definitions)}
    return not names or not names.isdisjoint(words)


def without_remarks(text: str) -> str:
    """Returns the text of a module of specs without its comments, and without the names of the modules below it."""
    return "".join(line for line in text.splitlines(True) if not re.match(r"\s*(?:--|(?:pub )?mod )", line))


STRUCT = re.compile(r"\bstruct\s+\w+[^;{}]*\{")
PRIVATE_FIELD = re.compile(r"^[ \t]*(?:pub\(\w+\) )?(?!pub\b|#)\w+[ \t]*:[^\n]*\n", re.M)
IMPORT = re.compile(r"^[ \t]*(?:use|pub use|ghost use|mod|pub mod)\b[^;]*;", re.M)
PRIVATE_CONSTANT = re.compile(r"^[ \t]*(?:pub\(crate\) )?const\b[^;]*;", re.M)
PRIVATE_TYPE = re.compile(r"(?:#\[[^\]]*\]\s*)*(?:\bpub\(crate\) |(?<!pub )\b)(?:struct|enum)\s+(\w+)[^;{}()]*\{")
VIEW = re.compile(r"\bghost\s+(?:view|inverse|invariant)\s*=\s*\{")
EMPTY = re.compile(r"\b(?:impl|where)\b[^{};]*\{\s*\}")
PROMISE = re.compile(r"\bghost\s+(?:laws|hash_input|respects_eq|is_infallible)\s*=\s*\{")


def without(opening: re.Pattern[str], text: str) -> str:
    """Returns the text without what begins so and goes on to the end of the braces that open there."""
    while True:
        mask = masked(text)
        found = opening.search(mask)
        if not found:
            return text
        end = closing(mask, found.end() - 1)
        text = text[: found.start()] + text[end:].removeprefix(";")


def definitions_of(file: str, text: str) -> str:
    """Returns what a source file defines for others, without comments: its public types, but for private fields, its models, traits
    and constants, and what it takes a trait's words for, but for laws, for when a call can't fail, and for what a hasher is fed, since
    promises hold for any hash. Of a type without public fields its view and its invariant are left out too, which no other crate sees. Of
    functions it has those of traits alone."""
    kept, last = [], 0
    for one in sorted(functions_of(file, text).values(), key=lambda it: it.start):
        is_of_trait = not one.owner and len(one.path) > len(module_of(file)) + 1
        if not is_of_trait and one.start >= last:
            kept.append(text[last : one.start])
            last = one.end
    rest = PRIVATE_CONSTANT.sub("", IMPORT.sub("", "".join([*kept, text[last:]])))
    for name in PRIVATE_TYPE.findall(masked(rest)):
        rest = without(re.compile(rf"\bimpl\b[^{{}};]*\b(?:for )?{name}\b[^{{}};]*\{{"), rest)
    rest = without(PRIVATE_TYPE, without(PROMISE, rest))
    while True:
        mask = masked(rest)
        fields = [(it.end() - 1, closing(mask, it.end() - 1)) for it in STRUCT.finditer(mask)]
        bare = [(start, end) for start, end in fields if PRIVATE_FIELD.search(mask, start, end)]
        if not bare:
            return re.sub(r" +", " ", EMPTY.sub("", code_of(rest))).strip()
        start, end = bare[0]
        name = re.findall(r"\bstruct\s+(\w+)", rest[:start])[-1]
        fields = PRIVATE_FIELD.sub("", rest[start:end])
        rest = rest[:start] + fields + rest[end:]
        found = re.search(rf"\bModel for {name}\b[^{{}}]*\{{", masked(rest))
        if found and "pub " not in fields:
            end = closing(masked(rest), found.end() - 1)
            rest = rest[: found.start()] + without(VIEW, rest[found.start() : end]) + rest[end:]
