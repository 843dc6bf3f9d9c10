"""A snapshot of the repository's crates, the digests of what the prover reads of them, and the file tried.txt."""
from __future__ import annotations

import hashlib
import os
import re
import shutil
import subprocess
from typing import Dict, List, Sequence, Set, Tuple

from trying.definitions import WORD, Module, cited, definitions_of, is_named, names_of_definitions, without_remarks
from trying.edits import PARTS, read_text
from trying.source import closing, masked

FOLDER = "wrong-bodies"


class Repository:
    """A snapshot of the crates under trial and of those below them, in a scratch folder."""

    def __init__(self, root: str, room: str) -> None:
        self.root, self.room, self.lines = root, room, {}
        self.lower: Dict[str, List[str]] = {}
        self.sums: Dict[str, str] = {}
        self.defined: Dict[str, List[Tuple[str, str, str]]] = {}
        for line in read_text(f"{root}/crates.txt").split("\n"):
            head, _, uses = line.partition("#")[0].partition(":")
            if head.strip():
                self.lines[head.split()[0]] = (head.strip(), uses.replace(",", " ").split())
        self.logic = logic_of_toolchain()

    def below(self, crate: str) -> List[str]:
        """Returns the repository's crates that this one stands on, each after those that it stands on."""
        if crate not in self.lower:
            found: List[str] = []
            for it in self.lines[crate][1]:
                if it in self.lines:
                    found += [low for low in [*self.below(it), it] if low not in found]
            self.lower[crate] = found
        return self.lower[crate]

    def texts(self, crate: str) -> str:
        """Returns the folder with a copy of the crate's texts, as they were when they were first asked for."""
        folder = f"{self.room}/texts/{crate}"
        for part in PARTS:
            if os.path.isdir(f"{self.root}/crates/{crate}/{part}") and not os.path.isdir(f"{folder}/{part}"):
                shutil.copytree(f"{self.root}/crates/{crate}/{part}", f"{folder}/{part}")
        return folder

    def edits(self, crate: str) -> Dict[str, str]:
        folder = f"{self.root}/{FOLDER}/{crate}"
        return {it: read_text(f"{folder}/{it}") for it in sorted(os.listdir(folder)) if not it.endswith(".md")}

    def digest(self, crate: str) -> str:
        """Returns the sum over all that the verdicts on this crate's edits depend on: the crate's own texts, and the definitions
        below it that they lead to, since they say what its contracts mean. How a function below is written or proved, and what it
        promises, plays no part: a body that breaks its contract has no proof whatever is promised below it."""
        total = hashlib.sha256(self.logic.encode())
        total.update(repr(sorted(self.edits(crate).items())).encode())
        total.update(self.sum_of_texts(crate).encode())
        reached = [(module, self.spec(module)) for module in self.reached(crate)]
        defined = self.sources_reached(crate, [text for _, text in reached])
        total.update(repr((reached, defined)).encode(errors="surrogateescape"))
        return total.hexdigest()

    def sum_of_texts(self, crate: str) -> str:
        """Returns the sum over what the prover reads of this crate alone, without its tests and comments."""
        if crate not in self.sums:
            head, uses = self.lines[crate]
            said = repr((head, sorted(uses), texts_without_tests(self.texts(crate))))
            self.sums[crate] = hashlib.sha256(said.encode(errors="surrogateescape")).hexdigest()
        return self.sums[crate]

    def sources(self, crate: str) -> List[Tuple[str, str, str]]:
        """Returns the crate's name, path and definitions of each source file that defines something for those above."""
        if crate not in self.defined:
            texts = texts_without_tests(self.texts(crate))
            said = [(crate, short, definitions_of(short, text)) for short, text in texts if short.endswith(".rt")]
            self.defined[crate] = [it for it in said if it[2]]
        return self.defined[crate]

    def sources_reached(self, crate: str, specs: Sequence[str]) -> List[Tuple[str, str, str]]:
        """Returns what is defined by source files below this crate whose types, traits or constants are named in its own texts, in
        these specs, or in another such file."""
        words = {*WORD.findall("".join(text for _, text in texts_without_tests(self.texts(crate))) + "".join(specs))}
        left = [it for low in sorted(self.below(crate)) for it in self.sources(low)]
        reached: List[Tuple[str, str, str]] = []
        while True:
            more = [it for it in left if is_named(it[2], words)]
            if not more:
                return sorted(reached)
            reached += more
            left = [it for it in left if it not in more]
            words |= {*WORD.findall("".join(text for _, _, text in more))}

    def spec(self, module: Module) -> str:
        """Returns the text of a module of specs, without comments and names of modules."""
        crate, path = module
        with open(f"{self.texts(crate)}/specs/{path}", encoding="utf-8", errors="surrogateescape") as it:
            return without_remarks(it.read())

    def found(self, crate: str, name: str) -> Module:
        """Returns the module of specs that this name of a crate leads to: the crate's root where it has no such file, which passes on
        what it has of others."""
        parts = name.strip(".").split(".")
        for count in range(len(parts), 0, -1):
            path = "/".join(parts[:count]) + ".antt"
            if os.path.isfile(f"{self.texts(crate)}/specs/{path}"):
                return crate, path
        return crate, "Lib.antt"

    def reached(self, crate: str) -> List[Module]:
        """Returns the modules of specs below this crate that its contracts can mean: those that its own texts name, those by which
        the types and traits below it are defined, and those that these name."""
        below = {*self.below(crate)}
        named = cited("".join(text for _, text in texts_without_tests(self.texts(crate))))
        for it in sorted(below):
            for short, text in texts_without_tests(self.texts(it)):
                if short.endswith(".rt"):
                    named |= names_of_definitions(short, text)
        reached: Set[Module] = set()
        while named:
            crate_of, name = named.pop()
            module = self.found(crate_of, name) if crate_of in below else None
            if module and module not in reached and os.path.isfile(f"{self.texts(crate_of)}/specs/{module[1]}"):
                reached.add(module)
                named |= cited(self.spec(module))
        return sorted(reached)


def logic_of_toolchain() -> str:
    """Returns the digest of the logic by which the prover judges. What it refuses doesn't hang on which release of the toolchain has it."""
    version = subprocess.run(["rt", "version"], stdout=subprocess.PIPE, check=True).stdout.decode().strip()
    return version.rpartition(" logic ")[2]


REMARK = re.compile(r"^[ \t]*(?://|--).*\n", re.M)
TESTS = re.compile(r"\s*#\[cfg\(test\)\]\s*mod\s+(\w+)\s*([;{])")


def texts_without_tests(folder: str) -> List[Tuple[str, str]]:
    """Returns the texts that the prover reads of a crate, by path, without its modules of tests and without lines that are comments."""
    found, tests = {}, set()
    for part in PARTS:
        for at, _, names in os.walk(f"{folder}/{part}"):
            for name in names:
                found[os.path.relpath(f"{at}/{name}", folder)] = f"{at}/{name}"
    texts = {}
    for short, path in found.items():
        with open(path, encoding="utf-8", errors="surrogateescape") as it:
            text = it.read()
        if short.endswith(".rt"):
            above = re.sub(r"(?:/(?:lib|main|mod))?\.rt$", "", short)
            while True:
                mark = TESTS.search(text)
                if not mark:
                    break
                end = mark.end() if mark[2] == ";" else closing(masked(text), mark.end() - 1)
                tests.add(f"{above}/{mark[1]}")
                text = text[: mark.start()] + text[end:]
            text = text.rstrip() + "\n"
        texts[short] = REMARK.sub("", text)
    of_tests = tuple([f"{it}.rt" for it in tests] + [f"{it}/" for it in tests])
    return sorted((short, text) for short, text in texts.items() if not short.startswith(of_tests or ("\0",)))


class Records:
    """The file tried.txt: a line 'CRATE DIGEST COUNT' for each crate all of whose edits were refused."""

    def __init__(self, root: str) -> None:
        self.file = f"{root}/{FOLDER}/tried.txt"
        self.lines: Dict[str, Tuple[str, int]] = {}
        if os.path.isfile(self.file):
            rows = [it.split() for it in read_text(self.file).split("\n") if it.strip()]
            self.lines = {row[0]: (row[1], int(row[2])) for row in rows if len(row) == 3}

    def digest(self, crate: str) -> str:
        return self.lines.get(crate, ("", 0))[0]

    def put(self, crate: str, digest: str, count: int, crates: Sequence[str]) -> None:
        """Writes a crate's line, and drops those of crates that have no edits any more."""
        self.lines[crate] = (digest, count)
        rows = [f"{it} {self.lines[it][0]} {self.lines[it][1]}\n" for it in sorted(self.lines) if it in crates]
        with open(f"{self.file}.new", "w", encoding="utf-8") as it:
            it.write("".join(rows))
        os.replace(f"{self.file}.new", self.file)
