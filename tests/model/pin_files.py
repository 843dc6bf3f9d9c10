"""Files of pins, read plainly from the grammar in docs/RESTARTS.md."""

from __future__ import annotations

import random
import re
import socket
import subprocess
import tempfile
from collections import Counter
from collections.abc import Iterable
from pathlib import Path

NAME = rb"(?!-\Z)[A-Za-z0-9_.:-]{1,64}"
PLAIN = frozenset(range(33, 127)) - {37}


def is_name(word: bytes) -> bool:
    return re.fullmatch(NAME, word) is not None


def spelled(key: bytes) -> bytes:
    """The one word of a key."""
    return b"%2D" if key == b"-" else b"".join(bytes([it]) if it in PLAIN else b"%%%02X" % it for it in key)


def is_key(word: bytes) -> bool:
    if re.fullmatch(rb"(?:[^%]|%[0-9A-Fa-f]{2})*", word, re.S) is None:
        return False
    key = re.sub(rb"%(..)", lambda found: bytes([int(found[1], 16)]), word)
    return spelled(key) == word


def is_number(word: bytes, least: int, most: int) -> bool:
    return re.fullmatch(rb"0|[1-9][0-9]{0,19}", word) is not None and least <= int(word) <= most


def is_pin(words: list[bytes]) -> bool:
    """Whether the words of a line are a pin's."""
    if len(words) != 6 or words[0] != b"pin":
        return False
    _, key, wanted, server, cost, age = words
    return (
        is_key(key)
        and (wanted == b"-" or all(is_name(it) for it in wanted.split(b",")))
        and (server == b"-" or is_name(server))
        and is_number(cost, 1, 1000)
        and is_number(age, 0, 2**64 - 2)
    )


def fault_of(text: bytes) -> str | None:
    """The first fault of the text, or none where it is a file of pins."""
    *lines, after = text.split(b"\n")
    names: set[bytes] = set()
    age: int | None = None
    for number, line in enumerate(lines, 1):
        words = line.split(b" ")
        if number == 1:
            if line != b"stickypins 1":
                return "40 BadLine 1"
        elif line == b"end":
            return None if number == len(lines) and not after else f"40 BadLine {number + 1}"
        elif words[0] == b"backend" and len(words) == 2 and is_name(words[1]) and words[1] not in names:
            names.add(words[1])
            age = 2**64
        elif is_pin(words) and age is not None and int(words[5]) <= age:
            age = int(words[5])
        else:
            return f"40 BadLine {number}"
    return "43 Truncated"


PIECES = [
    b"stickypins 1\n", b"end\n", b"backend web\n", b"backend api\n", b"pin ann - a 1 0\n", b"pin %00%20 a,b - 1000 18446744073709551614\n", b"\n", b" ",
    b"  ", b"-", b"%", b"%2D", b"%2d", b"%41", b",", b"0", b"00", b"1001", b"18446744073709551615", b"\xff", b"\r\n", b"\t", b"x" * 65,
]  # fmt: skip


def drawn(dice: random.Random) -> bytes:
    """A file that is whole."""
    text = b"stickypins 1\n"
    for name in dice.sample([b"web", b"api", b"x" * 64, b"-1"], dice.randrange(4)):
        text += b"backend " + name + b"\n"
        for age in sorted((dice.choice((0, 1, 5210, 2**64 - 2, dice.randrange(2**40))) for _ in range(dice.randrange(4))), reverse=True):
            key = bytes(dice.choice((45, 97, 37, 0, 32, 255, dice.randrange(256))) for _ in range(dice.randrange(5)))
            wanted, server = dice.choice((b"-", b"a", b"a,b", b"b,a,b")), dice.choice((b"-", b"a", b"b.c:1"))
            text += b"pin %s %s %s %d %d\n" % (spelled(key), wanted, server, dice.choice((1, 2, 1000)), age)
    return text + b"end\n"


def edited(dice: random.Random, text: bytes) -> bytes:
    """The text, after an edit or some."""
    for _ in range(dice.choice((0, 1, 1, 1, 2, 3))):
        at = dice.randrange(len(text) + 1)
        until = min(len(text), at + dice.choice((0, 0, 1, 1, 2, 9, 40)))
        text = text[:at] + dice.choice((b"", bytes([dice.randrange(256)]), dice.choice(PIECES))) + text[until:]
    return text


def tried(program: Path, seeds: Iterable[int]) -> tuple[Counter[str], str]:
    """How often each kind of answer came for edited files with these seeds, and the first difference from the model, if there is one. The
    address of the balancer is taken, so a file that is read shows by that."""
    kinds: Counter[str] = Counter()
    with tempfile.TemporaryDirectory(prefix="stickylb-") as folder, socket.create_server(("127.0.0.1", 0)) as taken:
        address = f"127.0.0.1:{taken.getsockname()[1]}"
        config, file = Path(folder, "configuration"), Path(folder, "pins")
        config.write_text(f"listen web\n bind {address}\n server a 127.0.0.1:1\n stick-table type string size 100\n stick on hdr(x-id)\n")
        for seed in seeds:
            dice = random.Random(seed)
            file.write_bytes(text := edited(dice, drawn(dice)))
            fault = fault_of(text)
            due = (1, b"", f"{file}: {fault}\n".encode() if fault else f"cannot bind {address}\n".encode())
            done = subprocess.run([str(program), "run", "-f", str(config), "--pins", str(file)], capture_output=True, timeout=60, check=False)
            kinds[fault.split()[1] if fault else "whole"] += 1
            if (done.returncode, done.stdout, done.stderr) != due:
                return kinds, f"seed {seed}, {text!r}: {done.returncode} {done.stdout!r} {done.stderr!r} in place of {due}"
    return kinds, ""
