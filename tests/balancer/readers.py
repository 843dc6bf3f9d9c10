"""Two readers of requests, as different servers have them: one takes what RFC 9112 allows and nothing else, the other takes what it can.

They are the judges of what the balancer sends on: where both see the same one request, and all that came is that request, no server can
be made to see another one.
"""

from __future__ import annotations

import re
from dataclasses import dataclass

TOKEN = rb"[!#$%&'*+.^_`|~0-9A-Za-z-]+"
REQUEST_LINE = re.compile(rb"(" + TOKEN + rb") ([\x21-\x7e]+) (HTTP/1\.[01])")
FIELD_LINE = re.compile(rb"(" + TOKEN + rb"):[ \t]*((?:[\x21-\x7e\x80-\xff](?:[\t\x20-\x7e\x80-\xff]*[\x21-\x7e\x80-\xff])?)?)[ \t]*")
QUOTED = rb'"(?:[\t\x20!\x23-\x5b\x5d-\x7e\x80-\xff]|\\[\t\x20-\x7e\x80-\xff])*"'
EXTENSION = rb"[ \t]*;[ \t]*" + TOKEN + rb"(?:[ \t]*=[ \t]*(?:" + TOKEN + rb"|" + QUOTED + rb"))?"
SIZE_LINE = re.compile(rb"([0-9A-Fa-f]+)(?:" + EXTENSION + rb")*")

Fields = tuple[tuple[bytes, bytes], ...]


@dataclass(frozen=True)
class Whole:
    """A request that is there to its end, which is so many bytes behind the begin. Names of fields are in lower case."""

    method: bytes
    target: bytes
    version: bytes
    fields: Fields
    body: bytes
    length: int


@dataclass(frozen=True)
class Partial:
    """More has to come."""


@dataclass(frozen=True)
class Refused:
    """No request."""

    reason: str


Seen = Whole | Partial | Refused


class Wrong(Exception):
    """What stands there is no request."""


class Short(Exception):
    """What stands there may be the begin of a request."""


def read_strictly(data: bytes) -> Seen:
    """What a server sees that takes exactly what RFC 9112 allows."""
    try:
        return strict_request(data)
    except Short:
        return Partial()
    except Wrong as wrong:
        return Refused(str(wrong))


def strict_request(data: bytes) -> Whole:
    end = data.find(b"\r\n\r\n")
    if end < 0:
        raise Short
    first, *lines = data[:end].split(b"\r\n")
    found = REQUEST_LINE.fullmatch(first)
    if not found:
        raise Wrong("request line")
    fields = strict_fields(lines)
    body, length = strict_body(found[3], fields, data, end + 4)
    return Whole(found[1], found[2], found[3], fields, body, length)


def strict_fields(lines: list[bytes]) -> Fields:
    fields = []
    for line in lines:
        found = FIELD_LINE.fullmatch(line)
        if not found:
            raise Wrong(f"field {line[:40]!r}")
        fields.append((found[1].lower(), found[2]))
    return tuple(fields)


def strict_body(version: bytes, fields: Fields, data: bytes, start: int) -> tuple[bytes, int]:
    codings = [value.lower() for name, value in fields if name == b"transfer-encoding"]
    lengths = [value for name, value in fields if name == b"content-length"]
    if codings:
        if codings != [b"chunked"] or lengths or version == b"HTTP/1.0":
            raise Wrong("transfer coding")
        return strict_chunks(data, start)
    if not all(re.fullmatch(rb"[0-9]+", value) for value in lengths) or len({int(value) for value in lengths}) > 1:
        raise Wrong("length")
    end = start + (int(lengths[0]) if lengths else 0)
    if len(data) < end:
        raise Short
    return data[start:end], end


def strict_line(data: bytes, at: int) -> tuple[bytes, int]:
    """The line from here on, without its CR LF, and where the next one begins."""
    end = data.find(b"\r\n", at)
    if end < 0:
        raise Short
    if b"\r" in data[at:end] or b"\n" in data[at:end]:
        raise Wrong("line end")
    return data[at:end], end + 2


def strict_chunks(data: bytes, start: int) -> tuple[bytes, int]:
    body, at = b"", start
    while True:
        line, at = strict_line(data, at)
        found = SIZE_LINE.fullmatch(line)
        if not found:
            raise Wrong(f"size line {line[:40]!r}")
        size = int(found[1], 16)
        if size == 0:
            return body, strict_trailer(data, at)
        if len(data) < at + size + 2:
            raise Short
        if data[at + size : at + size + 2] != b"\r\n":
            raise Wrong("end of a chunk")
        body += data[at : at + size]
        at += size + 2


def strict_trailer(data: bytes, at: int) -> int:
    while True:
        line, at = strict_line(data, at)
        if not line:
            return at
        strict_fields([line])


def read_leniently(data: bytes) -> Seen:
    """What a server sees that takes what it can: any line end, folded lines, blanks before colons, the last of several lengths, any coding
    that has `chunked` in it, sizes as C reads numbers, lines that are no fields."""
    try:
        return lenient_request(data)
    except Short:
        return Partial()
    except Wrong as wrong:
        return Refused(str(wrong))


def lenient_line(data: bytes, at: int) -> tuple[bytes, int]:
    """The line from here on, and where the next one begins. It ends with CR LF, LF or CR."""
    found = re.compile(rb"\r\n|\n|\r(?=.)", re.S).search(data, at)
    if not found:
        raise Short
    return data[at : found.start()], found.end()


def lenient_request(data: bytes) -> Whole:
    line, at = lenient_line(data, 0)
    while not line.strip():
        line, at = lenient_line(data, at)
    words = line.split()
    if len(words) < 2:
        raise Wrong("request line")
    fields, at = lenient_fields(data, at)
    body, length = lenient_body(fields, data, at)
    return Whole(words[0], words[1], words[2] if len(words) > 2 else b"", fields, body, length)


def lenient_fields(data: bytes, at: int) -> tuple[Fields, int]:
    fields: list[tuple[bytes, bytes]] = []
    while True:
        line, at = lenient_line(data, at)
        if not line:
            return tuple(fields), at
        name, colon, value = line.partition(b":")
        if line[:1] in (b" ", b"\t") and fields:
            fields[-1] = (fields[-1][0], (fields[-1][1] + b" " + line.strip()).strip())
        elif colon:
            fields.append((name.strip().lower(), value.strip()))


def lenient_body(fields: Fields, data: bytes, start: int) -> tuple[bytes, int]:
    if any(name == b"transfer-encoding" and b"chunked" in value.lower() for name, value in fields):
        return lenient_chunks(data, start)
    length = 0
    for name, value in fields:
        found = re.match(rb"\+?([0-9]+)", value)
        if name == b"content-length" and found:
            length = int(found[1])
    if len(data) < start + length:
        raise Short
    return data[start : start + length], start + length


def lenient_chunks(data: bytes, start: int) -> tuple[bytes, int]:
    body, at = b"", start
    while True:
        line, at = lenient_line(data, at)
        found = re.match(rb"\s*\+?(?:0[xX])?([0-9A-Fa-f]+)", line)
        if not found:
            raise Wrong("size line")
        size = int(found[1], 16) % (1 << 64)
        if size == 0:
            return body, lenient_fields(data, at)[1]
        if len(data) < at + size:
            raise Short
        body += data[at : at + size]
        at += size
        _, at = lenient_chunk_end(data, at)


def lenient_chunk_end(data: bytes, at: int) -> tuple[bytes, int]:
    """Passes over the line end behind a chunk's data, if there is one."""
    rest = data[at : at + 2]
    if rest in (b"", b"\r"):
        raise Short
    for end in (b"\r\n", b"\n", b"\r"):
        if rest.startswith(end):
            return end, at + len(end)
    return b"", at
