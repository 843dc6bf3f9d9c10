"""Forms of chunked bodies. The head is good, so the server is dialled before their fault is seen."""

from __future__ import annotations

from collections.abc import Iterator

from .forms import CHUNKS, Due, Form, forms, post


def chunked(body: bytes) -> bytes:
    """A request with this body, and another request behind it."""
    return post(b"Transfer-Encoding: chunked", body=body)


def sized(*lines: bytes) -> list[bytes]:
    """Bodies of five bytes behind each of these size lines."""
    return [chunked(line + b"\r\nhello\r\n0\r\n\r\n") for line in lines]


def sizes() -> Iterator[Form]:
    """What stands in a size line."""
    good = (
        b"5", b"05", b"0000000000000005", b"5;x", b"5;x=y", b'5;x="y z"', b'5;x="\\""', b"5 ;x", b"5; x", b"5\t;\tx", b"5;x = y",
        b"5;x;y;z=1", b"5;" + 252 * b"x",
    )  # fmt: skip
    yield from forms("a size", Due.ONE, *sized(*good))
    # RFC 9112 has no blanks behind a size but before an extension, and an extension has a name; the profile passes these as they came.
    lax = (b"5 ", b"5\t", b"5  ", b"5;", b"5;;", b"5;x=", b'5;x="', b"5;\x00", b"5;\x0b", b"5;x\x7f", b"5;(", b"5;=y", b"5; ")
    yield from forms("a lax size", Due.LAX, *sized(*lax))
    bad = (
        b"", b"+5", b"-5", b"0x5", b"0X5", b"x5", b" 5", b"\t5", b"5,", b"5.0", b"g", b"5g", b";x", b"5x", b"5 x", b"5\t5", b"5 5", b"5h",
        b"#5", b"'5'", b'"5"', b"5:",
        b"5=", b"5/", b"5\x00", b"5\x0b", b"5\x0c", b"\x005", b"5\xa0", b"\xa05", "\uff15".encode(), "\u0665".encode(), b"5_", b"5-",
        b"(5)", b"5\\", b"%35",
    )  # fmt: skip
    yield from forms("a bad size", Due.CUT, *sized(*bad))
    large = (
        b"00000000000000005", b"10000000000000005", b"FFFFFFFFFFFFFFFFF", b"10000000000000000", b"f" * 32, b"0" * 250 + b"5",
        b"5;" + 253 * b"x", b"5;" + 5000 * b"x",
    )  # fmt: skip
    yield from forms("a size of too many digits, or a line too long", Due.CUT, *sized(*large))
    beyond = (
        b"FFFFFFFFFFFFFFFF", b"8000000000000000", b"7fffffffffffffff", b"100000000", b"80000005", b"100000005", b"FFFFFFFFFFFFFFFB",
        b"ffff",
    )  # fmt: skip
    yield from forms("a size beyond what comes", Due.CUT, *sized(*beyond))


def size_line_ends() -> Iterator[Form]:
    """Size lines that end otherwise than with CR LF, or have a line end inside."""
    ends = (
        b"\n", b"\r", b"\r\r\n", b"\n\r", b"\x0b\r\n", b" \n", b";x\n", b";x\r", b";x\ny\r\n", b";x\ry\r\n", b';x="\r\n"\r\n',
        b';x="\n"\r\n', b";\n\r\n", b";x\r\r\n", b"\x85\r\n",
    )  # fmt: skip
    yield from forms("a size line's end", Due.CUT, *(chunked(b"5" + end + b"hello\r\n0\r\n\r\n") for end in ends))
    # A server that ends the line at a bare LF would see two chunks, and a second request in the first one's data.
    hidden = b"2;\nxx\r\n2d\r\n0\r\n\r\nGET /second HTTP/1.1\r\nHost: y\r\nX: 1234\r\n\r\n0\r\n\r\n"
    other = b"2;\rxx\r\n2d\r\n0\r\n\r\nGET /second HTTP/1.1\r\nHost: y\r\nX: 1234\r\n\r\n0\r\n\r\n"
    yield from forms("a line end hidden in an extension", Due.CUT, chunked(hidden), chunked(other))


def chunk_ends() -> Iterator[Form]:
    """What stands behind a chunk's data."""
    ends = (
        b"", b"\n", b"\r", b"\r\r\n", b"\n\r", b" \r\n", b"x\r\n", b"xx", b"\x00\x00", b"\n\n", b"\r\n\r\n", b"\r\n ", b"\r\n\n",
        b"0\r\n\r\n",
    )  # fmt: skip
    yield from forms("a chunk's end", Due.CUT, *(chunked(b"5\r\nhello" + end + b"0\r\n\r\n") for end in ends))
    lengths = (b"4\r\nhello\r\n0\r\n\r\n", b"6\r\nhello\r\n0\r\n\r\n", b"5\r\nhello\r\n\r\n0\r\n\r\n", b"5\r\nhello\r\n5\r\n0\r\n\r\n")
    yield from forms("a chunk of another length", Due.CUT, *map(chunked, lengths))


def last_chunks() -> Iterator[Form]:
    """Chunks of size 0, and what stands in their place."""
    good = (
        b"0\r\n\r\n", b"00\r\n\r\n", b"0000000000000000\r\n\r\n", b"0;x\r\n\r\n", b"0;x=y\r\n\r\n", b"5\r\nhello\r\n00\r\n\r\n",
        b"1\r\na\r\n1\r\nb\r\n0\r\n\r\n",
    )  # fmt: skip
    yield from forms("a last chunk", Due.ONE, *map(chunked, good))
    bad = (
        b"-0", b"+0", b"0x0", b"0 0", b"0.0", b"o", b"00000000000000000", b" 0", b"0\x00", b"0\n", b"0\r", b"0\n\r", b"zero", b"0x",
        b"0;x\ny",
    )  # fmt: skip
    yield from forms("a bad last chunk", Due.CUT, *(chunked(line + b"\r\n\r\n") for line in bad))
    yield from forms("a last chunk by LF", Due.CUT, chunked(b"0\n\n"), chunked(b"0\n\r\n"), chunked(b"5\r\nhello\r\n0\n\n"))
    yield from forms("a lax last chunk", Due.LAX, chunked(b"0 \r\n\r\n"), chunked(b"5\r\nhello\r\n0;\r\n\r\n"))
    head = b"POST /first HTTP/1.1\r\nHost: x\r\nTransfer-Encoding: chunked\r\n\r\n"
    parts = [CHUNKS[:count] for count in range(len(CHUNKS))]
    yield from forms("a body that ends early", Due.CUT, *(head + part for part in parts))
    # The second request's line is no line of a trailer.
    yield from forms("no empty line", Due.CUT, chunked(b"0\r\n"), chunked(b"5\r\nhello\r\n0\r\n"))


def trailers() -> Iterator[Form]:
    """What stands behind the last chunk."""

    def row(lines: bytes) -> bytes:
        return chunked(b"5\r\nhello\r\n0\r\n" + lines)

    many = b"".join(b"X%d: y\r\n" % number for number in range(100))
    # A trailer of exactly 8192 bytes, and one of a byte more.
    full = b"X: " + (8192 - 7) * b"y" + b"\r\n\r\n"
    good = (
        b"X: y\r\n\r\n", b"X: y\r\nZ: w\r\n\r\n", b"Content-Length: 9\r\n\r\n", b"Transfer-Encoding: chunked\r\n\r\n", b"Host: z\r\n\r\n",
        b"X:\r\n\r\n",
    )  # fmt: skip
    more = (b"Connection: close\r\n\r\n", b"Expect: 100-continue\r\n\r\n", b"X:\t y \t\r\n\r\n", b"X: a:b\r\n\r\n", many + b"\r\n", full)
    yield from forms("a trailer", Due.ONE, *map(row, good + more))
    bad = (
        b"X : y\r\n\r\n", b" X: y\r\n\r\n", b"\tX: y\r\n\r\n", b"X: y\r\n z\r\n\r\n", b"X: y\r\n\tz\r\n\r\n", b"X\r\n\r\n",
        b"X: \x00\r\n\r\n", b"X: a\rb\r\n\r\n", b": y\r\n\r\n",
        b"X y: z\r\n\r\n", b"X\x00: y\r\n\r\n", b"X: y\r\r\n\r\n", b"X: y\r\n\r\r\n", b"\r\r\n", b"X: y\x0b\r\n\r\n", b"X: \x7f\r\n\r\n",
        b"\xa0X: y\r\n\r\n", b'"X": y\r\n\r\n',
        many + b"Z: y\r\n\r\n", full.replace(b"yy", b"yyy", 1), b"X: " + 20000 * b"y" + b"\r\n\r\n",
        b"GET /second HTTP/1.1\r\nHost: y\r\n\r\n", b"0\r\n\r\n", b"5\r\nhello\r\n0\r\n\r\n",
    )  # fmt: skip
    yield from forms("a bad trailer", Due.CUT, *map(row, bad))
    yield from forms("a lax trailer", Due.LAX, row(b"X: y\n\r\n"), row(b"X: y\nZ: w\r\n\r\n"))


def trailers_by_line_feed() -> Iterator[Form]:
    """Trailers with lines that end with LF alone, which the profile passes as they came."""
    ends = (b"\n", b"X: y\n\n", b"X: y\r\n\n", b"X: y\r\nZ: w\n\n")
    head = b"POST /first HTTP/1.1\r\nHost: x\r\nTransfer-Encoding: chunked\r\n\r\n5\r\nhello\r\n0\r\n"
    yield from forms("a trailer by LF", Due.WAITS, *(head + end for end in ends))


def body_forms() -> Iterator[Form]:
    """All forms whose body decides."""
    for family in (sizes, size_line_ends, chunk_ends, last_chunks, trailers):
        yield from family()
