"""Forms of requests by which a client may try to smuggle a second one past the balancer, in families. Each has the verdict that is due to
it by the forwarding profile of docs/CONFIGURATION.md; the forms whose head is at fault are here, those of bodies in `chunk_forms`."""

from __future__ import annotations

from collections.abc import Iterator
from dataclasses import dataclass
from enum import Enum, auto


class Due(Enum):
    """What is due to a form."""

    # 400, and nobody is dialled.
    REFUSED = auto()
    # Servers of both kinds see the same one request.
    ONE = auto()
    # 400 behind the dial, and no server sees a whole request.
    CUT = auto()
    # Sent on as it came, by the profile. A strict server refuses it, a lenient one sees one request.
    LAX = auto()
    # Sent on as it came, by the profile. A strict server waits for more, a lenient one sees one request.
    WAITS = auto()


@dataclass(frozen=True)
class Form:
    """What a client sends, and what is due to it."""

    name: str
    data: bytes
    due: Due


SECOND = b"GET /second HTTP/1.1\r\nHost: y\r\n\r\n"
CHUNKS = b"5\r\nhello\r\n0\r\n\r\n"
CONTROLS = [bytes([byte]) for byte in (*range(32), 127)]


def post(*lines: bytes, body: bytes = b"", first: bytes = b"POST /first HTTP/1.1") -> bytes:
    """A request with these lines, its body, and another request behind it."""
    return b"\r\n".join([first, b"Host: x", *lines, b"", b""]) + body + SECOND


def forms(family: str, due: Due, *rows: bytes) -> list[Form]:
    return [Form(f"{family} {place}", data, due) for place, data in enumerate(rows)]


def each_length(*values: bytes) -> list[bytes]:
    return [post(b"Content-Length: " + value, body=b"hello") for value in values]


def lengths() -> Iterator[Form]:
    """One `Content-Length`."""
    good = (b"5", b"05", b"000000000000000005", b"  5", b"5  ", b"\t5\t", b"0", b"00")
    yield from forms("a length", Due.ONE, *each_length(*good))
    spelled = (
        b"", b"+5", b"-5", b"+0", b"-0", b"5,5", b"5, 5", b"5,6", b"5;5", b"5 5", b"5\t5", b"0x5", b"5x", b"x5", b"5.0", b"5.", b".5",
        b"5e0",
    )  # fmt: skip
    yield from forms("a bad length", Due.REFUSED, *each_length(*spelled))
    odd = (
        b"0b101", b'"5"', b"'5'", b"(5)", b"5,", b",5", b"5 ,", b"5_0", b"NaN", b"five", b"5%", b"#5", b"5\xa0", b"\xa05",
        "\uff15".encode(), "\u0665".encode(),
    )  # fmt: skip
    yield from forms("an odd length", Due.REFUSED, *each_length(*odd))
    large = (b"0000000000000000005", b"1000000000000000000", b"18446744073709551621", b"18446744073709551616", b"9" * 1000)
    yield from forms("a length of too many digits", Due.REFUSED, *each_length(*large))
    # Lengths within 18 digits are lengths, and what the client sends is too short for them.
    yield from forms("a length beyond what comes", Due.CUT, *each_length(b"4294967301", b"2147483653", b"999999999999999999", b"300"))


def repeated_lengths() -> Iterator[Form]:
    """Several `Content-Length`."""

    def row(*values: bytes) -> bytes:
        return post(*(b"Content-Length: " + value for value in values), body=b"hello")

    yield from forms("equal lengths", Due.ONE, row(b"5", b"5"), row(b"5", b"05"), row(b"005", b"5", b"5"), row(b"0", b"000"))
    differ = [
        (b"5", b"6"), (b"6", b"5"), (b"0", b"5"), (b"5", b"0"), (b"5", b"5", b"6"), (b"5", b"50"), (b"50", b"5"), (b"5", b"4294967301")
    ]  # fmt: skip
    yield from forms("lengths that differ", Due.REFUSED, *(row(*values) for values in differ))
    odd = [(b"5", b""), (b"", b"5"), (b"5", b"x"), (b"5", b"+5"), (b"5", b"5,5"), (b"5", b"5 5"), (b"5", b"0x5"), (b"5", b"-5")]
    yield from forms("a length beside a bad one", Due.REFUSED, *(row(*values) for values in odd))
    apart = post(b"Content-Length: 5", b"X: y", b"CONTENT-LENGTH: 6", body=b"hello")
    cases = post(b"content-length: 6", b"Content-Length: 5", body=b"hello")
    yield from forms("lengths under other cases", Due.REFUSED, apart, cases)
    lines = (b"Content_Length: 6", b"X-Content-Length: 6", b"Content-Length-: 6", b"ContentLength: 6", b"Content.Length: 6")
    yield from forms("a length beside a name like it", Due.ONE, *(post(b"Content-Length: 5", line, body=b"hello") for line in lines))


BAD_CODINGS = (
    b"", b"chunked, chunked", b"chunked,chunked", b"identity", b"xchunked", b"chunkedx", b"x-chunked", b"chunked;q=1", b"chunked; x",
    b"chunked ;x",
    b"gzip, chunked", b"chunked, gzip", b"gzip", b"chunked,", b",chunked", b", chunked", b"chunked, identity", b"identity, chunked",
    b'"chunked"',
    b"'chunked'", b"chun ked", b"chun\tked", b"chunked chunked", b"chunk", b"chunke", b"chunkedchunked", b"(chunked)", b"chunked()",
    b"c\xadhunked",
    b"\xa0chunked", b"chunked\xa0", "\uff43hunked".encode(), "chun\u212aed".encode(), b"chunked\\", b"\\chunked", b"chunked:", b"x, y",
    b"trailers", b"cow",
)  # fmt: skip


def codings() -> Iterator[Form]:
    """One `Transfer-Encoding`, in front of a chunked body."""

    def row(value: bytes) -> bytes:
        return post(b"Transfer-Encoding: " + value, body=CHUNKS)

    good = (b"chunked", b"Chunked", b"CHUNKED", b"cHuNkEd", b"  chunked", b"chunked  ", b"\tchunked", b"chunked\t", b" \t chunked \t ")
    yield from forms("a coding", Due.ONE, *map(row, good))
    yield from forms("a bad coding", Due.REFUSED, *map(row, BAD_CODINGS))


def repeated_codings() -> Iterator[Form]:
    """Several `Transfer-Encoding`, and one beside a length."""
    pairs = [
        (b"chunked", b"chunked"), (b"chunked", b"identity"), (b"identity", b"chunked"), (b"", b"chunked"), (b"chunked", b""),
        (b"gzip", b"chunked"),
    ]  # fmt: skip
    pairs += [(b"chunked", b"gzip"), (b"chunked", b"x"), (b"Chunked", b"CHUNKED")]
    rows = [post(b"Transfer-Encoding: " + one, b"transfer-encoding: " + other, body=CHUNKS) for one, other in pairs]
    yield from forms("two codings", Due.REFUSED, *rows)
    both = []
    for length in (b"5", b"0", b"15", b"49"):
        for coding in (b"chunked", b"Chunked", b"identity", b"gzip, chunked", b"xchunked", b""):
            lines = (b"Content-Length: " + length, b"Transfer-Encoding: " + coding)
            both += [post(*lines, body=CHUNKS), post(*reversed(lines), body=CHUNKS)]
    yield from forms("a length and a coding", Due.REFUSED, *both)


def spoilt_names() -> Iterator[Form]:
    """Lines that some server may take for a `Transfer-Encoding`, beside a length."""

    def row(line: bytes) -> bytes:
        return post(b"Content-Length: 5", line, body=b"hello")

    bad = (
        b"Transfer-Encoding : chunked", b"Transfer-Encoding\t: chunked", b" Transfer-Encoding: chunked", b"\tTransfer-Encoding: chunked",
        b"Transfer-Encoding\x00: chunked", b"\x00Transfer-Encoding: chunked", b"Transfer\x00-Encoding: chunked",
        b"Transfer-Encoding\x0b: chunked",
        b"Transfer-Encoding\r: chunked", b"Transfer-Encoding:\r chunked", b"Transfer-Encoding:\r\n chunked",
        b"Transfer-Encoding:\n\tchunked",
        b"Transfer-Encoding", b"Transfer-Encoding chunked", b"Transfer Encoding: chunked", b": chunked",
        b"\xa0Transfer-Encoding: chunked",
        "Tran\u017ffer-Encoding: chunked".encode(), b"Transfer-Encoding: chunked\r", b"X: y\rTransfer-Encoding: chunked",
        b"X\r\nTransfer-Encoding: chunked",
        b"X: y\r\rTransfer-Encoding: chunked", b"X: y\n\rTransfer-Encoding: chunked", b"X: y\nTransfer-Encoding: chunked",
        b'"Transfer-Encoding": chunked',
        b"Transfer-Encoding:chunked", b"(Transfer-Encoding): chunked", b"Transfer-Encoding;: chunked", b"Transfer-Encoding=: chunked",
        b"[x]: chunked",
    )  # fmt: skip
    yield from forms("a spoilt name", Due.REFUSED, *map(row, bad))
    others = (
        b"Transfer_Encoding: chunked", b"X-Transfer-Encoding: chunked", b"TransferEncoding: chunked", b"TE: chunked",
        b"Transfer-Encoding2: chunked",
    )  # fmt: skip
    yield from forms("another name", Due.ONE, *map(row, others))
    # The head ends at the first empty line, whatever it ends with.
    yield from forms(
        "an early end", Due.ONE, row(b"X: y\n\nTransfer-Encoding: chunked"), row(b"X: y\r\n\nTransfer-Encoding: chunked"), row(b"X: y\n")
    )


def controls() -> Iterator[Form]:
    """Each control byte in each part of a head."""
    for byte in CONTROLS:
        value = Due.ONE if byte == b"\t" else Due.REFUSED
        yield Form(f"{byte!r} in a value", post(b"X: a" + byte + b"b"), value)
        yield Form(f"{byte!r} in a name", post(b"X" + byte + b"Y: a"), Due.REFUSED)
        yield Form(f"{byte!r} in a target", post(first=b"GET /a" + byte + b"b HTTP/1.1"), Due.REFUSED)
        yield Form(f"{byte!r} in a method", post(first=b"G" + byte + b"T / HTTP/1.1"), Due.REFUSED)


def blanks_and_folds() -> Iterator[Form]:
    """Blanks before colons, and lines that go on in the next one."""
    for name in (b"Content-Length", b"Transfer-Encoding", b"Host", b"X"):
        rows = [post(name + blank + b": 5", body=b"hello") for blank in (b" ", b"\t", b"  ", b" \t")]
        yield from forms(f"a blank behind {name.decode()}", Due.REFUSED, *rows)
    for blank in (b" ", b"\t"):
        for end in (b"\r\n", b"\n"):
            fold = end + blank
            lines = (
                b"X: a" + fold + b"b", b"Content-Length:" + fold + b"5", b"Content-Length: 5" + fold + b"6",
                b"Transfer-Encoding:" + fold + b"chunked",
            )  # fmt: skip
            more = (b"Transfer-Encoding: chunked" + fold + b", identity", b"X: a" + fold, b"X: a" + fold + b"Content-Length: 5")
            yield from forms(f"a fold by {fold!r}", Due.REFUSED, *(post(line, body=b"hello") for line in lines + more))
            yield Form(f"a fold by {fold!r} at the begin", b"POST / HTTP/1.1" + fold + b"Host: x\r\n\r\n" + SECOND, Due.REFUSED)


def line_ends() -> Iterator[Form]:
    """Each line end of a head in each other spelling."""
    lines = [b"POST /first HTTP/1.1", b"Host: x", b"Content-Length: 5", b"X: y", b""]
    for spelling in (b"\n", b"\r", b"\r\r\n", b"\n\r"):
        for place in range(len(lines)):
            ends = [spelling if place == it else b"\r\n" for it in range(len(lines))]
            data = b"".join(line + end for line, end in zip(lines, ends)) + b"hello" + SECOND
            # An empty line may end with LF alone; the CR behind it is the body's.
            good = spelling == b"\n" or (spelling == b"\n\r" and place == len(lines) - 1)
            yield Form(f"line end {place} by {spelling!r}", data, Due.ONE if good else Due.REFUSED)


def request_lines() -> Iterator[Form]:
    """Targets, methods and versions."""
    good = (
        b"http://other/", b"http://x/second", b"*", b"//x/y", b"/a?b=c", b"/a?b=/second", b"/%00", b"/%0d%0aX:%20y", b"x",
        b"http://u:p@h:1/", b"/..;/", b"h:1",
    )  # fmt: skip
    yield from forms("a target", Due.ONE, *(post(first=b"POST " + target + b" HTTP/1.1") for target in good))
    bad = (b"/a b", b"http://a b/", b"", b" /", b"/ ")
    yield from forms("a bad target", Due.REFUSED, *(post(first=b"POST " + target + b" HTTP/1.1") for target in bad))
    odd = (b"/a\\b", b"/<x>", b'/"x"', b"/{x}", b"/a|b", b"/^", b"/`", b"/#x")
    yield from forms("an odd target", Due.ONE, *(post(first=b"POST " + target + b" HTTP/1.1") for target in odd))
    # Targets are UTF-8 here, and ASCII in RFC 9112.
    yield from forms("a target in UTF-8", Due.LAX, post(first=b"POST /\xc3\xa9 HTTP/1.1"))
    yield from forms("a target in no text", Due.REFUSED, post(first=b"POST /\xff HTTP/1.1"), post(first=b"POST /\xc3 HTTP/1.1"))
    methods = (
        b"CONNECT x:1", b"CONNECT /", b"CONNECT http://x/", b"GE(T /", b" /", b"POST, /", b"P\xc3\xb6ST /", b"GET: /", b"POST\x00 /",
        b'"GET" /', b"GET/ /",
    )  # fmt: skip
    yield from forms("a bad method", Due.REFUSED, *(post(first=method + b" HTTP/1.1") for method in methods))
    words = (b"connect /", b"CONNECTX /", b"M-SEARCH /", b"get /", b"OPTIONS *", b"TRACE /", b"PRI /", b"!#$%&'*+-.^_`|~ /")
    yield from forms("a method", Due.ONE, *(post(first=method + b" HTTP/1.1") for method in words))


def versions() -> Iterator[Form]:
    """What stands behind a target."""
    bad = (
        b"", b" ", b" HTTP/0.9", b" HTTP/1.2", b" HTTP/2.0", b" HTTP/2", b" HTTP/1", b" HTTP/1.", b" HTTP/1.10", b" HTTP/01.1",
        b" http/1.1", b" HTTP/1.1 ",
        b"  HTTP/1.1", b"\tHTTP/1.1", b" HTTP/1.1x", b" HTTP/ 1.1", b" HTTPS/1.1", b" HTTP/1,1", b" HTTP/+1.1", b" ICY/1.1",
        b" HTTP/1.1\t", b" HTTP/1.1 x",
        b" HTTP/1.1\x00", b" HTTP\\1.1", b" HTTP/1.\xb9",
    )  # fmt: skip
    yield from forms("a bad version", Due.REFUSED, *(post(first=b"GET /" + version) for version in bad))
    old = b"POST /first HTTP/1.0"
    coded = [post(b"Transfer-Encoding: chunked", body=CHUNKS, first=old), post(b"Transfer-Encoding: identity", body=b"hello", first=old)]
    coded += [post(b"Content-Length: 5", b"Transfer-Encoding: chunked", body=b"hello", first=old), post(b"Transfer-Encoding:", first=old)]
    yield from forms("a coding in HTTP/1.0", Due.REFUSED, *coded)
    plain = [
        post(b"Content-Length: 5", body=b"hello", first=old), post(first=old),
        post(b"Connection: keep-alive", b"Content-Length: 0", first=old),
    ]  # fmt: skip
    yield from forms("HTTP/1.0", Due.ONE, *plain, post(b"Expect: 100-continue", b"Content-Length: 5", body=b"hello", first=old))


def garbage_before() -> Iterator[Form]:
    """What stands before the request line."""
    whole = post(b"Content-Length: 5", body=b"hello")
    yield from forms("empty lines before", Due.ONE, *(it + whole for it in (b"\r\n", b"\r\n\r\n", b"\n", b"\n\r\n", b"\r\n\n")))
    bad = (
        b" ", b"\t", b"\x00", b"\r", b"\x0b", b"\r\n ", b"x\r\n", b"hello\r\n", b"\xef\xbb\xbf", b"\x16\x03\x01\x02\x00\x01",
        b"0\r\n\r\n", b"5\r\nhello\r\n",
        b"PRI * HTTP/2.0\r\n\r\nSM\r\n\r\n", b"HTTP/1.1 200 OK\r\n\r\n", b"PROXY TCP4 1.2.3.4 1.2.3.4 1 2\r\n", b"GET /\r\n", b": x\r\n",
        b"\r\r\n", b"\x80",
    )  # fmt: skip
    yield from forms("garbage before", Due.REFUSED, *(it + whole for it in bad))


def pipelined() -> Iterator[Form]:
    """A second request behind each kind of body, and other things there."""
    rows = [
        post(), post(first=b"GET /first HTTP/1.1"), post(first=b"HEAD /first HTTP/1.1"), post(b"Content-Length: 0"),
        post(b"Content-Length: 5", body=b"hello"),
    ]  # fmt: skip
    rows += [post(b"Transfer-Encoding: chunked", body=CHUNKS), post(b"Content-Length: 5", body=b"hello", first=b"GET /first HTTP/1.1")]
    rows += [
        post(b"Transfer-Encoding: chunked", body=CHUNKS, first=b"DELETE /first HTTP/1.1"), post() + 20 * SECOND, post()[:-10],
        post() + bytes(1000),
    ]  # fmt: skip
    rows += [post(body=b"hello"), post(b"Content-Length: %d" % len(SECOND), body=SECOND), post(b"Content-Length: 6", body=b"0\r\n\r\nG")]
    rows += [
        post(b"Expect: 100-continue", b"Content-Length: 5", body=b"hello"),
        post(b"Expect: 100-continue", b"Transfer-Encoding: chunked", body=CHUNKS),
    ]  # fmt: skip
    rows += [post(b"Expect: x", b"Content-Length: 5", body=b"hello"), post(b"Expect: 100-continue")]
    upgrade = post(b"Connection: Upgrade, HTTP2-Settings", b"Upgrade: h2c", b"HTTP2-Settings: AAMAAABkAARAAAAAAAIAAAAA")
    rows += [
        upgrade, post(b"Upgrade: websocket", b"Connection: upgrade"), post(b"TE: trailers"), post(b"Host: y"), post(b"Host: x y"),
        post(b"Host:"),
    ]  # fmt: skip
    rows += [
        post(b"Trailer: X", b"Transfer-Encoding: chunked", body=CHUNKS), b"GET /first HTTP/1.1\r\n\r\n" + SECOND,
        b"GET / HTTP/1.0\r\n\r\n" + SECOND,
    ]  # fmt: skip
    yield from forms("one behind another", Due.ONE, *rows)


def named_by_connection() -> Iterator[Form]:
    """`Connection` that names fields."""
    framing = (
        b"Host", b"host", b"HOST", b"close, Host", b"x,host", b"Content-Length", b"content-length, close", b"\tContent-Length\t",
        b"Transfer-Encoding",
        b"keep-alive, Transfer-Encoding", b"x , transfer-encoding ,y", b",,Content-Length", b"Content-Length,Content-Length",
        b"close,\tHost", b"host,",
    )  # fmt: skip
    rows = [post(b"Connection: " + value, b"Content-Length: 5", body=b"hello") for value in framing]
    rows += [post(b"Connection: close", b"connection: Content-Length", b"Content-Length: 5", body=b"hello")]
    rows += [post(b"Connection: Transfer-Encoding", b"Transfer-Encoding: chunked", body=CHUNKS), post(b"CONNECTION:transfer-encoding")]
    yield from forms("framing named by Connection", Due.REFUSED, *rows)
    others = (
        b"close", b"keep-alive", b"X", b"Expect", b"Connection", b"", b",", b" , ,", b"Content-Length2", b"Cookie", b"Host;q=1",
        b"Content_Length", b"TE", b"Upgrade",
    )  # fmt: skip
    yield from forms(
        "others named by Connection", Due.ONE,
        *(post(b"Connection: " + it, b"X: y", b"Content-Length: 5", body=b"hello") for it in others),
    )  # fmt: skip


def head_forms() -> Iterator[Form]:
    """All forms whose head decides."""
    for family in (lengths, repeated_lengths, codings, repeated_codings, spoilt_names, controls, blanks_and_folds, line_ends):
        yield from family()
    for family in (request_lines, versions, garbage_before, pipelined, named_by_connection):
        yield from family()
