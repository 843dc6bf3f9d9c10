"""What servers get of a request and clients of a response, byte for byte."""

from __future__ import annotations

import threading

from .answers import CONTINUE, own
from .cases import PATIENCE, case, expect_equal, wait_until
from .clients import Client, ask
from .farms import LIMITS, Farm, ends_well, listen, section, server
from .origins import Origin, Talk, response, sends

A = response(b"a")


def lines(*texts: str, body: bytes = b"") -> bytes:
    """A head of these lines, and a body."""
    return "".join(f"{text}\r\n" for text in (*texts, "")).encode("latin-1") + body


# A request of so many lines, the lines that the server gets, the body, and whether the client gets leave to go on.
CHUNKED = "Transfer-Encoding: chunked"
CLOSE = "Connection: close"
SIXTEEN = b"10\r\n0123456789abcdef\r\n0\r\n\r\n"
ODD_CHUNKS = b"5;name=\"a value\"\r\nhello\r\n0A;y\r\n0123456789\r\n000;x\r\nX-T: 1\r\nContent-Length: 9\r\n\r\n"
ROWS: list[tuple[list[str], list[str], bytes, bool]] = [
    # An upload by chunks, with a field that `Connection` names.
    (
        ["POST /up HTTP/1.1", "Host: x", "Connection: keep-alive, X-Foo", "X-Foo: 1", CHUNKED],
        ["POST /up HTTP/1.1", "Host: x", CHUNKED, CLOSE], SIXTEEN, False,
    ),  # fmt: skip
    (["GET /i HTTP/1.0", "X-A: 1"], ["GET /i HTTP/1.0", "X-A: 1", CLOSE], b"", False),
    (["GET / HTTP/1.1"], ["GET / HTTP/1.1", CLOSE], b"", False),
    # `Connection` and what it names, in any case.
    (["GET / HTTP/1.1", "Connection: close", "Close: 1", "X: 2"], ["GET / HTTP/1.1", "X: 2", CLOSE], b"", False),
    (
        ["GET / HTTP/1.1", "Connection:\t x-a , X-B,, keep-alive", "X-A: 1", "x-b: 2", "Keep-Alive: 3", "X-C: 4", "x-A: 5"],
        ["GET / HTTP/1.1", "X-C: 4", CLOSE], b"", False,
    ),  # fmt: skip
    (["GET / HTTP/1.1", "CONNECTION: a", "A: 1", "B: 2", "connection: B"], ["GET / HTTP/1.1", CLOSE], b"", False),
    (
        ["GET / HTTP/1.1", "Connection: Upgrade", "Upgrade: websocket", "TE: trailers"], ["GET / HTTP/1.1", "TE: trailers", CLOSE], b"",
        False,
    ),  # fmt: skip
    (
        ["GET / HTTP/1.1", "Proxy-Connection: keep-alive", "Keep-Alive: 1", "Upgrade: h2c"],
        ["GET / HTTP/1.1", "Proxy-Connection: keep-alive", "Keep-Alive: 1", "Upgrade: h2c", CLOSE], b"", False,
    ),  # fmt: skip
    (["GET / HTTP/1.1", "Connection: x", "XX: 1", "X-: 2"], ["GET / HTTP/1.1", "XX: 1", "X-: 2", CLOSE], b"", False),
    # Blanks round values, values without bytes, bytes that are no ASCII.
    (
        ["GET / HTTP/1.1", "a: \t v w \t ", "B:", "C:v", "D:   ", "E:\t:\t"],
        ["GET / HTTP/1.1", "a: v w", "B: ", "C: v", "D: ", "E: :", CLOSE], b"", False,
    ),  # fmt: skip
    (
        ["GET / HTTP/1.1", "hOsT: x", "X: \x80\xe9\xff", "X: a\tb"], ["GET / HTTP/1.1", "hOsT: x", "X: \x80\xe9\xff", "X: a\tb", CLOSE],
        b"", False,
    ),  # fmt: skip
    # Lengths that are said twice.
    (
        ["POST / HTTP/1.1", "Content-Length: 3", "content-length: 003"],
        ["POST / HTTP/1.1", "Content-Length: 3", "content-length: 003", CLOSE], b"abc", False,
    ),  # fmt: skip
    (
        ["PUT / HTTP/1.0", "Content-Length: 3", "X: 1", "Content-Length: 3"],
        ["PUT / HTTP/1.0", "Content-Length: 3", "X: 1", "Content-Length: 3", CLOSE], b"a\r\n", False,
    ),  # fmt: skip
    (
        ["GET / HTTP/1.1", "Content-Length: 000000000000000002"], ["GET / HTTP/1.1", "Content-Length: 000000000000000002", CLOSE], b"hi",
        False,
    ),  # fmt: skip
    (["POST / HTTP/1.1", "Content-Length: 0"], ["POST / HTTP/1.1", "Content-Length: 0", CLOSE], b"", False),
    # Leave to go on, and `Expect` that asks for none.
    (
        ["POST /e HTTP/1.1", "Host: x", "Expect: 100-continue", "Content-Length: 2"],
        ["POST /e HTTP/1.1", "Host: x", "Content-Length: 2", CLOSE], b"hi", True,
    ),  # fmt: skip
    (["POST /e HTTP/1.1", "expect: 100-Continue", CHUNKED], ["POST /e HTTP/1.1", CHUNKED, CLOSE], b"0\r\n\r\n", True),
    (["POST /e HTTP/1.1", "expect: 100-Continue ", CHUNKED], ["POST /e HTTP/1.1", CHUNKED, CLOSE], SIXTEEN, True),
    (["POST /e HTTP/1.0", "Expect: 100-continue", "Content-Length: 2"], ["POST /e HTTP/1.0", "Content-Length: 2", CLOSE], b"hi", False),
    (["POST /e HTTP/1.1", "Expect: 100-continue", "Content-Length: 0"], ["POST /e HTTP/1.1", "Content-Length: 0", CLOSE], b"", False),
    (["GET /e HTTP/1.1", "Expect: 100-continue"], ["GET /e HTTP/1.1", CLOSE], b"", False),
    (
        ["POST /e HTTP/1.1", "Expect: 100-continue, x", "Expect: y", "Content-Length: 2"],
        ["POST /e HTTP/1.1", "Content-Length: 2", CLOSE], b"hi", False,
    ),  # fmt: skip
    # Chunks with extensions and a trailer, and codings as they came.
    (["POST / HTTP/1.1", "TRANSFER-encoding:  CHUNKED "], ["POST / HTTP/1.1", "TRANSFER-encoding: CHUNKED", CLOSE], SIXTEEN, False),
    (["POST / HTTP/1.1", CHUNKED, "Trailer: X-T"], ["POST / HTTP/1.1", CHUNKED, "Trailer: X-T", CLOSE], ODD_CHUNKS, False),
    # Targets, methods and hosts as they came.
    (["OPTIONS * HTTP/1.1", "Host: a", "Host: b"], ["OPTIONS * HTTP/1.1", "Host: a", "Host: b", CLOSE], b"", False),
    (["GET http://a/b?c#d HTTP/1.1", "Host: e"], ["GET http://a/b?c#d HTTP/1.1", "Host: e", CLOSE], b"", False),
    (["M-SEARCH x HTTP/1.1"], ["M-SEARCH x HTTP/1.1", CLOSE], b"", False),
    (["connect a:1 HTTP/1.1"], ["connect a:1 HTTP/1.1", CLOSE], b"", False),
    (["GET / HTTP/1.1", "X-Forwarded-For: 1.2.3.4"], ["GET / HTTP/1.1", "X-Forwarded-For: 1.2.3.4", CLOSE], b"", False),
]  # fmt: skip

TAGGED: list[tuple[list[str], list[str], bytes, bool]] = [
    (["GET /i HTTP/1.0", "X-A: 1"], ["GET /i HTTP/1.0", "X-A: 1", CLOSE, "X-Forwarded-For: 127.0.0.1"], b"", False),
    (
        ["GET / HTTP/1.1", "X-Forwarded-For: 1.2.3.4", "X: 1"],
        ["GET / HTTP/1.1", "X-Forwarded-For: 1.2.3.4", "X: 1", CLOSE, "X-Forwarded-For: 127.0.0.1"], b"", False,
    ),  # fmt: skip
    (
        ["GET / HTTP/1.1", "Connection: x-forwarded-for", "X-Forwarded-For: 1.2.3.4"],
        ["GET / HTTP/1.1", CLOSE, "X-Forwarded-For: 127.0.0.1"], b"", False,
    ),  # fmt: skip
    (
        ["POST / HTTP/1.1", "Content-Length: 2"], ["POST / HTTP/1.1", "Content-Length: 2", CLOSE, "X-Forwarded-For: 127.0.0.1"], b"hi",
        False,
    ),  # fmt: skip
]  # fmt: skip


def try_rows(port: int, origin: Origin, rows: list[tuple[list[str], list[str], bytes, bool]], tried: int = 0) -> int:
    """Sends each request, and compares what the server got. The answer is how many connections the server had."""
    for sent, due, body, has_leave in rows:
        answer = ask(port, lines(*sent, body=body))
        expect_equal(f"the answer to {sent}", answer, (CONTINUE if has_leave else b"") + A)
        tried += 1
        expect_equal(f"what the server got of {sent}", origin.requests(tried)[-1], lines(*due, body=body))
    return tried


@case
def the_server_gets_each_head_in_one_spelling_and_each_body_as_it_came(farm: Farm) -> None:
    origin, port = farm.origin(), farm.port()
    balancer = farm.start(listen(port, *LIMITS, server("a", origin)))
    try_rows(port, origin, ROWS)
    ends_well(balancer)


@case
def the_server_gets_the_clients_address_where_frontend_or_backend_say_so(farm: Farm) -> None:
    origin, port, other = farm.origin(), farm.port(), farm.port()
    front = section("frontend f", f"bind 127.0.0.1:{other}", "option forwardfor", "default_backend plain")
    back = section("backend plain", server("a", origin))
    balancer = farm.start(listen(port, *LIMITS, "option forwardfor", server("a", origin)) + front + back)
    tried = try_rows(port, origin, TAGGED)
    try_rows(other, origin, TAGGED, tried)
    ends_well(balancer, "web", "plain")


@case
def requests_that_come_in_pieces_are_forwarded_the_same(farm: Farm) -> None:
    origin, port = farm.origin(), farm.port()
    balancer = farm.start(listen(port, *LIMITS, server("a", origin)))
    sent, due, body, _ = ROWS[0]
    data = lines(*sent, body=body)
    # Cut between the digits of the size, at each line end, and at each byte.
    cuts = [[len(data) - len(body) + 1], [len(data) - len(body)], [data.index(b"\r\n") + 1], list(range(1, len(data)))]
    for number, places in enumerate(cuts):
        with Client(port) as client:
            for start, end in zip([0, *places], [*places, len(data)]):
                client.send(data[start:end])
            expect_equal("the answer", client.read_to_end(), A)
        expect_equal("what the server got", origin.requests(number + 1)[-1], lines(*due, body=body))
    ends_well(balancer)


@case
def empty_lines_before_a_head_and_line_ends_without_a_return_are_mended(farm: Farm) -> None:
    origin, port = farm.origin(), farm.port()
    balancer = farm.start(listen(port, *LIMITS, server("a", origin)))
    due = lines("GET / HTTP/1.1", "Host: x", CLOSE)
    for number, data in enumerate((
        b"\r\n\r\nGET / HTTP/1.1\nHost: x\n\n", b"\n\nGET / HTTP/1.1\r\nHost: x\n\r\n", b"\nGET / HTTP/1.1\nHost:x\r\n\n"
    )):
        expect_equal("the answer", ask(port, data), A)
        expect_equal("what the server got", origin.requests(number + 1)[-1], due)
    ends_well(balancer)


def padded(size: int, before: bytes = b"") -> bytes:
    """A head of so many bytes, with these before it."""
    head = before + b"GET / HTTP/1.1\r\nX: "
    return head + (size - len(head) - 4) * b"x" + b"\r\n\r\n"


def many_fields(count: int) -> bytes:
    return lines("GET / HTTP/1.1", *(f"X{number}: y" for number in range(count)))


@case
def a_head_has_at_most_16384_bytes_and_100_fields(farm: Farm) -> None:
    origin, port = farm.origin(), farm.port()
    balancer = farm.start(listen(port, *LIMITS, server("a", origin)))
    good = [padded(16384), padded(16384, b"\r\n"), many_fields(100), lines("GET / HTTP/1.1", *["Connection: x"] * 99, "Y: 1")]
    for data in good:
        expect_equal(f"the answer to {len(data)} bytes", ask(port, data), A)
    expect_equal("a long head", origin.requests(4)[0], padded(16384)[:-2] + b"Connection: close\r\n\r\n")
    bad = [
        padded(16385), padded(16385, b"\r\n"), padded(20000), many_fields(101), many_fields(500),
        lines("GET / HTTP/1.1", *["Connection: x"] * 100, "Y: 1"),
    ]  # fmt: skip
    bad += [b"\r\n" * 10000, b"GET /" + 20000 * b"x", b"x" * 16384]
    for data in bad:
        expect_equal(f"the answer to {len(data)} bytes", ask(port, data), own(400))
    origin.requests(4)
    ends_well(balancer)


RESPONSES = [
    b"x", b"\x00\xff not http at all", b"HTTP/1.1 200 OK\r\nConnection: keep-alive\r\nContent-Length: 1000\r\n\r\nshort",
    b"HTTP/1.0 200 OK\r\n\r\n" + bytes(range(256)),
    b"HTTP/1.1 100 Continue\r\n\r\nHTTP/1.1 204 No Content\r\n\r\n",
    b"HTTP/1.1 200 OK\r\nTransfer-Encoding: chunked\r\n\r\n5\r\nhello\r\n0\r\n\r\n",
    b"HTTP/1.1 500 Oops\nbare: lf\n\n", b"HTTP/1.1 200 OK\r\nServer: a\r\nDate: today\r\n\r\n" + bytes(5 << 20),
]  # fmt: skip


@case
def a_response_goes_back_byte_for_byte_whatever_it_is(farm: Farm) -> None:
    ports = [farm.port() for _ in RESPONSES]
    names = [f"w{place}" for place in range(len(RESPONSES))]
    sections = [
        listen(port, *LIMITS, server("a", farm.origin(sends(data))), name=name) for port, name, data in zip(ports, names, RESPONSES)
    ]
    balancer = farm.start("".join(sections))
    for port, data in zip(ports, RESPONSES):
        seen = ask(port, lines("GET / HTTP/1.1"))
        expect_equal(f"{len(data)} bytes that begin with {data[:30]!r}", (len(seen), seen == data), (len(data), True))
    ends_well(balancer, *names)


@case
def large_uploads_come_whole(farm: Farm) -> None:
    origin, port = farm.origin(), farm.port()
    balancer = farm.start(listen(port, *LIMITS, server("a", origin)))
    content = bytes(number * 7 % 251 for number in range(1 << 20))
    pieces = [content[at : at + size] for at, size in ((0, 1), (1, 100), (101, 65536), (65637, 16384), (82021, len(content)))]
    chunked = b"".join(b"%x\r\n%b\r\n" % (len(piece), piece) for piece in pieces) + b"0\r\n\r\n"
    small = b"".join(b"1\r\n%c\r\n" % byte for byte in content[:5000]) + b"0\r\n\r\n"
    rows = [("Content-Length: %d" % len(content), content), (CHUNKED, chunked), (CHUNKED, small)]
    for number, (field, body) in enumerate(rows):
        expect_equal("the answer", ask(port, lines("POST / HTTP/1.1", field, body=body)), A)
        received = origin.requests(number + 1)[-1]
        due = lines("POST / HTTP/1.1", field, CLOSE, body=body)
        expect_equal(f"what the server got of {len(body)} bytes", (len(received), received == due), (len(due), True))
    ends_well(balancer)


@case
def each_piece_of_a_response_goes_out_before_the_next_comes(farm: Farm) -> None:
    pieces = [b"HTTP/1.1 200 OK\r\n", b"Content-Type: text/event-stream\r\n\r\n", b"data: 1\n\n", b"d", b"ata: 2\n\n"]
    turns = [threading.Event() for _ in pieces]

    def streams(talk: Talk) -> None:
        talk.read_request()
        for piece, turn in zip(pieces, turns):
            talk.send(piece)
            turn.wait(PATIENCE)
        talk.end()

    port = farm.port()
    balancer = farm.start(listen(port, *LIMITS, server("a", farm.origin(streams))))
    with Client(port) as client:
        client.send(lines("GET / HTTP/1.1"))
        for piece, turn in zip(pieces, turns):
            expect_equal("the next piece", client.read_bytes(len(piece)), piece)
            turn.set()
        expect_equal("the end", client.read_to_end(), b"")
    ends_well(balancer)


@case
def each_piece_of_a_body_goes_out_before_the_next_comes(farm: Farm) -> None:
    origin, port = farm.origin(), farm.port()
    balancer = farm.start(listen(port, *LIMITS, server("a", origin)))
    chunks = [b"5\r\nhello\r\n", b"1\r\n,\r\n", b"6\r\n world\r\n", b"0\r\n\r\n"]
    rows = [("Content-Length: 12", [b"hello", b",", b" world"]), (CHUNKED, chunks)]
    for number, (field, pieces) in enumerate(rows):
        with Client(port) as client:
            client.send(lines("POST / HTTP/1.1", field))
            due = lines("POST / HTTP/1.1", field, CLOSE)
            for piece in pieces:
                client.send(piece)
                due += piece
                wait_until(f"the server has {piece!r}", lambda: has(origin, number, due))
            expect_equal("the answer", client.read_to_end(), A)
    ends_well(balancer)


def has(origin: Origin, number: int, data: bytes) -> bool:
    """Whether so many bytes came over this connection of the server, and they are these."""
    return len(origin.talks) > number and origin.talks[number].received == data
