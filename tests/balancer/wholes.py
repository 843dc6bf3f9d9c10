"""Whole requests as bytes: what the server gets of each, whether it comes at once, byte by byte or in pieces."""

from __future__ import annotations

from .answers import CONTINUE, own
from .cases import case, expect, expect_equal
from .clients import Client, ask, at_once
from .farms import LIMITS, Farm, ends_well, listen, server
from .origins import Origin, Talk, response

A = response(b"a")
CLOSE = b"Connection: close\r\n"
PUT, POST = b"PUT /p HTTP/1.1\r\n", b"POST /p HTTP/1.1\r\n"
CHUNKED = b"Transfer-Encoding: chunked\r\n"
SIXTEEN = b"10\r\n0123456789abcdef\r\n0\r\n\r\n"
ADMIN = b"GET /admin HTTP/1.1\r\n\r\n"
LONG = b"GET / HTTP/1.1\r\nXxx: "

# What a client sends, and what the server gets; nothing where the head is refused.
REQUESTS = [
    (
        b"POST /up HTTP/1.1\r\nHost: x\r\nConnection: keep-alive, X-Foo\r\nX-Foo: 1\r\n" + CHUNKED + b"\r\n" + SIXTEEN,
        b"POST /up HTTP/1.1\r\nHost: x\r\n" + CHUNKED + CLOSE + b"\r\n" + SIXTEEN,
    ),
    (POST + b"Content-Length: 3\r\n" + CHUNKED + b"\r\n0\r\n\r\n", b""),
    (b"GET / HTTP/1.1\r\nConnection: host\r\nHost: x\r\n\r\n", b""),
    # Line ends and blanks have one spelling in a forwarded head; those of a trailer stay.
    (b"\r\nPUT /p HTTP/1.0\ncontent-length:\t002 \n\nhi", b"PUT /p HTTP/1.0\r\ncontent-length: 002\r\n" + CLOSE + b"\r\nhi"),
    (
        b"PUT /p HTTP/1.1\nTransfer-Encoding: Chunked\n\n1;a\r\nx\r\n0\r\nX:1\n\n",
        PUT + b"Transfer-Encoding: Chunked\r\n" + CLOSE + b"\r\n1;a\r\nx\r\n0\r\nX:1\n\n",
    ),
    # What stands behind a request is another one, which no server gets.
    (
        POST + b"Content-Length: 5\r\n\r\n0\r\n\r\n" + ADMIN, POST + b"Content-Length: 5\r\n" + CLOSE + b"\r\n0\r\n\r\n"
    ),
    (POST + CHUNKED + b"\r\n0\r\n\r\n" + ADMIN, POST + CHUNKED + CLOSE + b"\r\n0\r\n\r\n"),
    # The largest head, which is 19 bytes longer when it goes on, and a larger one.
    (LONG + 16359 * b"x" + b"\r\n\r\n", LONG + 16359 * b"x" + b"\r\n" + CLOSE + b"\r\n"),
    (LONG + 16360 * b"x" + b"\r\n\r\n", b""),
]  # fmt: skip

# The same where the client is told to go on.
EXPECTING = [
    (
        b"POST /e HTTP/1.1\r\nHost: x\r\nExpect: 100-continue\r\nContent-Length: 2\r\n\r\nhi",
        b"POST /e HTTP/1.1\r\nHost: x\r\nContent-Length: 2\r\n" + CLOSE + b"\r\nhi",
    ),
]  # fmt: skip

# The same where the client's address is added.
TAGGED = [
    (b"GET /i HTTP/1.0\r\nX-A: 1\r\n\r\n", b"GET /i HTTP/1.0\r\nX-A: 1\r\n" + CLOSE + b"X-Forwarded-For: 127.0.0.1\r\n\r\n"),
    (
        b"GET / HTTP/1.1\r\nConnection: close\r\nClose: 1\r\n\r\n3\r\nabc\r\n0\r\n\r\n",
        b"GET / HTTP/1.1\r\n" + CLOSE + b"X-Forwarded-For: 127.0.0.1\r\n\r\n",
    ),
]  # fmt: skip

# A body is the front, so many times the middle, and the end; with one more middle it is beyond a limit. A size line may have 256 bytes,
# its CR LF among them, and 16 digits; a trailer 8192 bytes, its empty line among them, and 100 fields.
BODIES = [
    (b"0;", b"x", 252, b"\r\n\r\n"),
    (b"2;", b"x", 252, b"\r\nhi\r\n0\r\n\r\n"),
    (b"2\t", b" ", 252, b"\r\nhi\r\n0\r\n\r\n"),
    (b"", b"0", 15, b"2\r\nhi\r\n0\r\n\r\n"),
    (b"0\r\nX:", b"x", 8186, b"\r\n\r\n"),
    (b"2\r\nhi\r\n0\r\n", b"Xxxxx: 1\r\n", 100, b"\r\n"),
    (b"0\r\n", b"X:\n", 100, b"\n"),
    (b"0\r\nX: ", b"1\r\nX: ", 99, b"\r\n\r\n"),
]


# A body ends inside a line that could end at the limit, or only beyond it: a size line with its CR LF, a field with its line feed and that
# of the empty line, and a field that is one too many. The last word says whether more bytes can still make it a body.
ENDS = [
    (b"0;", b"x", 252, b"", True),
    (b"0;", b"x", 252, b"\r", True),
    (b"0;", b"x", 253, b"", False),
    (b"0\r\nX:", b"x", 8188, b"", True),
    (b"0\r\nX:", b"x", 8189, b"", False),
    (b"0\r\n", b"x", 8189, b"", True),
    (b"0\r\n", b"x", 8190, b"", False),
    (b"0\r\n", b"X:\n", 100, b"\r", True),
    (b"0\r\n", b"X:\n", 100, b"Y", False),
]


class Counting:
    """A server that answers when it has got so many bytes, and keeps what comes behind them."""

    def __init__(self) -> None:
        self.awaited = 0

    def __call__(self, talk: Talk) -> None:
        while len(talk.received) < self.awaited:
            if not talk.read():
                return
        talk.send(A)
        talk.end()


def asked(port: int, data: bytes, sizes: tuple[int, ...]) -> bytes:
    """The answer to a request that is sent in pieces of these sizes, and then at once; the size 1 alone is that of all pieces."""
    places = list(range(len(data))) if sizes == (1,) else [sum(sizes[:count]) for count in range(len(sizes) + 1)]
    with Client(port) as client:
        for start, end in zip(places, [*places[1:], len(data)]):
            client.send_what_is_taken(data[start:end])
        return client.read_to_end()


def try_requests(port: int, origin: Origin, server_side: Counting, rows: list[tuple[bytes, bytes]], answer: bytes = A) -> None:
    """Sends each request in each way, and compares what client and server get."""
    for sent, due in rows:
        for sizes in ((), (1,), (40, 7), (4000, 4000, 4000, 4000)):
            server_side.awaited = len(due)
            before = len(origin.talks)
            told = f"of {sent[:100]!r} in pieces of {sizes}"
            expect_equal(f"the answer {told}", asked(port, sent, sizes), answer if due else own(400))
            received = origin.requests(before + bool(due))
            expect_equal(f"what the server got {told}", received[before:], [due] if due else [])


@case
def a_server_gets_the_same_request_in_whatever_pieces_it_comes(farm: Farm) -> None:
    counting = Counting()
    origin, port = farm.origin(counting), farm.port()
    balancer = farm.start(listen(port, *LIMITS, server("a", origin)))
    try_requests(port, origin, counting, REQUESTS)
    try_requests(port, origin, counting, EXPECTING, CONTINUE + A)
    ends_well(balancer)


@case
def a_server_gets_the_clients_address_in_whatever_pieces_a_request_comes(farm: Farm) -> None:
    counting = Counting()
    origin, port = farm.origin(counting), farm.port()
    balancer = farm.start(listen(port, *LIMITS, "option forwardfor", server("a", origin)))
    try_requests(port, origin, counting, TAGGED)
    ends_well(balancer)


@case
def a_body_at_its_limits_is_passed_on_and_of_one_beyond_a_beginning(farm: Farm) -> None:
    counting = Counting()
    origin, port = farm.origin(counting), farm.port()
    balancer = farm.start(listen(port, *LIMITS, server("a", origin)))
    tried = 0
    for front, middle, most, end in BODIES:
        for times in (most, most + 1):
            body = front + times * middle + end
            whole = POST + CHUNKED + CLOSE + b"\r\n" + body
            for sizes in ((), (1,)):
                counting.awaited = len(whole)
                answer = asked(port, POST + CHUNKED + b"\r\n" + body + b"GET /", sizes)
                told = f"{front!r} and {times} times {middle!r} in pieces of {sizes}"
                tried += 1
                received = origin.requests(tried)[-1]
                expect_equal(f"the answer to {told}", answer, A if times == most else own(400))
                if times == most:
                    expect_equal(f"what the server got of {told}", received, whole)
                else:
                    expect(f"a beginning of {told}", whole.startswith(received) and len(received) < len(whole))
    ends_well(balancer)


@case
def a_body_that_can_become_none_is_refused_with_the_byte_that_shows_it(farm: Farm) -> None:
    port = farm.port()
    # A client that waits with a body that may still become one is let go, and one whose body can't is told before.
    limits = ("timeout client 2s", "timeout connect 20s", "timeout server 20s")
    balancer = farm.start(listen(port, *limits, server("a", farm.origin())))

    def judge(row: tuple[bytes, bytes, int, bytes, bool]) -> None:
        front, middle, times, end, is_open = row
        told = f"{front!r}, {times} times {middle!r} and {end!r}"
        data = POST + CHUNKED + b"\r\n" + front + times * middle + end
        expect_equal(f"the answer to {told}, and the client ends", ask(port, data, ends=True), own(400))
        answers = at_once(lambda sizes: asked(port, data, sizes), ((), (1,)))
        expect_equal(f"the answers to {told}, and the client waits", answers, 2 * [b"" if is_open else own(400)])

    at_once(judge, ENDS)
    ends_well(balancer)
