"""Tests the server's bytes: the first conversation cut in every way, input that ends early, and heads that are
refused."""
from __future__ import annotations

import json
import os
import random
import subprocess
from typing import Any

import harness
from first_conversation import BORDERS, FIRST, HEADS_IN, HEADS_OUT, IN, INPUT, OUT, OUTPUT
from harness import Ended, frame, frames, holds, initialize, run, same, serve, serve_in_pieces, test, unframed
from harness import SHUTDOWN, EXIT, request
from seeds import COUNT, named, seeds



def ended(found: Ended, out: bytes, status: int, err: bytes = b"") -> None:
    same(found.out, out, "the output")
    same(found.err, err, "standard error")
    same(found.status, status, "the status")


@test("stream: a short conversation that is sent all at once gets the expected bytes")
def at_once() -> None:
    same([len(it) for it in IN], HEADS_IN, "the lengths that come in")
    same([len(it) for it in OUT], HEADS_OUT, "the lengths that go out")
    ended(run(["serve"], INPUT), OUTPUT, 0)


@test("stream: a short conversation that is sent one byte at a time gets the expected bytes")
def by_bytes() -> None:
    ended(serve_in_pieces([INPUT[at : at + 1] for at in range(len(INPUT))]), OUTPUT, 0)


@test("stream: a short conversation that is cut between the two line ends of each head gets the expected bytes")
def between_line_ends() -> None:
    cuts = [border + len(b"Content-Length: %d\r\n" % length) for border, length in zip(BORDERS, HEADS_IN)]
    pieces = [INPUT[start:end] for start, end in zip([0, *cuts], [*cuts, len(INPUT)])]
    holds(all(it.endswith(b"\r\n") and it.startswith(b"\r\n") for it in pieces[1:-1]), "the cuts are elsewhere")
    ended(serve_in_pieces(pieces), OUTPUT, 0)


@test("stream: a short conversation that is cut in two after any byte gets the expected bytes")
def in_two() -> None:
    for cut in range(1, len(INPUT)):
        ended(serve_in_pieces([INPUT[:cut], INPUT[cut:]]), OUTPUT, 0)


@test("stream: if a short conversation stops at any byte, whole messages are answered, and a part of one is Truncated")
def ended_early() -> None:
    for end in range(len(INPUT) + 1):
        whole = BORDERS.index(end) if end in BORDERS else None
        count = len([it for it in BORDERS[1:] if it <= end])
        out = frames(OUT[:count])
        if end == len(INPUT):
            ended(serve(INPUT), OUTPUT, 0)
        elif whole is not None:
            ended(serve(INPUT[:end]), out, 1)
        else:
            ended(serve(INPUT[:end]), out, 3, b"fault: Truncated\n")


@test("stream: a message whose content ends early stops the server with Truncated")
def truncated() -> None:
    ended(serve(b"Content-Length: 10\r\n\r\n123456789"), b"", 3, b"fault: Truncated\n")


@test("stream: a bad head after the first message stops the server with BadHead")
def bad_head() -> None:
    ended(serve(INPUT[: BORDERS[1]] + b"Content-Length: x\r\n\r\n"), frame(FIRST), 3, b"fault: BadHead\n")


@test("stream: no message after a bad head is answered")
def behind_bad_head() -> None:
    ended(serve(b"Content-Length: x\r\n\r\n" + INPUT), b"", 3, b"fault: BadHead\n")


@test("stream: the server ends with status 0 if `exit` and then a bad head arrive in one piece")
def exit_before_bad_head() -> None:
    ended(serve(INPUT + b"Content-Length: x\r\n\r\n"), OUTPUT, 0)


REFUSED = {
    "two lengths": b"Content-Length: 2\r\nContent-Length: 2\r\n\r\n[]",
    "no length": b"Content-Type: x\r\n\r\n[]",
    "no field": b"\r\n[]",
    "a length over the limit": b"Content-Length: 16777217\r\n\r\n",
    "a length of 23 digits": b"Content-Length: 99999999999999999999999\r\n\r\n",
    "a length with a plus": b"Content-Length: +5\r\n\r\n[]   ",
    "a length below 0": b"Content-Length: -1\r\n\r\n",
    "two numbers": b"Content-Length: 1 2\r\n\r\n[]",
    "an empty length": b"Content-Length: \r\n\r\n[]",
    "a length in hexadecimal": b"Content-Length: 0x2\r\n\r\n[]",
    "a line with no colon": b"Content-Length: 2\r\nx\r\n\r\n[]",
    "a space in a name": b"Content-Length: 2\r\nX y: z\r\n\r\n[]",
    "17 fields": b"Content-Length: 2\r\n" + b"X: y\r\n" * 16 + b"\r\n[]",
    "a head of 4,097 bytes": b"Content-Length: 2\r\nX: " + b"y" * (4097 - 26) + b"\r\n\r\n[]",
    "4,096 bytes with no empty line": b"a" * 4096,
}


@test("stream: each kind of bad head, such as a head with two lengths, stops the server with BadHead")
def refused_heads() -> None:
    same(REFUSED["a head of 4,097 bytes"].index(b"[]"), 4097, "the length of that head")
    for name, given in REFUSED.items():
        found = serve(given)
        same((found.out, found.err, found.status), (b"", b"fault: BadHead\n", 3), name)


NO_MESSAGE = frame('{"error":{"code":-32600,"message":"not a message"},"id":null,"jsonrpc":"2.0"}')
TAKEN = {
    "another case and a space after": b"content-length:2 \r\n\r\n[]",
    "other fields": b"X-a: b\r\nContent-Type: application/vscode-jsonrpc; charset=utf-8\r\nCONTENT-LENGTH: 2\r\n\r\n[]",
    "leading zeros": b"Content-Length: 0002\r\n\r\n[]",
    "tabs round the length": b"Content-Length: \t2\t \r\n\r\n[]",
    "lines that end with only LF": b"Content-Length: 2\n\n[]",
    "16 fields": b"Content-Length: 2\r\n" + b"X: y\r\n" * 15 + b"\r\n[]",
    "a head of 4,096 bytes": b"Content-Length: 2\r\nX: " + b"y" * (4096 - 26) + b"\r\n\r\n[]",
}


@test("stream: each unusual but valid kind of head is accepted")
def taken_heads() -> None:
    same(TAKEN["a head of 4,096 bytes"].index(b"[]"), 4096, "the length of that head")
    for name, given in TAKEN.items():
        found = serve(given)
        same((found.out, found.err, found.status), (NO_MESSAGE, b"", 1), name)


# heads that may replace `Content-Length: 33` in the last message
LAST_HEADS = {
    "small letters and a further field": b"content-length:33 \r\nX-a: b\r\n\r\n",
    "leading zeros": b"Content-Length: 0033\r\n\r\n",
    "lines that end with only LF": b"Content-Length: 33\n\n",
    "16 fields": b"X: y\r\n" * 15 + b"Content-Length: 33\r\n\r\n",
    "4,096 bytes": b"X: " + b"y" * (4096 - 3 - 2 - len(b"Content-Length: 33\r\n\r\n")) + b"\r\nContent-Length: 33\r\n\r\n",
}


@test("stream: the last message of a conversation may have any unusual but valid head")
def other_heads() -> None:
    same(len(LAST_HEADS["4,096 bytes"]), 4096, "the length of that head")
    for name, head in LAST_HEADS.items():
        found = run(["serve"], INPUT[: BORDERS[3]] + head + IN[3])
        same((found.out, found.err, found.status), (OUTPUT, b"", 0), name)


@test("stream: an input of 4,095 bytes without an empty line stops the server with Truncated")
def almost_a_bad_head() -> None:
    ended(serve(b"a" * 4095), b"", 3, b"fault: Truncated\n")


@test("stream: a content of 16,777,216 bytes is read to its end")
def largest_content() -> None:
    content = b"[" + b" " * (16777216 - 2) + b"]"
    ended(serve(b"Content-Length: 16777216\r\n\r\n" + content), NO_MESSAGE, 1)


@test("stream: the server ends with Truncated if only two of the announced 16,777,216 bytes arrive")
def promised_content() -> None:
    found = run(["serve"], b"Content-Length: 16777216\r\n\r\n[]")
    ended(found, b"", 3, b"fault: Truncated\n")


@test("stream: an end of input between two messages ends the server with status 1, even after shutdown")
def end_after_shutdown() -> None:
    found = serve([initialize(), SHUTDOWN])
    same((len(unframed(found.out)), found.err, found.status), (2, b"", 1))


@test("stream: the server ends with `fault: Write` if nobody reads its output any more")
def gone_reader() -> None:
    reader, writer = os.pipe()
    os.close(reader)
    how: dict[str, Any] = {"stdin": subprocess.PIPE, "stdout": writer, "stderr": subprocess.PIPE}
    with subprocess.Popen([harness.BINARY, "serve"], **how) as process:
        os.close(writer)
        _, err = process.communicate(frames([initialize(), request(2, "shutdown"), EXIT]), timeout=harness.SECONDS)
    same((err, process.returncode), (b"fault: Write\n", 4))


# byte sequences that aren't valid UTF-8
BROKEN = [b"\xff", b"\x80", b"\xc3", b"\xc0\x80", b"\xc1\xbf", b"\xe2\x82", b"\xe0\x80\xaf", b"\xed\xa0\x80", b"\xf0\x9f\x98", b"\xf4\x90\x80\x80", b"\xf8\x88\x80\x80\x80"]


@test("stream: a content with invalid UTF-8 at any place is answered with `not JSON`")
def broken_utf8() -> None:
    refused = '{"error":{"code":-32700,"message":"not JSON"},"id":null,"jsonrpc":"2.0"}'
    places = [IN[1].index(it) + len(it) for it in (b"{", b'"te', b"MODULE M; ", b'"file:')]
    for at in places:
        contents = [IN[1][:at] + it + IN[1][at:] for it in BROKEN]
        found = serve([IN[0], *contents])
        same((found.contents(), found.err, found.status), ([FIRST.decode(), *[refused] * len(BROKEN)], b"", 1), f"at byte {at}")


def mutated(seed: int) -> bytes:
    """Returns the first conversation with some bytes changed, removed, doubled or inserted, as the seed decides."""
    chance, given = random.Random(seed), bytearray(INPUT)
    for _ in range(chance.choice([1, 1, 2, 5, 20])):
        at = chance.randrange(len(given))
        end = at + chance.choice([0, 1, 1, 2, 30])
        new = chance.choice([b"", bytes([chance.randrange(256)]), bytes(given[at:end]) * 2, b"0", b"\r\n", b'"', b"\\u0000", b"{", b"}"])
        given[at:end] = new
    return bytes(given)


@test("stream: a conversation with random changes of bytes ends with a known status, and each sent message is whole")
def garbage() -> None:
    for seed in seeds(COUNT):
        found = serve(mutated(seed))
        where = f"{named(seed)}, {mutated(seed)!r}"
        ends: dict[int | None, list[bytes]] = {0: [b""], 1: [b""], 3: [b"fault: BadHead\n", b"fault: Truncated\n"]}
        holds(found.err in ends.get(found.status, []), f"{where}: status {found.status}, {found.err!r}")
        for it in found.contents():
            holds(json.loads(it)["jsonrpc"] == "2.0", f"{where}: {it}")
