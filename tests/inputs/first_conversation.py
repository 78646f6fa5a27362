"""Contains the first conversation: its input and output. The lengths in the headers are written out rather than
computed."""
from __future__ import annotations

from collections.abc import Iterable

from harness import capabilities, compact, frame

IN = [
    b'{"id":1,"jsonrpc":"2.0","method":"initialize","params":{"capabilities":{}}}',
    b'{"jsonrpc":"2.0","method":"textDocument/didOpen","params":{"textDocument":{"languageId":"oberon-0",'
    b'"text":"MODULE M; BEGIN WriteLn END M.","uri":"file:///m","version":1}}}',
    b'{"id":2,"jsonrpc":"2.0","method":"shutdown"}',
    b'{"jsonrpc":"2.0","method":"exit"}',
]
HEADS_IN = [75, 171, 44, 33]
FIRST = b'{"id":1,"jsonrpc":"2.0","result":{"capabilities":%s}}' % compact(capabilities()).encode()
OUT = [
    FIRST,
    b'{"jsonrpc":"2.0","method":"textDocument/publishDiagnostics","params":{"diagnostics":[],'
    b'"uri":"file:///m","version":1}}',
    b'{"id":2,"jsonrpc":"2.0","result":null}',
]
HEADS_OUT = [230, 118, 38]


def spelled(lengths: Iterable[int], contents: Iterable[bytes]) -> bytes:
    """Joins messages into a stream, with the given lengths in their headers."""
    return b"".join(b"Content-Length: %d\r\n\r\n%s" % it for it in zip(lengths, contents))


INPUT, OUTPUT = spelled(HEADS_IN, IN), spelled(HEADS_OUT, OUT)
BORDERS = [sum(len(frame(it)) for it in IN[:count]) for count in range(len(IN) + 1)]
