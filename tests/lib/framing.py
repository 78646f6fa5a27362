"""Converts between messages and their bytes: adds a message's header, and reads the first message from the bytes so
far. All tests, scripts and measurements that talk to a server use this module."""
from __future__ import annotations

import json
from collections.abc import Iterable, Iterator
from typing import Any, Dict, Union

Message = Dict[str, Any]  # a message as a value
Content = Union[bytes, str, Message]  # what is framed: bytes, a text, or a value


def compact(value: object) -> str:
    """Writes a value as JSON the way the server does: without spaces, and with the members of objects sorted by
    name."""
    return json.dumps(value, separators=(",", ":"), sort_keys=True, ensure_ascii=False)


def frame(content: Content) -> bytes:
    """Returns a message's bytes: the header and the content. A value that isn't a text is written as JSON."""
    if not isinstance(content, bytes):
        content = (content if isinstance(content, str) else compact(content)).encode()
    return b"Content-Length: %d\r\n\r\n" % len(content) + content


def frames(contents: Iterable[Content]) -> bytes:
    return b"".join(frame(it) for it in contents)


class Incoming:
    """Collects the received bytes that haven't been read as messages yet."""

    def __init__(self, came: bytes = b"") -> None:
        self.held = bytearray(came)

    def add(self, came: bytes) -> None:
        self.held += came

    def take(self) -> bytes | None:
        """Removes the first message, and returns its content. Returns None if the message isn't complete yet."""
        taken = self.take_framed()
        return taken[1] if taken else None

    def take_framed(self) -> tuple[bytes, bytes] | None:
        """Removes the first message, and returns its bytes with the header, and its content. Returns None if the
        message isn't complete yet."""
        end_of_head = self.held.find(b"\r\n\r\n")
        if end_of_head < 0:
            return None
        fields = (line.partition(b":") for line in self.held[:end_of_head].split(b"\r\n"))
        start = end_of_head + 4
        end = start + next(int(value) for name, _, value in fields if name.lower() == b"content-length")
        if len(self.held) < end:
            return None
        with memoryview(self.held) as held:
            framed, content = bytes(held[:end]), bytes(held[start:end])
        del self.held[:end]
        return framed, content

    def messages(self) -> Iterator[Message]:
        """Removes all complete messages, and yields their JSON values."""
        while (content := self.take()) is not None:
            yield json.loads(content)
