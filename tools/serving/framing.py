"""Messages of JSON-RPC with their headers, as the Language Server Protocol frames them on a stream of bytes."""
import json
import threading
from typing import Any, BinaryIO, Iterator

LONGEST_HEADER = 8192
LONGEST_BODY = 256 * 1024 * 1024
PARSE_ERROR = -32700


class Malformed(Exception):
    """A frame that holds no message; the stream goes on behind it."""


def length_of(line: bytes) -> int | None:
    """The length that a header line gives, if it is the line that gives it."""
    name, colon, value = line.partition(b":")
    if not colon or name.strip().lower() != b"content-length":
        return None
    digits = value.strip()
    return int(digits) if digits.isdigit() and len(digits) < 12 else None


def header_of(stream: BinaryIO) -> int | None:
    """Reads lines up to the empty one behind a length, and answers that length; None at the end of the stream.

    Lines that are no header, and empty lines that stand before any length, are passed over.
    """
    length = None
    while True:
        line = stream.readline(LONGEST_HEADER)
        if not line:
            return None
        if line.strip():
            found = length_of(line)
            length = length if found is None else found
        elif length is not None:
            return length


def message_of(body: bytes) -> dict[str, Any]:
    """The message that a body holds."""
    try:
        message = json.loads(body.decode("utf-8"))
    except (ValueError, RecursionError) as fault:
        raise Malformed(str(fault)) from fault
    if not isinstance(message, dict):
        raise Malformed("a message is an object")
    return message


def messages(stream: BinaryIO) -> Iterator[dict[str, Any] | Malformed]:
    """All messages of a stream, up to its end; for a frame that holds none, why."""
    while True:
        length = header_of(stream)
        if length is None:
            return
        if length > LONGEST_BODY:
            yield Malformed("a message of %d bytes is too long" % length)
            continue
        body = stream.read(length)
        if len(body) < length:
            return
        try:
            yield message_of(body)
        except Malformed as fault:
            yield fault


class Writer:
    """Writes messages to a stream, one at a time, from any thread."""

    def __init__(self, stream: BinaryIO):
        self.stream = stream
        self.turn = threading.Lock()

    def send(self, message: dict[str, Any]) -> None:
        """Writes one message. A client that is gone is told nothing."""
        body = json.dumps({"jsonrpc": "2.0", **message}, ensure_ascii=True).encode("ascii")
        with self.turn:
            try:
                self.stream.write(b"Content-Length: %d\r\n\r\n" % len(body) + body)
                self.stream.flush()
            except (OSError, ValueError):
                pass
