"""The server's loop: which message is answered by what, the state of the connection, and the open files."""
import sys
from typing import Any, BinaryIO, Callable

from serving.buffers import Buffer
from serving.framing import PARSE_ERROR, Malformed, Writer, messages

INVALID_REQUEST = -32600
METHOD_NOT_FOUND = -32601
INVALID_PARAMS = -32602
INTERNAL_ERROR = -32603
NOT_INITIALIZED = -32002
REQUEST_FAILED = -32803

Params = dict[str, Any]


class Refused(Exception):
    """A request that can't be met: the code of the error and its message."""

    def __init__(self, message: str, code: int = REQUEST_FAILED):
        super().__init__(message)
        self.code = code


def logged(method: str, fault: Exception) -> str:
    """What went wrong with a message, in a line that is also written to the server's log."""
    text = "%s: %r" % (method, fault)
    print("language-server: " + text, file=sys.stderr)
    return text


class Server:
    """A connection with one client."""

    def __init__(self, source: BinaryIO, sink: BinaryIO):
        self.source = source
        self.writer = Writer(sink)
        self.buffers: dict[str, Buffer] = {}
        self.is_ready = False
        self.is_ending = False
        self.requests: dict[str, Callable[[Params], Any]] = {"shutdown": self.shutdown}
        self.notices: dict[str, Callable[[Params], None]] = {
            "textDocument/didOpen": self.opened,
            "textDocument/didChange": self.changed,
            "textDocument/didClose": self.closed,
        }
        self.on_change: Callable[[Buffer], None] = lambda buffer: None
        self.on_close: Callable[[str], None] = lambda uri: None

    def notify(self, method: str, params: Params) -> None:
        """Tells the client something."""
        self.writer.send({"method": method, "params": params})

    def show(self, text: str, kind: int = 3) -> None:
        """Shows the user a message: kind 1 is an error, 2 a warning, 3 information."""
        self.notify("window/showMessage", {"type": kind, "message": text})

    def shutdown(self, params: Params) -> None:
        """The client is about to end the server."""
        self.is_ending = True

    def opened(self, params: Params) -> None:
        """A file was opened."""
        document = params["textDocument"]
        self.keep(Buffer(str(document["uri"]), document.get("version"), str(document["text"])))

    def changed(self, params: Params) -> None:
        """An open file was changed."""
        document = params["textDocument"]
        buffer = self.buffers.get(document["uri"])
        if buffer:
            self.keep(buffer.changed(params["contentChanges"], document.get("version")))

    def closed(self, params: Params) -> None:
        """A file was closed."""
        uri = params["textDocument"]["uri"]
        if self.buffers.pop(uri, None):
            self.on_close(uri)

    def keep(self, buffer: Buffer) -> None:
        """This is now the text of its file."""
        self.buffers[buffer.uri] = buffer
        self.on_change(buffer)

    def buffer(self, params: Params) -> Buffer:
        """The open file that a request speaks of."""
        uri = params["textDocument"]["uri"]
        if uri not in self.buffers:
            raise Refused("%s isn't open" % uri, INVALID_PARAMS)
        return self.buffers[uri]

    def answered(self, method: str, params: Params) -> dict[str, Any]:
        """The result or the error of a request."""
        try:
            if not self.is_ready and method != "initialize":
                raise Refused("the first request is initialize", NOT_INITIALIZED)
            if self.is_ending:
                raise Refused("the server is shutting down", INVALID_REQUEST)
            if method not in self.requests:
                raise Refused("no such method: %s" % method, METHOD_NOT_FOUND)
            result = self.requests[method](params)
            self.is_ready = True
            return {"result": result}
        except Refused as fault:
            return {"error": {"code": fault.code, "message": str(fault)}}
        except (KeyError, TypeError, ValueError, AttributeError, IndexError) as fault:
            return {"error": {"code": INVALID_PARAMS, "message": logged(method, fault)}}
        except (OSError, RecursionError, MemoryError) as fault:
            return {"error": {"code": INTERNAL_ERROR, "message": logged(method, fault)}}

    def noticed(self, method: str, params: Params) -> None:
        """Takes a notification; one that it doesn't know, or that makes no sense, is passed over."""
        try:
            if self.is_ready and method in self.notices:
                self.notices[method](params)
        except (KeyError, TypeError, ValueError, AttributeError, IndexError, OSError, RecursionError) as fault:
            logged(method, fault)

    def take(self, message: dict[str, Any] | Malformed) -> bool:
        """Takes one message, and answers whether there are more to come."""
        if isinstance(message, Malformed):
            self.writer.send({"id": None, "error": {"code": PARSE_ERROR, "message": str(message)}})
            return True
        method, params = message.get("method"), message.get("params")
        params = params if isinstance(params, dict) else {}
        if method == "exit":
            return False
        if not isinstance(method, str):
            if "id" in message and "result" not in message and "error" not in message:
                error = {"code": INVALID_REQUEST, "message": "a request has a method"}
                self.writer.send({"id": None, "error": error})
            return True
        if "id" in message:
            self.writer.send({"id": message["id"], **self.answered(method, params)})
        else:
            self.noticed(method, params)
        return True

    def run(self) -> int:
        """Takes messages to the end, and answers the exit status."""
        for message in messages(self.source):
            if not self.take(message):
                break
        return 0 if self.is_ending else 1
