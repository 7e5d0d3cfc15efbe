"""Messages of JSON-RPC 2.0 on a pair of streams, each behind a header with its length."""
import json
import os

PARSE_ERROR, INVALID_REQUEST, METHOD_NOT_FOUND, INVALID_PARAMS, INTERNAL_ERROR = -32700, -32600, -32601, -32602, -32603
NOT_INITIALIZED, REQUEST_FAILED, REQUEST_CANCELLED, CONTENT_MODIFIED = -32002, -32803, -32800, -32801
MOST_HEADER = 4096              # bytes of a header
MOST_BODY = 64 * 1024 * 1024    # bytes of a message
PIECE = 1 << 16


class Fault(Exception):
    """A request that cannot be answered: the code and the words of its error."""

    def __init__(self, code, words):
        super().__init__(words)
        self.code, self.words = code, words


class Broken(Exception):
    """What comes in is no row of messages."""


class Incoming:
    """Cuts bytes into messages, as they come."""

    def __init__(self):
        self.data = bytearray()

    def take(self, more):
        """The messages that are complete with more bytes. One whose body is no JSON is a `Fault`."""
        self.data += more
        found = []
        while True:
            end = self.data.find(b"\r\n\r\n")
            if end < 0:
                if len(self.data) > MOST_HEADER:
                    raise Broken("a header does not end")
                return found
            length = length_of(bytes(self.data[:end]))
            if len(self.data) < end + 4 + length:
                return found
            found.append(body_of(bytes(self.data[end + 4:end + 4 + length])))
            del self.data[:end + 4 + length]


def length_of(header):
    for line in header.split(b"\r\n"):
        name, _, value = line.partition(b":")
        if name.strip().lower() == b"content-length" and value.strip().isdigit() and int(value) <= MOST_BODY:
            return int(value)
    raise Broken("a header has no length")


def body_of(data):
    try:
        found = json.loads(data.decode("utf-8", "surrogatepass"))
    except (ValueError, RecursionError) as why:
        return Fault(PARSE_ERROR, f"this is no JSON: {why}")
    return found if isinstance(found, dict) else Fault(INVALID_REQUEST, "this is no request")


class Outgoing:
    """Writes messages to a descriptor."""

    def __init__(self, descriptor):
        self.descriptor, self.number = descriptor, 0

    def send(self, message):
        body = json.dumps({"jsonrpc": "2.0", **message}, ensure_ascii=True, separators=(",", ":")).encode()
        view = memoryview(b"Content-Length: %d\r\n\r\n" % len(body) + body)
        while view:
            view = view[os.write(self.descriptor, view):]

    def answer(self, number, result):
        self.send({"id": number, "result": result})

    def refuse(self, number, fault):
        self.send({"id": number, "error": {"code": fault.code, "message": fault.words}})

    def tell(self, method, params):
        self.send({"method": method, "params": params})

    def ask(self, method, params):
        """Sends a request of the server, and returns its number."""
        self.number += 1
        self.send({"id": self.number, "method": method, "params": params})
        return self.number
