"""Messages of the Language Server Protocol: how they are read and written, and what is asked of their parts."""
import json
import re

LENGTH = re.compile(rb"content-length: *([0-9]{1,12})[ \t]*\r?\n?$", re.IGNORECASE)
LINE = 1 << 16       # the longest line of a head that is read at once
LONGEST = 1 << 28    # the longest message that is read

NO_JSON = -32700
NO_REQUEST = -32600
NO_METHOD = -32601
BAD_PARAMS = -32602
INTERNAL = -32603
NOT_BEGUN = -32002
CANCELLED = -32800
CHANGED = -32801


class Malformed(Exception):
    """What came is no message, and why."""


class Refused(Exception):
    """A request that is answered with an error: a code of the protocol, and a sentence."""

    def __init__(self, code, text):
        super().__init__(text)
        self.code = code


def length_of_body(source):
    """The length that the next head names, or None where the input ends. A line that is no part of a head is passed over, so that a message
    after one that could not be read is found again."""
    length, has_lines = None, False
    while True:
        line = source.readline(LINE)
        if not line:
            return None
        found = LENGTH.search(line)
        if found:
            length = int(found[1])
        elif not line.strip() and length is not None:
            return length
        elif not line.strip() and has_lines:
            raise Malformed("a message begins without its length")
        has_lines = bool(line.strip())


def read_message(source):
    """The next message, or None where the input ends."""
    length = length_of_body(source)
    if length is None:
        return None
    if length > LONGEST:
        raise Malformed(f"a message of {length} bytes is too long")
    body = source.read(length)
    if len(body) < length:
        return None
    try:
        message = json.loads(body)
    except (ValueError, RecursionError) as fault:
        raise Malformed(f"a message is no JSON: {fault}") from None
    if not isinstance(message, dict):
        raise Malformed("a message is no object")
    return message


def write_message(sink, message):
    """Writes a message with its head."""
    body = json.dumps({"jsonrpc": "2.0", **message}).encode()
    sink.write(b"Content-Length: %d\r\n\r\n%s" % (len(body), body))
    sink.flush()


def member(given, path, kind):
    """The member at a path with dots between, of this kind. A request without it is refused."""
    for name in path.split("."):
        given = given.get(name) if isinstance(given, dict) else None
    if not isinstance(given, kind) or isinstance(given, bool) and kind is int:
        raise Refused(BAD_PARAMS, f"no {path} that is {'an' if kind is int else 'a'} {kind.__name__}")
    return given


def optional(given, path, otherwise=None):
    """The member at a path with dots between, or another value where there is none."""
    for name in path.split("."):
        given = given.get(name) if isinstance(given, dict) else None
    return otherwise if given is None else given
