"""Texts of files, places in them, and the URIs by which an editor names the files.

A text is its bytes in UTF-8. `dgc` counts lines that end with a line feed, and columns in bytes; the protocol has other ends of lines too, and
counts in the units that client and server agreed on. Between the two stands the number of bytes before a place.
"""
import bisect
import os
import re
import urllib.parse
import urllib.request

UNITS = {"utf-8": 1, "utf-16": 2, "utf-32": 4}    # how many bytes a unit of an encoding of positions has
CODECS = {"utf-8": "utf-8", "utf-16": "utf-16-le", "utf-32": "utf-32-le"}


def bytes_of(words):
    """The bytes of a text of JSON. Half a surrogate pair, which no file can hold, is the sign U+FFFD."""
    return words.encode("utf-16-le", "surrogatepass").decode("utf-16-le", "replace").encode()


class Text:
    """A text and where its lines begin: those of the protocol, and those that dgc counts."""

    def __init__(self, data, encoding):
        self.data, self.encoding = data, encoding
        self.starts = [0, *(found.end() for found in re.finditer(rb"\r\n|\n|\r", data))]
        self.fed = [0, *(found.end() for found in re.finditer(rb"\n", data))]
        self.ending = "\r\n" if data[:self.starts[1] if len(self.starts) > 1 else 0].endswith(b"\r\n") else "\n"

    def is_utf8(self):
        try:
            self.data.decode()
            return True
        except UnicodeDecodeError:
            return False

    def offset_of(self, line, column):
        """How many bytes come before a place of dgc: a line from 1, and a column from 1 in bytes."""
        start = self.fed[line - 1] if 0 < line <= len(self.fed) else len(self.data)
        return min(start + max(column - 1, 0), len(self.data))

    def position(self, offset):
        """The position of the protocol after this many bytes."""
        line = bisect.bisect_right(self.starts, offset) - 1
        before = self.data[self.starts[line]:offset].decode(errors="replace")
        return {"line": line, "character": len(before.encode(CODECS[self.encoding])) // UNITS[self.encoding]}

    def offset(self, position):
        """How many bytes come before a position of the protocol. One past the end of a line is the end of the line, as the protocol has it."""
        if position["line"] >= len(self.starts):
            return len(self.data)
        start, end = self.line_at(self.starts[max(position["line"], 0)])
        units = self.data[start:end].decode(errors="replace").encode(CODECS[self.encoding])
        before = units[:max(position["character"], 0) * UNITS[self.encoding]].decode(CODECS[self.encoding], "ignore")
        return min(start + len(before.encode()), end)

    def line_at(self, offset):
        """Where the line with a place begins, and where it ends, without its line end."""
        line = bisect.bisect_right(self.starts, offset) - 1
        start = self.starts[line]
        end = self.starts[line + 1] if line + 1 < len(self.starts) else len(self.data)
        return start, start + len(self.data[start:end].rstrip(b"\r\n"))

    def range(self, start, end):
        """The range of the protocol between two numbers of bytes."""
        return {"start": self.position(start), "end": self.position(end)}

    def changed(self, place, new):
        """The text with other words in a range of the protocol."""
        start, end = sorted((self.offset(place["start"]), self.offset(place["end"])))
        return Text(self.data[:start] + bytes_of(new) + self.data[end:], self.encoding)


def path_of(uri):
    """The path of a URI of a file, or None where it names none."""
    try:
        parts = urllib.parse.urlsplit(uri)
    except ValueError:
        return None
    if parts.scheme != "file" or not parts.path or "%00" in parts.path:
        return None
    return os.path.abspath(urllib.request.url2pathname(parts.path))


def uri_of(path):
    """The URI of a file."""
    return "file://" + urllib.request.pathname2url(path)


def read_file(path):
    """The bytes of a file, or None where it cannot be read as one."""
    try:
        if not os.path.isfile(path):
            return None
        with open(path, "rb") as file:
            return file.read()
    except (OSError, ValueError):
        return None
