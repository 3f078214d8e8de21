"""Where things stand in modules and certificates: functions and blocks of the one, sections and lines of the other. It finds what is there in a
text that need not be one that `dgc` reads, and judges nothing."""
import functools
import re

NAME = rb'[%@](?:"[^"\n]*"|[-a-zA-Z$._][-a-zA-Z$._0-9]*|[0-9]+)'
MARKS = re.compile(rb'(?m)^[ \t]*(?:(?P<define>define)\b[^@]*?(?P<function>' + NAME + rb')|(?P<close>\})|(?P<label>"[^"\n]*"|[-a-zA-Z$._0-9]+):)')
WORD = re.compile(rb'(?:[^\s";]|"[^"\n]*")+')
CODE = re.compile(rb"(?<![\w%@$.\"-])[KLCYPH][1-9][0-9]?(?![\w\"])")
LABEL = re.compile(rb'[ \t]*("[^"\n]*"|[-a-zA-Z$._0-9]+):')


def plain(name):
    """A name without quotes, with the bytes that it stands for."""
    sign, rest = name[:1], name[1:]
    if rest.startswith(b'"'):
        unnumbered = re.fullmatch(rb'"[0-9]+"', rest)
        rest = re.sub(rb"\\(\\|[0-9a-fA-F]{2})", lambda found: b"\\" if found[1] == b"\\" else bytes([int(found[1], 16)]), rest[1:-1])
        rest = rest + b'"' if unnumbered else rest
    return sign + rest


class Place:
    """The function and the block of a module in which a place is. The entry block has no section of a certificate."""

    def __init__(self, function=None, block=None, is_entry=False, line=None):
        self.function, self.block, self.is_entry, self.line = function, block, is_entry, line


def place_in_module(data, offset):
    """The function and the block of a module at a place. `line` is where the function begins."""
    here = Place()
    for found in MARKS.finditer(data):
        if found.start() > offset:
            break
        if found["define"]:
            here = Place(plain(found["function"]), None, True, found.start("define"))
        elif found["close"]:
            here = here if offset <= found.end() else Place()
        elif here.function:
            here = Place(here.function, plain(b"%" + found["label"]), here.block is None and here.is_entry and is_first(data, here.line, found.start()), here.line)
    return here


def is_first(data, start, end):
    """Whether no instruction stands between the beginning of a function and its first label."""
    body = data[start:end].partition(b"{")[2]
    return not re.sub(rb"(?m);.*$", b"", body).strip()


def definition_of(data, function, name):
    """The number of the line of a module, from 1, in which a name of this function is defined, and the line; or None."""
    begins = [found.start("define") for found in MARKS.finditer(data) if found["define"] and plain(found["function"]) == function]
    if not begins or name.startswith(b"@"):
        return None
    number = data.count(b"\n", 0, begins[0]) + 1
    for line in data[begins[0]:].split(b"\n"):
        label, head = LABEL.match(line), re.match(rb"[ \t]*(" + NAME + rb")[ \t]*=", line)
        names = names_in(line) if line.lstrip().startswith(b"define") else [plain(head[1])] if head else [plain(b"%" + label[1])] if label else []
        if name in names:
            return number, line.strip()
        if line.startswith(b"}"):
            return None
        number += 1
    return None


def functions_of(data):
    """The functions that a module defines: where the name of each begins and ends, by its plain name."""
    return {plain(found["function"]): found.span("function") for found in MARKS.finditer(data) if found["define"]}


def line_at(data, offset):
    """Where the line with a place begins, and the line."""
    start = data.rfind(b"\n", 0, offset) + 1
    end = data.find(b"\n", offset)
    return start, data[start:end if end >= 0 else len(data)]


def name_at(data, offset):
    """The name of a module or of a certificate at a place, with a label as the name of its block, and where it begins and ends; or None."""
    start, line = line_at(data, offset)
    label = LABEL.match(line)
    if label and start + label.start(1) <= offset <= start + label.end(1):
        return plain(b"%" + label[1]), start + label.start(1), start + label.end(1)
    for found in re.finditer(NAME, line):
        if start + found.start() <= offset <= start + found.end():
            return plain(found[0]), start + found.start(), start + found.end()
    return None


def code_at(data, offset):
    """The code at a place, as `K6`, and where it begins and ends; or None."""
    start, line = line_at(data, offset)
    for found in CODE.finditer(line):
        if start + found.start() <= offset <= start + found.end():
            return found[0].decode(), start + found.start(), start + found.end()
    return None


def words_of(line):
    """The words of a line of a certificate."""
    words = []
    end = 0
    for found in WORD.finditer(line):
        if b";" in line[end:found.start()]:
            break
        words.append(found[0])
        end = found.end()
    return words


class Section:
    """The section of a function: where it begins and ends, its first lines, and the lines of its blocks by their plain names."""

    def __init__(self, start):
        self.start, self.end, self.head, self.blocks = start, start, [], {}
        self.lines = self.head

    def add(self, line, words, end):
        """Adds a line that ends there, and returns whether the section goes on after it."""
        self.end = end
        if words[0] == b"block" and len(words) > 1:
            self.lines = self.blocks.setdefault(plain(words[1]), [])
        elif words[0] != b"end":
            self.lines.append(line)
        return words[0] != b"end"


class Certificate:
    """The lines of a certificate: those before the sections, and the sections by the plain names of their functions. `twice` are the functions
    that have more than one."""

    def __init__(self, data):
        self.data, self.version, self.shapes, self.sections, self.twice = data, b"", [], {}, set()
        section, start = None, 0
        for whole in data.splitlines(keepends=True):
            start += len(whole)
            words = words_of(whole)
            line = b" ".join(words)
            if not words:
                continue
            if words[0] == b"function" and len(words) > 1:
                section = self.begin(plain(words[1]), start - len(whole))
            if section:
                section = section if section.add(line, words, start) else None
            elif not self.version:
                self.version = line
            elif not self.sections:
                self.shapes.append(line)

    def begin(self, name, start):
        section = Section(start)
        if name in self.sections:
            self.twice.add(name)
            return section
        self.sections[name] = section
        return section

    def text_of(self, name):
        """The lines of a section, as bytes."""
        section = self.sections[name]
        return self.data[section.start:section.end]

    def file_of_shapes(self):
        """The shapes and the numbers of layouts of the certificate as a file that `--shapes` takes, or None where it has none of them."""
        if self.version != b"cert 2":
            return self.data if any(line.startswith(b"number ") for line in self.shapes) else None
        return b"\n".join([b"shapes 1", *(line for line in self.shapes if line.split(b" ")[0] in (b"number", b"layout", b"global", b"root")), b""])

    def trusted(self):
        """The functions outside of the module that it trusts."""
        return [line.split(b" ")[1] for line in self.shapes if line.startswith(b"foreign ")]

    def block_at(self, offset):
        """The function and the block of the section at a place."""
        for name, section in self.sections.items():
            if section.start <= offset < section.end:
                found = re.findall(rb"(?m)^[ \t]*block[ \t]+(" + NAME + rb")", self.data[section.start:offset])
                return name, plain(found[-1]) if found else None
        return None, None


@functools.lru_cache(maxsize=4)
def certificate_of(data):
    """The certificate with these bytes."""
    return Certificate(data)


def names_in(line):
    """The plain names in a line of a certificate."""
    return [plain(found) for found in re.findall(NAME, line)]
