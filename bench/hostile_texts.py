"""The rows of crates/dgc_tests as commands and texts, and changes of such a text, for hostile.py."""
import functools
import os
import re
from dataclasses import dataclass

COMMANDS = ("check", "check-list", "make", "recheck", "replay", "soak", "run", "watch", "conform", "migrate", "lower")
TOKEN = re.compile(rb'"[^"\n]*"|[%@!#]?[-a-zA-Z$._0-9]+|\s+|.', re.S)
NUMBER, NAME = re.compile(rb"(?<![-a-zA-Z$._0-9])-?\d+"), re.compile(rb"[%@][-a-zA-Z$._0-9]+")
WORD = re.compile(rb"(?<![-%@!#$._0-9a-zA-Z])[a-z][a-z0-9]*\*{0,2}")
NUMBERS = [b"0", b"1", b"2", b"63", b"64", b"65", b"255", b"65535", b"65536", b"1048576", b"2147483647", b"2147483648", b"4294967295",
           b"4294967296", b"9223372036854775807", b"9223372036854775808", b"-9223372036854775808", b"18446744073709551615",
           b"18446744073709551616", b"99999999999999999999999999", b"-1", b"00", b"10000001"]
# how many bytes an entry of a record has
ENTRY = 16
MOST = {"--seeds": 5, "--steps": 1000, "--turns": 1000}
# limits that a command gets where its words have none, since a changed module may run on to its own
GIVEN = {"watch": ("--steps", "--turns")}
BYTES = [0, 9, 10, 13, 32, 34, 37, 40, 41, 44, 58, 59, 64, 91, 92, 93, 123, 125, 127, 128, 255]


@dataclass
class Row:
    """A command on files, whose texts are here."""
    name: str
    words: list
    texts: dict


def read_rows(folder):
    """The rows whose command reads a text, each with the files that its words name."""
    rows = []
    for name in sorted(os.listdir(folder)):
        with open(os.path.join(folder, name, "args")) as args:
            words = args.read().split("\n")
        words = words[:-1] if words and not words[-1] else words
        texts = {}
        for word in [*words[1:], *listed_in(os.path.join(folder, name), words)]:
            path = os.path.join(folder, name, word)
            if word and os.path.isfile(path):
                with open(path, "rb") as text:
                    texts[word] = text.read()
        if words and words[0] in COMMANDS and texts and words[1] in texts:
            rows.append(Row(name, within(words), texts))
    return rows


def listed_in(folder, words):
    """The files that the list of a row of `check-list` names."""
    path = os.path.join(folder, words[1]) if words[:1] == ["check-list"] and len(words) > 1 else ""
    if not os.path.isfile(path):
        return []
    with open(path, encoding="utf-8", errors="replace") as text:
        return [word for line in text for word in re.split("\t" if "\t" in line else " ", line.strip())]


def within(words):
    """The words, with few seeds and steps, so that the command alone makes no run long."""
    words = list(words)
    for option in GIVEN.get(words[0], ()):
        if option not in words:
            words += [option, str(MOST[option])]
    for option, most in MOST.items():
        if option in words[:-1] and words[words.index(option) + 1].isdigit():
            at = words.index(option) + 1
            words[at] = str(min(int(words[at]), most))
    return words


def tokens_of(rows):
    """The tokens of all texts, by the ends of their files' names; each once."""
    found = {}
    for row in rows:
        for name, text in row.texts.items():
            found.setdefault(end_of(name), {}).update(dict.fromkeys(token for token in TOKEN.findall(text) if not token.isspace()))
    return {end: list(tokens) for end, tokens in found.items()} | {"texts": [(end_of(name), text) for row in rows for name, text in row.texts.items()]}


def end_of(name):
    """What kind of text a file has, by its name."""
    return name.rsplit(".", 1)[-1]


def with_bytes(draw, text, _name, _tokens):
    """Some bytes are changed, put in or left out."""
    out = bytearray(text)
    for _ in range(draw.randrange(1, 4)):
        at = draw.randrange(len(out) + 1)
        how = draw.randrange(4)
        byte = draw.choice(BYTES) if how < 3 else draw.randrange(256)
        if how == 0 or at == len(out):
            out.insert(at, byte)
        elif how == 1:
            del out[at]
        elif how == 2:
            out[at] = byte
        else:
            out[at] ^= 1 << draw.randrange(8)
    return bytes(out)


def with_cut(draw, text, _name, _tokens):
    """The back is cut off, the front, or a part between."""
    first, last = sorted(draw.randrange(len(text) + 1) for _ in range(2))
    return draw.choice([text[:first], text[last:], text[:first] + text[last:]])


def with_lines(draw, text, _name, _tokens):
    """Lines are left out, written again or moved."""
    lines = text.split(b"\n")
    for _ in range(draw.randrange(1, 4)):
        if not lines:
            break
        here, there = draw.randrange(len(lines)), draw.randrange(len(lines))
        how = draw.randrange(4)
        if how == 0:
            del lines[here]
        elif how == 1:
            lines.insert(there, lines[here])
        elif how == 2:
            lines[here], lines[there] = lines[there], lines[here]
        else:
            lines[here] = lines[there]
    return b"\n".join(lines)


@functools.lru_cache(2000)
def parts_of(text):
    """The tokens and blanks of a text, and the places of the tokens."""
    parts = TOKEN.findall(text)
    return parts, [place for place, part in enumerate(parts) if not part.isspace()]


@functools.lru_cache(6000)
def found_in(pattern, text):
    """Where a pattern is found in a text."""
    return list(pattern.finditer(text))


def with_steps(draw, text, _name, _tokens):
    """A safepoint is put in, or a line that gives no value a name is left out or moved: a store, a call, a claim."""
    lines = text.split(b"\n")
    steps = [number for number, line in enumerate(lines) if line.startswith(b"  ") or line.startswith(b"%") and b"=" not in line]
    if not steps:
        return text + b"\n"
    here, there, how = draw.choice(steps), draw.choice(steps), draw.randrange(4)
    if how == 0 and lines[here].startswith(b"  "):
        lines.insert(here, b"  call void @dg_safepoint()")
    elif how == 1 and b"=" not in lines[here]:
        lines.insert(there, lines[here])
    elif b"=" not in lines[here]:
        line = lines.pop(here)
        if how == 2:
            lines.insert(there, line)
    return b"\n".join(lines)


def with_tokens(draw, text, name, tokens):
    """Tokens are left out, written again, swapped, or another text's."""
    parts, places = parts_of(text)
    parts = list(parts)
    for _ in range(draw.randrange(1, 4)):
        if not places:
            break
        here, there = draw.choice(places), draw.choice(places)
        how = draw.randrange(6)
        if how == 0:
            parts[here] = b""
        elif how == 1:
            parts[here], parts[there] = parts[there], parts[here]
        elif how == 2:
            parts[here] = parts[there]
        elif how == 3:
            parts[here] += b" " + parts[there]
        else:
            parts[here] = draw.choice(tokens[end_of(name)])
    return b"".join(parts)


def with_numbers(draw, text, _name, _tokens):
    """A number is another one, mostly one at a limit."""
    found = found_in(NUMBER, text)
    if not found:
        return text + b"0"
    place = draw.choice(found)
    number = draw.choice(NUMBERS) if draw.random() < 0.6 else b"%d" % (int(place[0][:20]) + draw.randrange(-3, 4))
    return text[:place.start()] + number + text[place.end():]


def with_names(draw, text, _name, _tokens):
    """One name is another one of the text, of its kind."""
    found = found_in(NAME, text)
    if not found:
        return text + b"%"
    place = draw.choice(found)
    other = draw.choice([one for one in found if one[0][:1] == place[0][:1]])
    return text[:place.start()] + other[0] + text[place.end():]


def with_words(draw, text, name, tokens):
    """One word is another one of such texts."""
    found = found_in(WORD, text)
    if not found:
        return text + b"i64"
    place = draw.choice(found)
    others = [one[0] for one in found] if draw.random() < 0.7 else [one for one in tokens[end_of(name)] if one[:1].islower()]
    return text[:place.start()] + draw.choice(others) + text[place.end():]


def with_other(draw, text, name, tokens):
    """The front of the text goes on with the back of another one."""
    others = [other for end, other in tokens["texts"] if end == end_of(name)]
    other = draw.choice(others)
    if draw.random() < 0.1:
        return other
    front, back = text.split(b"\n"), other.split(b"\n")
    return b"\n".join(front[:draw.randrange(len(front) + 1)] + back[draw.randrange(len(back) + 1):])


def with_many(draw, text, _name, _tokens):
    """A line or a token is written many times."""
    parts = text.splitlines(True) if draw.random() < 0.5 else parts_of(text)[0]
    if not parts:
        return text
    at = draw.randrange(len(parts))
    times = draw.choice([2, 64, 65, 66, 1000, 5000])
    return b"".join(parts[:at]) + parts[at] * times + b"".join(parts[at + 1:])


def with_entries(draw, text, _name, _tokens):
    """Entries of a record are left out, written again or swapped, or one byte of an entry is another one."""
    entries = [text[at:at + ENTRY] for at in range(0, len(text), ENTRY)]
    for _ in range(draw.randrange(1, 4)):
        if not entries:
            break
        here, there, how = draw.randrange(len(entries)), draw.randrange(len(entries)), draw.randrange(5)
        if how == 0:
            del entries[here]
        elif how == 1:
            entries.insert(there, entries[here])
        elif how == 2:
            entries[here], entries[there] = entries[there], entries[here]
        else:
            at, byte = draw.choice([0, 1, 2, 4, 5, 8, 9, 15]), draw.choice([0, 1, 2, 3, 7, 9, 13, 21, 24, 128, 254, 255])
            entries[here] = entries[here][:at] + bytes([byte]) + entries[here][at + 1:]
    return b"".join(entries)


# how a record is changed
RECORD_WAYS = [with_bytes, with_cut] + 4 * [with_entries]
# how a text is changed, and how often in this way; the last ones leave the most texts that are read
WAYS = [with_bytes, with_cut, with_tokens, with_other, with_many] + 2 * [with_lines] + 3 * [with_numbers, with_words] + 6 * [with_names, with_steps]


def changed(draw, text, name, tokens):
    """A text with one change, or a few."""
    ways = RECORD_WAYS if end_of(name) == "record" else WAYS
    for _ in range(draw.choice([1, 1, 1, 1, 2, 3])):
        text = draw.choice(ways)(draw, text, name, tokens)
    return text
