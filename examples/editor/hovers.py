"""What is shown of the place under the pointer: why it is refused, what the certificate says of the name there, the page of a code."""
import os

import outline
from findings import explained, touches
from pairs import certificate_of


class Shown:
    """Parts of a hover: paragraphs and blocks of lines, as the editor takes them."""

    def __init__(self, is_markdown):
        self.is_markdown, self.parts = is_markdown, []

    def say(self, words):
        self.parts.append(words)

    def show(self, lines):
        """Lines as they stand in a file."""
        fence = "````" if any("```" in line for line in lines) else "```"
        self.parts.append("\n".join([f"{fence}text", *lines, fence] if self.is_markdown else lines))

    def result(self, text, span):
        """The result of the request, or None where nothing is shown."""
        if not self.parts:
            return None
        contents = {"kind": "markdown" if self.is_markdown else "plaintext", "value": "\n\n".join(self.parts)}
        return {"contents": contents, **({"range": text.range(*span)} if span else {})}


def show_refused(shown, pair, told):
    """Why a place is refused, with what is said of other places."""
    if not told.finding:
        return shown.say(told.diagnostic["message"])
    shown.say(f"dgc: {told.finding['code']}")
    shown.show(explained(told.finding, pair.judged.files, False).split("\n"))


def words(name):
    return name.decode(errors="replace")


def said_of(certificate, name, place):
    """What a certificate says of a name at a place of the module: sentences, each with its lines."""
    section = certificate.sections.get(place.function)
    if name.startswith(b"@"):
        return said_of_global(certificate, name)
    if section and name in section.blocks:
        return [said_where(name, "", section.blocks[name])]
    lines = [line for line in section.head[1:] if name in outline.names_in(line)] if section else []
    lines += [line for line in certificate.shapes if is_shape_of(line, name, place)]
    said = [(f"says of {words(name)}:", lines)] if lines else []
    if section and place.block in section.blocks:
        facts = [line for line in section.blocks[place.block] if name in outline.names_in(line)]
        said += [said_where(place.block, f" of {words(name)}", facts)] if facts or not lines else []
    return said


def said_where(block, of, lines):
    """What is said of the place where a block begins."""
    return f"says{of} where {words(block)} begins:" if lines else f"says nothing{of} where {words(block)} begins", lines


def said_of_global(certificate, name):
    """What a certificate says of a function or of a global."""
    if name in certificate.sections:
        return [(f"says of {words(name)}:", certificate.sections[name].head)]
    lines = [line for line in certificate.shapes if line.split(b" ")[0] in (b"global", b"foreign") and name in outline.names_in(line)]
    return [(f"says of {words(name)}:", lines)] if lines else []


def is_shape_of(line, name, place):
    """Whether a shape is that of this root slot, or of a word of this layout."""
    kind, *rest = outline.words_of(line)
    if kind == b"root" and len(rest) > 1:
        return (outline.plain(rest[0]), outline.plain(rest[1])) == (place.function, name)
    return kind == b"layout" and len(rest) > 0 and outline.plain(b"%" + rest[0]) == name


def show_listed(shown, pair, file, offset, settings):
    """What the certificate says of the name at a place of the module. Returns where the name begins and ends."""
    certificate = pair.judged.certificate
    name, start, end = outline.name_at(file.text.data, offset) or (None, 0, 0)
    if not name or not certificate or file.uri != pair.judged.module.uri:
        return show_defined(shown, pair, file, (name, start, end)) if name else None
    said = said_of(outline.certificate_of(certificate.text.data), name, outline.place_in_module(file.text.data, offset))
    for sentence, lines in said:
        shown.say(f"{os.path.basename(certificate_of(pair.module, settings))} {sentence}")
        if lines:
            shown.show([words(line) for line in lines])
    return (start, end) if said else None


def show_defined(shown, pair, file, named):
    """The line of the module that defines the name at a place of the certificate. Returns where the name begins and ends."""
    name, start, end = named
    function, _ = outline.certificate_of(file.text.data).block_at(start)
    found = outline.definition_of(pair.judged.module.text.data, function, name) if function else None
    if not found:
        return None
    shown.say(f"{os.path.basename(pair.module)}, line {found[0]}:")
    shown.show([words(found[1])])
    return start, end


async def hover(pair, file, offset, settings, program):
    """What is shown of a place of a module or of its certificate."""
    shown, span = Shown(settings.is_markdown), None
    code = outline.code_at(file.text.data, offset)
    page = await program.explain(code[0]) if code else None
    if page:
        shown.show(page.rstrip("\n").split("\n"))
        return shown.result(file.text, code[1:])
    if pair and pair.judged:
        for told in pair.judged.told:
            if touches(told, file, offset, offset):
                show_refused(shown, pair, told)
                span = span or told.spans[0]
        span = show_listed(shown, pair, file, offset, settings) or span
    return shown.result(file.text, span)
