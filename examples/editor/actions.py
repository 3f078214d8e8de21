"""What the editor offers to change: the fixes of a finding, the section of a function, and a certificate."""
import os

import outline
from findings import edit, edits_of, title_of, touches
from pairs import all_fixed, certificate_of
from protocol import optional
from texts import uri_of

KIND = "quickfix"
ALL = "source.fixAll.dgc"


class Writer:
    """Actions as the editor takes them."""

    def __init__(self, capabilities, judged):
        operations = optional(capabilities, "workspace.workspaceEdit.resourceOperations")
        self.has_documents = bool(optional(capabilities, "workspace.workspaceEdit.documentChanges"))
        self.creates = isinstance(operations, list) and "create" in operations
        self.versions = {file.uri: file.version for file in judged.files.values()}

    def change(self, edits, new=None):
        """The edit of the workspace that makes these edits, given by their URIs. `new` is the URI of a file that is made first."""
        if not self.has_documents:
            return {"changes": edits}
        made = [{"kind": "create", "uri": new}] if new and self.creates else []
        return {"documentChanges": made + [{"textDocument": {"uri": uri, "version": self.versions.get(uri)}, "edits": of} for uri, of in edits.items()]}

    def action(self, title, change, told, is_safe):
        """An action that mends what is told."""
        return {"title": f"dgc: {title}", "kind": KIND, "diagnostics": [told.diagnostic], "isPreferred": is_safe, "edit": change}


def fixes_of(told, judged, writer):
    """The fixes that an answer has of a finding."""
    found = []
    for fix in (told.finding or {}).get("fixes", []):
        edits = edits_of(fix["changes"], judged.files)
        if edits:
            title = title_of(fix["changes"]) + ("" if fix["safe"] else " (changes what the program does)")
            found.append(writer.action(title, writer.change(edits), told, fix["safe"]))
    return found


def new_certificate(pair, told, writer, settings):
    """The certificate that was made where there is none. One that trusts functions is for its author to judge."""
    path = certificate_of(pair.module, settings)
    made = pair.judged.made
    trusted = outline.certificate_of(made.encode()).trusted()
    title = f"make the certificate {os.path.basename(path)}" + (f", which trusts {b', '.join(trusted).decode()}" if trusted else "")
    start = {"line": 0, "character": 0}
    edits = {uri_of(path): [{"range": {"start": start, "end": start}, "newText": made}]}
    return writer.action(title, writer.change(edits, uri_of(path)), told, not trusted)


def function_of(told, judged):
    """The function whose section may mend what is told, by its plain name, or None."""
    if told.finding and "function" in told.finding:
        return outline.plain(told.finding["function"].encode())
    words = judged.printed.split(" ") if told.finding else []
    if words[:2] == ["error", "C5"]:
        return outline.plain(outline.words_of(" ".join(words[2:]).encode())[0])
    return None


def new_section(told, judged, made, writer):
    """The section of a function as `dgc make` writes it, in the place of the one that is there, or after all others."""
    name = function_of(told, judged)
    file = judged.certificate
    if not name or not made or not file or not file.text.is_utf8() or name not in made.sections:
        return []
    given, section = outline.certificate_of(file.text.data), made.text_of(name).decode(errors="replace")
    shown = name.decode(errors="replace")
    if name in given.twice:
        return []
    if name not in given.sections:
        end = len(file.text.data)
        line = "" if file.text.data.endswith(b"\n") or not end else "\n"
        return [writer.action(f"make the section of {shown}", writer.change({file.uri: [edit(file, end, end, line + section)]}), told, True)]
    if given.text_of(name) == made.text_of(name):
        return []
    old = given.sections[name]
    return [writer.action(f"make the section of {shown} anew", writer.change({file.uri: [edit(file, old.start, old.end, section)]}), told, False)]


def whole_anew(told, judged, made, writer):
    """The whole certificate as `dgc make` writes it, in the place of one that is not read."""
    file = judged.certificate
    if not made or not file or not told.finding or not told.finding["code"].startswith("C"):
        return []
    change = writer.change({file.uri: [edit(file, 0, len(file.text.data), made.data.decode(errors="replace"))]})
    return [writer.action("make the whole certificate anew", change, told, False)]


def difference(file, new):
    """The edit that makes another text of a file, without what is the same before and after it."""
    old = file.text.data
    first = len(os.path.commonprefix([old, new]))
    last = len(os.path.commonprefix([old[first:][::-1], new[first:][::-1]]))
    start = old.rfind(b"\n", 0, first) + 1
    tail = old[len(old) - last:].find(b"\n")
    end = len(old) - last + tail + 1 if tail >= 0 else len(old)
    return edit(file, start, end, new[start:len(new) - (len(old) - end)].decode())


async def all_fixes(pair, server):
    """All safe fixes of a module and its certificate as one action, as `dgc fix` makes them."""
    judged = pair.judged
    files = [judged.module, judged.certificate]
    if not judged.certificate or judged.is_troubled or not all(file.text.is_utf8() for file in files):
        return []
    lines, texts = await all_fixed(pair, server.settings, server.program)
    edits = {file.uri: [difference(file, text)] for file, text in zip(files, texts) if text != file.text.data}
    change = Writer(server.capabilities, judged).change(edits)
    return [{"title": f"dgc: make all safe fixes ({len(lines)})", "kind": ALL, "edit": change}] if edits else []


async def actions(pair, file, span, server):
    """The actions for a part of a file."""
    judged, settings = pair.judged, server.settings
    writer = Writer(server.capabilities, judged)
    told = [of for of in judged.told if touches(of, file, *span)]
    found = [action for of in told for action in fixes_of(of, judged, writer)]
    if judged.made is not None:
        return found + [new_certificate(pair, judged.told[0], writer, settings)]
    for of in told:
        if function_of(of, judged) or of.finding and of.finding["code"].startswith("C"):
            made = await server.made_for(pair)
            found += new_section(of, judged, made, writer) + whole_anew(of, judged, made, writer)
    return found
