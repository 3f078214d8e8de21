"""What an answer of `dgc` (docs/JSON.md) says, as diagnostics and as edits of the protocol."""
import collections
import re

from protocol import optional

ERROR, WARNING, INFORMATION = 1, 2, 3
LISTS = ("known", "words", "here", "form", "mend")
WIDTH = 72       # how many characters of a text stand in the title of an action

# A file of a run: its URI, its text, and the version of the editor's text or None where the text is that of the disk.
File = collections.namedtuple("File", "uri text version")

# What is told at a place: its file, where the marked part and the line from the instruction on begin and end, the diagnostic, and the finding
# of the answer or None.
Told = collections.namedtuple("Told", "file spans diagnostic finding")


class View:
    """What the editor understands, and where the pages of the codes are."""

    def __init__(self, capabilities, encoding, pages):
        self.encoding, self.pages = encoding, pages
        diagnostics = optional(capabilities, "textDocument.publishDiagnostics")
        self.has_notes = bool(optional(diagnostics, "relatedInformation"))
        self.has_versions = bool(optional(diagnostics, "versionSupport"))
        self.has_links = bool(optional(diagnostics, "codeDescriptionSupport"))


def pages_of(path):
    """Where the page of each code begins: the number of its line in docs/RULES.md."""
    try:
        with open(path, encoding="utf-8") as file:
            heads = ((re.match(r"\*\*([A-Z][0-9]+)\. ", line), number) for number, line in enumerate(file, 1))
            return {head[1]: number for head, number in heads if head}
    except OSError:
        return {}


def span_of(finding, text):
    """Where the part of a text that a finding or a note is about begins and ends."""
    mark = finding.get("mark")
    if mark:
        start = text.offset_of(mark["line"], mark["column"])
        return start, min(start + mark["length"], len(text.data))
    if "line" not in finding:
        return text.line_at(0)
    start = text.offset_of(finding["line"], finding["column"])
    return start, max(text.line_at(start)[1], start)


def place_of(finding, files):
    """The file of a finding, and where it begins and ends there. One of a file as a whole is where its first change is made."""
    file = files.get(finding.get("path")) or next(iter(files.values()))
    changes = [change for fix in finding.get("fixes", []) for change in fix["changes"]]
    if "line" not in finding and changes and files.get(changes[0]["path"]) == file:
        return file, *file.text.line_at(changes[0]["start"])
    return file, *span_of(finding, file.text)


def sentences(finding):
    """The lines that explain a finding."""
    lines = [finding.get("text") or finding.get("code", "")]
    if finding.get("label"):
        lines.append(finding["label"])
    for name in LISTS:
        for number, line in enumerate(finding.get(name, [])):
            lines.append((f"{name}: " if number == 0 else "    ") + line)
    return lines


def has_place(note, files):
    return "line" in note and note.get("path") in files


def explained(finding, files, notes_apart):
    """The lines of a finding and of its notes, but for those that are told apart."""
    notes = [note for note in finding.get("notes", []) if not (notes_apart and has_place(note, files))]
    return "\n".join(sentences(finding) + [f"note: {note['text']}" + (f" (line {note['line']})" if "line" in note else "") for note in notes])


def told_of(finding, files, view):
    """A finding as a diagnostic."""
    file, start, end = place_of(finding, files)
    diagnostic = {
        "range": file.text.range(start, end), "severity": ERROR, "source": "dgc", "code": finding["code"],
        "message": explained(finding, files, view.has_notes)}
    if view.has_links and finding["code"] in view.pages:
        diagnostic["codeDescription"] = {"href": view.pages[finding["code"]]}
    notes = [note for note in finding.get("notes", []) if has_place(note, files)]
    if view.has_notes and notes:
        places = [(files[note["path"]], note) for note in notes]
        diagnostic["relatedInformation"] = [
            {"location": {"uri": of.uri, "range": of.text.range(*span_of(note, of.text))}, "message": note["text"]} for of, note in places]
    return Told(file, [(start, end), line_of(finding, file, start, end)], diagnostic, finding)


def line_of(finding, file, start, end):
    """Where the instruction of a finding begins, and its line ends."""
    if "line" not in finding:
        return start, end
    first = file.text.offset_of(finding["line"], finding["column"])
    return first, max(first, file.text.line_at(first)[1])


def touches(told, file, start, end):
    """Whether what is told is of a part of a file."""
    return told.file.uri == file.uri and any(first <= end and start <= last for first, last in told.spans)


def said(file, severity, message, span=None):
    """A diagnostic that is of no finding, at the first line where no place is given."""
    start, end = span or file.text.line_at(0)
    return Told(file, [(start, end)], {"range": file.text.range(start, end), "severity": severity, "source": "dgc", "message": message}, None)


def all_told(answer, files, view):
    """What an answer says: each refusal, or the fault of a text, and how many refusals are left out."""
    findings = answer.get("refusals", []) + ([answer["fault"]] if "fault" in answer else [])
    told = [told_of(finding, files, view) for finding in findings]
    count = re.fullmatch(r"refusals ([0-9]+)", (answer.get("printed") or [""])[-1])
    if count and int(count[1]) > len(findings):
        told.append(said(next(iter(files.values())), INFORMATION, f"{count[1]} blocks are refused, and {len(findings)} of them are told"))
    return told


# Edits


def edits_of(changes, files):
    """The edits of some changes by the URIs of their files, or None where a text is not the one that the changes are of."""
    edits = {}
    for change in changes:
        file = files.get(change["path"])
        start, end = change["start"], change["start"] + change["length"]
        if not file or not file.text.is_utf8() or file.text.data[start:end].decode(errors="replace") != change["old"]:
            return None
        edits.setdefault(file.uri, []).append(edit(file, start, end, change["new"]))
    return edits


def edit(file, start, end, new):
    """The edit that puts a text in the place of another one, with the line ends of the file."""
    return {"range": file.text.range(start, end), "newText": new.replace("\r\n", "\n").replace("\n", file.text.ending)}


def title_of(changes):
    """What some changes do, in a line."""
    first = changes[0]
    lines = first["new"].strip().split("\n")
    what = lines[0] if len(lines[0]) <= WIDTH else lines[0][:WIDTH] + " .."
    more = f" (and {len(lines) - 1} more lines)" if len(lines) > 1 else ""
    other = f", and {len(changes) - 1} more" if len(changes) > 1 else ""
    if not first["new"]:
        return f"take `{first['old'].strip()[:WIDTH]}` away{other}"
    return ("add" if not first["length"] else "write") + f" `{what}`{more} in the {first['file']}{other}"
