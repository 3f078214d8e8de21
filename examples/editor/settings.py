"""The options of the server: those of its command line, and those that an editor gives when it begins or later."""
import os
import shutil

from findings import View, pages_of
from protocol import optional
from texts import UNITS, path_of, uri_of

RULES = os.path.join(os.path.dirname(os.path.abspath(__file__)), "..", "..", "docs", "RULES.md")
FORMS = ("core", "wide")
MOST_TOLD = 1000000


def is_number(value, least, most):
    return isinstance(value, (int, float)) and not isinstance(value, bool) and least <= value <= most


def is_paths(value):
    return isinstance(value, dict) and all(isinstance(path, str) and path and "\0" not in path for pair in value.items() for path in pair)


# What each option has to be, in words and as a test.
OPTIONS = {
    "program": ("the path or the name of dgc", lambda value: isinstance(value, str) and value != "" and "\0" not in value),
    "forms": ("core or wide", lambda value: value in FORMS),
    "certificates": ("an object of paths: a module or a pattern, and its certificate", is_paths),
    "limit": (f"a whole number from 1 to {MOST_TOLD}", lambda value: isinstance(value, int) and is_number(value, 1, MOST_TOLD)),
    "seconds": ("a number of seconds from 0.1 to 3600", lambda value: is_number(value, 0.1, 3600)),
    "pause": ("a number of seconds from 0 to 60", lambda value: is_number(value, 0, 60)),
}


class Settings:
    """The options, the folder from which their paths count, and what the editor understands."""

    def __init__(self):
        self.program, self.forms, self.limit, self.seconds, self.pause = "dgc", "core", 100, 20, 0.2
        self.certificates, self.root = {}, os.getcwd()
        self.encoding, self.view, self.is_markdown = "utf-16", None, False

    def begin(self, params):
        """Takes what the editor says when it begins: its folder, and what it understands."""
        folders = params.get("workspaceFolders")
        first = folders[0] if isinstance(folders, list) and folders else None
        uri = optional(first, "uri") or params.get("rootUri")
        self.root = (path_of(uri) if isinstance(uri, str) else None) or self.root
        capabilities = params.get("capabilities")
        known = optional(capabilities, "general.positionEncodings", [])
        self.encoding = next((name for name in known if name in UNITS), "utf-16") if isinstance(known, list) else "utf-16"
        formats = optional(capabilities, "textDocument.hover.contentFormat")
        self.is_markdown = isinstance(formats, list) and "markdown" in formats
        pages = {code: f"{uri_of(os.path.abspath(RULES))}#L{line}" for code, line in pages_of(RULES).items()}
        self.view = View(capabilities, self.encoding, pages)

    def take(self, given):
        """Takes options of the editor. Returns a sentence for each that is refused; it stays as it was."""
        if given is None:
            return []
        if not isinstance(given, dict):
            return ["the options are no object"]
        refused = [f"there is no option {name}" for name in given if name not in OPTIONS]
        for name, (words, fits) in OPTIONS.items():
            if name in given and fits(given[name]):
                setattr(self, name, given[name])
            elif name in given:
                refused.append(f"the option {name} has to be {words}")
        return refused

    def path(self):
        """The program: one of PATH by its name, or a path from the folder of the workspace."""
        if os.path.dirname(self.program):
            return os.path.join(self.root, os.path.expanduser(self.program))
        return shutil.which(self.program) or self.program
