"""An editor without a screen: it starts the server, opens and changes texts, and applies edits as the protocol says."""
import json
import os
import queue
import subprocess
import sys
import threading

HERE = os.path.dirname(os.path.abspath(__file__))
SECONDS = 60      # for how long it waits for an answer
CAPABILITIES = {
    "textDocument": {
        "publishDiagnostics": {"relatedInformation": True, "versionSupport": True, "codeDescriptionSupport": True},
        "hover": {"contentFormat": ["plaintext"]}},
    "workspace": {"workspaceEdit": {"documentChanges": True, "resourceOperations": ["create"]}},
}


class Silent(Exception):
    """The server said nothing in time."""


def uri_of(path):
    return "file://" + path


def units_before(line, character, encoding):
    """How many characters of a line stand before this many units of an encoding."""
    size = {"utf-8": 1, "utf-16": 2, "utf-32": 4}[encoding]
    taken = 0
    for number, sign in enumerate(line):
        if taken >= character:
            return number
        taken += len(sign.encode(encoding if size == 1 else f"{encoding}-le")) // size
    return len(line)


def place_in(text, position, encoding="utf-16"):
    """How many characters of a text stand before a position."""
    lines = text.split("\n")
    return sum(len(line) + 1 for line in lines[:position["line"]]) + units_before(lines[position["line"]], position["character"], encoding)


def marked(text, place, encoding="utf-16"):
    """The part of a text in a range."""
    return text[place_in(text, place["start"], encoding):place_in(text, place["end"], encoding)]


def position_in(text, words, encoding="utf-16"):
    """The position at which some words of a text begin."""
    before = text[:text.index(words)].split("\n")
    size = {"utf-8": 1, "utf-16": 2, "utf-32": 4}[encoding]
    return {"line": len(before) - 1, "character": len(before[-1].encode(encoding if size == 1 else f"{encoding}-le")) // size}


def applied(text, edits, encoding="utf-16"):
    """A text after some edits, whose ranges are of the text before."""
    for edit in sorted(edits, key=lambda edit: -place_in(text, edit["range"]["start"], encoding)):
        start, end = (place_in(text, edit["range"][side], encoding) for side in ("start", "end"))
        text = text[:start] + edit["newText"] + text[end:]
    return text


class Client:
    """A server that was started in a folder, and what it said."""

    def __init__(self, program, folder, words=(), options=None, capabilities=None):
        self.folder, self.said, self.number, self.texts, self.diagnostics = folder, queue.Queue(), 0, {}, {}
        self.shown, self.asked, self.published = [], [], 0
        line = [sys.executable, os.path.join(HERE, "server.py"), "--dgc", program, *words]
        surroundings = dict(os.environ, TMPDIR=os.path.join(folder, "scratch"))
        os.makedirs(surroundings["TMPDIR"], exist_ok=True)
        with open(os.path.join(folder, "errors"), "ab") as errors:
            self.server = subprocess.Popen(line, cwd=folder, env=surroundings, stdin=subprocess.PIPE, stdout=subprocess.PIPE, stderr=errors)
        threading.Thread(target=self.listen, daemon=True).start()
        self.capabilities, self.options = CAPABILITIES if capabilities is None else capabilities, options

    def begin(self):
        """Initializes the server."""
        params = {"processId": os.getpid(), "rootUri": uri_of(self.folder), "capabilities": self.capabilities, "initializationOptions": self.options}
        answer = self.request("initialize", params)
        self.notify("initialized", {})
        return answer

    # Messages

    def listen(self):
        """Takes what the server says, until it ends."""
        source = self.server.stdout
        while True:
            head = {}
            while (line := source.readline()).strip():
                name, _, value = line.decode().partition(":")
                head[name.lower()] = value.strip()
            if not line:
                return self.said.put(None)
            self.said.put(json.loads(source.read(int(head["content-length"]))))

    def send(self, data):
        """Sends bytes as they are."""
        self.server.stdin.write(data)
        self.server.stdin.flush()

    def write(self, message):
        body = json.dumps({"jsonrpc": "2.0", **message}).encode()
        self.send(b"Content-Length: %d\r\n\r\n%s" % (len(body), body))

    def notify(self, method, params):
        self.write({"method": method, "params": params})

    def ask(self, method, params):
        """Sends a request, and returns its number."""
        self.number += 1
        self.write({"id": self.number, "method": method, "params": params})
        return self.number

    def request(self, method, params):
        """The answer to a request: its result, or its error."""
        return self.answer(self.ask(method, params))

    def answer(self, number):
        return self.until(lambda message: message.get("id", 0) == number and "method" not in message)

    def until(self, fits):
        """Takes what the server says up to a message that fits, and returns its result, its error, or the message."""
        while True:
            try:
                message = self.said.get(timeout=SECONDS)
            except queue.Empty:
                raise Silent("the server said nothing") from None
            if message is None:
                raise Silent("the server ended")
            self.keep(message)
            if fits(message):
                return message["result"] if "result" in message else message.get("error", message)

    def keep(self, message):
        """Remembers what is told without being asked."""
        if message.get("method") == "textDocument/publishDiagnostics":
            self.published += 1
            self.diagnostics[message["params"]["uri"]] = message["params"]["diagnostics"]
        elif message.get("method") == "window/showMessage":
            self.shown.append(message["params"]["message"])
        elif "method" in message and "id" in message:
            self.asked.append(message)

    # Texts

    def path(self, name):
        return os.path.join(self.folder, name)

    def uri(self, name):
        return uri_of(self.path(name))

    def read(self, name):
        with open(self.path(name), encoding="utf-8", newline="") as file:
            return file.read()

    def open(self, name, text=None):
        """Opens a file, with another text than that of the disk where one is given."""
        self.texts[name] = [self.read(name) if text is None else text, 1]
        self.notify("textDocument/didOpen", {"textDocument": {"uri": self.uri(name), "languageId": "llvm", "version": 1, "text": self.texts[name][0]}})

    def change(self, name, text, changes=None):
        """Changes a text to another one, as a whole, or by the changes that are given."""
        self.texts[name] = [text, self.texts[name][1] + 1]
        document = {"uri": self.uri(name), "version": self.texts[name][1]}
        self.notify("textDocument/didChange", {"textDocument": document, "contentChanges": changes or [{"text": text}]})

    def close(self, name):
        self.notify("textDocument/didClose", {"textDocument": {"uri": self.uri(name)}})

    def checked(self, name):
        """Waits until a module is checked, and returns what its file is told to have."""
        start = f"dgc: {os.path.basename(name)}: "
        self.until(lambda message: message.get("method") == "window/logMessage" and message["params"]["message"].startswith(start))
        return self.found(name)

    def found(self, name):
        return self.diagnostics.get(self.uri(name))

    def hover(self, name, words, text=None):
        """What is shown where some words of a text begin."""
        text = self.texts[name][0] if text is None else text
        shown = self.request("textDocument/hover", {"textDocument": {"uri": self.uri(name)}, "position": position_in(text, words)})
        return shown["contents"]["value"] if shown else None

    def actions(self, name, place, *only):
        """What is offered for a range of a file, of these kinds where some are given."""
        context = {"diagnostics": [], **({"only": list(only)} if only else {})}
        return self.request("textDocument/codeAction", {"textDocument": {"uri": self.uri(name)}, "range": place, "context": context})

    def apply(self, action):
        """Applies an action to the texts that are open, and to the disk where they are not. An edit for another version of a text is refused."""
        for change in action["edit"]["documentChanges"]:
            path = (change.get("uri") or change["textDocument"]["uri"])[len("file://"):]
            name = os.path.relpath(path, self.folder)
            if change.get("kind") == "create":
                open(path, "x", encoding="utf-8").close()
            elif name in self.texts:
                text, version = self.texts[name]
                assert change["textDocument"]["version"] == version, f"an edit of version {change['textDocument']['version']} of {name}"
                self.change(name, applied(text, change["edits"]))
            else:
                text = applied(self.read(name), change["edits"])
                with open(path, "w", encoding="utf-8", newline="") as file:
                    file.write(text)

    def end(self):
        """Ends the server as an editor does, and returns its status."""
        if self.server.poll() is None:
            self.request("shutdown", None)
            self.notify("exit", None)
        return self.server.wait(SECONDS)

    def kill(self):
        self.server.kill()
        self.server.wait()
