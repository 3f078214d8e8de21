#!/usr/bin/env python3
"""A language server for `dgc`: what `dgc check` refuses of modules of LLVM IR and of their certificates, while they are written (README.md).

    server.py [--dgc PROGRAM] [--forms core|wide] [--limit N] [--seconds S] [--pause S]

It speaks the Language Server Protocol over its standard input and output, and needs nothing but Python 3.
"""
import argparse
import asyncio
import contextlib
import json
import os
import signal
import sys
import threading
import traceback

import actions
import hovers
from findings import ERROR, File, WARNING
from pairs import CERTIFICATE, MODULE, SHAPES, Pair, certificate_for, certificate_of, judge, modules_of
from program import GRACE, Program, Trouble
from protocol import (
    BAD_PARAMS, CANCELLED, CHANGED, INTERNAL, Malformed, NO_JSON, NO_METHOD, NO_REQUEST, NOT_BEGUN, Refused, member, optional, read_message, write_message)
from settings import Settings
from texts import Text, bytes_of, path_of

LOG = 4            # a message for the log, in the protocol's numbers
INCREMENTAL = 2    # changes come as edits of the text
WATCHED = "dgc-files"


def position_of(given, path):
    """A position of the protocol."""
    place = {name: member(given, f"{path}.{name}", int) for name in ("line", "character")}
    if min(place.values()) < 0:
        raise Refused(BAD_PARAMS, f"{path} is negative")
    return place


def range_of(given, path):
    return {name: position_of(given, f"{path}.{name}") for name in ("start", "end")}


def is_asked(kind, only):
    """Whether an editor asks for actions of a kind. That of all fixes takes a run, and has to be named."""
    if not isinstance(only, list) or "" in only:
        return kind == actions.KIND
    return any(isinstance(asked, str) and f"{kind}.".startswith(f"{asked}.") for asked in only)


class Server:
    """The texts of the editor, the modules with their certificates, and the messages between."""

    def __init__(self, settings, sink):
        self.sink, self.settings, self.capabilities = sink, settings, {}
        self.documents, self.pairs, self.requests, self.troubles, self.tasks = {}, {}, {}, set(), set()
        self.program, self.has_begun, self.is_over, self.status = None, False, False, None
        self.messages = asyncio.Queue()

    # Messages

    def write(self, message):
        """Writes a message. Where nobody reads any more the server ends."""
        try:
            write_message(self.sink, message)
        except OSError:
            self.messages.put_nowait(None)

    def tell(self, method, params):
        self.write({"method": method, "params": params})

    def log(self, message, kind=LOG):
        self.tell("window/logMessage", {"type": kind, "message": f"dgc: {message}"})

    def warn(self, message, kind=WARNING):
        self.tell("window/showMessage", {"type": kind, "message": f"dgc: {message}"})

    def refuse(self, number, code, text):
        self.write({"id": number, "error": {"code": code, "message": text}})

    async def serve(self):
        """Answers messages until there are no more. Returns the status."""
        while self.status is None:
            message = await self.messages.get()
            if message is None:
                return 1
            if isinstance(message, Malformed):
                self.refuse(None, NO_JSON, str(message))
            elif "method" in message:
                self.take(message)
        return self.status

    def start(self, work):
        """Begins some work beside the messages."""
        task = asyncio.get_running_loop().create_task(work)
        self.tasks.add(task)
        task.add_done_callback(self.tasks.discard)
        return task

    async def finish(self):
        """Ends all work, with the runs of the program."""
        for task in self.tasks:
            task.cancel()
        if self.tasks:
            await asyncio.wait(self.tasks, timeout=GRACE)
        if self.program:
            await self.program.finish()

    def take(self, message):
        """Answers a message of the editor, or begins to."""
        number, method, params = message.get("id"), message["method"], message.get("params")
        if "id" not in message:
            return self.notice(method, params)
        if not isinstance(number, (int, str)) or not isinstance(method, str):
            return self.refuse(None, NO_REQUEST, "a request has an id, which is a number or a text, and a method, which is a text")
        if method in AT_ONCE or not self.has_begun or self.is_over or method not in REQUESTS:
            return self.answer_at_once(number, method, params)
        task = self.start(self.answer(number, method, params, dict(self.documents)))
        task.add_done_callback(lambda _: self.answered(number, task))
        self.requests[number] = task

    def notice(self, method, params):
        """Takes a notice of the editor. One that is not as it should be changes nothing."""
        if method == "exit":
            self.status = 0 if self.is_over else 1
        run = NOTICES.get(method) if isinstance(method, str) and self.has_begun and not self.is_over else None
        try:
            if run:
                run(self, params)
        except Refused as fault:
            self.log(f"{method}: {fault}", WARNING)
        except Exception:
            self.log(f"{method}: {traceback.format_exc()}", ERROR)

    def answer_at_once(self, number, method, params):
        """Answers a request that waits for nothing, or one that is refused."""
        try:
            if not self.has_begun and method != "initialize":
                raise Refused(NOT_BEGUN, "the first request has to be initialize")
            if self.is_over:
                raise Refused(NO_REQUEST, "the server was shut down")
            if method not in AT_ONCE:
                raise Refused(NO_METHOD, f"there is no method {method}")
            self.write({"id": number, "result": AT_ONCE[method](self, params)})
        except Refused as fault:
            self.refuse(number, fault.code, str(fault))

    async def answer(self, number, method, params, documents):
        """Answers a request about the texts as they are when it comes."""
        try:
            self.write({"id": number, "result": await REQUESTS[method](self, params, documents)})
        except Refused as fault:
            self.refuse(number, fault.code, str(fault))
        except Trouble as trouble:
            self.refuse(number, INTERNAL, f"{self.program.path} {trouble}")
        except Exception:
            self.refuse(number, INTERNAL, traceback.format_exc())

    def answered(self, number, task):
        """Forgets a request. One that was cancelled, maybe before it began, is answered so."""
        self.requests.pop(number, None)
        if task.cancelled():
            self.refuse(number, CANCELLED, "the request was cancelled")

    # The beginning and the end

    def initialize(self, params):
        """Takes what the editor can do and its options, and says what the server can do."""
        if self.has_begun:
            raise Refused(NO_REQUEST, "initialize was asked before")
        params = params if isinstance(params, dict) else {}
        self.has_begun, self.capabilities = True, params.get("capabilities")
        self.settings.begin(params)
        self.configure(params.get("initializationOptions"))
        return {
            "capabilities": {
                "positionEncoding": self.settings.encoding, "textDocumentSync": {"openClose": True, "change": INCREMENTAL, "save": True},
                "hoverProvider": True, "codeActionProvider": {"codeActionKinds": [actions.KIND, actions.ALL]}},
            "serverInfo": {"name": "dgc"}}

    def configure(self, given):
        """Takes options, and the program that they name."""
        for refused in self.settings.take(given):
            self.warn(refused)
        self.program = Program(self.settings.path(), self.settings.seconds)

    def initialized(self, _):
        """Asks to be told of files that change on the disk, where the editor can do that."""
        if optional(self.capabilities, "workspace.didChangeWatchedFiles.dynamicRegistration"):
            watchers = [{"globPattern": f"**/*{ending}"} for ending in (MODULE, CERTIFICATE, SHAPES)]
            registered = {"id": WATCHED, "method": "workspace/didChangeWatchedFiles", "registerOptions": {"watchers": watchers}}
            self.write({"id": WATCHED, "method": "client/registerCapability", "params": {"registrations": [registered]}})

    def shutdown(self, _):
        self.is_over = True
        for pair in self.pairs.values():
            pair.cancel()

    # Texts

    def opened(self, params):
        """Takes the text of a file. From now on it is what the editor says it is."""
        document = member(params, "textDocument", dict)
        uri = member(document, "uri", str)
        path = path_of(uri)
        if path:
            data = bytes_of(member(document, "text", str))
            self.documents[path] = File(uri, Text(data, self.settings.encoding), optional(document, "version"))
            self.begin(path, 0)

    def changed(self, params):
        """Takes changes of a text: parts of it, each in the text after the one before, or the whole."""
        document, changes = member(params, "textDocument", dict), member(params, "contentChanges", list)
        path = path_of(member(document, "uri", str))
        if path and path not in self.documents:
            raise Refused(BAD_PARAMS, "this text is not open")
        if not path:
            return
        uri, text, _ = self.documents[path]
        for change in changes:
            new = member(change, "text", str)
            whole = optional(change, "range") is None
            text = Text(bytes_of(new), self.settings.encoding) if whole else text.changed(range_of(change, "range"), new)
        self.documents[path] = File(uri, text, optional(document, "version"))
        self.begin(path, self.settings.pause)

    def saved(self, params):
        path = path_of(member(params, "textDocument.uri", str))
        if path in self.documents:
            self.begin(path, 0)

    def closed(self, params):
        path = path_of(member(params, "textDocument.uri", str))
        if self.documents.pop(path, None):
            self.begin(path, 0)

    def watched(self, params):
        """Files changed on the disk. Those that the editor has open are as they are there."""
        for change in member(params, "changes", list):
            path = path_of(member(change, "uri", str))
            if path and path not in self.documents:
                self.begin(path, self.settings.pause)

    def configured(self, params):
        """Takes options, and judges all that is open by them."""
        given = optional(params, "settings.dgc")
        if given is not None:
            self.configure(given)
            for path in [*self.pairs, *self.documents]:
                self.begin(path, 0)

    def cancelled(self, params):
        number = optional(params, "id")
        if isinstance(number, (int, str)) and number in self.requests:
            self.requests[number].cancel()

    # Checks

    def begin(self, path, pause):
        """Judges the modules of a file anew, after a pause in which a newer text may come."""
        for module in modules_of(path, self.settings, self.pairs):
            pair = self.pairs.get(module)
            if not self.is_looked_at(module):
                self.drop(module)
                continue
            pair = pair or self.pairs.setdefault(module, Pair(module))
            pair.cancel()
            pair.task = self.start(self.check(pair, pause))

    def is_looked_at(self, module):
        """Whether the editor has a module or its certificate open."""
        return not {module, certificate_of(module, self.settings)}.isdisjoint(self.documents)

    def drop(self, module):
        """Forgets a module, and what was told of it."""
        pair = self.pairs.pop(module, None)
        if pair:
            pair.cancel()
            self.publish(pair.uris)

    async def check(self, pair, pause):
        """Judges the newest texts of a pair, and tells of them."""
        await asyncio.sleep(pause)
        judged = await judge(pair, self.documents, self.settings, self.program)
        if judged is None:
            return self.drop(pair.module)
        pair.judged = judged
        self.publish_all(pair)

    def publish_all(self, pair):
        """Tells of a pair: of its module, of its certificate, and of what it told before."""
        judged = pair.judged
        before, pair.uris = pair.uris, {judged.module.uri, *(told.file.uri for told in judged.told)}
        shown = {file.uri for file in self.documents.values() if judged.certificate and file.uri == judged.certificate.uri}
        self.publish(before | pair.uris | shown)
        if judged.is_troubled and judged.printed not in self.troubles:
            self.warn(judged.printed, ERROR)
        self.troubles = self.troubles | {judged.printed} if judged.is_troubled else set()
        self.log(f"{os.path.basename(pair.module)}: {judged.printed}")

    def publish(self, uris):
        """Tells what is known of these files, from all modules to which they belong."""
        for uri in sorted(uris):
            told = [told.diagnostic for pair in self.pairs.values() if pair.judged for told in pair.judged.told if told.file.uri == uri]
            different = list({json.dumps(diagnostic): diagnostic for diagnostic in told}.values())
            version = next((file.version for file in self.documents.values() if file.uri == uri), None)
            versioned = {"version": version} if self.settings.view.has_versions and version is not None else {}
            self.tell("textDocument/publishDiagnostics", {"uri": uri, **versioned, "diagnostics": different})

    # Requests

    async def looked_at(self, params, documents):
        """The text that a request names, and the modules to which it belongs, once they are judged as they are now. A request is refused whose text
        changed since."""
        path = path_of(member(params, "textDocument.uri", str))
        modules = modules_of(path, self.settings, self.pairs) if path in documents else []
        for module in modules:
            pair = self.pairs.get(module)
            if pair and not (pair.task and not pair.task.done()) and not pair.is_seen(self.documents, self.settings):
                self.begin(module, 0)
            if pair:
                await pair.settled()
        if documents.get(path) is not self.documents.get(path):
            raise Refused(CHANGED, "the text changed")
        return documents.get(path), [self.pairs[module] for module in modules if module in self.pairs and self.pairs[module].judged]

    async def hover(self, params, documents):
        """What is shown of a place, by the first module to which the file belongs that has something to show."""
        place = position_of(params, "position")
        file, pairs = await self.looked_at(params, documents)
        if not file:
            return None
        for pair in pairs or [None]:
            shown = await hovers.hover(pair, file, file.text.offset(place), self.settings, self.program)
            if shown:
                return shown
        return None

    async def act(self, params, documents):
        """What is offered to change for a part of a file."""
        place, only = range_of(params, "range"), optional(params, "context.only")
        kinds = [kind for kind in (actions.KIND, actions.ALL) if is_asked(kind, only)]
        file, pairs = await self.looked_at(params, documents) if kinds else (None, [])
        found = []
        for pair in pairs:
            if actions.KIND in kinds:
                found += await actions.actions(pair, file, (file.text.offset(place["start"]), file.text.offset(place["end"])), self)
            if actions.ALL in kinds:
                found += await actions.all_fixes(pair, self)
        return [action for number, action in enumerate(found) if action not in found[:number]]

    async def made_for(self, pair):
        """The certificate that is made of a module that has one, once for the same texts."""
        if not pair.section:
            pair.section = self.start(certificate_for(pair, self.documents, self.settings, self.program))
        section = pair.section
        await asyncio.wait([section])
        return None if section.cancelled() else section.result()


AT_ONCE = {"initialize": Server.initialize, "shutdown": Server.shutdown}
REQUESTS = {"textDocument/hover": Server.hover, "textDocument/codeAction": Server.act}
NOTICES = {
    "initialized": Server.initialized, "textDocument/didOpen": Server.opened, "textDocument/didChange": Server.changed,
    "textDocument/didSave": Server.saved, "textDocument/didClose": Server.closed, "workspace/didChangeWatchedFiles": Server.watched,
    "workspace/didChangeConfiguration": Server.configured, "$/cancelRequest": Server.cancelled,
}


def is_last(message):
    return isinstance(message, dict) and message.get("method") == "exit" and "id" not in message


def feed(source, loop, messages):
    """Gives each message of the editor to the server, up to the one that ends it."""
    message = {}
    while message is not None and not is_last(message):
        try:
            message = read_message(source)
        except Malformed as fault:
            message = fault
        except (OSError, MemoryError):
            message = None
        loop.call_soon_threadsafe(messages.put_nowait, message)


async def run(settings):
    """Serves until the editor ends it."""
    server, loop = Server(settings, sys.stdout.buffer), asyncio.get_running_loop()
    for number in (signal.SIGTERM, signal.SIGINT):
        with contextlib.suppress(NotImplementedError):
            loop.add_signal_handler(number, server.messages.put_nowait, None)
    threading.Thread(target=feed, args=(sys.stdin.buffer, loop, server.messages), daemon=True).start()
    status = await server.serve()
    await server.finish()
    os._exit(status)    # The thread that reads may stand in the input.


def main():
    parser = argparse.ArgumentParser(description=__doc__.split("\n")[0])
    parser.add_argument("--dgc", default=os.environ.get("DGC", "dgc"), help="the program, by its path or its name (DGC, or dgc)")
    parser.add_argument("--forms", choices=("core", "wide"), default="core", help="which forms modules may have (core)")
    parser.add_argument("--limit", type=int, default=100, help="how many refusals of a module are told at most (100)")
    parser.add_argument("--seconds", type=float, default=20, help="after how many seconds a run of dgc is ended (20)")
    parser.add_argument("--pause", type=float, default=0.2, help="for how many seconds no change may come before a text is checked (0.2)")
    options = vars(parser.parse_args())
    settings = Settings()
    program = options.pop("dgc")
    for refused in settings.take({"program": os.path.abspath(program) if os.path.dirname(program) else program, **options}):
        parser.error(refused)
    asyncio.run(run(settings))


if __name__ == "__main__":
    main()
