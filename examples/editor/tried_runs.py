"""Cases of try.py about runs and messages: programs that do not answer, texts that change fast, messages that are none. Each returns what was
seen, and what has to be seen."""
import json
import os
import time

from client import CAPABILITIES, Client, uri_of
from tried_texts import BARRIER, SHARED, SWAP, copy, put, server, swapped

PLAIN = "  store ptr %new, ptr @top\n"
MOMENT = 60       # for how many seconds a process may come or go


def program(folder, name, lines):
    """A program in the place of dgc."""
    put(folder, name, "#!/bin/sh\n" + lines + "\n")
    os.chmod(os.path.join(folder, name), 0o755)
    return os.path.join(folder, name)


def counting(dgc, folder):
    """A program that counts its runs, and then is dgc."""
    return program(folder, "counting", f'echo run >> "{folder}/runs"\nexec "{dgc}" "$@"')


def runs_in(folder):
    with open(os.path.join(folder, "runs"), encoding="utf-8") as file:
        return file.read().count("run\n")


def slow(dgc, folder):
    """A program that never ends where the module says `slow`, and otherwise is dgc. It writes the number of its process."""
    return program(folder, "slow", f'if grep -q slow "$2"; then echo $$ > "{folder}/process"; sleep 1000; fi\nexec "{dgc}" "$@"')


def until(holds):
    """Whether something holds within a moment."""
    end = time.monotonic() + MOMENT
    while time.monotonic() < end:
        if holds():
            return True
        time.sleep(0.02)
    return False


def process_of(folder):
    """The process that a slow program wrote down, once it has."""
    path = os.path.join(folder, "process")
    until(lambda: os.path.exists(path) and os.path.getsize(path) > 0)
    with open(path, encoding="utf-8") as file:
        return int(file.read())


def is_gone(number):
    """Whether a process ends."""
    def ended():
        try:
            with open(f"/proc/{number}/stat", encoding="utf-8") as file:
                return file.read().rpartition(")")[2].split()[0] == "Z"
        except FileNotFoundError:
            return True
    return until(ended)


def troubled(path, folder, words=()):
    """What is told of an accepted module by a server with this program."""
    copy(folder, SWAP, "barrier.ll", "swap.cert")
    with server(path, folder, options=SHARED, words=words) as client:
        client.open("barrier.ll")
        found = client.checked("barrier.ll")
        return [(of["severity"], of["message"].replace(path, "DGC")) for of in found], [words.replace(path, "DGC") for words in client.shown]


# Programs that do not answer


def a_program_that_is_missing(_, folder):
    """A program that is missing is told at the module and in a message."""
    said = "cannot be started: No such file or directory"
    return troubled(os.path.join(folder, "none"), folder), ([(2, f"nothing is checked: DGC {said}")], [f"dgc: DGC {said}"])


def a_program_that_is_none(_, folder):
    """A file that is no program is told."""
    put(folder, "none", "no program")
    os.chmod(os.path.join(folder, "none"), 0o755)
    said = "cannot be started: Exec format error"
    return troubled(os.path.join(folder, "none"), folder), ([(2, f"nothing is checked: DGC {said}")], [f"dgc: DGC {said}"])


def a_program_that_dies(_, folder):
    """A program that dies is told with its signal."""
    path = program(folder, "dies", "kill -9 $$")
    return troubled(path, folder), ([(2, "nothing is checked: DGC died by signal 9")], ["dgc: DGC died by signal 9"])


def a_program_that_hangs(_, folder):
    """A program that hangs is ended after its time, with what it began."""
    path = program(folder, "hangs", f'sleep 1000 &\necho $! > "{folder}/process"\nwait')
    said = "gave no answer in 0.5 seconds, and was ended"
    seen = troubled(path, folder, ["--seconds", "0.5"])
    return (seen, is_gone(process_of(folder))), (([(2, f"nothing is checked: DGC {said}")], [f"dgc: DGC {said}"]), True)


def a_program_without_an_answer(_, folder):
    """A program that ends without an answer is told with the first line that it says."""
    path = program(folder, "other", "echo 'what is --json?' >&2\necho yes 1\nexit 0")
    said = "ended with status 0 and wrote no answer: what is --json?"
    return troubled(path, folder), ([(2, f"nothing is checked: DGC {said}")], [f"dgc: DGC {said}"])


def a_program_with_half_an_answer(_, folder):
    """An answer that is cut off is none."""
    path = program(folder, "half", 'while [ "$1" != --json ]; do shift; done\necho \'{"format":1,"status":0\' > "$2"')
    return troubled(path, folder)[0], [(2, "nothing is checked: DGC ended with status 0 and wrote no answer")]


def a_yes_of_another_status(_, folder):
    """An answer that says yes where the status says no is none."""
    path = program(folder, "mixed", 'while [ "$1" != --json ]; do shift; done\necho \'{"format":1,"status":0,"verdict":"yes"}\' > "$2"\nexit 1')
    return troubled(path, folder)[0], [(2, "nothing is checked: DGC wrote an answer of another format")]


def an_answer_of_another_form(_, folder):
    """An answer whose refusals say nothing is none."""
    path = program(folder, "empty", 'while [ "$1" != --json ]; do shift; done\necho \'{"format":1,"status":1,"verdict":"no","refusals":[{}]}\' > "$2"\nexit 1')
    return troubled(path, folder)[0], [(2, "nothing is checked: DGC wrote an answer of another form")]


def a_program_that_prints_on(_, folder):
    """A program that prints without an end is ended, and the server goes on."""
    return troubled(program(folder, "prints", "exec yes"), folder)[0], [(2, "nothing is checked: DGC printed more than 64 MiB")]


def another_program_later(dgc, folder):
    """The program is changed by a configuration, and the open texts are checked by the new one."""
    copy(folder, SWAP, "plain.ll", "swap.cert")
    with server(os.path.join(folder, "none"), folder, options=SHARED) as client:
        client.open("plain.ll")
        client.checked("plain.ll")
        client.notify("workspace/didChangeConfiguration", {"settings": {"dgc": {"program": dgc}}})
        return [of.get("code") for of in client.checked("plain.ll")], ["K6"]


def options_that_are_refused(dgc, folder):
    """Options that are none are told, and the server goes on with the others."""
    copy(folder, SWAP, "plain.ll", "swap.cert")
    with server(dgc, folder, options={**SHARED, "forms": "all", "limits": 3}) as client:
        client.open("plain.ll")
        return ([of["code"] for of in client.checked("plain.ll")], client.shown), (
            ["K6"], ["dgc: there is no option limits", "dgc: the option forms has to be core or wide"])


def certificates_by_a_pattern(dgc, folder):
    """The option `certificates` has patterns, of which the first that fits is taken, and the module's name in the place of a star."""
    copy(folder, SWAP, "plain.ll", "swap.cert")
    for name in ("in", "certs"):
        os.makedirs(os.path.join(folder, name))
    os.rename(os.path.join(folder, "plain.ll"), os.path.join(folder, "in", "plain.ll"))
    os.rename(os.path.join(folder, "swap.cert"), os.path.join(folder, "certs", "plain.x"))
    with server(dgc, folder, options={"certificates": {"*.ll": "none.cert", "**/pla?n.ll": "certs/*.x"}}) as client:
        client.open(os.path.join("in", "plain.ll"))
        return [of.get("code") for of in client.checked(os.path.join("in", "plain.ll"))], ["K6"]


# Texts that change fast


def many_changes(dgc, folder):
    """Many changes in a row are one run, of the newest text."""
    with swapped(counting(dgc, folder), folder, words=["--pause", "3"]) as client:
        text = client.texts["plain.ll"][0]
        for number in range(50):
            client.change("plain.ll", text.replace(PLAIN, BARRIER if number == 49 else PLAIN * (number + 1)))
        return (client.checked("plain.ll"), runs_in(folder)), ([], 2)


def a_run_of_an_older_text(dgc, folder):
    """A run of an older text is ended when a newer one comes, and tells nothing."""
    with swapped(slow(dgc, folder), folder) as client:
        text = client.texts["plain.ll"][0]
        client.change("plain.ll", "; slow\n" + text)
        number = process_of(folder)
        client.change("plain.ll", text.replace(PLAIN, BARRIER))
        return (client.checked("plain.ll"), is_gone(number), client.published), ([], True, 2)


def a_file_that_is_closed(dgc, folder):
    """Where a file is closed while it is checked, the run is ended and nothing more is told of it."""
    with swapped(slow(dgc, folder), folder) as client:
        client.change("plain.ll", "; slow\n" + client.texts["plain.ll"][0])
        number = process_of(folder)
        client.close("plain.ll")
        gone = is_gone(number)
        client.open("barrier.ll")
        client.checked("barrier.ll")
        return (client.found("plain.ll"), gone, client.published), ([], True, 3)


def an_action_meanwhile(dgc, folder):
    """What is asked before a changed text is checked is answered of the changed text."""
    with swapped(dgc, folder) as client:
        place = client.found("plain.ll")[0]["range"]
        client.change("plain.ll", client.texts["plain.ll"][0].replace(PLAIN, BARRIER))
        return client.actions("plain.ll", place), []


def a_text_that_changes_again(dgc, folder):
    """A request is refused whose text changes before it is answered."""
    with swapped(slow(dgc, folder), folder) as client:
        text = client.texts["plain.ll"][0]
        client.change("plain.ll", "; slow\n" + text)
        number = client.ask("textDocument/hover", {"textDocument": {"uri": client.uri("plain.ll")}, "position": {"line": 20, "character": 3}})
        client.change("plain.ll", text)
        return client.answer(number)["code"], -32801


def a_request_that_is_cancelled(dgc, folder):
    """A request that is cancelled is answered so, and the server goes on."""
    with swapped(slow(dgc, folder), folder) as client:
        client.change("plain.ll", "; slow\n" + client.texts["plain.ll"][0])
        number = client.ask("textDocument/hover", {"textDocument": {"uri": client.uri("plain.ll")}, "position": {"line": 20, "character": 3}})
        client.notify("$/cancelRequest", {"id": number})
        return client.answer(number)["code"], -32800


def a_change_on_the_disk(dgc, folder):
    """A certificate that changes on the disk is checked with the open module, and the editor is asked to tell of that."""
    watching = {**CAPABILITIES, "workspace": {"didChangeWatchedFiles": {"dynamicRegistration": True}}}
    with swapped(dgc, folder, "barrier.ll", capabilities=watching) as client:
        put(folder, "swap.cert", client.read("swap.cert").replace("%old ref Node nonnull", "%old ref Node"))
        client.notify("workspace/didChangeWatchedFiles", {"changes": [{"uri": client.uri("swap.cert"), "type": 2}]})
        asked = [of["method"] for of in client.asked]
        return (asked, [of["code"] for of in client.checked("barrier.ll")]), (["client/registerCapability"], ["K4"])


# Messages


def messages_that_are_none(dgc, folder):
    """Messages that are none are answered with errors, and the next one is read."""
    with swapped(dgc, folder) as client:
        codes = []
        for data in (b"Content-Length: 4\r\n\r\n{{{{", b"Content-Length: 2\r\n\r\n[]", b"Length: 9\r\n\r\n{\"id\": 1}", b"Content-Length: 100000000000\r\n\r\n"):
            client.send(data)
            codes.append(client.until(lambda message: "id" in message)["code"])
        client.send(b"Content-Length: 200000\r\n\r\n" + b"[" * 200000)
        codes.append(client.until(lambda message: "id" in message)["code"])
        return (codes, client.hover("plain.ll", "@top = ")[:9]), ([-32700] * 5, "swap.cert")


def requests_that_are_none(dgc, folder):
    """Requests that are none are refused, each with its code."""
    with swapped(dgc, folder) as client:
        document = {"uri": client.uri("plain.ll")}
        asked = [
            ("textDocument/rename", {}), ("textDocument/hover", {}), ("textDocument/hover", [1]), ("initialize", {}),
            ("textDocument/hover", {"textDocument": document, "position": {"line": -1, "character": 0}}),
            ("textDocument/codeAction", {"textDocument": document, "range": {"start": {"line": 0.5, "character": 0}}})]
        return [client.request(*of)["code"] for of in asked], [-32601, -32602, -32602, -32600, -32602, -32602]


def notices_that_are_none(dgc, folder):
    """Notices that are none change nothing."""
    with swapped(dgc, folder) as client:
        for params in (None, {}, {"textDocument": {"uri": 3}}, {"textDocument": {"uri": "file://[/x"}, "contentChanges": [{}]}):
            for method in ("didOpen", "didChange", "didSave", "didClose"):
                client.notify(f"textDocument/{method}", params)
        client.notify("textDocument/didChange", {"textDocument": {"uri": client.uri("gone.ll"), "version": 1}, "contentChanges": [{"text": ""}]})
        client.notify("workspace/didChangeWatchedFiles", {"changes": [None]})
        client.write({"method": 7})
        client.write({"id": [1], "method": "textDocument/hover"})
        client.until(lambda message: message.get("id", 0) is None)
        return client.hover("plain.ll", "store ptr %new")[:7], "dgc: K6"


def places_beyond_the_text(dgc, folder):
    """A place past the end of a line or of the text is its end."""
    with swapped(dgc, folder) as client:
        far = {"textDocument": {"uri": client.uri("plain.ll")}, "position": {"line": 10 ** 12, "character": 10 ** 12}}
        past = {**far, "position": {"line": 19, "character": 5000}}
        return (client.request("textDocument/hover", far), client.request("textDocument/hover", past)["contents"]["value"][:7]), (None, "dgc: K6")


def a_text_without_a_file(dgc, folder):
    """A text without a file is not checked, and asking about it gives nothing."""
    with swapped(dgc, folder) as client:
        client.notify("textDocument/didOpen", {"textDocument": {"uri": "untitled:1", "languageId": "llvm", "version": 1, "text": "x"}})
        return client.request("textDocument/hover", {"textDocument": {"uri": "untitled:1"}, "position": {"line": 0, "character": 0}}), None


def half_a_sign(dgc, folder):
    """Half of a surrogate pair in a text is no end of the server."""
    with swapped(dgc, folder, "barrier.ll") as client:
        client.change("barrier.ll", "; \ud835\n" + client.texts["barrier.ll"][0])
        return client.checked("barrier.ll"), []


def before_it_begins(dgc, folder):
    """Before the first request and after the last one requests are refused."""
    client = Client(dgc, folder)
    try:
        before = client.request("textDocument/hover", {})["code"]
        client.begin()
        client.request("shutdown", None)
        return (before, client.request("textDocument/hover", {})["code"]), (-32002, -32600)
    finally:
        client.kill()


def the_end(dgc, folder):
    """The server ends with 0 as an editor ends it, and leaves no file."""
    with swapped(dgc, folder) as client:
        return (client.end(), os.listdir(os.path.join(folder, "scratch"))), (0, [])


def an_end_without_a_word(dgc, folder):
    """Where the editor is gone while a run hangs, the server ends with 1, the run with it, and no file is left."""
    with swapped(slow(dgc, folder), folder) as client:
        client.change("plain.ll", "; slow\n" + client.texts["plain.ll"][0])
        number = process_of(folder)
        client.server.stdin.close()
        seen = (client.server.wait(MOMENT), is_gone(number), os.listdir(os.path.join(folder, "scratch")))
        return seen, (1, True, [])


def an_end_by_a_signal(dgc, folder):
    """A server that is terminated ends the run, and leaves no file."""
    with swapped(slow(dgc, folder), folder) as client:
        client.change("plain.ll", "; slow\n" + client.texts["plain.ll"][0])
        number = process_of(folder)
        client.server.terminate()
        seen = (client.server.wait(MOMENT), is_gone(number), os.listdir(os.path.join(folder, "scratch")))
        return seen, (1, True, [])


CASES = [
    a_program_that_is_missing, a_program_that_is_none, a_program_that_dies, a_program_that_hangs, a_program_without_an_answer,
    a_program_with_half_an_answer, a_yes_of_another_status, an_answer_of_another_form, a_program_that_prints_on, another_program_later, options_that_are_refused,
    certificates_by_a_pattern, many_changes, a_run_of_an_older_text, a_file_that_is_closed, an_action_meanwhile, a_text_that_changes_again,
    a_request_that_is_cancelled, a_change_on_the_disk, messages_that_are_none, requests_that_are_none, notices_that_are_none,
    places_beyond_the_text, a_text_without_a_file, half_a_sign, before_it_begins, the_end, an_end_without_a_word, an_end_by_a_signal]
