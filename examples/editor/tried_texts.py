"""Cases of try.py about texts: what is told of them, shown of them, and offered to change. Each returns what was seen, and what has to be seen."""
import contextlib
import os
import shutil

from client import CAPABILITIES, Client, applied, marked

TOP = os.path.dirname(os.path.dirname(os.path.dirname(os.path.abspath(__file__))))
SWAP = os.path.join("examples", "swap")
FIXES = os.path.join("bench", "fixes")
ROWS = os.path.join("crates", "dgc_tests", "data", "rows")
SHARED = {"certificates": {"plain.ll": "swap.cert", "barrier.ll": "swap.cert"}}
BARRIER = "  call void @llvm.gcwrite(ptr %new, ptr null, ptr @top)\n"
WITHOUT_PUT = "function @swap may\nblock %again\nblock %put\nblock %seen\nend\n"


def copy(folder, where, *names):
    """Copies files of the repository into the folder of a case, and returns the names."""
    for name in names:
        shutil.copy(os.path.join(TOP, where, name), os.path.join(folder, os.path.basename(name)))
    return names


def put(folder, name, text):
    with open(os.path.join(folder, name), "w", encoding="utf-8", newline="") as file:
        file.write(text)


@contextlib.contextmanager
def server(dgc, folder, **more):
    """A server that was begun, and that is ended."""
    client = Client(dgc, folder, **more)
    try:
        client.begin()
        yield client
        client.end()
    finally:
        client.kill()


@contextlib.contextmanager
def swapped(dgc, folder, module="plain.ll", **more):
    """A server with a module of examples/swap open and checked."""
    copy(folder, SWAP, "plain.ll", "barrier.ll", "swap.cert", "swap.shapes")
    with server(dgc, folder, **{"options": SHARED, **more}) as client:
        client.open(module)
        client.checked(module)
        yield client


@contextlib.contextmanager
def row(dgc, folder, name, **more):
    """A server with the module of a row of crates/dgc_tests open and checked."""
    copy(folder, os.path.join(ROWS, name), "module.ll", "module.cert")
    with server(dgc, folder, **more) as client:
        client.open("module.ll")
        client.checked("module.ll")
        yield client


def codes_and_parts(client, name, encoding="utf-16"):
    """Of each diagnostic of a file its code, its severity, and the part of the text that it marks."""
    text = client.texts[name][0] if name in client.texts else client.read(name)
    return [(of.get("code"), of["severity"], marked(text, of["range"], encoding)) for of in client.found(name)]


# What is told


def an_accepted_module(dgc, folder):
    """An accepted module has no diagnostic."""
    with swapped(dgc, folder, "barrier.ll") as client:
        return client.found("barrier.ll"), []


def a_refused_store(dgc, folder):
    """A refused instruction has a diagnostic: its code, that it is an error, and the marked part."""
    with swapped(dgc, folder) as client:
        return codes_and_parts(client, "plain.ll"), [("K6", 1, "@top")]


def the_place(dgc, folder):
    """Lines and characters of a diagnostic count from 0."""
    with swapped(dgc, folder) as client:
        return client.found("plain.ll")[0]["range"], {"start": {"line": 19, "character": 22}, "end": {"line": 19, "character": 26}}


def the_message(dgc, folder):
    """The message has the sentence, what is said of the part, what is known and what mends it."""
    with swapped(dgc, folder) as client:
        return client.found("plain.ll")[0]["message"].split("\n"), [
            "%new is stored into @top without llvm.gcwrite", "a global is never fresh", "known: %new ref Node nonnull fresh",
            "mend: in place of the store: call void @llvm.gcwrite(ptr %new, ptr null, ptr @top)"]


def the_link(dgc, folder):
    """The code has a link to its page: the line of docs/RULES.md with which its text begins."""
    with swapped(dgc, folder) as client:
        page, _, line = client.found("plain.ll")[0]["codeDescription"]["href"].partition("#L")
        with open(page[len("file://"):], encoding="utf-8") as file:
            return file.read().split("\n")[int(line) - 1].split(" ")[0], "**K6."


def each_block(dgc, folder):
    """Each refused block has a diagnostic."""
    with row(dgc, folder, "all_refusals_of_a_module") as client:
        return codes_and_parts(client, "module.ll"), [("K4", 1, "%p"), ("K1", 1, "%k"), ("K17", 1, "call")]


def the_limit(dgc, folder):
    """Of more refusals than the limit those that are told, and how many there are."""
    with row(dgc, folder, "all_refusals_of_a_module", words=["--limit", "2"]) as client:
        return [of.get("code", of["message"]) for of in client.found("module.ll")], ["K4", "K1", "3 blocks are refused, and 2 of them are told"]


def related_places(dgc, folder):
    """The notes of a refusal are related places."""
    with row(dgc, folder, "json_of_notes") as client:
        text = client.read("module.ll")
        return [(of["message"], marked(text, of["location"]["range"])) for of in client.found("module.ll")[0]["relatedInformation"]], [
            ("%x is the base of %p from here on", "%x"), ("%x is defined here, and not compared with null on the way", "%x")]


def notes_in_the_message(dgc, folder):
    """An editor without related places has the notes in the message."""
    with row(dgc, folder, "json_of_notes", capabilities={}) as client:
        return client.found("module.ll")[0]["message"].split("\n")[-1], "note: %x is defined here, and not compared with null on the way (line 5)"


def places_in_the_certificate(dgc, folder):
    """A related place may be in the certificate."""
    with row(dgc, folder, "all_refusals_of_a_module") as client:
        return [os.path.basename(of["location"]["uri"]) for of in client.found("module.ll")[1]["relatedInformation"]], ["module.cert"]


def a_fault_of_the_module(dgc, folder):
    """A form that is not read has a diagnostic in the module."""
    with row(dgc, folder, "json_of_a_form_that_is_left_out") as client:
        return codes_and_parts(client, "module.ll"), [("L7", 1, "sdiv")]


def a_fault_of_the_layouts(dgc, folder):
    """A struct that holds itself is told of the module."""
    copy(folder, os.path.join(SWAP, "typed"), "plain.ll", "swap.cert")
    with server(dgc, folder, options=SHARED) as client:
        client.open("plain.ll", client.read("plain.ll").replace("{ i64, %Node* }", "{ i64, %Node }"))
        return [of["code"] for of in client.checked("plain.ll")], ["Y1"]


def a_broken_certificate(dgc, folder):
    """A fault of the certificate is told at its place there, and at the module that it is not checked."""
    copy(folder, SWAP, "barrier.ll", "swap.cert")
    with open(os.path.join(folder, "swap.cert"), encoding="utf-8") as file:
        put(folder, "swap.cert", file.read().replace("nonnull fresh", "nonnul fresh"))
    with server(dgc, folder, options=SHARED) as client:
        client.open("barrier.ll")
        found = [(of["severity"], of["message"]) for of in client.checked("barrier.ll")]
        return (found, codes_and_parts(client, "swap.cert")), (
            [(2, "nothing is checked: swap.cert is not read, error C1 8:15")], [("C1", 1, "nonnul")])


def broken_shapes(dgc, folder):
    """A fault of the shapes of a module without a certificate is told at its place there, and at the module that it is not checked."""
    copy(folder, FIXES, "queue.ll", "queue.shapes")
    put(folder, "queue.shapes", "shapes 1\nlayout Item 1 rev Item\n")
    with server(dgc, folder) as client:
        client.open("queue.ll")
        found = [of["message"] for of in client.checked("queue.ll")]
        return (found, codes_and_parts(client, "queue.shapes")), (["nothing is checked: queue.shapes is not read, error C1 2:15"], [("C1", 1, "rev")])


def a_certificate_alone(dgc, folder):
    """A certificate that is opened without its module is checked with the module of the disk."""
    copy(folder, os.path.join(ROWS, "all_refusals_of_a_module"), "module.ll", "module.cert")
    with server(dgc, folder) as client:
        client.open("module.cert")
        return [of["code"] for of in client.checked("module.ll") or client.found("module.ll")], ["K4", "K1", "K17"]


def a_shared_certificate(dgc, folder):
    """The certificate of two modules has what both say of it, once."""
    with swapped(dgc, folder) as client:
        client.open("barrier.ll")
        client.checked("barrier.ll")
        client.open("swap.cert", client.read("swap.cert").replace("cert 2", "cert 3"))
        client.checked("plain.ll")
        client.checked("barrier.ll")
        return codes_and_parts(client, "swap.cert"), [("C2", 1, "3")]


def trusted_functions(dgc, folder):
    """With the wide forms a function that is trusted is told at its line of the certificate."""
    with row(dgc, folder, "foreign_accepted", options={"forms": "wide"}) as client:
        return [(of["severity"], of["message"]) for of in client.found("module.cert")], [
            (3, "@putchar is called and trusted: nothing checks that it keeps its promise")]


def forms_of_the_command_line(dgc, folder):
    """The wide forms may be asked for on the command line."""
    with row(dgc, folder, "foreign_accepted", words=["--forms", "wide"]) as client:
        return client.found("module.ll"), []


def the_core_forms(dgc, folder):
    """Without the wide forms the same certificate is not read."""
    with row(dgc, folder, "foreign_accepted") as client:
        return codes_and_parts(client, "module.cert"), [("C1", 1, "foreign")]


# Texts that are not saved, and positions


def a_text_that_is_not_saved(dgc, folder):
    """The text of the editor is checked, and the file stays as it is."""
    with swapped(dgc, folder, "barrier.ll") as client:
        before = client.read("barrier.ll")
        client.change("barrier.ll", client.texts["barrier.ll"][0].replace(BARRIER, "  store ptr %new, ptr @top\n"))
        client.checked("barrier.ll")
        return (codes_and_parts(client, "barrier.ll"), client.read("barrier.ll") == before), ([("K6", 1, "@top")], True)


def a_certificate_that_is_not_saved(dgc, folder):
    """The certificate of the editor is checked, and not that of the disk."""
    with swapped(dgc, folder, "barrier.ll") as client:
        client.open("swap.cert", client.read("swap.cert").replace("%new ref Node nonnull fresh", "%new ref Node fresh"))
        client.checked("barrier.ll")
        client.change("swap.cert", client.read("swap.cert").replace("%old ref Node nonnull\n", "%old ref Node\n"))
        return [of["code"] for of in client.checked("barrier.ll")], ["K4"]


def signs_before_a_place(dgc, folder, encoding="utf-16", character=26):
    """Characters are units of UTF-16 where the editor names no other ones: two for a sign beyond U+FFFF."""
    general = {"general": {"positionEncodings": [encoding]}} if encoding != "utf-16" else {}
    with swapped(dgc, folder, capabilities={**CAPABILITIES, **general}) as client:
        name = '%"né𝒳ß"'
        client.open("swap.cert", client.read("swap.cert").replace("%new", name))
        client.change("plain.ll", client.texts["plain.ll"][0].replace("%new", name))
        client.checked("plain.ll")
        place = client.found("plain.ll")[0]["range"]["start"]
        return (codes_and_parts(client, "plain.ll", encoding), place), ([("K6", 1, "@top")], {"line": 19, "character": character})


def signs_in_bytes(dgc, folder):
    """Characters are bytes where the editor names UTF-8."""
    return signs_before_a_place(dgc, folder, "utf-8", 30)


def signs_in_code_points(dgc, folder):
    """Characters are code points where the editor names UTF-32."""
    return signs_before_a_place(dgc, folder, "utf-32", 25)


def changes_of_parts(dgc, folder):
    """Changes of parts of a text are made one after another, after signs of two units."""
    with swapped(dgc, folder, "barrier.ll") as client:
        text = client.texts["barrier.ll"][0].replace("put:\n", "put: ; 𝒳é𝒳\n")
        client.change("barrier.ll", text)
        line = text.split("\n").index("put: ; 𝒳é𝒳")

        def part(row, start, end, new):
            return {"range": {"start": {"line": row, "character": start}, "end": {"line": row, "character": end}}, "text": new}
        client.change("barrier.ll", None, [
            part(line, 9, 10, "e"), part(line, 12, 12, "\n  store ptr %new, ptr @top"), part(line + 1, 2, 2, "; "), part(line + 1, 2, 4, "")])
        client.texts["barrier.ll"][0] = text.replace("𝒳é𝒳", "𝒳e𝒳\n  store ptr %new, ptr @top")
        client.checked("barrier.ll")
        return codes_and_parts(client, "barrier.ll"), [("K6", 1, "@top")]


def other_line_ends(dgc, folder):
    """A text with carriage returns is read, and what is put into it ends its lines so too."""
    copy(folder, os.path.join(ROWS, "json_of_a_store_into_a_word"), "module.ll", "module.cert")
    with server(dgc, folder) as client:
        client.open("module.ll", client.read("module.ll").replace("\n", "\r\n"))
        action = client.actions("module.ll", client.checked("module.ll")[0]["range"])[0]
        client.apply(action)
        text = client.texts["module.ll"][0]
        return (client.checked("module.ll"), text.count("\n"), text.count("\r\n")), ([], 12, 12)


# What is shown


def why_it_is_refused(dgc, folder):
    """The pointer on a refused instruction shows why."""
    with swapped(dgc, folder) as client:
        return client.hover("plain.ll", "store ptr %new").split("\n")[:3], ["dgc: K6", "", "%new is stored into @top without llvm.gcwrite"]


def what_is_listed(dgc, folder):
    """The pointer on a register shows what its block's section lists of it."""
    with swapped(dgc, folder, "barrier.ll") as client:
        return client.hover("barrier.ll", "%new, ptr null, ptr @top)").split("\n"), ["swap.cert says of %new where %put begins:", "", "%new ref Node nonnull fresh"]


def what_is_not_listed(dgc, folder):
    """The pointer on a register of which its block's section lists nothing shows that."""
    with swapped(dgc, folder, "barrier.ll") as client:
        return client.hover("barrier.ll", "%none = "), "swap.cert says nothing of %none where %again begins"


def what_a_block_lists(dgc, folder):
    """The pointer on a block shows all that its section lists."""
    with swapped(dgc, folder, "barrier.ll") as client:
        return client.hover("barrier.ll", "%seen\nseen:").split("\n"), ["swap.cert says where %seen begins:", "", "%old ref Node nonnull"]


def what_shapes_say(dgc, folder):
    """The pointer on a root slot, a global, a layout and a function shows their lines."""
    with swapped(dgc, folder, "barrier.ll") as client:
        shown = [client.hover("barrier.ll", words) for words in ("%s = ", "@top = ", "%Node = ", "@swap()")]
        return [words.split("\n")[-1] for words in shown], ["root @swap %s ref Node", "global @top ref Node", "layout Node 1 ref Node", "function @swap may"]


def the_page_of_a_code(dgc, folder):
    """The pointer on a code in a comment shows its page."""
    with swapped(dgc, folder, "barrier.ll") as client:
        client.change("barrier.ll", client.texts["barrier.ll"][0].replace("put:\n", "put: ; see K6\n"))
        return client.hover("barrier.ll", "K6").split("\n")[0], "K6  A reference is stored without a barrier only into a slot or a fresh cell."


def where_a_name_is_defined(dgc, folder):
    """The pointer on a register of the certificate shows the line of the module that defines it."""
    with swapped(dgc, folder, "barrier.ll") as client:
        client.open("swap.cert")
        return client.hover("swap.cert", "%new ref").split("\n"), ["barrier.ll, line 14:", "", "%new = call ptr @dg_alloc(i32 0)"]


def lines_for_markdown(dgc, folder):
    """An editor that takes Markdown gets lines of files as blocks of it."""
    with swapped(dgc, folder, "barrier.ll", capabilities={"textDocument": {"hover": {"contentFormat": ["markdown", "plaintext"]}}}) as client:
        return client.hover("barrier.ll", "@top = ").split("\n")[2:], ["```text", "global @top ref Node", "```"]


# What is offered


def a_safe_fix(dgc, folder):
    """The barrier is offered in the place of the store, and preferred; where it is applied, the module is accepted."""
    with swapped(dgc, folder) as client:
        action = client.actions("plain.ll", client.found("plain.ll")[0]["range"])[0]
        client.apply(action)
        text = client.texts["plain.ll"][0]
        return (action["isPreferred"], text == client.read("barrier.ll"), client.checked("plain.ll")), (True, True, [])


def a_fix_behind_signs(dgc, folder):
    """A fix after signs of two units is put where it belongs, and the module is accepted."""
    with swapped(dgc, folder) as client:
        client.open("swap.cert", client.read("swap.cert").replace("%new", '%"né𝒳ß"'))
        client.change("plain.ll", client.texts["plain.ll"][0].replace("store ptr %new", "store  ptr %new").replace("%new", '%"né𝒳ß"').replace("put:", "put: ; 𝒳"))
        client.apply(client.actions("plain.ll", client.checked("plain.ll")[0]["range"])[0])
        line = client.texts["plain.ll"][0].split("\n")[19]
        return (line, client.checked("plain.ll")), ('  call void @llvm.gcwrite(ptr %"n\\C3\\A9\\F0\\9D\\92\\B3\\C3\\9F", ptr null, ptr @top)', [])


def a_fix_of_two_changes(dgc, folder):
    """The changes of a fix are made together, and the module is accepted."""
    with row(dgc, folder, "json_of_a_store_into_a_word") as client:
        action = client.actions("module.ll", client.found("module.ll")[0]["range"])[0]
        client.apply(action)
        return (len(action["edit"]["documentChanges"][0]["edits"]), client.checked("module.ll")), (2, [])


def a_fix_of_the_certificate(dgc, folder):
    """A fix of the certificate is an edit of the certificate as it is in the editor, and what is told of it is gone then."""
    with row(dgc, folder, "json_of_a_block_without_a_section") as client:
        client.open("module.cert", "; new\n" + client.read("module.cert"))
        client.checked("module.ll")
        action = client.actions("module.cert", client.found("module.cert")[0]["range"])[0]
        client.apply(action)
        client.checked("module.ll")
        seen = (action["title"], client.texts["module.cert"][0], client.found("module.cert"))
        return seen, ("dgc: add `block %out` in the certificate", "; new\ncert 2\nfunction @f none\nblock %out\nend\n", [])


def a_fix_from_the_module(dgc, folder):
    """A refusal in the module may be mended by a line of the certificate, which the editor has not opened."""
    copy(folder, SWAP, "barrier.ll", "swap.cert")
    put(folder, "swap.cert", "cert 2\nlayout Node 1 ref Node\nglobal @top ref Node\nroot @swap %s ref Node\n" + WITHOUT_PUT)
    with server(dgc, folder, options=SHARED) as client:
        client.open("barrier.ll")
        found = client.checked("barrier.ll")
        for _ in range(2):
            client.apply(client.actions("barrier.ll", found[0]["range"])[0])
            client.notify("workspace/didChangeWatchedFiles", {"changes": [{"uri": client.uri("swap.cert"), "type": 2}]})
            found = client.checked("barrier.ll")
        added = sorted(set(client.read("swap.cert").split("\n")) - set(WITHOUT_PUT.split("\n")))
        return (added[:2], found), (["  %new ref Node nonnull fresh", "  %old ref Node nonnull"], [])


def a_new_certificate(dgc, folder):
    """Where there is no certificate that is told, and one is offered; where it is made, the module is accepted."""
    copy(folder, FIXES, "queue.ll", "queue.shapes")
    with server(dgc, folder) as client:
        client.open("queue.ll")
        found = client.checked("queue.ll")
        action = client.actions("queue.ll", found[0]["range"])[0]
        client.apply(action)
        client.notify("workspace/didChangeWatchedFiles", {"changes": [{"uri": client.uri("queue.cert"), "type": 1}]})
        seen = ([of["severity"] for of in found], action["title"], client.checked("queue.ll"))
        return seen, ([3], "dgc: make the certificate queue.cert", [])


def no_certificate_is_made(dgc, folder):
    """Where none is made either, that is told beside what is refused."""
    copy(folder, SWAP, "plain.ll", "swap.shapes")
    os.rename(os.path.join(folder, "swap.shapes"), os.path.join(folder, "plain.shapes"))
    with server(dgc, folder) as client:
        client.open("plain.ll")
        return [of.get("code", of["message"]) for of in client.checked("plain.ll")], ["K6", "there is no certificate plain.cert, and dgc makes none"]


def no_shapes(dgc, folder):
    """A module with opaque pointers that has neither a certificate nor shapes is told to lack both."""
    copy(folder, SWAP, "plain.ll")
    with server(dgc, folder) as client:
        client.open("plain.ll")
        found = [of.get("code", of["message"]) for of in client.checked("plain.ll")]
        return found, ["Y5", "there is no certificate plain.cert, and without plain.shapes dgc makes none"]


def a_new_section(dgc, folder):
    """The section of a function that has none is made, and the module is accepted."""
    with swapped(dgc, folder, "barrier.ll") as client:
        client.open("swap.cert", client.read("swap.cert").split("function")[0])
        client.checked("barrier.ll")
        actions = client.actions("swap.cert", client.found("swap.cert")[0]["range"])
        client.apply(actions[0])
        return (actions[0]["title"], client.checked("barrier.ll")), ("dgc: make the section of @swap", [])


def a_section_from_the_module(dgc, folder):
    """The section of a function that has none is offered at the function in the module too."""
    with swapped(dgc, folder, "barrier.ll") as client:
        client.open("swap.cert", client.read("swap.cert").split("function")[0])
        place = client.checked("barrier.ll")[0]["range"]
        client.apply(client.actions("barrier.ll", place)[0])
        return (marked(client.texts["barrier.ll"][0], place), client.checked("barrier.ll")), ("@swap", [])


def a_section_anew(dgc, folder):
    """The section of a refused function is made anew in the place of the old one, and the other lines stay."""
    with swapped(dgc, folder, "barrier.ll") as client:
        whole = client.read("swap.cert")
        client.open("swap.cert", "; mine\n" + whole.split("function")[0] + WITHOUT_PUT + "; and this\n")
        found = client.checked("barrier.ll")
        offered = client.actions("barrier.ll", found[0]["range"])
        client.apply([of for of in offered if of["title"] == "dgc: make the section of @swap anew"][0])
        return (client.texts["swap.cert"][0], client.checked("barrier.ll")), ("; mine\n" + whole + "; and this\n", [])


def a_certificate_anew(dgc, folder):
    """A certificate that is not read is offered anew as a whole."""
    with swapped(dgc, folder, "barrier.ll") as client:
        client.open("swap.cert", client.read("swap.cert").replace("block %put", "blok %put"))
        client.checked("barrier.ll")
        offered = client.actions("swap.cert", client.found("swap.cert")[0]["range"])
        client.apply([of for of in offered if of["title"] == "dgc: make the whole certificate anew"][0])
        return (client.texts["swap.cert"][0] == client.read("swap.cert"), client.checked("barrier.ll")), (True, [])


def all_fixes(dgc, folder):
    """All safe fixes are one action, where they are asked for: those of the module and those of the certificate."""
    with swapped(dgc, folder) as client:
        client.open("swap.cert", client.read("swap.cert").replace("%old ref Node nonnull\n", ""))
        text = client.texts["plain.ll"][0].replace("  %first = ", "  store ptr null, ptr @top\n  %first = ")
        client.change("plain.ll", text)
        client.checked("plain.ll")
        offered = client.actions("plain.ll", {"start": {"line": 0, "character": 0}, "end": {"line": 0, "character": 0}}, "source.fixAll")
        client.apply(offered[0])
        wanted = text.replace("store ptr %new, ptr @top", BARRIER.strip()).replace("store ptr null, ptr @top", BARRIER.strip().replace("%new", "null"))
        seen = (offered[0]["title"], client.texts["plain.ll"][0], client.checked("plain.ll"))
        return seen, ("dgc: make all safe fixes (3)", wanted, [])


def other_kinds(dgc, folder):
    """Actions of a kind that is not asked for are not offered."""
    with swapped(dgc, folder) as client:
        place = client.found("plain.ll")[0]["range"]
        return [len(client.actions("plain.ll", place, kind)) for kind in ("quickfix", "refactor", "source.organizeImports")], [1, 0, 0]


def old_edits(dgc, folder):
    """An editor without changes of documents gets the edits by their files."""
    with swapped(dgc, folder, capabilities={}) as client:
        edits = client.actions("plain.ll", client.found("plain.ll")[0]["range"])[0]["edit"]["changes"]
        return applied(client.read("plain.ll"), edits[client.uri("plain.ll")]) == client.read("barrier.ll"), True


def nothing_is_offered(dgc, folder):
    """Where nothing is told nothing is offered."""
    with swapped(dgc, folder) as client:
        return client.actions("plain.ll", {"start": {"line": 0, "character": 0}, "end": {"line": 0, "character": 5}}), []


CASES = [
    an_accepted_module, a_refused_store, the_place, the_message, the_link, each_block, the_limit, related_places, notes_in_the_message,
    places_in_the_certificate, a_fault_of_the_module, a_fault_of_the_layouts, a_broken_certificate, broken_shapes, a_certificate_alone, a_shared_certificate,
    trusted_functions, forms_of_the_command_line, the_core_forms, a_text_that_is_not_saved, a_certificate_that_is_not_saved, signs_before_a_place, signs_in_bytes,
    signs_in_code_points, changes_of_parts, other_line_ends, why_it_is_refused, what_is_listed, what_is_not_listed, what_a_block_lists,
    what_shapes_say, the_page_of_a_code, where_a_name_is_defined, lines_for_markdown, a_safe_fix, a_fix_behind_signs, a_fix_of_two_changes,
    a_fix_of_the_certificate, a_fix_from_the_module, a_new_certificate, no_certificate_is_made, no_shapes, a_new_section, a_section_from_the_module, a_section_anew,
    a_certificate_anew, all_fixes, other_kinds, old_edits, nothing_is_offered]
