"""A module with its certificate: which files they are, and what `dgc` says of their newest texts."""
import asyncio
import collections
import contextlib
import os
import re
import traceback

import outline
from findings import ERROR, INFORMATION, WARNING, File, all_told, said
from program import Trouble, name_of
from texts import Text, path_of, read_file, uri_of

MODULE, CERTIFICATE, SHAPES = ".ll", ".cert", ".shapes"

# What was judged: the module and its certificate or None, the files of the run by the names that it knew, what is told, the certificate that
# was made where there was none, the printed line, and whether that is why nothing is judged.
Judged = collections.namedtuple("Judged", "module certificate files told made printed is_troubled", defaults=(False,))


def beside(path, ending):
    """The file of the same name with another ending."""
    return os.path.splitext(path)[0] + ending


def fits(path, pattern, root):
    """Whether a path is one of a pattern in a folder: `*` and `?` stand for signs other than `/`, and `**/` for folders."""
    words = {"**/": "(?:.*/)?", "*": "[^/]*", "?": "[^/]"}
    wanted = "".join(words.get(part) or re.escape(part) for part in re.split(r"(\*\*/|\*|\?)", pattern))
    return re.fullmatch(wanted if os.path.isabs(pattern) else re.escape(os.path.join(root, "")) + wanted, path, re.DOTALL) is not None


def certificate_of(path, settings):
    """The path of the certificate of a module: that of the option `certificates`, where `*` is the module's name, or X.cert beside X.ll."""
    for module, certificate in settings.certificates.items():
        if fits(path, module, settings.root):
            name = os.path.splitext(os.path.basename(path))[0]
            return os.path.normpath(os.path.join(settings.root, certificate.replace("*", name)))
    return beside(path, CERTIFICATE)


def modules_of(path, settings, known):
    """The modules to which a file belongs: of a certificate those of which it is the certificate, and that are open or beside it, or named by
    the option."""
    if path.endswith(MODULE):
        return [path]
    named = [os.path.normpath(os.path.join(settings.root, module)) for module in settings.certificates]
    found = dict.fromkeys([*known, beside(path, MODULE), *named])
    return [module for module in found if path in (certificate_of(module, settings), beside(module, SHAPES)) and (module in known or os.path.isfile(module))]


class Pair:
    """A module with its certificate, what was judged of them last, and the task that judges them anew."""

    def __init__(self, module):
        self.module, self.judged, self.task, self.uris, self.section = module, None, None, set(), None
        self.seen = None    # the bytes of the files that were judged last

    def files(self, documents, settings):
        """The module, its certificate and its shapes, each as a file or None: the editor's text, or that of the disk."""
        paths = (self.module, certificate_of(self.module, settings), beside(self.module, SHAPES))
        return [file_of(path, documents, settings) for path in paths]

    def is_seen(self, documents, settings):
        """Whether what was judged last is of the files as they are now."""
        return self.seen == contents(self.files(documents, settings))

    def cancel(self):
        if self.task:
            self.task.cancel()
        if self.section:
            self.section.cancel()
        self.section = None

    async def settled(self):
        """Waits until the newest texts are judged."""
        while self.task and not self.task.done():
            await asyncio.wait([self.task])


def contents(files):
    return [file.text.data if file else None for file in files]


def file_of(path, documents, settings):
    """A file as the editor has it, or as it is on the disk, or None where it is in neither."""
    if path in documents:
        return documents[path]
    data = read_file(path)
    return None if data is None else File(uri_of(path), Text(data, settings.encoding), None)


def named(paths_and_files):
    """The files of a run by names, each one different."""
    names = {}
    for path, file in paths_and_files:
        names[name_of(path, names)] = file
    return names


def bytes_of(files):
    return {name: file.text.data for name, file in files.items()}


def forms(settings):
    return ["--forms", settings.forms]


async def judge(pair, documents, settings, program):
    """What `dgc` says of the texts of a module and of its certificate as they are now, or None where there is no module."""
    module, certificate, shapes = files = pair.files(documents, settings)
    pair.seen = contents(files)
    if module is None:
        return None
    paths = [(pair.module, module)]
    try:
        if certificate is None:
            return await judge_alone(pair, module, shapes, settings, program)
        files = named([*paths, (certificate_of(pair.module, settings), certificate)])
        words = [*files, "--all", "--limit", str(settings.limit), *forms(settings)]
        answer, _ = await program.answer("check", bytes_of(files), words)
        told = all_told(answer, files, settings.view) + trusts(answer, certificate)
        return Judged(module, certificate, files, told + unread(answer, told, module), None, printed_of(answer))
    except Trouble as trouble:
        troubled = f"{program.path} {trouble}"
    except Exception:
        traceback.print_exc()
        troubled = f"{program.path} wrote an answer of another form"
    return Judged(module, certificate, named(paths), [said(module, WARNING, f"nothing is checked: {troubled}")], None, troubled, True)


async def judge_alone(pair, module, shapes, settings, program):
    """What `dgc make` says of a module without a certificate."""
    files = named([(pair.module, module), *([(beside(pair.module, SHAPES), shapes)] if shapes else [])])
    names = list(files)
    words = [names[0], *(["--shapes", names[1]] if shapes else []), *forms(settings)]
    answer, out = await program.answer("make", bytes_of(files), words)
    if answer["status"] != 0:
        told = all_told(answer, files, settings.view) + lacks(pair, answer, module, settings)
        return Judged(module, None, files, told + unread(answer, told, module), None, printed_of(answer))
    name = os.path.basename(certificate_of(pair.module, settings))
    message = f"there is no certificate {name}, and so nothing is checked; dgc makes one with which the module is accepted"
    told = [said(module, INFORMATION, message, first_function(module))]
    return Judged(module, None, files, told, out.decode(errors="replace"), "no certificate")


def unread(answer, told, module):
    """That a module is not checked because another text is not read: at the function that the fault names, or at the first one."""
    if "fault" not in answer or told[0].file.uri == module.uri:
        return []
    words = outline.words_of(printed_of(answer).encode())
    functions = outline.functions_of(module.text.data)
    span = next((functions[name] for name in map(outline.plain, words[2:3]) if name in functions), first_function(module))
    name = os.path.basename(path_of(told[0].file.uri))
    here = said(module, WARNING, f"nothing is checked: {name} is not read, {printed_of(answer)}", span)
    return [here._replace(finding=answer["fault"])]


def lacks(pair, answer, module, settings):
    """That there is no certificate, and that none is made; of a text that is not read its fault is enough."""
    code = answer.get("fault", {}).get("code")
    if code not in (None, "Y5"):
        return []
    made = f"without {os.path.basename(beside(pair.module, SHAPES))} dgc makes none" if code else "dgc makes none"
    message = f"there is no certificate {os.path.basename(certificate_of(pair.module, settings))}, and {made}"
    return [said(module, ERROR, message, first_function(module))]


def first_function(module):
    return next(iter(outline.functions_of(module.text.data).values()), None)


def printed_of(answer):
    return ", ".join(answer.get("printed", [])) or answer["verdict"]


def trusts(answer, certificate):
    """What an accepted module trusts, at the lines of the certificate that say so."""
    told = []
    for name in answer.get("trusts", []):
        line = re.search(rb"(?m)^ *foreign +" + re.escape(name.encode()) + rb"(?= )", certificate.text.data)
        span = certificate.text.line_at(line.start()) if line else None
        told.append(said(certificate, INFORMATION, f"{name} is called and trusted: nothing checks that it keeps its promise", span))
    return told


async def all_fixed(pair, settings, program):
    """The lines of the safe fixes of what was judged last, and the two texts with them."""
    files = {name: file for name, file in pair.judged.files.items() if file in (pair.judged.module, pair.judged.certificate)}
    return await program.fix(bytes_of(files), [*files, *forms(settings)])


async def certificate_for(pair, documents, settings, program):
    """A certificate that `dgc make` makes of a module which has one, by the shapes of that one. None where it makes none."""
    module, certificate, shapes = pair.files(documents, settings)
    given = outline.certificate_of(certificate.text.data).file_of_shapes() or (shapes.text.data if shapes else None)
    name = name_of(pair.module, ())
    texts = {name: module.text.data, **({"shapes": given} if given else {})}
    words = [name, *(["--shapes", "shapes"] if given else []), *forms(settings)]
    with contextlib.suppress(Trouble):
        answer, out = await program.answer("make", texts, words)
        return outline.certificate_of(out) if answer["status"] == 0 else None
    return None
