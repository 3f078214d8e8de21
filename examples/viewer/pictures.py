#!/usr/bin/env python3
"""Makes the pictures of the walkthrough with the viewer in a headless chromium, and tests the page there.

    python3 examples/viewer/pictures.py DGC OUT [--chromium PROGRAM]

DGC is the path of a built dgc, and OUT a folder for the pictures. Replays examples/swap/typed/race.trace with --json, opens the
page with these lines, and asks it what it shows: by `#data=`, by the file button, by a file that is dropped, with the sample inside
the page, and with a file that is none. Ends with 1 where it shows something else. `--sample` writes the lines of that run into the
page, which shows them when it opens.
"""
import argparse, os, re, subprocess, sys, tempfile
from urllib.parse import quote

HERE = os.path.dirname(os.path.abspath(__file__))
PAGE = f"{HERE}/index.html"
SWAP = f"{HERE}/../swap"
SIZE = "1500,1060"


def lines_of(dgc, module, trace, *more):
    """The lines that `dgc replay --json` writes of a run."""
    with tempfile.NamedTemporaryFile(suffix=".jsonl") as file:
        done = subprocess.run([dgc, "replay", module, trace, *more, "--json", file.name], capture_output=True, text=True)
        if done.returncode not in (0, 1):
            sys.exit(f"{module}: {done.stderr}")
        return done.stdout, open(file.name).read()


class Browser:
    def __init__(self, program):
        self.words = [program, "--headless=new", "--no-sandbox", "--disable-gpu", "--hide-scrollbars", f"--window-size={SIZE}", "--virtual-time-budget=4000"]

    def run(self, *words):
        with tempfile.TemporaryDirectory() as profile:
            return subprocess.run([*self.words, f"--user-data-dir={profile}", *words], capture_output=True, text=True, timeout=120)

    def picture(self, file, url):
        self.run(f"--screenshot={os.path.abspath(file)}", url)
        if not os.path.exists(file):
            sys.exit(f"no picture {file}")

    def body(self, url):
        """What the page says of itself: the members of the body's data set, and its heading."""
        text = self.run("--dump-dom", url).stdout
        body = re.search(r"<body([^>]*)>", text)
        data = dict(re.findall(r'data-(\w+)="([^"]*)"', body[1] if body else ""))
        title = re.search(r'<h1 id="title">(.*?)</h1>', text)
        return {name: value.replace("&gt;", ">") for name, value in data.items()} | {"title": title[1] if title else ""}


def url_of(lines, step=None, page=PAGE):
    return f"file://{page}#data={quote(lines)}" + (f"&step={step}" if step is not None else "")


def page_that(script, folder):
    """A copy of the page with one more script at its end, and without the sample."""
    text = re.sub(r'(<script type="application/x-ndjson" id="sample">).*?(</script>)', r"\1\2", open(PAGE).read(), flags=re.S)
    path = f"{folder}/page.html"
    open(path, "w").write(text.replace("</body>", f"<script>{script}</script></body>"))
    return f"file://{path}"


def with_sample(lines):
    text = open(PAGE).read()
    return re.sub(r'(<script type="application/x-ndjson" id="sample">).*?(</script>)', lambda m: m[1] + "\n" + lines + m[2], text, flags=re.S)


def main():
    words = argparse.ArgumentParser(description=__doc__.split("\n")[0])
    words.add_argument("dgc")
    words.add_argument("out")
    words.add_argument("--chromium", default="chromium")
    words.add_argument("--sample", action="store_true")
    asked = words.parse_args()
    os.makedirs(asked.out, exist_ok=True)
    said, lines = lines_of(asked.dgc, f"{SWAP}/plain.ll", f"{SWAP}/race.trace", "--shapes", f"{SWAP}/swap.shapes")
    if asked.sample:
        text = with_sample(lines)
        open(PAGE, "w").write(text)
    browser = Browser(asked.chromium)
    steps = len(re.findall(r'"kind":"step"', lines))
    wrong, tried = [], []

    def want(what, found, wanted):
        tried.append(what)
        for name, value in wanted.items():
            if found.get(name) != value:
                wrong.append(f"{what}: {name} is {found.get(name)!r}, not {value!r}")

    broken = {"ready": str(steps), "title": "Broken at step 65: cell 2 is lost", "path": "%s of thread 0 -> cell 2", "red": "1"}
    want("#data", browser.body(url_of(lines)), broken)
    # at the answer to Async(1) cell 2 is only in @top; the path is not red, since the cell is not free
    want("step 35", browser.body(url_of(lines, 35)), {"path": "@top -> cell 2", "red": "0"})
    # a file that begins at a later step leads to the same heap
    _, late = lines_of(asked.dgc, f"{SWAP}/plain.ll", f"{SWAP}/race.trace", "--shapes", f"{SWAP}/swap.shapes", "--from", "40")
    title = "Broken at step 65: cell 2 is lost. Here are 40 to 65 of 65"
    want("from step 40", browser.body(url_of(late)), broken | {"ready": "26", "title": title})
    want("before step 40", browser.body(url_of(late, 39)), {"path": "@top -> cell 2", "red": "0"})
    _, sound = lines_of(asked.dgc, f"{SWAP}/barrier.ll", f"{SWAP}/race.trace", "--shapes", f"{SWAP}/swap.shapes")
    want("a sound run", browser.body(url_of(sound)), {"title": "Sound: 65 steps", "path": "", "red": "0"})
    want("no run", browser.body(url_of("what is this")), {"ready": "error", "title": "This file cannot be read"})
    with tempfile.TemporaryDirectory() as folder:
        given = "const given = new DataTransfer(); given.items.add(new File([" + repr(lines) + "], 'run.jsonl'));"
        want("a chosen file", browser.body(page_that(given + "$('file').files = given.files; $('file').dispatchEvent(new Event('change'));", folder)), broken)
        want("a dropped file", browser.body(page_that(given + "dispatchEvent(new DragEvent('drop', { dataTransfer: given }));", folder)), broken)
        want("nothing", browser.body(page_that("", folder)), {"title": "No run is open"})
    if 'id="sample">\n{' in open(PAGE).read():
        want("the sample", browser.body(f"file://{PAGE}"), broken)
    browser.picture(f"{asked.out}/broken.png", url_of(lines))
    browser.picture(f"{asked.out}/handed-over.png", url_of(lines, 50))
    browser.picture(f"{asked.out}/sound.png", url_of(sound))
    with tempfile.TemporaryDirectory() as folder:
        trace = f"{folder}/two.trace"
        subprocess.run([asked.dgc, "soak", f"{SWAP}/plain.ll", f"{SWAP}/two.trace", "--shapes", f"{SWAP}/swap.shapes", "--seeds", "10", "--steps", "1000", "--save", trace])
        _, two = lines_of(asked.dgc, f"{SWAP}/plain.ll", trace, "--shapes", f"{SWAP}/swap.shapes")
    want("two threads", browser.body(url_of(two)), {"title": "Broken at step 157: cell 3 is lost"})
    browser.picture(f"{asked.out}/two.png", url_of(two))
    for line in wrong:
        print(line)
    print(f"{len(tried)} looks at the page, {len(wrong)} members not as wanted")
    sys.exit(1 if wrong else 0)


main()
