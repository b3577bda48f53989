#!/usr/bin/env python3
"""Tries web/check.html in a browser, as its readers use it, and pages as `edgematch page` prints them: headless
Chromium, which takes orders by a pipe.

Each trial chooses or drops files, presses buttons and keys, and reads what stands on the page and what a screen reader
gets. The answers that are wanted are those of cases and examples, or were worked out by hand. In each trial the page
may ask for nothing but itself: what else it asks for is told, also what its policy refuses. Then
scripts/wrong_pages.toml has changes that make wrong pages, and the trial that is named there has to notice each.

Where there is no Chromium on the path it says so, and tries nothing. It ends with 0 where all is as wanted, else with
1. It takes less than a minute of processor time.
"""
import argparse
import contextlib
import ctypes
import fcntl
import hashlib
import itertools
import json
import os
import queue
import random
import re
import select
import shutil
import signal
import socket
import subprocess
import sys
import tempfile
import threading
import time
import tomllib

import check_cases
import make_page
from check_cases import DOCUMENTS, EXAMPLES, TOP, outcome_of
from try_second_checker import is_small, of_case

NAMES = ("chromium", "chromium-browser", "google-chrome")
WRONG = os.path.join(TOP, "scripts/wrong_pages.toml")
# How long anything may take, in seconds, also where the processors have much else to do; and how many cases are tried.
MOST_SECONDS, SAMPLE = 300, 10
# How long a wrong page may do nothing until that is noticed.
PATIENCE = 10
LARGE = 8_000_000
SET_CHILD_SUBREAPER = 36
KINDS = ("complete", "refused", "fault")
KEYS = {"Tab": (9, None), "Enter": (13, "\r"), " ": (32, " ")}
# A browser of its own, which asks for nothing by itself: all that it does ask for goes to the watch of this script.
WORDS = ("--headless --no-sandbox --disable-gpu --no-first-run --disable-background-networking --disable-sync "
         "--disable-component-update --disable-default-apps --disable-extensions --disable-breakpad "
         "--disable-client-side-phishing-detection --disable-domain-reliability --disable-field-trial-config "
         "--disable-features=OptimizationHints,NetworkTimeServiceQuerying,MediaRouter,Translate "
         "--disable-dev-shm-usage --disable-background-timer-throttling --disable-renderer-backgrounding "
         "--remote-debugging-pipe --proxy-bypass-list=<-loopback>").split()


OWN = re.compile(r"[A-Z]+ (?:https?://)?(?:[\w-]+\.)*(?:google|googleapis|gvt1|gstatic)\.com[:/]")


class Gone(Exception):
    """The browser ended, or didn't answer in time."""


class Watch:
    """Where the browser sends what it asks of a network: a proxy that gives nothing, and remembers."""

    def __init__(self):
        self.socket, self.lines = socket.create_server(("127.0.0.1", 0)), queue.SimpleQueue()
        threading.Thread(target=self.serve, daemon=True).start()

    def address(self):
        return "http://{}:{}".format(*self.socket.getsockname())

    def serve(self):
        while True:
            one, _ = self.socket.accept()
            threading.Thread(target=self.answer, args=(one,), daemon=True).start()

    def answer(self, one):
        with one, contextlib.suppress(OSError):
            line = one.recv(4096).split(b"\r\n")[0].decode("latin-1")
            if line and not OWN.match(line):
                self.lines.put(line)
            one.sendall(b"HTTP/1.1 502 none\r\nContent-Length: 0\r\nConnection: close\r\n\r\n")

    def asked(self):
        """What was asked for since the last call, but for what the browser asks its makers whatever page it shows."""
        while not self.lines.empty():
            yield self.lines.get()


class Browser:
    """A browser, what it reports, and the ids of what it is asked."""

    def __init__(self, path, folder, watch):
        to_read, self.to = os.pipe()
        self.back, to_write = os.pipe()
        self.last, self.rest, self.events = 0, b"", []

        def streams():
            # It reads orders from stream 3, and answers on stream 4.
            first, second = (fcntl.fcntl(it, fcntl.F_DUPFD, 10) for it in (to_read, to_write))
            os.dup2(first, 3)
            os.dup2(second, 4)

        own = {name: folder for name in ("HOME", "TMPDIR", "XDG_CONFIG_HOME", "XDG_CACHE_HOME", "XDG_RUNTIME_DIR")}
        words = [*WORDS, f"--user-data-dir={folder}/own", f"--proxy-server={watch.address()}", "about:blank"]
        self.process = subprocess.Popen([path, *words], preexec_fn=streams, close_fds=False, start_new_session=True,
                                        env=os.environ | own, stdin=subprocess.DEVNULL, stdout=subprocess.DEVNULL,
                                        stderr=subprocess.DEVNULL)
        os.close(to_read)
        os.close(to_write)

    def close(self):
        """Ends it, with all that it started."""
        with contextlib.suppress(Gone, OSError):
            self.call("Browser.close")
        with contextlib.suppress(subprocess.TimeoutExpired):
            self.process.wait(10)
        with contextlib.suppress(ProcessLookupError):
            os.killpg(self.process.pid, signal.SIGKILL)
        self.process.wait()
        with contextlib.suppress(ChildProcessError):
            while True:
                os.wait()
        os.close(self.to)
        os.close(self.back)

    def message(self):
        until = time.monotonic() + MOST_SECONDS
        while b"\0" not in self.rest:
            ready, _, _ = select.select([self.back], [], [], max(0, until - time.monotonic()))
            more = os.read(self.back, 1 << 20) if ready else b""
            if not more:
                raise Gone("the browser ended" if ready else "the browser doesn't answer")
            self.rest += more
        text, _, self.rest = self.rest.partition(b"\0")
        return json.loads(text)

    def order(self, method, session=None, **words):
        """Asks it for something, and waits for no answer."""
        self.last += 1
        order = {"id": self.last, "method": method, "params": words} | ({"sessionId": session} if session else {})
        text = json.dumps(order).encode() + b"\0"
        while text:
            text = text[os.write(self.to, text):]
        return self.last

    def call(self, method, session=None, **words):
        number = self.order(method, session, **words)
        while True:
            it = self.message()
            if it.get("id") == number:
                if "error" in it:
                    raise Gone(f"{method}: {it['error']}")
                return it["result"]
            self.hear(it)

    def hear(self, it):
        """Keeps an event. A worker that the page starts waits until its requests are seen too."""
        if it.get("method") == "Target.attachedToTarget":
            session = it["params"]["sessionId"]
            if it["params"]["waitingForDebugger"]:
                for method in ("Network.enable", "Runtime.enable", "Log.enable", "Runtime.runIfWaitingForDebugger"):
                    self.order(method, session)
        if "method" in it:
            self.events.append(it)


class Page:
    """The page, opened in the browser, and what a reader does with it and sees of it."""

    def __init__(self, browser):
        self.browser, self.address, self.patience = browser, None, MOST_SECONDS
        self.path, self.read = None, None
        target = browser.call("Target.createTarget", url="about:blank")["targetId"]
        self.session = browser.call("Target.attachToTarget", targetId=target, flatten=True)["sessionId"]
        for domain in ("Page", "Runtime", "Log", "Network"):
            self.call(f"{domain}.enable")
        self.call("Target.setAutoAttach", autoAttach=True, waitForDebuggerOnStart=True, flatten=True)
        # A page that isn't in front gets less of the processors.
        self.call("Page.bringToFront")
        browser.events.clear()

    def show(self, path, patience, read):
        """From here on `open` opens this one, whose parts are read so, and `patience` seconds is waited for what it has
        to do."""
        self.path, self.patience, self.read = path, patience, read

    def call(self, method, **words):
        return self.browser.call(method, self.session, **words)

    def value(self, expression):
        got = self.call("Runtime.evaluate", expression=expression, awaitPromise=True, returnByValue=True)
        if "exceptionDetails" in got:
            raise Gone(f"{expression[:80]}: {got['exceptionDetails'].get('exception', {}).get('description')}")
        return got["result"].get("value")

    def until(self, condition):
        """Waits until this holds on the page."""
        most = 1000 * self.patience
        if not self.value(f"new Promise((done) => {{ const until = Date.now() + {most}, look = () => ({condition}) ? "
                          "done(true) : Date.now() > until ? done(false) : setTimeout(look, 3); look(); })"):
            raise Gone(f"it doesn't come that {condition}")

    def open(self, width=1280, scripts=True, path=None):
        self.address = f"file://{path or self.path}"
        self.call("Emulation.setDeviceMetricsOverride", width=width, height=900, deviceScaleFactor=1, mobile=False)
        self.call("Emulation.setScriptExecutionDisabled", value=not scripts)
        self.value("globalThis.isBefore = true")
        self.call("Page.navigate", url=self.address)
        until = time.monotonic() + MOST_SECONDS
        while not self.value('!globalThis.isBefore && document.readyState === "complete"'):
            if time.monotonic() > until:
                raise Gone("the page doesn't come")
            time.sleep(0.003)

    # What a reader does

    def choose(self, *paths):
        """Chooses files, and waits until the page has told what came of it."""
        self.tell_apart()
        found = self.call("Runtime.evaluate", expression='document.querySelector("input[type=file]")')["result"]
        self.call("DOM.setFileInputFiles", objectId=found["objectId"], files=list(paths))
        self.until("told")

    def drop(self, *paths):
        self.tell_apart()
        data = {"items": [], "files": list(paths), "dragOperationsMask": 1}
        for kind in ("dragEnter", "dragOver", "drop"):
            self.call("Input.dispatchDragEvent", type=kind, x=300, y=300, data=data)
        self.until("told")

    def tell_apart(self):
        """From here on `told` says on the page whether its live region was told something, be it as before."""
        self.value("told = false, new MutationObserver(() => told = true).observe("
                   'document.querySelector("[role=status]"), {childList: true, characterData: true, subtree: true}), 0')

    def can_press(self, name):
        return self.value(f'[...document.querySelectorAll("button")].some((it) => it.textContent === "{name}" '
                          "&& !it.disabled && it.checkVisibility())")

    def press(self, name):
        if not self.can_press(name):
            raise Gone(f"the button {name} can't be pressed")
        self.value(f'[...document.querySelectorAll("button")].find((it) => it.textContent === "{name}").click()')

    def key(self, name):
        code, text = KEYS[name]
        for kind in ("keyDown", "keyUp"):
            more = {"text": text} if text and kind == "keyDown" else {}
            self.call("Input.dispatchKeyEvent", type=kind, key=name, windowsVirtualKeyCode=code, **more)

    # What a reader sees, and hears

    def status(self):
        """What is told in a line, before the answer."""
        return self.value('document.querySelector("[role=status]").innerText').split("\n")[0]

    def shown(self):
        return self.value("document.body.innerText")

    def tree(self):
        """The nodes that a screen reader gets."""
        nodes = self.call("Accessibility.getFullAXTree")["nodes"]
        return [it for it in nodes if not it["ignored"]]

    def spoken(self):
        """What stands in regions that are read out when they change."""
        nodes = {it["nodeId"]: it for it in self.tree()}

        def is_live(node):
            told = {it["name"]: it["value"].get("value") for it in node.get("properties", ())}
            return told.get("live") == "polite" or node.get("parentId") in nodes and is_live(nodes[node["parentId"]])

        texts = [it for it in nodes.values() if it["role"]["value"] == "StaticText"]
        return [it["name"]["value"] for it in texts if is_live(it)]

    def at_last(self, look, is_wanted):
        """What `look` gives once it is as wanted, or when patience ends. What a screen reader gets follows the page a
        moment later."""
        until = time.monotonic() + min(self.patience, PATIENCE)
        while not is_wanted(got := look()) and time.monotonic() < until:
            time.sleep(0.05)
        return got

    def focus(self):
        return self.value("document.activeElement.textContent || document.activeElement.type || ''")

    def strays(self):
        """What it asked for beside itself, and what the browser reports of it, since the last call."""
        events, self.browser.events = self.browser.events, []
        for it in events:
            kind, told = it["method"], it["params"]
            if kind == "Network.requestWillBeSent":
                address = told["request"]["url"]
                if address != self.address and not address.startswith("blob:"):
                    yield f"it asks for {address}"
            elif kind in ("Runtime.exceptionThrown", "Log.entryAdded", "Page.windowOpen"):
                yield f"{kind}: {json.dumps(told)[:300]}"


# The texts


class Texts:
    """Texts, each as a file in a folder."""

    def __init__(self, folder):
        self.folder, self.number = folder, itertools.count()
        every = [trial for kind, case in check_cases.every_case() for trial in of_case(kind, case) if is_small(trial)]
        self.by_name = {trial.name: trial for trial in every}
        # The page takes no file that begins with another word.
        words = [[b"match"], [b"list"], [b"certificate"]]
        taken = [it for it in every if [text.split()[:1] for text in it.texts] == words]
        self.sample = random.Random("page").sample(taken, SAMPLE)

    def put(self, *texts):
        paths = []
        for text in texts:
            paths.append(os.path.join(self.folder, f"text{next(self.number)}"))
            with open(paths[-1], "wb") as file:
                file.write(text)
        return paths

    def publish(self, read, texts, told=None, beside=()):
        """A page that publishes these texts, of which some are beside it, and tells the SHA-256 of those told."""
        holes = dict.fromkeys(["title", "heading"], "Six in a row") | {"sheet": "", "picture": "<svg></svg>"}
        holes |= dict.fromkeys(["arrangements", "pictures", "orbits", "symmetries", "listed", "answer"], "12345")
        holes |= {"picture-name": "Arrangement 0"}
        for name, text, one in zip(DOCUMENTS, texts, told or texts):
            holes |= {f"{name}-place": "a file beside this page" if name in beside else "this page",
                      f"{name}-length": str(len(one)), f"{name}-digest": hashlib.sha256(one).hexdigest(),
                      name: "" if name in beside else text.decode("ascii")}
        return self.named("published.html", make_page.published(holes, read))

    def named(self, name, text):
        path = os.path.join(self.folder, name)
        with open(path, "w", encoding="ascii", newline="\n") as file:
            file.write(text)
        return path

    def example(self, name):
        # A browser opens no file by a path with dots in it.
        return [os.path.join(os.path.realpath(EXAMPLES), name, it) for it in DOCUMENTS]


def contents(path):
    with open(path, "rb") as file:
        return file.read()


# What stands on the page once the texts are checked: the line, its kind, whether the answer is in the region that is
# read out, all text, and the SHA-256 of each text.
SEEN = f"""(() => {{
  const answer = document.querySelector("#answer"), line = document.querySelector("#answer-line");
  const isTold = answer.closest("[role=status][aria-live=polite]") !== null;
  const digests = {json.dumps(DOCUMENTS)}.map((it) => document.getElementById(`${{it}}-digest`).innerText);
  return [line.innerText, answer.dataset.kind, isTold, document.body.innerText, digests];
}})()"""


def checked(page, paths, line, button="Check"):
    """What isn't as wanted where the texts that were chosen, these, are checked and have this answer."""
    page.press(button)
    page.until('!document.querySelector("#answer").hidden || document.querySelector("[role=status]").innerText'
               '.includes("could not")')
    *got, shown, digests = page.value(SEEN)
    if got != [line, KINDS[outcome_of(line).status], True]:
        yield f"wanted {line!r}, got {got}"
    if shown.split("\n").count(line) != 1:
        yield f"{line!r} isn't to be seen"
    wanted = [hashlib.sha256(contents(it)).hexdigest() for it in paths]
    if digests != wanted:
        yield f"SHA-256 {digests}, wanted {wanted}"
    yield from too_wide(page)


def too_wide(page):
    wide, room = page.value("[document.documentElement.scrollWidth, innerWidth]")
    if wide > room:
        yield f"it is {wide} wide, where there is room for {room}"


# The trials: each yields what isn't as wanted


def in_any_order(page, texts):
    """Three files one after the other, with the button asleep until the third is there; and at once, in each order."""
    paths = texts.example("square_of_four")
    page.open()
    for path in reversed(paths):
        if page.can_press("Check"):
            yield "it would check before all three are there"
        page.choose(path)
    yield from checked(page, paths, "complete 1")
    for order in itertools.permutations(paths):
        page.open()
        page.choose(*order)
        yield from checked(page, paths, "complete 1")


def joined_and_dropped(page, texts):
    """One file with the three texts; and three that are dropped."""
    page.open()
    paths = texts.example("heads_and_tails")
    line = texts.by_name["examples/heads_and_tails"].line
    page.choose(*texts.put(b"".join(map(contents, paths))))
    yield from checked(page, paths, line)
    page.open()
    page.drop(*reversed(paths))
    yield from checked(page, paths, line)


def refused(page, texts):
    """A list that is refused: its answer is that of a case, and no picture is shown."""
    trial = texts.by_name["checks/another_edge"]
    page.open(width=320)
    paths = texts.put(*trial.texts)
    page.choose(*paths)
    yield from checked(page, paths, trial.line)
    if re.search(r"\bcomplete \d|no other|are right", page.value('document.querySelector("#answer").innerText')):
        yield "it praises a list that is refused"
    # What was checked is shown a moment after the answer.
    page.at_last(lambda: page.value('!document.querySelector("#checked").hidden'), bool)
    if page.value('document.querySelectorAll("svg").length'):
        yield "it draws arrangements that may be none"
    spoken = page.at_last(page.spoken, lambda it: trial.line in it)
    if spoken.count(trial.line) != 1:
        yield f"{trial.line!r} isn't told once: {spoken}"


def chosen_last(page, texts):
    """A tampered certificate in the place of the right one, and the right one again: the one chosen last counts, and
    the answer to the others goes. By hand: the first cell takes one tile in one way, and two are claimed."""
    paths = texts.example("square_of_four")
    wrong = texts.put(contents(paths[2]).replace(b"c 0 1", b"c 0 2 d 0"))[0]
    line = "refused tree 0 at - wrong-count 1 2"
    page.open()
    page.choose(*paths)
    yield from checked(page, paths, "complete 1")
    for path, answer in ((wrong, line), (paths[2], "complete 1")):
        page.choose(path)
        if "complete 1" in page.shown() or "refused tree" in page.shown():
            yield "the answer to other texts still stands there"
        yield from checked(page, [*paths[:2], path], answer)
    page.open()
    page.choose(*paths, wrong)
    if f"There were two files with a certificate: {os.path.basename(wrong)} counts." not in page.status():
        yield f"two certificates: {page.status()!r}"
    yield from checked(page, [*paths[:2], wrong], line)


def no_text(page, texts):
    """Files that are no texts are named, and change nothing; one that only begins as a certificate has a fault."""
    paths = texts.example("square_of_four")
    strange = texts.put(b"\x89PNG\r\n\x1a\n" + bytes(range(256)), b"", "\ufeffmatch 1\n".encode(), b"matches 1\n")
    page.open()
    page.choose(*strange)
    for path in strange:
        if f"{os.path.basename(path)} begins with none of the words" not in page.status():
            yield f"it doesn't say that {path} is no text: {page.status()!r}"
    if page.can_press("Check"):
        yield "it would check what is no text"
    page.choose(strange[0], *paths)
    yield from checked(page, paths, "complete 1")
    begun = texts.put(b"certificate 1\n" + bytes(range(256)))
    page.choose(*begun)
    yield from checked(page, [*paths[:2], *begun], "certificate: line 2: word")


def digests(page, texts):
    """The SHA-256 of texts whose last block is full, or nearly so, as `checked` looks at it."""
    page.open()
    page.choose(*texts.example("square_of_four"))
    for length in (55, 56, 63, 64, 120):
        path = texts.put(b"certificate 1\n".ljust(length, b"?"))
        page.choose(*path)
        yield from checked(page, [*texts.example("square_of_four")[:2], *path], "certificate: line 2: ends")


def sample(page, texts):
    """The answers of some cases."""
    page.open()
    for trial in texts.sample:
        paths = texts.put(*trial.texts)
        page.choose(*paths)
        yield from (f"{trial.name}: {fault}" for fault in checked(page, paths, trial.line))


def in_a_row(count):
    """The texts of so many equal tiles in a row, which aren't turned: all their orders."""
    rows = [" ".join(f"{tile}.0" for tile in order) for order in itertools.permutations(range(count))]
    numbers = itertools.count()

    def node(cell):
        below = " ".join(node(cell + 1) for _ in range(count - cell))
        return f"c {cell} {count - cell} {below}" if below else f"f {next(numbers)}"

    puzzle = ["match 1", f"board rect {count} 1", "turns no", "border free", f"tiles {count}", *["tile 0000"] * count]
    certificate = ["certificate 1", "symmetries 0", "lemmas 1", f"lemma 0 prefix tree {node(0)}"]
    every = (puzzle, ["list 1", f"arrangements {len(rows)}", *rows], certificate)
    return ["\n".join([*lines, "end", ""]).encode() for lines in every]


def pictures(page, texts):
    """As many pictures as are listed, 24 at once, and one large. By hand: eight equal tiles that aren't turned stand in
    a row in 8! ways."""
    paths = texts.put(*in_a_row(8))
    page.open(width=390)
    page.choose(*paths)
    yield from checked(page, paths, "complete 40320")
    count = 'document.querySelectorAll("#sheet svg").length'
    page.until('document.querySelector("#large svg")')
    seen = [page.value(count)]
    page.press("Show 24 more")
    seen.append(page.value(count))
    page.value('document.querySelector("input[type=number]").value = 40319')
    page.press("Show it large")
    shown = page.value('document.querySelector("#large desc").textContent')
    if seen != [24, 48] or not shown.startswith("Tiles may not be turned.") or "7.0 0000, 6.0 0000" not in shown:
        yield f"pictures {seen}, the last arrangement {shown!r}"
    if page.status() != "Arrangement 40,319 is shown.":
        yield f"of a large picture is said {page.status()!r}"
    yield from too_wide(page)


def spare_tiles(page, texts):
    """The tiles that are left over stand below the board, and all tiles have their numbers. By hand: of three tiles
    only the second shows 7 on all sides, so that it alone stands on the one cell."""
    paths = texts.put(b"match 3\nboard rect 1 1\nturns no\nborder one 7\nmates\nclues 0\ntiles 3\n"
                      b"tile 7770\ntile 7777\ntile 0777\nend\n", b"list 1\narrangements 1\n1.0\nend\n",
                      b"certificate 1\nsymmetries 0\nlemmas 1\nlemma 0 prefix tree c 0 1 f 0\nend\n")
    page.open()
    page.choose(*paths)
    yield from checked(page, paths, "complete 1")
    page.until('document.querySelector("#large svg")')
    numbers = page.value('[...document.querySelectorAll("#large circle")].map((it) => '
                         'it.parentNode.nextElementSibling.textContent.trim().split(/\\s+/).join(" "))')
    if numbers != ["1", "0 2", "0 2"] or "Below it are the 2 tiles that are left over." not in page.shown():
        yield f"the tiles that are left over have the numbers {numbers}"


def large(page, texts):
    """8 MB, in a time, and stopped in the middle; then the check begins anew. By hand: each lemma is the tree of the
    example once more, and the last but for its number of a listed arrangement, of which there is none."""
    paths = texts.example("square_of_four")
    tree = "prefix tree c 0 1 c 1 1 c 2 1 c 3 1 f"
    count = LARGE // len(f"lemma 100000 {tree} 0\n")
    lemmas = [f"lemma {number} {tree} {number // (count - 1)}" for number in range(count)]
    text = "\n".join(["certificate 1", "symmetries 0", f"lemmas {count}", *lemmas, "end", ""])
    paths[2] = texts.put(text.encode())[0]
    page.open()
    page.choose(*paths)
    # The browser hears of the observer before it hears anything more of the check.
    page.value("""new Promise((done) => {
      const bar = document.querySelector("progress"), observer = new MutationObserver(() => {
        if (bar.value > 0.2) done(document.querySelector("#stop").click(), observer.disconnect());
      });
      observer.observe(bar, { attributes: true });
      document.querySelector("#check").click();
    })""")
    time.sleep(0.5)
    if page.status() != "Stopped: nothing was found out." or re.search(r"refused tree|complete \d", page.shown()):
        yield f"stopped: {page.status()!r}"
    yield from checked(page, paths, f"refused tree {count - 1} at 0.0.0.0 list-range")


def focusable_names(nodes):
    """The names of what can have focus."""
    return [it["name"]["value"] for it in nodes if it["role"]["value"] not in ("RootWebArea", "main") and any(
        one["name"] == "focusable" and one["value"]["value"] for one in it.get("properties", ()))]


def by_keys(page, texts):
    """With keys alone: Tab goes from the files to the button, the answer is told, and focus is where it was. What can
    have focus has a name."""
    page.open()
    page.choose(*texts.example("square_of_four"))
    stops = []
    while "Check" not in stops and len(stops) < 9:
        page.key("Tab")
        stops.append(page.focus())
    page.key("Enter")
    page.until('!document.querySelector("#answer").hidden')
    spoken = page.at_last(page.spoken, lambda it: "complete 1" in it)
    if stops[-1] != "Check" or page.focus() != "Check" or "complete 1" not in spoken:
        yield f"Tab stops at {stops}, and then {page.focus()!r} has focus; said is {spoken}"
    wanted = ["Choose the three files", "Check", "Its text"]
    names = page.at_last(lambda: [it[:22] for it in focusable_names(page.tree())], lambda it: it == wanted)
    if names != wanted:
        yield f"what can have focus has the names {names}"


def without_scripts(page, _):
    """Without scripts the page says so, and what to do; it has no button that does nothing."""
    page.open(scripts=False)
    shown = page.shown()
    if "Scripts are off" not in shown or "node cli.js PUZZLE LIST CERTIFICATE" not in shown:
        yield f"it doesn't say that scripts are off: {shown[:300]!r}"
    buttons = [it["role"]["value"] for it in page.tree() if it["role"]["value"] in ("button", "progressbar")]
    if buttons:
        yield f"without scripts it has {buttons}"


def published(page, texts):
    """A page that publishes a list has its texts and pictures at once, and they are checked there. By hand: three equal
    tiles stand in a row in 3! ways."""
    own = in_a_row(3)
    page.open(width=390, path=texts.publish(page.read, own))
    count = page.value('document.querySelectorAll("#sheet svg").length')
    if count != 6 or "All 6 are shown." not in page.shown():
        yield f"before a check it shows {count} pictures"
    yield from checked(page, texts.put(*own), "complete 6", "Check in this browser")
    if "The three texts have the SHA-256 that this page tells." not in page.shown():
        yield "it doesn't say that these are the texts that it publishes"


def published_beside(page, texts):
    """A text that is a file beside the page is chosen there; until then nothing is checked. Another one in its place is
    noticed."""
    own = in_a_row(3)
    page.open(path=texts.publish(page.read, own, beside=["certificate"]))
    if page.can_press("Check in this browser"):
        yield "it would check before the file beside it is there"
    paths = texts.put(*own)
    page.choose(paths[2])
    yield from checked(page, paths, "complete 6", "Check in this browser")
    wrong = texts.put(own[2].replace(b"c 0 3", b"c 0 4 d 0", 1))[0]
    page.choose(wrong)
    yield from checked(page, [*paths[:2], wrong], "refused tree 0 at - wrong-count 3 4", "Check in this browser")
    if "the SHA-256 of the certificate is another" not in page.shown():
        yield "it doesn't say that another certificate was checked"


def published_tampered(page, texts):
    """A page in which a text was changed says so, and what the check of it comes to."""
    own = in_a_row(3)
    wrong = [own[0], own[1].replace(b"arrangements 6", b"arrangements 5").replace(b"2.0 1.0 0.0\n", b""), own[2]]
    page.open(path=texts.publish(page.read, wrong, told=own))
    line = "refused tree 0 at 2.1.0 list-range"
    yield from checked(page, texts.put(*wrong), line, "Check in this browser")
    if "the SHA-256 of the list is another" not in page.shown():
        yield "it doesn't say that another list was checked"


def published_without_scripts(page, texts):
    """Without scripts a page shows the numbers, the pictures and the SHA-256 that it has, and has no button that does
    nothing."""
    own = in_a_row(3)
    page.open(path=texts.publish(page.read, own), scripts=False)
    shown = page.shown()
    wanted = ["Six in a row", "12345", "Scripts don\u2019t run here.", *(hashlib.sha256(it).hexdigest() for it in own)]
    yield from (f"without scripts there is no {it!r}" for it in wanted if it not in shown)
    buttons = [it["role"]["value"] for it in page.tree() if it["role"]["value"] in ("button", "progressbar")]
    if buttons:
        yield f"without scripts it has {buttons}"


TRIALS = [in_any_order, joined_and_dropped, refused, chosen_last, no_text, spare_tiles, by_keys, without_scripts,
          pictures, digests, sample, published, published_beside, published_tampered, published_without_scripts, large]


def faults_of(trial, page, texts, watch):
    """What isn't as wanted in a trial, and what the page asked for meanwhile."""
    try:
        yield from trial(page, texts)
    except Gone as why:
        yield str(why)
    yield from page.strays()
    yield from (f"a network is asked for {it}" for it in watch.asked())


def wrong_parts(wrong):
    """The parts with such a change, by their names, and how often the text that is changed stands in its part."""
    names = (make_page.FRAME, make_page.PUBLISHED, make_page.STYLE, *make_page.SCRIPTS)
    parts = {name: make_page.part(name) for name in names}
    count = parts[wrong["file"]].count(wrong["old"])
    parts[wrong["file"]] = parts[wrong["file"]].replace(wrong["old"], wrong["new"], 1)
    if "policy" in wrong:
        parts[make_page.FRAME] = parts[make_page.FRAME].replace("{policy}", "{policy}; " + wrong["policy"], 1)
    return parts, count


def of_wrong_pages(page, texts, watch):
    """The wrong pages, each with what is said where its trial doesn't notice it."""
    trials = {it.__name__: it for it in TRIALS}
    with open(WRONG, "rb") as file:
        every = tomllib.load(file)
    for name, wrong in every.items():
        parts, count = wrong_parts(wrong)
        faults = [] if count == 1 else [f"its text stands {count} times in {wrong['file']}, and not once"]
        page.show(texts.named("wrong.html", make_page.page(parts.get)), PATIENCE, parts.get)
        if next(faults_of(trials[wrong["trial"]], page, texts, watch), None) is None:
            faults.append(f"the trial {wrong['trial']} doesn't notice it")
        # What it asked for is no fault of the next one.
        list(page.strays()), list(watch.asked())
        yield f"a wrong page: {name}", faults


def tried(path):
    """Each trial and each wrong page, with its faults."""
    watch = Watch()
    with tempfile.TemporaryDirectory(ignore_cleanup_errors=True) as folder:
        browser = Browser(path, folder, watch)
        try:
            texts = Texts(folder)
            page = Page(browser)
            path = os.path.realpath(os.path.join(make_page.WEB, make_page.PAGE))
            page.show(path, MOST_SECONDS, make_page.part)
            for trial in TRIALS:
                yield trial.__name__, list(faults_of(trial, page, texts, watch))
            yield from of_wrong_pages(page, texts, watch)
        finally:
            browser.close()


def main():
    argparse.ArgumentParser(description=__doc__, formatter_class=argparse.RawDescriptionHelpFormatter).parse_args()
    signal.signal(signal.SIGTERM, lambda *_: sys.exit(1))
    # What the browser starts and leaves behind becomes a child of this script, which waits for it.
    ctypes.CDLL(None).prctl(SET_CHILD_SUBREAPER, 1)
    path = next(filter(None, map(shutil.which, NAMES)), None)
    if path is None:
        print("chromium isn't on the path: the page was not tried\n0 passed, 0 failed")
        return 0
    found = dict(tried(path))
    for name, faults in found.items():
        if faults:
            print(f"== {name}", *faults[:3], sep="\n")
    failed = sum(map(bool, found.values()))
    print(f"{len(found) - failed} passed, {failed} failed")
    return 1 if failed else 0


if __name__ == "__main__":
    sys.exit(main())
