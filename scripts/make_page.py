#!/usr/bin/env python3
"""Makes the pages of the second checker, and looks at them: web/check.html, and what `edgematch page` prints.

The parts are two frames, web/page.html and web/published.html, in which {page.css}, {check.js}, {draw.js} and
{reader.js} stand for those files of web/, and {policy} for a policy that lets these alone run. The second frame has
other words in braces too: holes, which a program fills. Its fixed text, each piece named by the hole that comes behind
it, is crates/show_page/src/fixed.rt. All is written in ASCII. With --write the page and that file are made anew.

Then each fault is told: that the page or the file isn't what the parts make; and of both pages, the second with some
text in its holes: that elements don't nest, or name what isn't there; that a script or the style isn't one of these
parts, or the policy lets others run; that an attribute is an address, a handler or a style; or that an address stands
anywhere. No browser is needed. It ends with 0 where there is no fault, else with 1.
"""
import argparse
import base64
import hashlib
import html.parser
import os
import re
import sys

TOP = os.path.join(os.path.dirname(os.path.abspath(__file__)), "..")
WEB = os.path.join(TOP, "web")
PAGE, FRAME, STYLE = "check.html", "page.html", "page.css"
SCRIPTS = ("check.js", "draw.js", "reader.js")
PUBLISHED, FIXED = "published.html", "crates/show_page/src/fixed.rt"
BRACED = re.compile(r"\{([\w.-]+)\}")
# Elements that have no end, attributes that lead somewhere or run something, and those that name an id.
VOID = {"meta", "input", "br", "hr", "link", "img"}
LEADING = {"src", "href", "action", "formaction", "srcset", "data", "poster", "ping", "background", "style", "srcdoc"}
NAMING = {"for", "aria-labelledby", "aria-describedby", "list"}
# The name of SVG, which is no address: a browser asks nothing of it.
NAMESPACE = "http://www.w3.org/2000/svg"
# The holes of the published page that take pictures.
PICTURES = {"picture", "sheet"}
# What a policy in the page forbids beside scripts and styles: all but a worker that the page makes itself.
RULES = ["worker-src blob:", "child-src blob:", "base-uri 'none'", "form-action 'none'"]


def text_of(path):
    with open(path, encoding="utf-8") as file:
        return file.read()


def unit_in_script(found):
    """A character as JavaScript has it in a text, by its units of UTF-16."""
    units = found[0].encode("utf-16-be")
    return "".join(f"\\u{units[i]:02x}{units[i + 1]:02x}" for i in range(0, len(units), 2))


def part(name):
    """A part in ASCII: what else it has is written as its language does."""
    text, other = text_of(os.path.join(WEB, name)), re.compile(r"[^\0-\x7f]")
    if name.endswith(".js"):
        return other.sub(unit_in_script, text)
    if name.endswith(".css"):
        return other.sub(lambda found: f"\\{ord(found[0]):x} ", text)
    return other.sub(lambda found: f"&#{ord(found[0])};", text)


def digest(text):
    return f"'sha256-{base64.b64encode(hashlib.sha256(text.encode()).digest()).decode()}'"


def policy(scripts, styles):
    """A policy that lets just these run, and nothing be asked of a network."""
    own = [" ".join(["script-src", *map(digest, scripts)]), " ".join(["style-src", *map(digest, styles)])]
    return "; ".join(["default-src 'none'", *own, *RULES])


def parts(read=part):
    """What stands for the words in braces that are no holes; the parts are read by their names."""
    found = {name: read(name) for name in (STYLE, *SCRIPTS)}
    return found | {"policy": policy([found[it] for it in SCRIPTS], [found[STYLE]])}


def page(read=part):
    """The page that its parts make, which are read by their names."""
    fill = parts(read)
    return BRACED.sub(lambda found: fill[found[1]], read(FRAME))


def pieces(read=part):
    """The fixed text of the published page, by its parts: each piece with the hole behind it, and the last with None."""
    fill, found, text = parts(read), [], ""
    for i, it in enumerate(BRACED.split(read(PUBLISHED))):
        if i % 2 == 0:
            text += it
        elif it in fill:
            text += fill[it]
        else:
            found.append((text, it))
            text = ""
    return [*found, (text, None)]


def published(holes, read=part):
    """The published page with this in its holes, by their names."""
    return "".join(text if hole is None else text + holes[hole] for text, hole in pieces(read))


def sample():
    """The published page with some text in each hole: a picture where pictures are, else a number."""
    return published({hole: "<svg></svg>" if hole in PICTURES else "1" for _, hole in pieces() if hole})


def fixed():
    """The fixed text of the published page as constants."""
    lines = ["//! The fixed text of a page, which scripts/make_page.py makes of what stands in web/."]
    for text, hole in pieces():
        name = f"BEFORE_{hole.upper().replace('-', '_')}" if hole else "LAST"
        if '"##' in text:
            sys.exit(f"{name} has what would end it")
        lines.append(f'\npub(crate) const {name}: &[u8] = br##"{text}"##;')
    return "\n".join(lines) + "\n"


class Reader(html.parser.HTMLParser):
    """What a page has, and what is wrong with its elements."""

    def __init__(self):
        super().__init__(convert_charrefs=True)
        self.open, self.ids, self.named = [], [], []
        self.texts = {"script": [], "style": []}
        self.nesting, self.attributes, self.policies = [], [], []

    def handle_starttag(self, tag, attributes):
        for name, value in attributes:
            if name in LEADING or name.startswith("on"):
                self.attributes.append(f"<{tag} {name}={value!r}>")
            elif name == "id":
                self.ids.append(value)
            elif name in NAMING:
                self.named.append(value)
        if ("http-equiv", "Content-Security-Policy") in attributes:
            self.policies.append(dict(attributes).get("content"))
        if tag not in VOID:
            self.open.append(("data" if ("type", "text/plain") in attributes else tag, []))

    def handle_endtag(self, tag):
        if not self.open or self.open[-1][0] not in (tag, "data" if tag == "script" else tag):
            inner = self.open[-1][0] if self.open else "nothing"
            self.nesting.append(f"</{tag}> at line {self.getpos()[0]} closes {inner}")
            return
        kind, text = self.open.pop()
        if kind in self.texts:
            self.texts[kind].append("".join(text))

    def handle_data(self, data):
        if self.open:
            self.open[-1][1].append(data)


def stale():
    """What isn't what the parts make."""
    for path, made in ((os.path.join("web", PAGE), page()), (FIXED, fixed())):
        if text_of(os.path.join(TOP, path)) != made:
            yield f"{path} isn't what its parts make; make it anew with --write"


def misnested(text, read):
    """What isn't well formed."""
    yield from read.nesting
    yield from (f"<{tag}> isn't closed" for tag, _ in read.open)
    yield from (f"id {it} stands twice" for it in sorted({it for it in read.ids if read.ids.count(it) > 1}))
    yield from (f"there is no id {it}" for it in read.named if it not in read.ids)
    if not text.startswith("<!DOCTYPE html>\n") or not text.endswith("</html>\n") or re.search(r"[\r\0\t]", text):
        yield "it begins or ends otherwise than a page, or has a CR, a NUL or a tab"


def strange_scripts(text, read):
    """That other scripts or styles stand there than the parts, or text that would end one early."""
    if read.texts["script"] != [part(it) for it in SCRIPTS] or read.texts["style"] != [part(STYLE)]:
        yield "its scripts and its style aren't those of the parts"
    for name in (STYLE, *SCRIPTS):
        yield from (f"{name} has {it[0]}" for it in re.finditer(r"</?(script|style)|<!--", part(name), re.I))
    if not text.isascii():
        yield "it has a character that isn't of ASCII"


def loose_policies(_, read):
    """That the policy isn't the one that lets just these scripts run."""
    if read.policies != [policy(read.texts["script"], read.texts["style"])]:
        yield f"the policy is {read.policies}"


def addresses(text, read):
    """What leads somewhere, or runs something."""
    yield from read.attributes
    yield from (f"an address: {it}" for it in re.findall(r"\w+://[^\"'` ]*", text) if it != NAMESPACE)
    calls = re.findall(r"\b(?:fetch|XMLHttpRequest|WebSocket|EventSource|sendBeacon|importScripts|import)\b *\(|"
                       r"\b(?:eval|Function)\(", "".join(read.texts["script"]))
    yield from (f"a call: {it}" for it in calls)


PARTS = [misnested, strange_scripts, loose_policies, addresses]


def faults(name, text):
    """What each part says of a page."""
    read = Reader()
    read.feed(text)
    read.close()
    return [[f"{name}: {it}" for it in about(text, read)] for about in PARTS]


def main():
    parser = argparse.ArgumentParser(description=__doc__, formatter_class=argparse.RawDescriptionHelpFormatter)
    parser.add_argument("--write", action="store_true")
    if parser.parse_args().write:
        for path, made in ((os.path.join("web", PAGE), page()), (FIXED, fixed())):
            with open(os.path.join(TOP, path), "w", encoding="utf-8", newline="\n") as file:
                file.write(made)
    found = [list(stale()), *faults(PAGE, text_of(os.path.join(WEB, PAGE))), *faults(PUBLISHED, sample())]
    for fault in sum(found, []):
        print(fault)
    failed = sum(map(bool, found))
    print(f"{len(found) - failed} passed, {failed} failed")
    return 1 if failed else 0


if __name__ == "__main__":
    sys.exit(main())
