#!/usr/bin/env python3
"""What the program answers where its input ends too early or is another, where the outside fails or lies, and where memory is refused.

    python3 examples/hostile.py PATH-OF-THE-PROGRAM [--examples PATH-OF-WORKED-EXAMPLES] [--calls PATH-OF-CALL-EXAMPLES] [--only WORD]

A table for each, and status 1 where a row is not as wanted; --only makes the rows whose names have the word. --jobs N runs go side by side.

- Each script of CUT, of one front end and of two, is cut off after each of its bytes. What is wanted stands here beside each line, by
  docs/SCRIPT.md: a line that is cut is `NotJson` with its number, and what the lines before it print was written; at a line's end all was
  carried out. So are the frames of two sessions: the whole ones are answered as docs/PROTOCOL.md has it, and nothing else is written.
- One byte of a client's frames, or of a script, is another, at each place and by some bytes. Each whole frame has one answer, and nothing
  but messages is written, first those of the frames before it; a line that is refused is that one or a later one, and what the lines
  before it print was written.
- With --calls (crates/call_examples, which hands in a link that lies at one place): each byte that comes down is another. The front end
  refuses the message that it stands in or a later one, or none; of two front ends a line may be refused too that wants a session, or
  matched styles, which by what came down are not there. Where the end is reached, its outlines are written.
- With --examples (crates/worked_examples, which hands in a source, a sink and a link that fail where it is told): the source, the sink and
  the link fail at each call in turn. The answer is that fault, and what was written is a front part of the whole: of a script nothing where
  the source failed, of the frames of two sessions then just the answers to those that had come whole.
- Each allocation is refused in turn, and then it and all behind it. The status is 9, and what was written a front part of the whole; or
  the program needs that memory for its speed alone, and all is as it would be. For this a library of a few lines of C is made in a
  temporary folder (with gcc), which stands before the C library's `malloc` and `realloc`; nothing of it stays.
"""
import argparse
import concurrent.futures
import json
import os
import subprocess
import sys
import tempfile

WITHOUT_MEMORY = r"""
#include <fcntl.h>
#include <stdlib.h>
#include <unistd.h>
extern void *__libc_malloc(size_t);
extern void *__libc_realloc(void *, size_t);
static unsigned long made, at, on;
__attribute__((constructor)) static void begin(void) {
    const char *refused = getenv("REFUSED"), *later = getenv("REFUSED_ON");
    at = refused ? strtoul(refused, 0, 10) : 0;
    on = later != 0;
    made = 0;
}
static int fails(void) {
    made++;
    return at != 0 && (made == at || (on && made > at));
}
void *malloc(size_t size) { return fails() ? 0 : __libc_malloc(size); }
void *realloc(void *old, size_t size) { return fails() ? 0 : __libc_realloc(old, size); }
__attribute__((destructor)) static void end(void) {
    const char *told = getenv("ALLOCATIONS");
    int file = told ? open(told, O_WRONLY | O_CREAT | O_TRUNC, 0600) : -1;
    if (file < 0) return;
    if (write(file, &made, sizeof made) < 0) _exit(99);
    close(file);
}
"""


def text(value):
    return json.dumps(value, separators=(",", ":"))


def load(page):
    return text({"load": page})


def ask(method, params=None):
    return text({"ask": {"method": method} if params is None else {"method": method, "params": params}})


def act(**said):
    return text({"act": said})


SETTLE = text({"settle": True})


def show(word):
    return text({"show": word})


def outline(*lines):
    return "".join(line + "\n" for line in lines)


# ---- scripts whose answers stand here: each line, what it prints, and the outline that the front end shows once it was carried out

DIV = outline("1 #document", "  2 <html>", "    3 <body>", "      4 <div>")
PAUSED = outline(
    "# pauses", "subtree-modified 4 target 4 insertion true", "subtree-modified 3 target 4 insertion false")
WATCHES = (
    (load({"document": [{"e": "html", "c": [{"e": "body", "c": [{"e": "div"}]}]}]}), "", "no document\n"),
    (ask("DOM.getDocument", {"depth": -1}), "", DIV),
    (ask("DOMDebugger.setDOMBreakpoint", {"nodeId": 3, "type": "subtree-modified"}), "", DIV),
    (ask("DOMDebugger.setDOMBreakpoint", {"nodeId": 4, "type": "subtree-modified"}), "", DIV),
    (SETTLE, "", DIV),
    (act(do="insert", parent=4, before=0, node={"t": "x"}), "", DIV + outline('        5 "x"')),
    (act(do="remove", node=4), "", outline("1 #document", "  2 <html>", "    3 <body>")),
    (ask("DOM.setAttributeValue", {"nodeId": 3, "name": "a", "value": "b"}), "",
     outline("1 #document", "  2 <html>", '    3 <body a="b">')),
    (show("pauses"), PAUSED, outline("1 #document", "  2 <html>", '    3 <body a="b">')),
)


def html(attributes):
    return outline("1 #document", "  2 <html%s>" % "".join(' %s="%s"' % pair for pair in attributes))


def attribute(name, value):
    return ask("DOM.setAttributeValue", {"nodeId": 2, "name": name, "value": value})


AB, ABC, ABD = ("ab", "12"), ("abc", "123"), ("abd", "124")
UNDO = (
    (load({"document": [{"e": "html"}]}), "", "no document\n"),
    (ask("DOM.getDocument"), "", html(())),
    (attribute("a", "1"), "", html([("a", "1")])),
    (attribute("b", "2"), "", html(zip(*AB))),
    (ask("DOM.markUndoableState"), "", html(zip(*AB))),
    (attribute("c", "3"), "", html(zip(*ABC))),
    (ask("DOM.undo"), "", html(zip(*AB))),
    (ask("DOM.undo"), "", html(())),
    (ask("DOM.redo"), "", html(zip(*AB))),
    (SETTLE, "", html(zip(*AB))),
    (show("page"), "# page\n" + html(zip(*AB)), html(zip(*AB))),
    (act(do="setAttr", node=2, name="d", value="4"), "", html(zip(*ABD))),
    (ask("DOM.undo"), "", html(zip(*ABD))),
    (SETTLE, "", html(zip(*ABD))),
    (show("page"), "# page\n" + html(zip(*ABD)), html(zip(*ABD))),
)

# ---- the same with two front ends: the outline of the second stands behind its heading

ATTACH, DETACH = text({"attach": True}), text({"detach": True})


def on_2(line):
    """The line as one of the second front end, where it is an ask or a show of what it has."""
    said = json.loads(line)
    return text({**said, "on": 2}) if "ask" in said or said.get("show") in ("front", "sheets", "replies", "pauses") else line


def ask_2(method, params=None):
    return on_2(ask(method, params))


NONE = "no document\n"


def both(first, second):
    return first + "# end 2\n" + second


def body(attributes, *below):
    return outline("1 #document", "  2 <html>", "    3 <body%s>" % attributes, *below)


WHOLE, PART = ("      4 <p>", '        5 "x"'), ("      4 <p> +1",)
TWO = (
    (load({"document": [{"e": "html", "c": [{"e": "body", "c": [{"e": "p", "c": [{"t": "x"}]}]}]}],
           "sheets": [{"origin": "regular", "text": "p{a:b}"}]}), "", NONE),
    (ATTACH, "", both(NONE, NONE)),
    (ask("DOM.getDocument", {"depth": -1}), "", both(body("", *WHOLE), NONE)),
    (ask_2("DOM.getDocument", {"depth": 3}), "", both(body("", *WHOLE), body("", *PART))),
    (ask_2("CSS.enable"), "", both(body("", *WHOLE), body("", *PART))),
    (ask_2("CSS.getMatchedStylesForNode", {"nodeId": 4}), "", both(body("", *WHOLE), body("", *PART))),
    (on_2(text({"show": "styles", "ask": 3})), '# styles 3 2\ns1 regular "p"\n  * a "b"\n', both(body("", *WHOLE), body("", *PART))),
    (ask_2("DOMDebugger.setDOMBreakpoint", {"nodeId": 3, "type": "attribute-modified"}), "", both(body("", *WHOLE), body("", *PART))),
    (SETTLE, "", both(body("", *WHOLE), body("", *PART))),
    (ask("DOM.setAttributeValue", {"nodeId": 3, "name": "a", "value": "1"}), "", both(body(' a="1"', *WHOLE), body(' a="1"', *PART))),
    (on_2(show("front")), "# front 2\n" + body(' a="1"', *PART), both(body(' a="1"', *WHOLE), body(' a="1"', *PART))),
    (on_2(show("pauses")), "# pauses 2\nattribute-modified 3\n", both(body(' a="1"', *WHOLE), body(' a="1"', *PART))),
    (on_2(show("sheets")), '# sheets 2\ns1 regular "p{a:b}"\n', both(body(' a="1"', *WHOLE), body(' a="1"', *PART))),
    (ask_2("DOM.removeNode", {"nodeId": 4}), "", both(body(' a="1"'), body(' a="1"'))),
    (ask("DOM.undo"), "", both(body(' a="1"'), body(' a="1"'))),
    (act(do="setAttr", node=3, name="a", value="2"), "", both(body(' a="2"'), body(' a="2"'))),
    (DETACH, "", body(' a="2"')),
    (show("front"), "# front\n" + body(' a="2"'), body(' a="2"')),
    (ATTACH, "", both(body(' a="2"'), NONE)),
    (ask_2("DOM.getDocument", {"depth": 1}), "", both(body(' a="2"'), outline("1 #document", "  2 <html> +1"))),
    (on_2(show("front")), "# front 2\n" + outline("1 #document", "  2 <html> +1"),
     both(body(' a="2"'), outline("1 #document", "  2 <html> +1"))),
)


def shut(attributes):
    return outline("1 #document", "  2 <html%s> +1" % attributes)


def opened(attributes):
    return outline("1 #document", "  2 <html%s>" % attributes, '    3 "x"')


def alike(attributes):
    return both(shut(attributes), opened(attributes))


PIECES = (
    (load({"document": [{"e": "html", "c": [{"t": "x"}]}]}), "", NONE),
    (ATTACH, "", both(NONE, NONE)),
    (ask_2("DOM.getDocument", {"depth": -1}), "", both(NONE, opened(""))),
    (text({"up": 30}), "", both(NONE, opened(""))),
    (ask("DOM.getDocument"), "", alike("")),
    (text({"up": 500}), "", alike("")),
    (text({"down": 50}), "", alike("")),
    (ask_2("DOM.setAttributeValue", {"nodeId": 2, "name": "a", "value": "1"}), "", alike(' a="1"')),
    (ask_2("DOM.markUndoableState"), "", alike(' a="1"')),
    (ask_2("DOM.setAttributeValue", {"nodeId": 2, "name": "b", "value": "2"}), "", alike(' a="1" b="2"')),
    (ask_2("DOM.undo"), "", alike(' a="1"')),
    (ask_2("DOM.redo"), "", alike(' a="1" b="2"')),
    (text({"down": 99}), "", alike(' a="1" b="2"')),
    (text({"raw": "{}"}), "", alike(' a="1" b="2"')),
    (show("page"), "# page\n" + opened(""), alike(' a="1" b="2"')),
    (on_2(show("front")), "# front 2\n" + opened(' a="1" b="2"'), alike(' a="1" b="2"')),
    (show("page"), "# page\n" + opened(' a="1" b="2"'), alike(' a="1" b="2"')),
    (ask("DOM.setAttributeValue", {"nodeId": 2, "name": "c", "value": "3"}), "", alike(' a="1" b="2" c="3"')),
    (ask_2("DOM.undo"), "", alike(' a="1" b="2" c="3"')),
    (DETACH, "", shut(' a="1" b="2" c="3"')),
    (ask("DOM.undo"), "", shut(' a="1" b="2"')),
)
CUT = (("watches and pauses", "replay", WATCHES), ("undo and redo", "replay", UNDO), ("two front ends", "pair", TWO),
       ("two front ends, pipes in pieces", "pair", PIECES))


# ---- frames of two sessions: each, and the messages that it makes, those of the other session first

def sent(number, method, params=None, **session):
    return text({"id": number, "method": method, **({} if params is None else {"params": params}), **session})


def event(method, params, **session):
    return text({"method": method, "params": params, **session})


def answer(number, result="{}", session=""):
    return '{"id":%d,"result":%s%s}' % (number, result, ',"sessionId":"S1"' if session else "")


def refusal(number, code, message, session=""):
    return '{"error":{"code":%d,"message":"%s"},"id":%d%s}' % (code, message, number, ',"sessionId":"S1"' if session else "")


S1 = {"sessionId": "S1"}
HTML = ('{"attributes":[],"backendNodeId":3,"childNodeCount":0,"localName":"html","nodeId":2,"nodeName":"HTML","nodeType":1,'
        '"nodeValue":"","parentId":1}')
ROOT = ('{"root":{"backendNodeId":2,"childNodeCount":1,"children":[%s],"localName":"","nodeId":1,"nodeName":"#document","nodeType":9,'
        '"nodeValue":""}}' % HTML)
IS_A, IS_B = {"name": "a", "nodeId": 2, "value": "1"}, {"name": "b", "nodeId": 2, "value": "2"}
NOT_B, ONE = {"name": "b", "nodeId": 2}, {"childNodeCount": 1, "nodeId": 2}
SESSIONS = (
    (sent(1, "Replay.load", {"document": [{"e": "html"}]}), [answer(1)]),
    (sent(1, "DOM.enable", **S1), [refusal(1, -32001, "unknown session")]),
    (sent(2, "Target.attachToTarget", {"flatten": True, "targetId": "page"}), [answer(2, '{"sessionId":"S1"}')]),
    (sent(3, "DOM.getDocument"), [answer(3, ROOT)]),
    (sent(1, "DOM.getDocument", **S1), [answer(1, ROOT, "S1")]),
    (sent(4, "DOM.setAttributeValue", IS_A),
     [event("DOM.attributeModified", IS_A, **S1), event("DOM.attributeModified", IS_A), answer(4)]),
    (sent(2, "DOM.setAttributeValue", IS_B, **S1),
     [event("DOM.attributeModified", IS_B), event("DOM.attributeModified", IS_B, **S1), answer(2, "{}", "S1")]),
    (sent(5, "DOM.undo"), [refusal(5, -32000, "Crossed")]),
    (sent(3, "DOM.undo", **S1),
     [event("DOM.attributeRemoved", NOT_B), event("DOM.attributeRemoved", NOT_B, **S1), answer(3, "{}", "S1")]),
    (sent(6, "Replay.act", {"do": "insert", "parent": 3, "before": 0, "node": {"t": "x"}}),
     [event("DOM.childNodeCountUpdated", ONE, **S1), event("DOM.childNodeCountUpdated", ONE), answer(6)]),
    (sent(4, "Replay.act", {"do": "remove", "node": 3}, **S1), [refusal(4, -32601, "unknown method", "S1")]),
    (sent(7, "Target.attachToTarget", {"flatten": True, "targetId": "page"}), [refusal(7, -32000, "session is taken")]),
    (sent(8, "Target.detachFromTarget", S1), [answer(8)]),
    (sent(9, "DOM.enable", **S1), [refusal(9, -32001, "unknown session")]),
    (sent(10, "Target.attachToTarget", {"flatten": True, "targetId": "page"}), [answer(10, '{"sessionId":"S2"}')]),
)


def script(lines):
    return "".join(line + "\n" for line in lines).encode()


def whole_output(lines):
    return ("".join(printed for _, printed, _ in lines) + "# end\n" + lines[-1][2]).encode()


def stream(said):
    return b"".join(frame.encode() + b"\0" for frame in said)


def answers_to(count):
    """What the first frames of SESSIONS are answered."""
    return stream(message for _, messages in SESSIONS[:count] for message in messages)


# ---- scripts of one command, act or line each, over one page; their answers are those of the program when nothing fails

PAGE = {
    "document": [{"d": "html"}, {"e": "html", "c": [{"e": "head"}, {"e": "body", "a": ["class", "c", "style", "x:y"], "c": [
        {"e": "p", "c": [{"t": "one"}]}, {"k": "two"}, {"t": " "}]}]}],
    "sheets": [{"origin": "regular", "text": ".c{a:b}@media screen{p{c:d}}"}],
}
KNOWN = (ask("DOM.getDocument", {"depth": -1}), ask("CSS.enable"), SETTLE)
SHOWS = tuple(show(word) for word in ("replies", "front", "sheets", "pauses", "panels"))
EDIT = (ask("DOM.setAttributeValue", {"nodeId": 5, "name": "title", "value": "t"}), ask("DOM.markUndoableState"))


def place(first, last):
    return {"startLine": 0, "startColumn": first, "endLine": 0, "endColumn": last}


def sheet(**said):
    return dict(styleSheetId="s1", **said)


ASKS = (
    ("DOM.getDocument", {"depth": -1}), ("DOM.requestChildNodes", {"nodeId": 3, "depth": -1}),
    ("DOM.pushNodeByPathToFrontend", {"path": "1,HTML,1,BODY,0,P"}),
    ("DOM.pushNodesByBackendIdsToFrontend", {"backendNodeIds": [7, 99, 4]}),
    ("DOM.querySelector", {"nodeId": 1, "selector": "body > p:first-child"}),
    ("DOM.querySelectorAll", {"nodeId": 1, "selector": ".c p, [style], :not(p) ~ *"}), ("DOM.getAttributes", {"nodeId": 3}),
    ("DOM.describeNode", {"backendNodeId": 5, "depth": -1}), ("DOM.enable", {"includeWhitespace": "none"}),
)
EDITS = (
    ("DOM.setAttributeValue", {"nodeId": 5, "name": "Title", "value": "t"}), ("DOM.removeAttribute", {"nodeId": 5, "name": "class"}),
    ("DOM.setNodeValue", {"nodeId": 7, "value": "three"}), ("DOM.removeNode", {"nodeId": 6}),
    ("DOM.moveTo", {"nodeId": 6, "targetNodeId": 4}), ("DOM.copyTo", {"nodeId": 5, "targetNodeId": 4}), ("DOM.disable", {}),
    ("CSS.disable", {}), ("CSS.getMatchedStylesForNode", {"nodeId": 6}), ("CSS.getStyleSheetText", sheet()),
    ("CSS.collectClassNames", sheet()), ("CSS.setStyleTexts", {"edits": [sheet(range=place(3, 6), text="e:f;g:h")] * 1}),
    ("CSS.setRuleSelector", sheet(range=place(0, 2), selector="i, .j")), ("CSS.setStyleSheetText", sheet(text="k{l:m}")),
    ("CSS.addRule", sheet(ruleText="n{o:p}", location=place(7, 7))),
    ("CSS.setMediaText", sheet(range=place(14, 20), text="(min-width: 1px)")),
    ("DOM.performSearch", {"query": "p"}), ("DOMDebugger.setDOMBreakpoint", {"nodeId": 5, "type": "node-removed"}),
    ("DOMDebugger.removeDOMBreakpoint", {"nodeId": 5, "type": "attribute-modified"}),
)
ACTS = (
    act(do="setAttr", node=5, name="lang", value="en"), act(do="dropAttr", node=5, name="class"),
    act(do="setText", node=7, value="four"), act(do="insert", parent=5, before=8, node={"e": "b", "c": [{"t": "x"}]}),
    act(do="remove", node=6), act(do="move", node=6, parent=4, before=0),
    act(do="addSheet", origin="user-agent", text="q{r:s}"), act(do="dropSheet", sheet="s1"),
    act(do="replaceSheet", sheet="s1", text="t{u:v}"), act(do="medium", type="print", width=5),
)


def scripts():
    """The name of each script with one front end and its lines."""
    for name, word, lines in CUT:
        if word == "replay":
            yield name, [line for line, _, _ in lines]
    for method, params in ASKS:
        yield method, [load(PAGE), ask("DOM.getDocument") if method != "DOM.enable" else SETTLE, ask(method, params), *SHOWS]
    for method, params in EDITS:
        yield method, [load(PAGE), *KNOWN, ask(method, params), *SHOWS]
    for method in ("DOM.undo", "DOM.redo"):
        lines = [load(PAGE), *KNOWN, *EDIT, ask("DOM.copyTo", {"nodeId": 6, "targetNodeId": 4}), ask("DOM.undo")]
        yield method, lines + [ask(method)] + list(SHOWS)
    found = [load(PAGE), *KNOWN, ask("DOM.performSearch", {"query": "e"})]
    yield "DOM.getSearchResults", found + [ask("DOM.getSearchResults", {"searchId": "q1", "fromIndex": 0, "toIndex": 2}), *SHOWS]
    yield "DOM.discardSearchResults", found + [ask("DOM.discardSearchResults", {"searchId": "q1"}), *SHOWS]
    watch = ask("DOMDebugger.setDOMBreakpoint", {"nodeId": 3, "type": "subtree-modified"})
    for said in ACTS:
        yield "act %s" % json.loads(said)["act"]["do"], [load(PAGE), *KNOWN, watch, SETTLE, said, *SHOWS]
    styles = [ask("CSS.getMatchedStylesForNode", {"nodeId": 6}), text({"show": "styles", "ask": 3})]
    yield "a show of styles", [load(PAGE), *KNOWN, *styles]
    yield "a later load", [load(PAGE), *KNOWN, load({"flat": [{"up": 0, "e": "p"}, {"up": 1, "t": "x"}]}), *SHOWS]
    pieces = [text({"up": 20}), text({"up": 99}), text({"down": 70}), text({"raw": "{}"}), text({"close": 1})]
    wide = {"document": [{"e": "html", "c": [{"e": "p"}] * 130}]}
    turns = [act(do="insert", parent=2, before=70, node={"e": "b"}), act(do="remove", node=71)]
    turns.append(act(do="insert", parent=2, before=0, node={"t": "x"}))
    yield "a row of 130 children", [load(wide), *KNOWN, *turns, show("front")]
    yield "raw frames, pieces and a panel that is dropped", [load(PAGE), ask("DOM.getDocument"), *pieces, *SHOWS]


def inputs(shape):
    """The name of each input, its word and what is read: scripts, each of one front end on either of two besides, where the other knows the
    page too, and the streams of frames in this shape."""
    for name, lines in scripts():
        yield name, "replay", script(lines)
    for name, word, lines in CUT:
        if word == "pair":
            yield name, word, script(line for line, _, _ in lines)
    ends = show("front"), show("sheets"), show("pauses")
    for name, lines in scripts():
        yield "the first: " + name, "pair", script([lines[0], ATTACH, *map(on_2, KNOWN), *lines[1:], *map(on_2, ends)])
        yield "the second: " + name, "pair", script([lines[0], *KNOWN, ATTACH, *map(on_2, lines[1:]), *ends])
    yield "frames of a client", "serve", shape(frames())
    yield "frames of two sessions", "share", shape(frame for frame, _ in SESSIONS)
    yield "frames of a client beside a root", "share", shape(frames_beside())


def frames():
    """Frames of a client that loads a page and changes it, for `serve`."""
    said = [("Replay.load", PAGE), ("DOM.getDocument", {"depth": -1}), ("CSS.enable", {}), ("Replay.act", json.loads(ACTS[3])["act"])]
    said += list(EDITS[:6]) + [("DOM.undo", {}), ("DOM.redo", {}), ("DOM.nope", {})]
    return [text({"id": i, "method": method, "params": params}) for i, (method, params) in enumerate(said)]


def frames_beside():
    """The same commands of the attached session, for `share`, where the root knows the page too; load and act are the root's."""
    first, *later = map(json.loads, frames())
    said = [first, {"id": 100, "method": "Target.attachToTarget", "params": {"flatten": True, "targetId": "page"}}]
    said += [{"id": 101, "method": "DOM.getDocument", "params": {"depth": -1}}, {"id": 102, "method": "CSS.enable"}]
    said += [frame if frame["method"].startswith("Replay.") else {**frame, **S1} for frame in later]
    return [text(frame) for frame in said + [{"id": 103, "method": "Target.detachFromTarget", "params": S1}]]


# ---- runs

def run(program, word, data, **said):
    done = subprocess.run([program, *word.split()], input=data, stdout=subprocess.PIPE, stderr=subprocess.PIPE, env={**os.environ, **said})
    return done.returncode, done.stdout, done.stderr


class Table:
    """Rows of what was tried, how often, and what came; the status at the end."""

    def __init__(self, asked):
        self.asked, self.bad = asked, 0
        self.pool = concurrent.futures.ThreadPoolExecutor(asked.jobs)

    def head(self, *cells):
        print("\n| " + " | ".join(cells) + " |\n|" + "---|" * len(cells), flush=True)

    def row(self, *cells, wrong=()):
        self.bad += bool(wrong)
        print("| " + " | ".join(str(cell) for cell in cells) + " |", flush=True)
        for line in list(wrong)[:5]:
            print("NOT AS WANTED: %s" % line, flush=True)

    def wants(self, name):
        return self.asked.only in name


# ---- inputs that are cut off

def cut_wanted(lines, size):
    """Status, output and line on standard error for the first bytes of the script."""
    printed, shown, behind = "", NONE, 0
    for number, (line, prints, outlined) in enumerate(lines, 1):
        if size < behind + len(line):
            fault = "NotLoad" if size == 0 else None if size <= behind else "NotJson"
            return (3, printed, "line %d: %s\n" % (number, fault)) if fault else (0, printed + "# end\n" + shown, "")
        printed, shown, behind = printed + prints, outlined, behind + len(line) + 1
    return 0, printed + "# end\n" + shown, ""


def cuts(table):
    table.head("script or frames", "cut after", "as wanted", "carried out", "refused")
    rows = [(name, word, script(line for line, _, _ in lines), lambda size, lines=lines: cut_wanted(lines, size))
            for name, word, lines in CUT]
    shared = stream(frame for frame, _ in SESSIONS)
    rows.append(("frames of two sessions", "share", shared, lambda size: (0, answers_to(shared[:size].count(b"\0")).decode(), "")))
    for name, word, data, want_of in rows:
        if not table.wants(name):
            continue
        wanted = [want_of(size) for size in range(len(data) + 1)]
        came = list(table.pool.map(lambda size: run(table.asked.program, word, data[:size]), range(len(data) + 1)))
        wrong = ["%s cut after %d: %s" % (name, size, got) for size, (got, want) in enumerate(zip(came, wanted))
                 if got != (want[0], want[1].encode(), want[2].encode())]
        ended = sum(got[0] == 0 for got in came)
        table.row(name, "each of %d bytes" % len(data), len(came) - len(wrong), ended, len(came) - ended, wrong=wrong)


# ---- bytes that are changed

OTHERS = (0, 0xFF, ord('"'), ord("{"), ord("9"), ord(" "))


def changed(data):
    """The place of each change, and the data with another byte there."""
    for place, byte in enumerate(data):
        for other in OTHERS:
            if other != byte:
                yield place, data[:place] + bytes([other]) + data[place + 1:]


def is_served(front, data, got):
    """Each whole frame has one answer, in either session, and all that was written are messages, first those of the frames before."""
    status, written, line = got
    *messages, rest = written.split(b"\0")
    try:
        answers = [message for message in messages if "method" not in json.loads(message)]
    except ValueError:
        return False
    return written.startswith(front) and (status, line, rest, len(answers)) == (0, b"", b"", data.count(b"\0"))


def is_replayed(lines, place, got):
    """A line is refused that is the changed one or a later one, or none; what the lines before the changed one print was written."""
    status, written, line = got
    number = 1 + script(said for said, _, _ in lines)[:place].count(b"\n")
    printed = "".join(prints for _, prints, _ in lines[: number - 1]).encode()
    return written.startswith(printed) and (
        status == 0 and line == b"" or status == 3 and int(line.split(b":")[0].split()[1]) >= number)


def changing(table):
    table.head("input", "one byte changed", "as wanted", "carried out", "refused")
    shared = stream(frame for frame, _ in SESSIONS)
    rows = [("frames of a client", "serve", stream(frames()), lambda place, data, got: is_served(b"", data, got)),
            ("frames of a client beside a root", "share", stream(frames_beside()), lambda place, data, got: is_served(b"", data, got)),
            ("frames of two sessions", "share", shared,
             lambda place, data, got: is_served(answers_to(shared[:place].count(b"\0")), data, got))]
    rows += [(name, word, script(line for line, _, _ in lines), lambda place, data, got, lines=lines: is_replayed(lines, place, got))
             for name, word, lines in CUT]
    for name, word, data, is_right in rows:
        if not table.wants(name):
            continue
        tried = list(changed(data))
        came = list(table.pool.map(lambda one: run(table.asked.program, word, one[1]), tried))
        wrong = ["%s, byte %d: %s" % (name, place, got) for (place, other), got in zip(tried, came) if not is_right(place, other, got)]
        ended = sum(got[0] == 0 for got in came)
        table.row(name, len(tried), len(came) - len(wrong), ended, len(came) - ended, wrong=wrong)


# ---- a link that lies

COME_DOWN = {"replay": 1400, "pair": 3600}  # no script of CUT has more bytes come down
LIES = '\0"{019'


def is_lied_to(lines, answer, written):
    """A message is refused, or a line that wants what by the bytes that came down is not there, or the end is reached."""
    if answer.startswith("3 line "):
        number, fault = answer[len("3 line "):].split(": ")
        said = json.loads(lines[int(number) - 1][0])
        wants = {"NoStyles": said.get("show") == "styles", "BadSession": bool({"attach", "detach", "on"} & set(said))}
        return wants.get(fault, False)
    return answer.startswith("8 front refused message ") or answer == "0" and "\n  # end\n" in written


def lying(table):
    table.head("script", "bytes down that lie", "a message refused by a front end", "a line refused", "none")
    for name, word, lines in CUT:
        if not table.wants(name):
            continue
        said = script(line for line, _, _ in lines).decode()
        rows = ["inspect lie %s" % text([said, place, other, word]) for place in range(1, COME_DOWN[word]) for other in LIES]
        done = subprocess.run([table.asked.calls], input="".join(row + "\n" for row in rows).encode(), stdout=subprocess.PIPE, check=True)
        parts = [part.split("\n", 2) for part in done.stdout.decode().split("inspect lie ")[1:]]
        answers = [answer.strip() for _, answer, _ in parts]
        wrong = ["%s: %d answers of %d" % (name, len(answers), len(rows))] if len(answers) != len(rows) else []
        wrong += ["%s: %s" % (name, answer) for answer, (_, _, written) in zip(answers, parts)
                  if not is_lied_to(lines, answer, "\n" + written)]
        table.row(name, len(rows), *(sum(answer.startswith(front) for answer in answers) for front in "830"), wrong=wrong)


# ---- an outside that fails

FAULTS = {"source": b"read fault\n", "sink": b"write fault\n", "link": b"link fault\n"}


def examples_of(program, rows):
    """What the program of worked examples says of each: a word, a part with the number of the call that fails, and lines."""
    asked = b"".join(b"## %s %d\n#! %s %d\n%s" % (word.encode(), i, part.encode(), call, lines)
                     for i, (word, part, call, lines) in enumerate(rows))
    done = subprocess.run([program], input=asked, stdout=subprocess.PIPE, check=True).stdout
    places = [done.index(b"## %s %d\n" % (word.encode(), i)) for i, (word, _, _, _) in enumerate(rows)] + [len(done)]
    return [done[first:last].split(b"\n", 1)[1] for first, last in zip(places, places[1:])]


def is_fault(part, got, whole):
    """The answer is that fault, and before it stands a front part of the whole."""
    return got.endswith(FAULTS[part]) and whole.startswith(got[: -len(FAULTS[part])])


def cut_by_source(name, word, lines, call):
    """What was written where that call of the source fails, each of which gives 50 bytes; None where this file does not tell it."""
    if name == "frames of two sessions":
        return answers_to(lines[: 50 * (call - 1)].count(b"\n")).replace(b"\0", b"\n")
    return None if word in ("serve", "share") else b""


def failed(table, word, part, lines):
    """What comes of each call of a part that fails, up to one that is not made."""
    came, first = [], 1
    while not came or came[-1].endswith(FAULTS[part]):
        came += examples_of(table.asked.examples, [(word, part, call, lines) for call in range(first, first + 100)])
        first += 100
    return came


def failing(table):
    table.head("script", "word", "calls of the source that fail", "of the sink", "of the link")
    wanted = {name: whole_output(lines) for name, _, lines in CUT}
    wanted["frames of two sessions"] = answers_to(len(SESSIONS)).replace(b"\0", b"\n")
    for name, word, lines in inputs(script):
        if not table.wants(name):
            continue
        whole, = examples_of(table.asked.examples, [(word, "source", 0, lines)])
        wrong = ["%s: %s" % (name, whole)] if wanted.get(name, whole) != whole else []
        cells = []
        for part in FAULTS:
            came = failed(table, word, part, lines)
            made = sum(is_fault(part, got, whole) for got in came)
            wrong += ["%s, %s %d: %s" % (name, part, call, got) for call, got in enumerate(came, 1)
                      if not (is_fault(part, got, whole) if call <= made else got == whole)]
            cuts = [cut_by_source(name, word, lines, call) for call in range(1, made + 1)] if part == "source" else []
            wrong += ["%s, source %d: %s" % (name, call, got) for call, (got, cut) in enumerate(zip(came, cuts), 1)
                      if cut is not None and got != cut + FAULTS[part]]
            wrong += ["%s: %d calls of the link" % (name, made)] if part == "link" and (made > 0) != (word in ("replay", "pair")) else []
            cells.append(made)
        table.row(name, word, *cells, wrong=wrong)


# ---- memory that is refused

def without_memory(folder):
    """The library that refuses."""
    source, library = os.path.join(folder, "refused.c"), os.path.join(folder, "refused.so")
    with open(source, "w") as file:
        file.write(WITHOUT_MEMORY)
    subprocess.run(["gcc", "-O1", "-shared", "-fPIC", "-o", library, source], check=True)
    return library


def allocations(program, word, data, library, folder):
    told = os.path.join(folder, "made")
    done = run(program, word, data, LD_PRELOAD=library, ALLOCATIONS=told)
    with open(told, "rb") as file:
        return int.from_bytes(file.read(), sys.byteorder), done


def is_spared(got, whole, on):
    """Status 9 with a front part of the whole, or all as it would be. Where nothing more is had, the line may be missing."""
    status, written, line = got
    if status == 0:
        return (written, line) == (whole, b"")
    return status == 9 and whole.startswith(written) and (line == b"out of memory\n" or (on and line == b""))


def refusing(table, folder):
    library = without_memory(folder)
    table.head("script", "word", "allocations", "one refused: status 9", "all the same", "all from one on: status 9", "all the same")
    for name, word, data in [*inputs(stream), ("drill 4", "drill 4", b"")]:
        if not table.wants(name):
            continue
        program = table.asked.program
        count, (status, whole, _) = allocations(program, word, data, library, folder)
        wrong = ["%s: status %d" % (name, status)] if status else []
        cells = []
        for on in ({}, {"REFUSED_ON": "1"}):
            tried = lambda at, on=on: run(program, word, data, LD_PRELOAD=library, REFUSED=str(at), **on)
            came = list(table.pool.map(tried, range(1, count + 1)))
            wrong += ["%s, allocation %d%s: %s" % (name, at, " on" if on else "", got)
                      for at, got in enumerate(came, 1) if not is_spared(got, whole, on)]
            cells += [sum(got[0] == 9 for got in came), sum(got[0] == 0 for got in came)]
        table.row(name, word, count, *cells, wrong=wrong)


def main():
    words = argparse.ArgumentParser(description=__doc__, formatter_class=argparse.RawDescriptionHelpFormatter)
    words.add_argument("program")
    words.add_argument("--examples")
    words.add_argument("--calls")
    words.add_argument("--only", default="")
    words.add_argument("--jobs", type=int, default=2)
    table = Table(words.parse_args())
    cuts(table)
    changing(table)
    if table.asked.calls:
        lying(table)
    if table.asked.examples:
        failing(table)
    with tempfile.TemporaryDirectory() as folder:
        refusing(table, folder)
    sys.exit(1 if table.bad else 0)


main()
