#!/usr/bin/env python3
"""How what is done grows with what it is done on: a table of each command, act and show over four sizes.

    python3 examples/growth.py PATH-OF-THE-PROGRAM [--times] [--only WORD] [--sizes 1,2,4,8]

Each row runs `inspect serve` or `inspect replay` twice for each size, with what is measured and without, and tells the difference: in
million instructions (`valgrind --tool=callgrind`), or with --times in milliseconds of processor time, best of five runs. The last column
is the exponent of the growth between the first and the last size: 1 is linear, 0 does not grow. A row whose cost should not grow at all is
marked so. --only runs the rows whose names have the word, --sizes multiplies the sizes of each row.
"""
import argparse
import json
import math
import os
import re
import resource
import subprocess
import sys
import tempfile

ALL = {"depth": -1}


def command(number, method, params=None):
    frame = {"id": number, "method": method}
    if params is not None:
        frame["params"] = params
    return frame


class Serve:
    """Frames of one client: the page, then what is not measured, then what is."""

    word = "serve"

    def __init__(self, page, known=True):
        self.frames = [command(0, "Replay.load", page)]
        if known:
            self.ask("DOM.getDocument", ALL)
        self.measured = len(self.frames)

    def ask(self, method, params=None):
        self.frames.append(command(len(self.frames), method, params))
        return self

    def begins(self):
        self.measured = len(self.frames)
        return self

    def input(self, whole):
        frames = self.frames if whole else self.frames[: self.measured]
        return b"".join(json.dumps(f, separators=(",", ":")).encode() + b"\0" for f in frames)


class Replay:
    """Lines of a script: the page, then what is not measured, then what is."""

    word = "replay"

    def __init__(self, page):
        self.lines = [{"load": page}]
        self.measured = 1

    def ask(self, method, params=None):
        line = {"method": method}
        if params is not None:
            line["params"] = params
        return self.line({"ask": line})

    def line(self, line):
        self.lines.append(line)
        return self

    def begins(self):
        self.measured = len(self.lines)
        return self

    def input(self, whole):
        lines = self.lines if whole else self.lines[: self.measured]
        return b"".join(json.dumps(line, separators=(",", ":")).encode() + b"\n" for line in lines)


# ---- pages

def wide(n, make=lambda i: {"e": "p"}):
    """One parent with n children; the parent's serial is 3, the children's are 4 to n + 3."""
    return {"document": [{"e": "html", "c": [make(i) for i in range(n)]}]}


def rows(n):
    """n nodes in rows of six: nothing is wide, and nothing deep."""
    row = {"e": "div", "c": [{"e": "p", "a": ["class", "c"]}, {"e": "p"}, {"e": "q", "c": [{"t": "text"}]}, {"t": "more"}]}
    groups = [{"e": "div", "c": [row] * 10} for _ in range(n // 61)]
    return {"document": [{"e": "html", "c": [{"e": "div", "c": groups[i:i + 10]} for i in range(0, len(groups), 10)]}]}


def flat_chain(n, levels):
    """n nodes in chains of so many levels below one element, told flat."""
    told, up = [{"up": 0, "e": "html"}], 1
    while len(told) < n:
        up = 1
        for _ in range(levels - 1):
            told.append({"up": up, "e": "b"})
            up = len(told)
    return {"flat": told}


def sheet(n, body="a:b"):
    return {"origin": "regular", "text": "".join(".k%d{%s}\n" % (i, body) for i in range(n))}


def with_sheet(n, page=None):
    page = dict(page or {"document": [{"e": "p", "a": ["class", "k7"]}]})
    page["sheets"] = [sheet(n)]
    return page


def place(line, first, last):
    return {"startLine": line, "startColumn": first, "endLine": line, "endColumn": last}


def body_of(rule):
    begins = len(".k%d{" % rule)
    return place(rule, begins, begins + 3)


# ---- rows: name, sizes, the client or script of a size, whether it should grow at all

ROWS = []


def row(name, sizes, grows=True):
    def put(make):
        ROWS.append((name, sizes, make, grows))
        return make
    return put


NODES = (5000, 10000, 20000, 40000)
RULES = (1000, 2000, 4000, 8000)
MANY = (1000, 2000, 4000, 8000)


@row("Replay.load of n nodes", NODES)
def _(n):
    return Serve(rows(10), False).begins().ask("Replay.load", rows(n))


@row("a script's load of n nodes", NODES)
def _(n):
    return Replay(rows(10)).begins().line({"load": rows(n)})


@row("a flat load of n nodes, 400 levels", NODES)
def _(n):
    return Replay(rows(10)).begins().line({"load": flat_chain(n, 400)})


@row("DOM.getDocument of n nodes", NODES)
def _(n):
    return Serve(rows(n), False).begins().ask("DOM.getDocument", ALL)


@row("DOM.getDocument of n nodes, both ends", NODES)
def _(n):
    return Replay(rows(n)).begins().ask("DOM.getDocument", ALL).line({"settle": True})


@row("DOM.getDocument of n nodes, 400 levels", NODES)
def _(n):
    return Serve(flat_chain(n, 400), False).begins().ask("DOM.getDocument", ALL)


@row("DOM.getDocument of n nodes, 400 levels, both ends", NODES)
def _(n):
    return Replay(flat_chain(n, 400)).begins().ask("DOM.getDocument", ALL).line({"settle": True})


def hiding(page):
    """A client to which texts of white space alone are not shown."""
    return Serve(page, False).ask("DOM.enable", {"includeWhitespace": "none"})


@row("DOM.getDocument of n nodes, blank texts hidden", NODES)
def _(n):
    return hiding(rows(n)).begins().ask("DOM.getDocument", ALL)


@row("DOM.getDocument of 2n children, every second one blank and hidden", NODES)
def _(n):
    return hiding(wide(2 * n, lambda i: {"t": " "} if i % 2 else {"e": "p"})).begins().ask("DOM.getDocument", ALL)


@row("DOM.requestChildNodes of n nodes", NODES)
def _(n):
    return Serve(rows(n), False).ask("DOM.getDocument").begins().ask("DOM.requestChildNodes", {"nodeId": 2, "depth": -1})


@row("DOM.querySelectorAll div p, n nodes", NODES)
def _(n):
    return Serve(rows(n)).begins().ask("DOM.querySelectorAll", {"nodeId": 1, "selector": "div p"})


@row("DOM.querySelectorAll :nth-child(2n).zz, n children", NODES)
def _(n):
    return Serve(wide(n)).begins().ask("DOM.querySelectorAll", {"nodeId": 1, "selector": ":nth-child(2n).zz"})


@row("DOM.querySelectorAll .zz ~ p, n children", NODES)
def _(n):
    return Serve(wide(n)).begins().ask("DOM.querySelectorAll", {"nodeId": 1, "selector": ".zz ~ p"})


@row("DOM.querySelectorAll q + b:nth-child(n) ~ b, n children", NODES)
def _(n):
    page = wide(n, lambda i: {"e": "b" if i % 2 else "q"})
    return Serve(page).begins().ask("DOM.querySelectorAll", {"nodeId": 1, "selector": "q + b:nth-child(n) ~ b"})


@row("DOM.querySelector of the last of n nodes, and its push", NODES)
def _(n):
    page = wide(n, lambda i: {"e": "p", "a": ["class", "c"]} if i == n - 1 else {"e": "p"})
    return Serve(page, False).ask("DOM.getDocument").begins().ask("DOM.querySelector", {"nodeId": 1, "selector": ".c"})


@row("DOM.performSearch in n nodes, few found", NODES)
def _(n):
    page = rows(n)
    page["document"][0]["c"].append({"t": "needle"})
    return Serve(page).begins().ask("DOM.performSearch", {"query": "needle"})


@row("DOM.performSearch of a selector in n nodes", NODES)
def _(n):
    return Serve(rows(n)).begins().ask("DOM.performSearch", {"query": "div q.none"})


@row("DOM.getSearchResults of n found nodes", NODES)
def _(n):
    client = Serve(wide(n)).ask("DOM.performSearch", {"query": "p"})
    return client.begins().ask("DOM.getSearchResults", {"searchId": "q1", "fromIndex": 0, "toIndex": n})


@row("100 pushes by backend ids, n children", NODES, False)
def _(n):
    client = Serve(wide(n)).begins()
    for i in range(100):
        client.ask("DOM.pushNodesByBackendIdsToFrontend", {"backendNodeIds": [4 + i]})
    return client


@row("100 pushes by path, n children", NODES, False)
def _(n):
    client = Serve(wide(n)).begins()
    for i in range(100):
        client.ask("DOM.pushNodeByPathToFrontend", {"path": "0,HTML,%d,P" % i})
    return client


@row("100 DOM.getAttributes, n children", NODES, False)
def _(n):
    client = Serve(wide(n)).begins()
    for i in range(100):
        client.ask("DOM.getAttributes", {"nodeId": n - i})
    return client


@row("100 DOM.describeNode, n children", NODES, False)
def _(n):
    client = Serve(wide(n)).begins()
    for i in range(100):
        client.ask("DOM.describeNode", {"nodeId": n - i})
    return client


@row("100 DOM.setAttributeValue, n children", NODES, False)
def _(n):
    client = Serve(wide(n)).begins()
    for i in range(100):
        client.ask("DOM.setAttributeValue", {"nodeId": n - i, "name": "a", "value": "b"})
    return client


@row("100 DOM.setNodeValue, n children", NODES, False)
def _(n):
    client = Serve(wide(n, lambda i: {"t": "x"})).begins()
    for i in range(100):
        client.ask("DOM.setNodeValue", {"nodeId": n - i, "value": "y"})
    return client


@row("100 DOM.removeNode, the last of n children", NODES, False)
def _(n):
    client = Serve(wide(n)).begins()
    for i in range(100):
        client.ask("DOM.removeNode", {"nodeId": n + 2 - i})
    return client


@row("100 DOM.removeNode and their undo, n children", NODES, False)
def _(n):
    client = Serve(wide(n)).begins()
    for i in range(100):
        client.ask("DOM.removeNode", {"nodeId": n + 2 - i})
    return client.ask("DOM.undo")


@row("100 DOM.copyTo of one node to the end of n children", NODES, False)
def _(n):
    client = Serve(wide(n)).begins()
    for _i in range(100):
        client.ask("DOM.copyTo", {"nodeId": 3, "targetNodeId": 2})
    return client


@row("100 DOM.moveTo of the last of n children to the end", NODES, False)
def _(n):
    client = Serve(wide(n)).begins()
    for i in range(100):
        client.ask("DOM.moveTo", {"nodeId": n + 2 + i, "targetNodeId": 2})
    return client


@row("n appends to one parent", MANY)
def _(n):
    client = Serve(wide(1)).begins()
    for _i in range(n):
        client.ask("Replay.act", {"do": "insert", "parent": 3, "before": 0, "node": {"e": "p"}})
    return client


@row("n attributes of one element", MANY)
def _(n):
    client = Serve(wide(1)).begins()
    for i in range(n):
        client.ask("Replay.act", {"do": "setAttr", "node": 3, "name": "a%d" % i, "value": "b"})
    return client


@row("100 acts met by a watch, n children", NODES, False)
def _(n):
    client = Serve(wide(n)).ask("DOMDebugger.setDOMBreakpoint", {"nodeId": 2, "type": "subtree-modified"}).begins()
    for _i in range(100):
        client.ask("Replay.act", {"do": "insert", "parent": 3, "before": 0, "node": {"e": "p"}})
    return client


@row("n asks before a settle", MANY)
def _(n):
    script = Replay(rows(100)).begins()
    for _i in range(n):
        script.ask("DOM.enable")
    return script.line({"settle": True})


@row("a load with a sheet of n rules", RULES)
def _(n):
    return Serve(rows(10), False).begins().ask("Replay.load", with_sheet(n))


@row("CSS.enable and the texts of n sheets, both ends", (100, 200, 400, 800))
def _(n):
    page = {"document": [], "sheets": [sheet(10)] * n}
    return Replay(page).ask("DOM.enable").begins().ask("CSS.enable").line({"settle": True})


@row("CSS.getStyleSheetText of n rules", RULES)
def _(n):
    return Serve(with_sheet(n)).ask("CSS.enable").begins().ask("CSS.getStyleSheetText", {"styleSheetId": "s1"})


@row("CSS.collectClassNames of n rules", RULES)
def _(n):
    return Serve(with_sheet(n)).ask("CSS.enable").begins().ask("CSS.collectClassNames", {"styleSheetId": "s1"})


@row("matched styles: n rules tried, one matches", RULES)
def _(n):
    return Serve(with_sheet(n)).ask("CSS.enable").begins().ask("CSS.getMatchedStylesForNode", {"nodeId": 2})


@row("matched styles: 100 match of n rules", RULES, False)
def _(n):
    page = {"document": [{"e": "p", "a": ["class", "c"]}]}
    step = n // 100
    text = "".join((".c{a:b}\n" if i % step == 0 else ".k%d{a:b}\n" % i) for i in range(n))
    page["sheets"] = [{"origin": "regular", "text": text}]
    return Serve(page).ask("CSS.enable").begins().ask("CSS.getMatchedStylesForNode", {"nodeId": 2})


@row("matched styles: n rules match, both ends", (250, 500, 1000, 2000))
def _(n):
    page = {"document": [{"e": "p"}], "sheets": [{"origin": "regular", "text": "p{a:b}\n" * n}]}
    script = Replay(page).ask("DOM.getDocument", ALL).ask("CSS.enable").line({"settle": True}).begins()
    return script.ask("CSS.getMatchedStylesForNode", {"nodeId": 2}).line({"settle": True})


@row("one CSS.setStyleTexts of one rule, n rules", RULES, False)
def _(n):
    client = Serve(with_sheet(n)).ask("CSS.enable").begins()
    return client.ask("CSS.setStyleTexts", {"edits": [{"styleSheetId": "s1", "range": body_of(n // 2), "text": "a:c"}]})


@row("one CSS.setRuleSelector, n rules", RULES, False)
def _(n):
    client = Serve(with_sheet(n)).ask("CSS.enable").begins()
    wide_range = place(n // 2, 0, len(".k%d" % (n // 2)))
    return client.ask("CSS.setRuleSelector", {"styleSheetId": "s1", "range": wide_range, "selector": "a,b"})


@row("one CSS.addRule, n rules", RULES, False)
def _(n):
    client = Serve(with_sheet(n)).ask("CSS.enable").begins()
    return client.ask("CSS.addRule", {"styleSheetId": "s1", "ruleText": "a{b:c}", "location": place(n // 2, 0, 0)})


@row("n edits in one CSS.setStyleTexts, 2,000 rules", (250, 500, 1000, 2000))
def _(n):
    client = Serve(with_sheet(2000)).ask("CSS.enable").begins()
    edits = [{"styleSheetId": "s1", "range": body_of(i), "text": "a:c"} for i in range(n)]
    return client.ask("CSS.setStyleTexts", {"edits": edits})


@row("n calls of CSS.setStyleTexts, 2,000 rules", (250, 500, 1000, 2000))
def _(n):
    client = Serve(with_sheet(2000)).ask("CSS.enable").begins()
    for i in range(n):
        client.ask("CSS.setStyleTexts", {"edits": [{"styleSheetId": "s1", "range": body_of(i), "text": "a:c"}]})
    return client


@row("n calls of CSS.addRule at the end", (500, 1000, 2000, 4000))
def _(n):
    page = {"document": [], "sheets": [{"origin": "regular", "text": ""}]}
    client = Serve(page).ask("CSS.enable").begins()
    for i in range(n):
        client.ask("CSS.addRule", {"styleSheetId": "s1", "ruleText": "a{b:c}", "location": place(0, 6 * i, 6 * i)})
    return client


@row("the undo of n edits of one sheet, 2,000 rules", (250, 500, 1000, 2000))
def _(n):
    client = Serve(with_sheet(2000)).ask("CSS.enable")
    for i in range(n):
        client.ask("CSS.setStyleTexts", {"edits": [{"styleSheetId": "s1", "range": body_of(i), "text": "a:c"}]})
    return client.begins().ask("DOM.undo")


@row("100 attributes set, n nodes shown in an outline", NODES, False)
def _(n):
    script = Replay(rows(n)).ask("DOM.getDocument", ALL).line({"settle": True}).begins()
    for _i in range(100):
        script.line({"act": {"do": "setAttr", "node": n // 2 + 2, "name": "a", "value": "b"}}).line({"settle": True})
    return script


def siblings(n, act):
    """100 acts on n children of one parent that all panels show; act takes the number of the act."""
    script = Replay(wide(n)).ask("DOM.getDocument", ALL).line({"settle": True}).begins()
    for i in range(100):
        script.line({"act": act(i)})
    return script.line({"settle": True})


def attribute(node):
    return {"do": "setAttr", "node": node, "name": "a", "value": "b"}


@row("100 attributes set on the first of n children in panels", NODES, False)
def _(n):
    return siblings(n, lambda i: attribute(3))


@row("100 attributes set on the last of n children in panels", NODES, False)
def _(n):
    return siblings(n, lambda i: attribute(n + 2))


@row("100 attributes set on the middle of n children in panels", NODES, False)
def _(n):
    return siblings(n, lambda i: attribute(3 + n // 2))


@row("100 appends to n children in panels", NODES, False)
def _(n):
    return siblings(n, lambda i: {"do": "insert", "parent": 2, "before": 0, "node": {"e": "p"}})


@row("100 children put in at the middle of n in panels", NODES, False)
def _(n):
    return siblings(n, lambda i: {"do": "insert", "parent": 2, "before": 3 + n // 2, "node": {"e": "p"}})


@row("100 children of n taken out in panels, at the middle", NODES, False)
def _(n):
    return siblings(n, lambda i: {"do": "remove", "node": 3 + n // 2 + i})


@row("{\"show\":\"front\"} of n nodes", NODES)
def _(n):
    return Replay(rows(n)).ask("DOM.getDocument", ALL).line({"settle": True}).begins().line({"show": "front"})


@row("a frame of n bytes", (250000, 500000, 1000000, 2000000))
def _(n):
    return Serve(wide(1, lambda i: {"t": "x"})).begins().ask("DOM.setNodeValue", {"nodeId": 3, "value": "y" * n})


# ---- measuring

def run(program, word, data, counted):
    with tempfile.TemporaryDirectory() as folder:
        told = os.path.join(folder, "told")
        tool = ["valgrind", "--tool=callgrind", "--callgrind-out-file=" + told] if counted else []
        before = resource.getrusage(resource.RUSAGE_CHILDREN)
        done = subprocess.run(tool + [program, word], input=data, stdout=subprocess.PIPE, stderr=subprocess.PIPE)
        after = resource.getrusage(resource.RUSAGE_CHILDREN)
        if done.returncode != 0:
            sys.exit("status %d: %s" % (done.returncode, done.stderr.decode()[-300:]))
        if word == "serve" and b'"error"' in done.stdout:
            sys.exit("refused: %s" % re.search(rb'\{"error"[^\0]*', done.stdout).group().decode())
        if counted:
            with open(told) as file:
                return int(re.search(r"^(?:summary|totals): (\d+)", file.read(), re.M).group(1)) / 1e6
        return 1e3 * (after.ru_utime - before.ru_utime + after.ru_stime - before.ru_stime)


def measure(program, client, counted):
    figures = []
    for whole in (True, False):
        data = client.input(whole)
        runs = 1 if counted else 5
        figures.append(min(run(program, client.word, data, counted) for _ in range(runs)))
    return figures[0] - figures[1]


def main():
    words = argparse.ArgumentParser(description=__doc__, formatter_class=argparse.RawDescriptionHelpFormatter)
    words.add_argument("program")
    words.add_argument("--times", action="store_true")
    words.add_argument("--only", default="")
    words.add_argument("--sizes", default="1,1,1,1")
    asked = words.parse_args()
    factors = [float(f) for f in asked.sizes.split(",")]
    print("| what | n | %s | exponent |" % ("milliseconds" if asked.times else "million instructions"))
    print("|---|---|---|---|")
    for name, sizes, make, grows in ROWS:
        if asked.only not in name:
            continue
        sizes = [int(n * f) for n, f in zip(sizes, factors)]
        costs = [measure(asked.program, make(n), not asked.times) for n in sizes]
        least = 0.01
        exponent = math.log(max(costs[-1], least) / max(costs[0], least)) / math.log(sizes[-1] / sizes[0])
        told = "%.2f" % exponent + ("" if grows else ", 0 wanted")
        cells = [name, ", ".join("{:,}".format(n) for n in sizes), ", ".join("%.3g" % c for c in costs), told]
        print("| " + " | ".join(cells) + " |", flush=True)


main()
