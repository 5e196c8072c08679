#!/usr/bin/env python3
"""Random edits on random sheets, each compared with a reading from nothing.

    python3 examples/random_edits.py PATH-OF-THE-PROGRAM [--edits 100000] [--seed 1] [--steps 40]

Two `inspect serve` run side by side. The first loads a random sheet and edits it step by step: bodies (one or more in a call), selector
lists, media texts, rules put in, the whole text, undos and redos; some edits are refused. The second loads the text that the first has
before each step, so that it reads it from nothing, and makes the same edit. What has to be the same:

- the reply to the edit, or its refusal, and the text that it leaves;
- the matched styles of each element of the page, with all their ranges, and the class names, between the first after the edit and the
  second, which has loaded that text anew.

A page's sheet gets --steps steps, then another one comes. Told are the edits made, those that were carried out, by kind, and each
difference; status 1 where there is one. A run is made again by its seed, and told as far as it went where it is interrupted.
"""
import argparse
import json
import os
import random
import re
import subprocess
import sys

P = {"e": "p", "a": ["class", "a", "id", "i"]}
B = {"e": "b", "a": ["class", "c"], "c": [{"e": "q", "a": ["x", "y"]}]}
DOCUMENT = [{"e": "html", "c": [P, B]}]
# beginnings, selector lists and ends of a prelude
FRONTS = ["", "", "", " ", "/**/", "\n", " /* { */ "]
SELECTORS = ["p", ".a", "p,b", "html .c", "*", "b>q", "#i", "p , .c", "q[x=y]", ":not(p)", "p/*,*/", "\\70", "b\\63 ", ".é", "[x='}']",
             "html"]
BAD_SELECTORS = ["", ",", "p{", "}", "p,", "(", "'", "p:", "/*", "\\"]
BACKS = ["", "", "", " ", "/**/", "\n\t"]
BODIES = ["", "a:b", "a:b;c:d", " a : b ", "a:b;", "c:'}'", "d:url(x)", "d:url( 'x' )", "e:\\}", "--v:{x}", "--w:", "a:b!important",
          "/* } */", "a:b;;c", "q{r:s}t:u", "x:(y[z]{;})", "é:ü", "a:\U0001f600;b:c", "@x y;a:b", "@x{y}a:b", "color:red;\ncolor:blue\n",
          "a:\\41 ", "a:1e3"]
BAD_BODIES = ["}", "{", "a:'", "a:(", "/*", "a:\\", "]", "url(", "a:b}c{", "'\n'"]
MEDIA = ["all", "screen", "screen and (min-width:1px)", "print", "", "all,print", "(min-width: 1px)", "screen /* x */", "\\61ll"]
BAD_MEDIA = ["{", "}", ";", "(", "'", "a{b}", "/*", "]"]
JUNK = ["", "", " ", "\n", "/* c */", "@import 'x';", "@x{y{z}}", "<!--", "-->", "@charset 'u';", "?{a:b}", "@y;", "\r\n"]
# what is put in as a rule: its front, its selector list, what stands before its brace, its body, and what stands behind it
RULES = [("", "p", "", "n:o", ""), ("", ".a,.c", " ", "n:o;n:p", ""), (" ", "b", "", "", ""), ("/**/", "q", "", "x:y", "/**/"),
         ("", "*", "", "a:b", " ")]
BAD_RULES = ["", "p", "p{", "p{}q{}", "@x;", "?{}", "p{a:b}}", ",{}"]


class Rule:
    def __init__(self, front, selectors, back, body):
        self.front, self.selectors, self.back, self.body = front, selectors, back, body

    def write(self, out, closed):
        out.put(self.front)
        start = out.length
        out.put(self.selectors)
        out.preludes.append((self, start, out.length))
        out.put(self.back + "{")
        start = out.length
        out.put(self.body)
        out.bodies.append((self, start, out.length))
        if closed:
            out.put("}")

    def copy(self):
        return Rule(self.front, self.selectors, self.back, self.body)


class Media:
    def __init__(self, text, items):
        self.text, self.items = text, items

    def write(self, out, closed):
        out.put("@media ")
        start = out.length
        out.put(self.text)
        out.media.append((self, start, out.length))
        out.put("{")
        write(self.items, out, closed)
        if closed:
            out.put("}")

    def copy(self):
        return Media(self.text, [item.copy() for item in self.items])


class Junk:
    def __init__(self, text):
        self.text = text

    def write(self, out, closed):
        out.put(self.text)

    def copy(self):
        return self


class Out:
    def __init__(self):
        self.parts, self.length, self.preludes, self.bodies, self.media, self.places = [], 0, [], [], [], []

    def put(self, text):
        self.parts.append(text)
        self.length += len(text)


def write(items, out, closed=True, top=False):
    for i, item in enumerate(items):
        if top:
            out.places.append((i, out.length))
        item.write(out, closed or i + 1 < len(items))
    if top:
        out.places.append((len(items), out.length))


def some(rng, count, level):
    """Parts of a sheet, or of a media rule at this level."""
    items = []
    for _ in range(count):
        kind = rng.random()
        if kind < 0.55:
            items.append(Rule(rng.choice(FRONTS), rng.choice(SELECTORS), rng.choice(BACKS), rng.choice(BODIES)))
        elif kind < 0.75 and level < 3:
            items.append(Media(rng.choice(MEDIA[:4]), some(rng, rng.randint(0, 3), level + 1)))
        else:
            items.append(Junk(rng.choice(JUNK)))
    return items


class Sheet:
    """What a text is made of: rules, media rules and other parts. The last one may be left open."""

    def __init__(self, items, closed):
        self.items, self.closed = items, closed

    def copy(self):
        return Sheet([item.copy() for item in self.items], self.closed)

    def laid(self):
        out = Out()
        write(self.items, out, self.closed, True)
        return out

    def text(self):
        return "".join(self.laid().parts)


def some_sheet(rng):
    return Sheet(some(rng, rng.randint(0, 7), 0), rng.random() < 0.8)


def place(text, at):
    line = text.count("\n", 0, at)
    begin = text.rfind("\n", 0, at) + 1
    return line, len(text[begin:at].encode("utf-16-le")) // 2


def source_range(text, start, end):
    (a, b), (c, d) = place(text, start), place(text, end)
    return {"startLine": a, "startColumn": b, "endLine": c, "endColumn": d}


class Serve:
    """One client of one `inspect serve`."""

    def __init__(self, program):
        self.process = subprocess.Popen([program, "serve"], stdin=subprocess.PIPE, stdout=subprocess.PIPE)
        self.number, self.left, self.own, self.nodes = 0, b"", b"", []

    def ask(self, *commands):
        """The replies to commands, as bytes without their ids, each sheet by the number of its load."""
        first = self.number
        frames = []
        for method, params in commands:
            frame = {"id": self.number, "method": method}
            if params is not None:
                frame["params"] = params
            frames.append(json.dumps(frame, separators=(",", ":")).encode() + b"\0")
            self.number += 1
        os.write(self.process.stdin.fileno(), b"".join(frames))
        replies = []
        while len(replies) < len(commands):
            *whole, self.left = self.left.split(b"\0")
            for frame in whole:
                begin, end = b'{"id":%d,' % (first + len(replies)), b',"id":%d}' % (first + len(replies))
                if frame.startswith(begin):
                    replies.append(frame[len(begin):])
                elif frame.startswith(b'{"error"') and frame.endswith(end):
                    replies.append(frame[1:-len(end)] + b"}")
                elif frame.startswith(b'{"method":"CSS.styleSheetAdded"'):
                    self.own = re.search(rb'"styleSheetId":"(s\d+)"', frame).group(1)
            if len(replies) < len(commands):
                more = os.read(self.process.stdout.fileno(), 1 << 16)
                if not more:
                    sys.exit("the program ended: status %s" % self.process.wait())
                self.left += more
        return [reply.replace(b'"' + self.own + b'"', b'"s"') for reply in replies]

    def load(self, text):
        page = {"document": DOCUMENT, "sheets": [{"origin": "regular", "text": text}]}
        replies = self.ask(("Replay.load", page), ("DOM.getDocument", {"depth": -1}), ("CSS.enable", None))
        self.nodes = [int(n) for n in re.findall(rb'"nodeId":(\d+)', replies[1])]

    def edits(self, method, params):
        for part in params.get("edits", [params]):
            part["styleSheetId"] = self.own.decode()
        return method, params

    def said(self):
        """What of the reading can be seen."""
        own = {"styleSheetId": self.own.decode()}
        asks = [("CSS.getMatchedStylesForNode", {"nodeId": n}) for n in sorted(self.nodes)[1:]]
        return self.ask(("CSS.getStyleSheetText", own), ("CSS.collectClassNames", own), *asks)


def some_edit(rng, sheet):
    """A kind, a command, and the sheet that it makes if it is carried out."""
    out, text, new = sheet.laid(), sheet.text(), sheet.copy()
    kind = rng.random()
    if kind < 0.4 and out.bodies:
        edits = []
        for _ in range(rng.choice([1, 1, 1, 2, 3, 6])):
            laid = new.laid()
            body = rng.randrange(len(laid.bodies))
            if rng.random() < 0.3 and edits:
                body = min(len(laid.bodies) - 1, body + 1)
            rule, start, end = laid.bodies[body]
            put = rng.choice(BODIES) if rng.random() < 0.97 else rng.choice(BAD_BODIES)
            edits.append({"range": source_range(new.text(), start, end), "text": put})
            rule.body = put
        return "bodies", "CSS.setStyleTexts", {"edits": edits}, new
    if kind < 0.6 and out.preludes:
        rule, start, end = rng.choice(new.laid().preludes)
        put = rng.choice(SELECTORS) if rng.random() < 0.9 else rng.choice(BAD_SELECTORS)
        rule.selectors = put
        return "selectors", "CSS.setRuleSelector", {"range": source_range(text, start, end), "selector": put}, new
    if kind < 0.7 and out.media:
        media, start, end = rng.choice(new.laid().media)
        put = rng.choice(MEDIA) if rng.random() < 0.9 else rng.choice(BAD_MEDIA)
        media.text = put
        return "media", "CSS.setMediaText", {"range": source_range(text, start, end), "text": put}, new
    if kind < 0.97:
        number, at = rng.choice(out.places)
        if rng.random() < 0.2:
            at = rng.randint(0, len(text))
        front, selectors, back, body, behind = rng.choice(RULES)
        put = front + selectors + back + "{" + body + "}" + behind
        if rng.random() < 0.1:
            put = rng.choice(BAD_RULES)
        new.items[number:number] = [Rule(front, selectors, back, body), Junk(behind)]
        return "rules", "CSS.addRule", {"location": source_range(text, at, at), "ruleText": put}, new
    new = some_sheet(rng)
    return "texts", "CSS.setStyleSheetText", {"text": new.text()}, new


class Run:
    def __init__(self, program, seed):
        self.first, self.second = Serve(program), Serve(program)
        self.rng, self.made, self.done, self.wrong = random.Random(seed), 0, {}, 0

    def differ(self, what, *told):
        self.wrong += 1
        if self.wrong <= 20:
            print("edit %d: %s" % (self.made, what), *told, sep="\n  ")

    def same(self, what, a, b, text):
        if a != b:
            self.differ(what, text, *["%r\n  %r" % (x, y) for x, y in zip(a, b) if x != y][:1])

    def count(self, kind, reply):
        fine = reply.startswith(b'"result"')
        all_of, carried = self.done.get(kind, (0, 0))
        self.done[kind] = (all_of + 1, carried + fine)
        return fine

    def again(self):
        """The text that the first has; the second reads it from nothing, and has to say what the first says."""
        own = self.first.said()
        text = json.loads(b"{" + own[0])["result"]["text"]
        self.second.load(text)
        self.same("another reading", own, self.second.said(), text)
        return text

    def turned(self, kind, history, number):
        """An undo or a redo: where it leads among the texts that were."""
        to = number - 1 if kind == "DOM.undo" else number + 1
        to = to if 0 <= to < len(history) else number
        self.count(kind, self.first.ask((kind, None))[0])
        text = self.again()
        if text != history[to].text():
            self.differ("another text after %s" % kind, text, history[to].text())
        return to

    def edited(self, sheet):
        """The sheet after an edit: this one where it was refused, and none where what the text is made of is not known any more."""
        text = sheet.text()
        kind, method, params, new = some_edit(self.rng, sheet)
        one = self.first.ask(self.first.edits(method, params), ("DOM.markUndoableState", None))[0]
        two = self.second.ask(self.second.edits(method, params))[0]
        self.same("another answer to %s" % json.dumps(params), [one], [two], text)
        fine = self.count(kind, one)
        after = self.again()
        if not fine and after != text:
            self.differ("another text after a refusal", text, after)
        if not fine:
            return sheet
        return new if new.text() == after else None

    def sheet(self, steps):
        """Edits of one sheet."""
        history, number = [some_sheet(self.rng)], 0
        self.first.load(history[0].text())
        self.second.load(history[0].text())
        for _ in range(steps):
            self.made += 1
            if self.rng.random() < 0.15:
                number = self.turned(self.rng.choice(["DOM.undo", "DOM.undo", "DOM.redo"]), history, number)
                continue
            sheet = self.edited(history[number])
            if sheet is None:
                return
            if sheet is not history[number]:
                history[number + 1:] = [sheet]
                number += 1


def main():
    words = argparse.ArgumentParser()
    words.add_argument("program")
    words.add_argument("--edits", type=int, default=100000)
    words.add_argument("--seed", type=int, default=1)
    words.add_argument("--steps", type=int, default=40)
    words = words.parse_args()
    run = Run(words.program, words.seed)
    try:
        while run.made < words.edits:
            run.sheet(min(words.steps, words.edits - run.made))
    except KeyboardInterrupt:
        print("stopped")
    for kind, (all_of, carried) in sorted(run.done.items()):
        print("%-10s %7d, carried out %7d" % (kind, all_of, carried))
    print("%d edits, %d differences" % (run.made, run.wrong))
    return 1 if run.wrong else 0


if __name__ == "__main__":
    sys.exit(main())
