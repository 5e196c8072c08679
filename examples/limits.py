#!/usr/bin/env python3
"""Inputs as long, as many and as deep as they may be, and a step beyond: what is answered, time and memory; and how much stack suffices.

    python3 examples/limits.py PATH-OF-THE-PROGRAM [--only WORD]

The first table tells of each input its status and the line on standard error, how much was written, processor time (user and system) and
the greatest resident set, where it is above the 15 to 21 MB of this script. The second runs scripts on pages of 500 levels and of 100,000
nodes, and on texts with deep nesting, with stacks of 128 KB and more (`ulimit -s`), and tells the smallest with which what is written is
the same as with 64 MB. Rows with `both` in their names are of `pair` and `share`. --only makes the rows whose names have the word. Status 1
where an answer is not the one that docs/SCRIPT.md and docs/PROTOCOL.md tell, or 512 KB do not suffice.
"""
import argparse
import hashlib
import json
import os
import resource
import subprocess
import sys
import tempfile
import threading

INPUT, LINE, NODES, SHEETS, LEVELS, NESTED = 1 << 26, 1 << 24, 100000, 1000, 500, 127
STACKS, ENOUGH = (128, 256, 512, 1024, 8192), 512
PATIENCE = 300  # seconds for a run


def text(value):
    return json.dumps(value, separators=(",", ":"))


def ask(method, params=None):
    return text({"ask": {"method": method} if params is None else {"method": method, "params": params}})


def ask_2(method, params=None):
    """An ask of the second front end, in `pair`."""
    return text({**json.loads(ask(method, params)), "on": 2})


def command(number, method, params, **session):
    return text({"id": number, "method": method, "params": params, **session})


def padded(line, size):
    """A line of so many bytes: JSON may end in spaces."""
    return line + " " * (size - len(line))


def lines(*said):
    return [line + "\n" for line in said]


def nested(depth, inside="1"):
    """Lists that stand in one another, so deep."""
    return "[" * depth + inside + "]" * depth


# ---- pages

def wide(count):
    """A page of so many nodes, the document and one parent among them, told in a line."""
    return '{"document":[{"e":"html","c":[' + ",".join(['{"e":"p"}'] * (count - 2)) + "]}]}"


def chains(count, levels=LEVELS):
    """A page of so many nodes in chains down to the last level, told flat; the first chain's last node has the serial levels + 1."""
    told, up = ['{"up":0,"e":"html"}'], 1
    while len(told) < count - 1:
        up = 1
        for _ in range(min(levels - 1, count - 1 - len(told))):
            told.append('{"up":%d,"e":"b"}' % up)
            up = len(told)
    return '{"flat":[' + ",".join(told) + "]}"


def with_sheet(page, told):
    return page[:-1] + ',"sheets":[{"origin":"regular","text":' + text(told) + "}]}"


EMPTY = '{"document":[]}'


def load(page):
    return '{"load":' + page + "}"


# ---- the first table: name, word, what makes the input, the status and line that are wanted

LIMITS = []


def limit(name, word, status=0, line=""):
    def put(make):
        LIMITS.append((name, word, make, status, line))
        return make
    return put


def settles(size):
    """A script of so many bytes: a load, and settles up to the end, of which the last is as long as is needed."""
    yield load(EMPTY) + "\n"
    left, settle = size - len(load(EMPTY)) - 1, '{"settle":true}\n'
    for _ in range(left // len(settle) - 1):
        yield settle
    yield padded(settle[:-1], len(settle) + left % len(settle) - 1) + "\n"


limit("a script of 2^26 bytes, 4,194,302 settles", "replay")(lambda: settles(INPUT))
limit("and a byte more", "replay", 4, "input too long")(lambda: settles(INPUT + 1))
limit("a line of 2^24 bytes", "replay")(lambda: lines(padded(load(EMPTY), LINE)))
limit("and a byte more", "replay", 4, "input too long")(lambda: lines(padded(load(EMPTY), LINE + 1)))
limit("a page of 100,000 nodes", "replay")(lambda: lines(load(wide(NODES))))
limit("and a node more", "replay", 3, "line 1: BadLoad TooMany")(lambda: lines(load(wide(NODES + 1))))
limit("a page of 500 levels", "replay")(lambda: lines(load(chains(LEVELS + 1))))
limit("and a level more", "replay", 3, "line 1: BadLoad TooDeep")(lambda: lines(load(chains(LEVELS + 2, LEVELS + 1))))
limit("100,000 rows in one chain", "replay", 3, "line 1: BadLoad TooDeep")(lambda: lines(load(chains(NODES, NODES))))


def sheets(count):
    return lines(load('{"document":[],"sheets":[' + ",".join(['{"origin":"regular","text":"a{}"}'] * count) + "]}"),
                 ask("DOM.enable"), ask("CSS.enable"))


limit("1,000 sheets, fetched", "replay")(lambda: sheets(SHEETS))
limit("and a sheet more", "replay", 3, "line 1: BadLoad TooMany")(lambda: sheets(SHEETS + 1))
limit("an ask nested 127 deep", "replay")(lambda: lines(load(EMPTY), '{"ask":{"method":"a","params":{"b":%s}}}' % nested(NESTED - 3)))
limit("and once more", "replay", 3, "line 2: NotJson")(
    lambda: lines(load(EMPTY), '{"ask":{"method":"a","params":{"b":%s}}}' % nested(NESTED - 2)))
limit("10^6 asks, and a settle", "replay")(lambda: [load(EMPTY) + "\n"] + [ask("DOM.enable") + "\n"] * 1000000)
limit("10^6 acts on the last of 90,000 children", "replay")(
    lambda: [load(wide(90002)) + "\n"] + ['{"act":{"do":"setAttr","node":90002,"name":"a","value":"b"}}\n'] * 1000000)


def frame_of(size):
    """A frame of so many bytes with its zero byte, of a method that there is none."""
    head, tail = '{"id":1,"method":"DOM.nope","params":{"a":"', '"}}\0'
    return [head, "b" * (size - len(head) - len(tail)), tail]


limit("a frame of 2^26 bytes", "serve")(lambda: frame_of(INPUT))
limit("and a byte more", "serve", 4, "input too long")(lambda: frame_of(INPUT + 1))
limit("2^26 bytes and no zero byte", "serve")(lambda: frame_of(INPUT + 1)[:2] + ['"}}'])
limit("10^6 frames", "serve")(lambda: ('{"id":%d,"method":"DOM.enable"}\0' % i for i in range(1000000)))

def on_a_wide_page(count):
    """So many commands on a page of 100,000 nodes."""
    yield '{"id":0,"method":"Replay.load","params":%s}\0' % wide(NODES)
    yield command(1, "DOM.getDocument", {}) + "\0"
    for i in range(2, count):
        yield '{"id":%d,"method":"DOM.getAttributes","params":{"nodeId":2}}\0' % i


limit("10^6 commands on a page of 100,000 nodes", "serve")(lambda: on_a_wide_page(1000000))
limit("a frame nested 127 deep", "serve")(lambda: ['{"id":1,"method":"a","params":{"b":%s}}\0' % nested(NESTED - 2)])
limit("and once more", "serve")(lambda: ['{"id":1,"method":"a","params":{"b":%s}}\0' % nested(NESTED - 1)])
limit("a sheet of 2^24 bytes", "serve")(
    lambda: [command(1, "Replay.load", {"document": [], "sheets": [{"origin": "regular", "text": "/*" + "x" * (LINE - 2)}]}) + "\0"])
limit("and a byte more", "serve")(
    lambda: [command(1, "Replay.load", {"document": [], "sheets": [{"origin": "regular", "text": "/*" + "x" * (LINE - 1)}]}) + "\0"])

ATTACH, SETTLE = '{"attach":true}', '{"settle":true}'
SHOWN_BOTH = ('{"show":"front"}', '{"show":"front","on":2}')
S1 = {"sessionId": "S1"}
ATTACHES = command(0, "Target.attachToTarget", {"flatten": True, "targetId": "page"})

limit("10^5 asks of the second of both front ends, and a settle", "pair")(
    lambda: lines(load(EMPTY), ATTACH) + [ask_2("DOM.enable") + "\n"] * 100000 + [SETTLE + "\n"])
limit("10^5 asks of each of both front ends, in turn", "pair")(
    lambda: lines(load(EMPTY), ATTACH) + lines(ask("DOM.enable"), ask_2("DOM.enable")) * 100000)
limit("a page of 100,000 nodes, shown to both front ends", "pair")(lambda: lines(
    load(wide(NODES)), ATTACH, ask("DOM.getDocument", {"depth": -1}), ask_2("DOM.getDocument", {"depth": -1}), *SHOWN_BOTH))
limit("10^5 acts on the last of 90,000 children, shown to both front ends", "pair")(lambda: lines(
    load(wide(90002)), ATTACH, ask("DOM.getDocument", {"depth": -1}), ask_2("DOM.getDocument", {"depth": -1}), SETTLE)
    + ['{"act":{"do":"setAttr","node":90002,"name":"a","value":"b"}}\n'] * 100000)
limit("a script for both front ends of 2^26 bytes and one", "pair", 4, "input too long")(lambda: settles(INPUT + 1))
limit("a line of 2^24 bytes, for both front ends", "pair")(lambda: lines(load(EMPTY), padded(ATTACH, LINE)))
limit("and a byte more", "pair", 4, "input too long")(lambda: lines(load(EMPTY), padded(ATTACH, LINE + 1)))
limit("10^6 frames, of both sessions in turn", "share")(lambda: [ATTACHES + "\0"] + [
    command(i, "DOM.enable", {}, **(S1 if i % 2 else {})) + "\0" for i in range(1, 1000000)])
limit("a page of 100,000 nodes, told to both sessions", "share")(lambda: [
    line + "\0" for line in (ATTACHES, '{"id":1,"method":"Replay.load","params":%s}' % wide(NODES),
                             command(2, "DOM.getDocument", {"depth": -1}), command(1, "DOM.getDocument", {"depth": -1}, **S1))])
limit("a frame of 2^26 bytes, of both sessions", "share")(lambda: frame_of(INPUT))
limit("and a byte more", "share", 4, "input too long")(lambda: frame_of(INPUT + 1))

# What is written, where it is short and is wanted so.
WRITTEN = {
    "a frame of 2^26 bytes": b'{"error":{"code":-32601,"message":"unknown method"},"id":1}\0',
    "a frame of 2^26 bytes, of both sessions": b'{"error":{"code":-32601,"message":"unknown method"},"id":1}\0',
    "2^26 bytes and no zero byte": b"",
    "a frame nested 127 deep": b'{"error":{"code":-32601,"message":"unknown method"},"id":1}\0',
    "a frame nested 127 deep, and once more": b'{"error":{"code":-32700,"message":"not JSON"}}\0',
    "a sheet of 2^24 bytes": b'{"id":1,"result":{}}\0',
    "a sheet of 2^24 bytes, and a byte more": b'{"error":{"code":-32000,"message":"TooMany"},"id":1}\0',
}

# ---- the second table: name, word, what makes the input

DEEP = []


def deep(name, word="replay"):
    def put(make):
        DEEP.append((name, word, make))
        return make
    return put


LAST = LEVELS + 1  # the serial, and with all known the id, of the last node of the first chain
KNOWN = (ask("DOM.getDocument", {"depth": -1}), SETTLE)
TAIL = tuple('{"show":"%s"}' % word for word in ("front", "page", "replies", "panels"))


def on_chains(*said, count=LEVELS + 1, told=""):
    """What is said on chains, and for one chain all shows: the outline of 100,000 nodes in chains has 51 MB."""
    return lambda: lines(load(with_sheet(chains(count), told)), *KNOWN, *said, *(TAIL if count == LEVELS + 1 else ()))


def asked_for(*said, **page):
    return on_chains(*(ask(method, params) for method, params in said), **page)


ATTRIBUTE = ("DOM.setAttributeValue", {"nodeId": LAST, "name": "a", "value": "b"})
COPY = ("DOM.copyTo", {"nodeId": 3, "targetNodeId": 2})
MOVE = ("DOM.moveTo", {"nodeId": 3, "targetNodeId": 1})
REMOVE = ("DOM.removeNode", {"nodeId": 3})
BACK = (("DOM.undo", {}), ("DOM.redo", {}), ("DOM.undo", {}))
FINDS = (("DOM.querySelectorAll", {"nodeId": 1, "selector": "html b b b b > b:last-child ~ b, b:nth-child(2n+1) b"}),
         ("DOM.performSearch", {"query": "b"}), ("DOM.getSearchResults", {"searchId": "q1", "fromIndex": 0, "toIndex": 400}))
STYLES = "html b{a:b}" + "b " * 400 + "b{c:d}" + "b>b{e:f}@media screen{@media all{b:last-child{g:h}}}"

for NAME, SAID in (("loaded, asked for whole and shown", ()), ("an attribute of the last level", (ATTRIBUTE,)), ("a copy", (COPY,)),
                   ("a move", (MOVE,)), ("a removal, undone, redone", (REMOVE, *BACK)),
                   ("all these edits undone", (ATTRIBUTE, COPY, REMOVE, *BACK)),
                   ("queries and searches", FINDS), ("described whole", (("DOM.describeNode", {"nodeId": 1, "depth": -1}),)),
                   ("a path of all levels", (("DOM.pushNodeByPathToFrontend", {"path": "0,HTML" + ",0,B" * (LEVELS - 1)}),))):
    deep("500 levels: " + NAME)(asked_for(*SAID))
    deep("100,000 nodes in chains of 500 levels: " + NAME)(asked_for(*SAID, count=NODES // 2 if SAID and COPY in SAID else NODES))
deep("500 levels: matched styles of the last level")(
    asked_for(("CSS.enable", {}), ("CSS.getMatchedStylesForNode", {"nodeId": LAST}), told=STYLES))
deep("500 levels: acts")(on_chains(
    '{"act":{"do":"move","node":3,"parent":1,"before":2}}', '{"act":{"do":"remove","node":3}}',
    '{"act":{"do":"insert","parent":2,"before":0,"node":%s}}' % ('{"e":"i","c":[' * 60 + '{"t":"x"}' + "]}" * 60)))
deep("500 levels: a later load")(on_chains(load(chains(LEVELS + 1)), *KNOWN))
deep("100,000 children of one parent: loaded, asked for whole and shown")(lambda: lines(load(wide(NODES)), *KNOWN, *TAIL))
deep("a load nested 127 deep")(lambda: lines(
    load('{"document":[%s]}' % ('{"e":"i","c":[' * 61 + '{"e":"i","c":[]}' + "]}" * 61)), *KNOWN, *TAIL))
deep("asks and raw texts nested 127 deep")(lambda: lines(
    load(EMPTY), '{"ask":{"method":"DOM.enable","params":{"b":%s}}}' % nested(NESTED - 3), text({"raw": nested(NESTED)}), *TAIL))
deep("frames nested 127 deep", "serve")(lambda: [
    nested(NESTED) + "\0", '{"id":1,"method":"DOM.enable","params":{"a":%s}}\0' % nested(NESTED - 2)])
deep("a page of 60 levels, loaded by a client", "serve")(lambda: [
    '{"id":1,"method":"Replay.load","params":{"document":[%s]}}\0' % ('{"e":"i","c":[' * 60 + "]}" * 60),
    command(2, "DOM.getDocument", {"depth": -1}) + "\0"])
for NAME, SHEET in (("`{` 100,000 times", "{" * 100000), ("`a{` 100,000 times", "a{" * 100000),
                    ("`(` 100,000 times", "a{b:" + "(" * 100000), ("`@media{` 100,000 times", "@media{" * 100000),
                    ("100,000 media rules around one rule", "@media all{" * 100000 + "p{a:b}" + "}" * 100000),
                    ("a selector of 100,000 parts", "p " * 99999 + "p{a:b}"), ("a list of 100,000 selectors", "p," * 99999 + "p{a:b}")):
    deep("a sheet: " + NAME)(lambda told=SHEET: lines(
        load(with_sheet('{"document":[{"e":"p"}]}', told)), *KNOWN, ask("CSS.enable"), ask("CSS.getMatchedStylesForNode", {"nodeId": 2}),
        ask("CSS.collectClassNames", {"styleSheetId": "s1"}), *TAIL[2:3]))


def on_both(*said, count=LEVELS + 1, told=""):
    """What is said on chains that both front ends know whole, and both shown, of one chain with all shows."""
    tail = (*SHOWN_BOTH, *TAIL[1:], '{"show":"replies","on":2}') if count == LEVELS + 1 else SHOWN_BOTH
    return lambda: lines(load(with_sheet(chains(count), told)), ATTACH, *KNOWN, ask_2("DOM.getDocument", {"depth": -1}), *said, *tail)


def in_both(*said, page=None):
    """Commands of the second session on a page that both know whole; a command in a list is the root's."""
    frames = [ATTACHES, '{"id":1,"method":"Replay.load","params":%s}' % (page or chains(LEVELS + 1))]
    asked = [["DOM.getDocument", {"depth": -1}], ("DOM.getDocument", {"depth": -1}), *said]
    frames += [command(i, one[0], one[1], **({} if isinstance(one, list) else S1)) for i, one in enumerate(asked)]
    return lambda: [frame + "\0" for frame in frames]


def by_second(*said):
    return tuple(ask_2(method, params) for method, params in said)


for NAME, SAID in (("asked for whole and shown", ()), ("an attribute of the last level", (ATTRIBUTE,)), ("a copy", (COPY,)),
                   ("a move", (MOVE,)), ("a removal, undone, redone", (REMOVE, *BACK)),
                   ("all these edits undone", (ATTRIBUTE, COPY, REMOVE, *BACK)), ("queries and searches", FINDS)):
    deep("500 levels in both front ends, by the second: " + NAME, "pair")(on_both(*by_second(*SAID)))
    deep("500 levels in both sessions, by the second: " + NAME, "share")(in_both(*SAID))
deep("500 levels in both front ends, by the second: matched styles of the last level", "pair")(on_both(
    *by_second(("CSS.enable", {}), ("CSS.getMatchedStylesForNode", {"nodeId": LAST})), told=STYLES))
deep("500 levels in both front ends: an edit and a removal of the first, undone", "pair")(
    on_both(*(ask(method, params) for method, params in (ATTRIBUTE, REMOVE, *BACK))))
deep("500 levels in both sessions: an edit and a removal of the root, undone", "share")(in_both(*map(list, (ATTRIBUTE, REMOVE, *BACK))))
deep("500 levels in both front ends: acts, a detach, an attach and a later load", "pair")(on_both(
    '{"act":{"do":"move","node":3,"parent":1,"before":2}}', '{"act":{"do":"remove","node":3}}', '{"detach":true}', ATTACH,
    load(chains(LEVELS + 1)), *KNOWN, ask_2("DOM.getDocument", {"depth": -1})))
deep("100,000 nodes in chains of 500 levels in both front ends", "pair")(on_both(count=NODES))
deep("100,000 nodes in chains of 500 levels in both sessions", "share")(in_both(page=chains(NODES)))
deep("100,000 children of one parent in both front ends", "pair")(lambda: lines(
    load(wide(NODES)), ATTACH, *KNOWN, ask_2("DOM.getDocument", {"depth": -1}), *SHOWN_BOTH))
deep("asks and raw texts of both front ends nested 127 deep", "pair")(lambda: lines(
    load(EMPTY), ATTACH, '{"ask":{"method":"DOM.enable","params":{"b":%s}}}' % nested(NESTED - 3),
    '{"ask":{"method":"DOM.enable","params":{"b":%s}},"on":2}' % nested(NESTED - 3), text({"raw": nested(NESTED)}),
    '{"show":"replies"}', '{"show":"replies","on":2}'))
deep("frames of both sessions nested 127 deep", "share")(lambda: [
    ATTACHES + "\0", nested(NESTED) + "\0", '{"id":1,"method":"DOM.enable","params":{"a":%s}}\0' % nested(NESTED - 2),
    '{"id":1,"method":"DOM.enable","params":{"a":%s},"sessionId":"S1"}\0' % nested(NESTED - 2)])


# ---- runs

def bind(stack):
    """What a child is bound to: its stack, and no image of its memory where that does not suffice."""
    resource.setrlimit(resource.RLIMIT_STACK, (stack, stack))
    resource.setrlimit(resource.RLIMIT_CORE, (0, 0))


class Run:
    """A run of the program. Its input is made by another process and stands in a file, so that this one stays small: the memory of a child
    is at least what this process has, 15 to 21 MB."""

    def __init__(self, asked, folder):
        self.program, self.only = asked.program, asked.only
        self.paths = [os.path.join(folder, name) for name in ("in", "out", "err")]
        self.bad = 0

    def put(self, make):
        maker = os.fork()
        if maker == 0:
            with open(self.paths[0], "w", buffering=1 << 16) as file:
                for piece in make():
                    file.write(piece)
            os._exit(0)
        os.waitpid(maker, 0)
        return os.path.getsize(self.paths[0])

    def go(self, word, stack):
        bound = stack * 1024
        with open(self.paths[0]) as data, open(self.paths[1], "w") as out, open(self.paths[2], "w") as err:
            child = subprocess.Popen([self.program, word], stdin=data, stdout=out, stderr=err, preexec_fn=lambda: bind(bound))
            late = threading.Timer(PATIENCE, child.kill)
            late.start()
            _, status, used = os.wait4(child.pid, 0)
            late.cancel()
            child.returncode = os.WEXITSTATUS(status) if os.WIFEXITED(status) else -os.WTERMSIG(status)
        with open(self.paths[2]) as err:
            line = err.read().rstrip("\n")
        return child.returncode, line, used

    def written(self):
        """How many bytes, their digest, those in front, and whether a command was refused."""
        size, mixed, front, refused = 0, hashlib.sha256(), b"", False
        with open(self.paths[1], "rb") as out:
            for piece in iter(lambda: out.read(1 << 16), b""):
                size, front, refused = size + len(piece), front or piece, refused or b'"error"' in piece
                mixed.update(piece)
        return size, mixed.hexdigest(), front, refused


def limits(runs):
    print("| input | word | bytes | answer | written | seconds | memory |\n|---|---|---|---|---|---|---|", flush=True)
    behind = ""
    for name, word, make, status, line in LIMITS:
        whole = behind + ", " + name if name.startswith("and ") else name
        behind = behind if name.startswith("and ") else name
        if runs.only not in whole:
            continue
        size = runs.put(make)
        got, told, used = runs.go(word, 8192)
        count, _, front, _ = runs.written()
        right = (got, told) == (status, line) and WRITTEN.get(whole, front) == front
        runs.bad += not right
        print("| %s | %s | %s | %s | %s | %.2f | %d MB |%s" % (
            whole, word, "{:,}".format(size), "done" if got == 0 else "%d, `%s`" % (got, told), "{:,}".format(count),
            used.ru_utime + used.ru_stime, used.ru_maxrss / 1024, "" if right else " NOT AS WANTED"), flush=True)


def stacks(runs):
    print("\n| script | word | written | smallest stack of these | memory |\n|---|---|---|---|---|", flush=True)
    for name, word, make in DEEP:
        if runs.only not in name:
            continue
        runs.put(make)
        got, told, used = runs.go(word, 65536)
        whole, least = (got, told, runs.written()[:2]), None
        for stack in STACKS:
            if runs.go(word, stack)[:2] + (runs.written()[:2],) == whole:
                least = stack
                break
        right = got == 0 and least is not None and least <= ENOUGH and ("nested" in name or not runs.written()[3])
        runs.bad += not right
        print("| %s | %s | %s | %s KB | %d MB |%s" % (
            name, word, "{:,}".format(whole[2][0]), least, used.ru_maxrss / 1024,
            "" if right else " NOT AS WANTED %s %s" % (got, told)), flush=True)


def main():
    words = argparse.ArgumentParser(description=__doc__, formatter_class=argparse.RawDescriptionHelpFormatter)
    words.add_argument("program")
    words.add_argument("--only", default="")
    asked = words.parse_args()
    with tempfile.TemporaryDirectory() as folder:
        runs = Run(asked, folder)
        limits(runs)
        stacks(runs)
    sys.exit(1 if runs.bad else 0)


main()
