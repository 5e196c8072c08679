#!/usr/bin/env python3
"""What a second session costs: the same frames for `serve` and `share`, the same script for `replay` and `pair`, and memory.

    python3 examples/sessions.py PATH-OF-THE-PROGRAM [--frames 4000] [--runs 5]

The frames are a load of 272 nodes and a sheet, and then edits of attributes, asks for nodes and attributes, queries, matched styles and
acts. Of each run it tells million instructions (`valgrind --tool=callgrind`) and processor seconds, the best of some runs. Memory is the
greatest of the run, over a page of 60,000 nodes, beside a run in which no session is attached.
"""
import argparse
import json
import re
import resource
import subprocess
import tempfile

SESSION = "S1"
ATTACH = {"id": 1, "method": "Target.attachToTarget", "params": {"flatten": True, "targetId": "page"}}


def page(rows):
    row = {"e": "div", "a": ["class", "c"], "c": [{"e": "p"}, {"t": "text"}, {"e": "b"}]}
    sheet = "".join(f".k{i}{{a:b}}" for i in range(20)) + "div.c{color:red}p{x:y}"
    return {"document": [{"e": "html", "c": [row] * rows}], "sheets": [{"origin": "regular", "text": sheet}]}


def command(number, method, params=None):
    return {"id": number, "method": method} if params is None else {"id": number, "method": method, "params": params}


def frames(count, session=None):
    told = [command(1, "Replay.load", page(68)), command(2, "DOM.getDocument", {"depth": -1}), command(3, "CSS.enable")]
    turn = [
        lambda i: ("DOM.setAttributeValue", {"nodeId": 3 + 4 * (i % 60), "name": "x", "value": str(i)}),
        lambda i: ("DOM.getAttributes", {"nodeId": 3}),
        lambda i: ("DOM.querySelectorAll", {"nodeId": 1, "selector": ".c > p"}),
        lambda i: ("CSS.getMatchedStylesForNode", {"nodeId": 3}),
        lambda i: ("Replay.act", {"do": "setAttr", "node": 4, "name": "y", "value": str(i)}),
        lambda i: ("DOM.describeNode", {"nodeId": 3, "depth": 1}),
    ]
    while len(told) < count:
        i = len(told)
        told.append(command(i + 1, *turn[i % len(turn)](i)))
    return told


def served(told):
    return b"".join(json.dumps(f, separators=(",", ":")).encode() + b"\0" for f in told)


def script(count):
    lines = [{"load": page(68)}, {"ask": {"method": "DOM.getDocument", "params": {"depth": -1}}}, {"ask": {"method": "CSS.enable"}}]
    while len(lines) < count:
        i = len(lines)
        lines.append({"ask": {"method": "DOM.setAttributeValue", "params": {"nodeId": 3 + 4 * (i % 60), "name": "x", "value": str(i)}}}
                     if i % 2 else {"act": {"do": "setAttr", "node": 3, "name": "y", "value": str(i)}})
    lines.append({"show": "front"})
    return b"".join(json.dumps(f, separators=(",", ":")).encode() + b"\n" for f in lines)


class Program:
    def __init__(self, path, runs):
        self.path, self.runs = path, runs

    def run(self, words, data, before=()):
        with tempfile.TemporaryFile() as given:
            given.write(data)
            given.seek(0)
            return subprocess.run([*before, self.path, *words], stdin=given, stdout=subprocess.DEVNULL, stderr=subprocess.PIPE, check=True)

    def instructions(self, words, data):
        said = self.run(words, data, ("valgrind", "--tool=callgrind", "--callgrind-out-file=/dev/null")).stderr
        return int(re.search(rb"Collected : (\d+)", said).group(1)) / 1e6

    def seconds(self, words, data):
        best = None
        for _ in range(self.runs):
            start = resource.getrusage(resource.RUSAGE_CHILDREN)
            self.run(words, data)
            end = resource.getrusage(resource.RUSAGE_CHILDREN)
            took = end.ru_utime + end.ru_stime - start.ru_utime - start.ru_stime
            best = took if best is None else min(best, took)
        return best

    def megabytes(self, words, data):
        with tempfile.NamedTemporaryFile("r") as told:
            self.run(words, data, ("/usr/bin/time", "-f", "%M", "-o", told.name))
            return int(told.read().split()[-1]) / 1024

    def row(self, name, words, data):
        print(f"| {name} | {self.instructions(words, data):,.1f} | {self.seconds(words, data):.3f} |", flush=True)


def main():
    words = argparse.ArgumentParser(description=__doc__, formatter_class=argparse.RawDescriptionHelpFormatter)
    words.add_argument("program")
    words.add_argument("--frames", type=int, default=4000)
    words.add_argument("--runs", type=int, default=5)
    asked = words.parse_args()
    program = Program(asked.program, asked.runs)
    print("| what | million instructions | seconds |\n|---|---|---|")
    own = frames(asked.frames)
    program.row("`serve`", ["serve"], served(own))
    program.row("`share`, no session attached", ["share"], served(own))
    program.row("`share`, a session attached that asks nothing", ["share"], served([ATTACH] + own))
    program.row("`replay`", ["replay"], script(asked.frames))
    program.row("`pair`, the same script", ["pair"], script(asked.frames))
    large = [command(1, "Replay.load", page(15000))]
    program.row("`serve`, one load of 60,000 nodes", ["serve"], served(large))
    program.row("`share`, the same", ["share"], served(large))
    print("\n| `share`, a page of 60,000 nodes | MB |\n|---|---|")
    attach = large + [dict(ATTACH, id=2)]
    ask = dict(command(3, "DOM.getDocument", {"depth": 1}), sessionId=SESSION)
    everything = dict(command(3, "DOM.getDocument", {"depth": -1}), sessionId=SESSION)
    for name, told in (("no session", large), ("a session attached", attach), ("that knows two nodes", attach + [ask]),
                       ("that knows all", attach + [everything]), ("the root knows all", large + [command(2, "DOM.getDocument", {"depth": -1})])):
        print(f"| {name} | {program.megabytes(['share'], served(told)):.1f} |", flush=True)


if __name__ == "__main__":
    main()
