#!/usr/bin/env python3
"""trace.py SCRIPT [PROGRAM]: the frames of a replay's script as `inspect serve` gets and sends them, one a line.

A line `->` is a frame that goes up, `<-` one that comes down. Asks keep the ids that a replay gives them; loads and acts are
`Replay.load` and `Replay.act`, with ids from 1000001 on. `serve` begins with a page of its own, whose document has the serial 1,
so each serial that the script names goes up as one more. Lines that have no meaning for `serve` (deliveries, settles, shows) are
said to be skipped. Each line is answered before the next is sent, so what a cut pipe changes is not shown.
"""
import json
import sys

from inspect_client import Inspector, ProgramError, Refused

OWN_IDS = 1000001


def moved(params, names):
    """The params with one more for each serial under these names; 0 names no node."""
    def one_more(value):
        if isinstance(value, list):
            return [one_more(member) for member in value]
        return value + 1 if type(value) is int and value > 0 else value
    return {name: one_more(value) if name in names else value for name, value in params.items()}


def frames_of(script):
    """For each line its number, its text, and what it sends: a method, its params and an id; a raw text; or nothing."""
    asks, own = 0, OWN_IDS
    for number, text in enumerate(script, 1):
        line = json.loads(text)
        if "ask" in line:
            asks += 1
            ask = dict(line["ask"])
            if isinstance(ask.get("params"), dict):
                ask["params"] = moved(ask["params"], ("backendNodeId", "backendNodeIds"))
            yield number, text, (ask, asks)
        elif "load" in line or "act" in line:
            method = "Replay.load" if "load" in line else "Replay.act"
            params = line["load"] if "load" in line else moved(line["act"], ("node", "parent", "before"))
            yield number, text, ({"method": method, "params": params}, own)
            own += 1
        else:
            yield number, text, (line["raw"], None) if "raw" in line else None


def trace(script, program):
    with Inspector(program) as client:
        client.watcher = lambda way, frame: print(way, frame.decode())
        for number, text, sent in frames_of(script):
            if sent is None:
                print("-- line %d is skipped: %s" % (number, text.strip()))
            elif sent[1] is None:
                client.send_frame(sent[0].encode())
                client.wait_stray()
            else:
                frame = dict({"id": sent[1]}, **sent[0])
                client.asked[sent[1]] = (frame["method"], frame.get("params", {}))
                client.send_frame(json.dumps(frame, ensure_ascii=False, separators=(",", ":")).encode())
                try:
                    client.wait(sent[1])
                except Refused:
                    pass  # its frame was shown


if __name__ == "__main__":
    if len(sys.argv) not in (2, 3):
        sys.exit("usage: trace.py SCRIPT [PROGRAM]")
    with open(sys.argv[1], encoding="utf-8") as lines:
        try:
            trace(lines, *sys.argv[2:] or ["inspect"])
        except ProgramError as error:
            sys.exit(str(error))
