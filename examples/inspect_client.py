#!/usr/bin/env python3
"""A client of `inspect serve` and `inspect share`: starts the program, sends commands, waits for replies, hands out events and keeps a
mirror.

    from inspect_client import Inspector, Refused
    with Inspector("inspect") as client:
        client.call("Replay.load", document=[{"e": "html"}])
        print(client.call("DOM.getDocument")["root"]["childNodeCount"])

With the word share `attach` gives a second session on the same page, which has the same calls, events and a mirror of its own.

Python 3.8 or later, and its standard library. One thread; it waits in `select` and never for one pipe alone, so that a large
frame, which goes up in pieces, cannot stop while the program waits for its own messages to be read.
"""
import collections
import json
import os
import selectors
import subprocess
import sys

PIECE = 1 << 16  # the most bytes that are read or written at once


class Refused(Exception):
    """A command was refused: `code` and `text` are those of its error reply."""

    def __init__(self, code, text):
        super().__init__("%d %s" % (code, text))
        self.code, self.text = code, text


class ProgramError(Exception):
    """The program ended when it should not have: `status` is its exit status, `line` what it wrote on standard error."""

    def __init__(self, status, line):
        super().__init__("status %d: %s" % (status, line))
        self.status, self.line = status, line


class Node:
    """A known node. `children` is None where it is not opened (or can have none), and `count` says how many there are."""

    __slots__ = ("id", "serial", "type", "name", "local_name", "value", "attributes", "children", "count", "parent")

    def __init__(self, told, parent):
        self.id, self.serial, self.parent = told["nodeId"], told["backendNodeId"], parent
        self.type, self.name, self.local_name = told["nodeType"], told["nodeName"], told["localName"]
        self.value, self.count, self.children = told["nodeValue"], told.get("childNodeCount", 0), None
        flat = told.get("attributes", [])
        self.attributes = dict(zip(flat[::2], flat[1::2]))

    def label(self):
        """The node as an outline of `inspect replay` shows it."""
        spelled = {1: self.element, 3: lambda: quoted(self.value), 8: lambda: "<!--%s-->" % quoted(self.value)}
        return spelled.get(self.type, lambda: "<!%s>" % self.name if self.type == 10 else self.name)()

    def element(self):
        pairs = sorted(self.attributes.items(), key=lambda pair: pair[0].encode())
        return "<%s%s>" % (self.local_name, "".join(" %s=%s" % (name, quoted(value)) for name, value in pairs))


def quoted(text):
    return json.dumps(text, ensure_ascii=False)


class Mirror:
    """What the messages told: `root` (None while nothing is known), `nodes` by id, `sheets` by id in their order.

    A sheet is a dict with `origin`, `length` and `text`; the text is None until it was asked for, and after each change.
    """

    def __init__(self):
        self.root, self.nodes, self.sheets = None, {}, {}

    def outline(self):
        """The lines that `{"show":"front"}` of a replay prints."""
        lines, left = [], [(self.root, 0)] if self.root else []
        while left:
            node, level = left.pop()
            more = " +%d" % node.count if node.children is None and node.count else ""
            lines.append("%s%d %s%s" % ("  " * level, node.id, node.label(), more))
            left += [(child, level + 1) for child in reversed(node.children or [])]
        return lines or ["no document"]

    def forget_document(self):
        self.root, self.nodes = None, {}

    def plant(self, told, parent):
        """The node that a message tells, with all that it shows below it."""
        top = Node(told, parent)
        left = [(top, told)]
        while left:
            node, source = left.pop()
            self.nodes[node.id] = node
            if "children" in source:
                node.children = [Node(child, node) for child in source["children"]]
                left += zip(node.children, source["children"])
        return top

    def uproot(self, node):
        left = [node]
        while left:
            gone = left.pop()
            del self.nodes[gone.id]
            left += gone.children or []

    def take_event(self, method, told):
        """Folds an event; one that tells nothing of nodes and sheets changes nothing."""
        fold = getattr(self, "on_" + method.replace(".", "_"), None)
        if fold:
            fold(told)

    def on_DOM_documentUpdated(self, told):
        self.forget_document()

    def on_DOM_setChildNodes(self, told):
        parent = self.nodes[told["parentId"]]
        parent.children = [self.plant(child, parent) for child in told["nodes"]]
        parent.count = len(parent.children)

    def on_DOM_childNodeInserted(self, told):
        parent, before = self.nodes[told["parentNodeId"]], told["previousNodeId"]
        place = parent.children.index(self.nodes[before]) + 1 if before else 0
        parent.children.insert(place, self.plant(told["node"], parent))
        parent.count = len(parent.children)

    def on_DOM_childNodeRemoved(self, told):
        node, parent = self.nodes[told["nodeId"]], self.nodes[told["parentNodeId"]]
        parent.children.remove(node)
        parent.count = len(parent.children)
        self.uproot(node)

    def on_DOM_childNodeCountUpdated(self, told):
        self.nodes[told["nodeId"]].count = told["childNodeCount"]

    def on_DOM_attributeModified(self, told):
        self.nodes[told["nodeId"]].attributes[told["name"]] = told["value"]

    def on_DOM_attributeRemoved(self, told):
        self.nodes[told["nodeId"]].attributes.pop(told["name"], None)

    def on_DOM_characterDataModified(self, told):
        self.nodes[told["nodeId"]].value = told["characterData"]

    def on_CSS_styleSheetAdded(self, told):
        header = told["header"]
        self.sheets[header["styleSheetId"]] = {"origin": header["origin"], "length": header["length"], "text": None}

    def on_CSS_styleSheetChanged(self, told):
        self.sheets[told["styleSheetId"]]["text"] = None

    def on_CSS_styleSheetRemoved(self, told):
        del self.sheets[told["styleSheetId"]]

    def take_reply(self, method, params, result):
        """Folds what an Ok reply tells beside its own answer."""
        if method == "DOM.getDocument":
            self.forget_document()
            self.root = self.plant(result["root"], None)
        elif method == "DOM.disable":
            self.forget_document()
            self.sheets = {}
        elif method == "CSS.disable":
            self.sheets = {}
        elif method == "CSS.getStyleSheetText" and params["styleSheetId"] in self.sheets:
            self.sheets[params["styleSheetId"]]["text"] = result["text"]


class Session:
    """A session of a running program. `events` holds what was told and not handed out yet, as (method, params)."""

    def __init__(self, program, name):
        self.program, self.name = program, name  # the name stands in each frame as its `sessionId`; the root's has none
        self.mirror, self.events = Mirror(), collections.deque()
        self.asked, self.answers, self.next_id = {}, {}, 1

    def call(self, method, **params):
        """Sends the command, waits for its reply, and answers the result; raises Refused where it was refused."""
        return self.wait(self.send(method, params))

    def send(self, method, params=None, ident=None):
        """Sends the command and answers its id, under which `wait` finds the reply."""
        if ident is None:
            ident, self.next_id = self.next_id, self.next_id + 1
        frame = {"id": ident, "method": method}
        if params:
            frame["params"] = params
        if self.name:
            frame["sessionId"] = self.name
        self.asked[ident] = (method, params or {})
        self.program.send_frame(json.dumps(frame, ensure_ascii=False, separators=(",", ":")).encode())
        return ident

    def wait(self, ident):
        """The result of the command with this id."""
        while ident not in self.answers:
            self.program.turn(None)
        answer = self.answers.pop(ident)
        if "error" in answer:
            raise Refused(answer["error"]["code"], answer["error"]["message"])
        return answer["result"]

    def next_event(self, seconds=0):
        """The next event as (method, params), or None where none came in that time."""
        if not self.events:
            self.program.turn(seconds)
        return self.events.popleft() if self.events else None

    def take_event(self, method, params):
        self.mirror.take_event(method, params)
        self.events.append((method, params))

    def take_reply(self, message):
        method, params = self.asked.pop(message["id"])
        if "result" in message:
            self.mirror.take_reply(method, params, message["result"])
            if method == "Target.attachToTarget":
                name = message["result"]["sessionId"]
                self.program.sessions[name] = Session(self.program, name)
        self.answers[message["id"]] = message


class Inspector(Session):
    """A running program and its root session."""

    def __init__(self, program, pipe=False, word="serve"):
        """Starts `program` with that word; with `pipe`, a command that takes descriptors 3 and 4, as `inspect-pipe`."""
        super().__init__(self, None)
        on_3_and_4 = ["sh", "-c", 'exec "$0" 3<&0 4>&1 </dev/null >&2', program]
        self.process = subprocess.Popen(on_3_and_4 if pipe else [program, word], stdin=subprocess.PIPE, bufsize=0,
                                        stdout=subprocess.PIPE, stderr=subprocess.PIPE)
        self.up, self.down, self.told = self.process.stdin, self.process.stdout, self.process.stderr
        self.sessions, self.strays = {}, collections.deque()
        self.unsent, self.pieces, self.said = bytearray(), [], b""
        self.watcher = None  # called with "->" or "<-" and the bytes of each frame
        self.ready = selectors.DefaultSelector()
        for pipe_end in (self.up, self.down, self.told):
            os.set_blocking(pipe_end.fileno(), False)
        self.ready.register(self.down, selectors.EVENT_READ)
        self.ready.register(self.told, selectors.EVENT_READ)

    def __enter__(self):
        return self

    def __exit__(self, kind, error, trace):
        if kind is None:
            self.close()
        else:
            self.process.kill()
            self.process.wait()
            self.release()

    def attach(self):
        """Attaches a session to the page, as `inspect share` can, and answers it."""
        return self.sessions[self.call("Target.attachToTarget", targetId="page", flatten=True)["sessionId"]]

    def detach(self, session):
        """Detaches it: all that it had is gone, and no call of it may follow."""
        self.call("Target.detachFromTarget", sessionId=session.name)
        del self.sessions[session.name]

    def send_frame(self, frame):
        """Sends these bytes as a frame. An error reply without an id goes to `strays`."""
        if self.watcher:
            self.watcher("->", frame)
        if not self.unsent:
            self.ready.register(self.up, selectors.EVENT_WRITE)
        self.unsent += frame + b"\0"
        self.turn(0)

    def wait_stray(self):
        """The next error reply without an id, as (code, text)."""
        while not self.strays:
            self.turn(None)
        return self.strays.popleft()

    def turn(self, seconds):
        """Waits at most so long (None: without end) until a pipe is ready, and reads and writes what is."""
        for key, _ in self.ready.select(seconds):
            if key.fileobj is self.up:
                self.write_piece()
            elif key.fileobj is self.told:
                self.hear()
            else:
                self.read_piece()

    def write_piece(self):
        try:
            del self.unsent[:os.write(self.up.fileno(), self.unsent[:PIECE])]
        except BlockingIOError:
            return
        except BrokenPipeError:
            self.unsent.clear()
        if not self.unsent:
            self.ready.unregister(self.up)

    def hear(self):
        piece = os.read(self.told.fileno(), PIECE)
        self.said += piece
        if not piece:
            self.ready.unregister(self.told)

    def read_piece(self):
        piece = os.read(self.down.fileno(), PIECE)
        if not piece:
            raise self.ended()
        *whole, rest = piece.split(b"\0")
        for end in whole:
            self.pieces.append(end)
            frame, self.pieces = b"".join(self.pieces), []
            self.take(frame)
        self.pieces.append(rest)

    def take(self, frame):
        if self.watcher:
            self.watcher("<-", frame)
        message = json.loads(frame.decode())
        session = self.sessions[message["sessionId"]] if "sessionId" in message else self
        if "method" in message:
            session.take_event(message["method"], message["params"])
        elif "id" in message:
            session.take_reply(message)
        else:
            self.strays.append((message["error"]["code"], message["error"]["message"]))

    def ended(self):
        """The program's end, as an exception."""
        if self.told in [key.fileobj for key in self.ready.get_map().values()]:
            os.set_blocking(self.told.fileno(), True)
            self.said += self.told.read()
        status = self.process.wait()
        self.release()
        return ProgramError(status, self.said.decode(errors="replace").strip())

    def close(self):
        """Ends the input, takes in what is still to come, and raises ProgramError where the exit status is not 0."""
        while self.unsent:
            self.turn(None)
        self.up.close()
        try:
            while True:
                self.turn(None)
        except ProgramError as end:
            if end.status:
                raise

    def release(self):
        self.ready.close()
        for pipe_end in (self.up, self.down, self.told):
            try:
                pipe_end.close()
            except BrokenPipeError:
                pass


def show(program, pipe=False):
    """Loads a page, opens it level by level, and prints the outline of the mirror after each message."""
    with Inspector(program, pipe) as client:
        client.call("Replay.load", document=[{"e": "html", "c": [{"e": "head"}, {"e": "body", "c": [{"t": "x"}]}]}])
        client.call("DOM.getDocument")
        print("\n".join(client.mirror.outline()))
        client.call("DOM.requestChildNodes", nodeId=client.mirror.root.children[0].id, depth=-1)
        for method, params in iter(client.next_event, None):
            print(method, json.dumps(params, ensure_ascii=False))
        print("\n".join(client.mirror.outline()))


if __name__ == "__main__":
    show(sys.argv[1] if len(sys.argv) > 1 else "inspect", pipe="--pipe" in sys.argv[2:])
