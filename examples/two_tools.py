import sys
from inspect_client import Inspector

with Inspector(sys.argv[1], word="share") as test:
    test.call("Replay.load", document=[{"e": "html", "c": [{"e": "body", "c": [{"t": "x"}]}]}])
    watcher = test.attach()
    watcher.call("DOM.getDocument", depth=2)
    test.call("DOM.getDocument", depth=-1)
    test.call("DOM.setAttributeValue", nodeId=3, name="class", value="wide")
    for method, params in watcher.events:
        print(method, params["name"], params["value"])
    print("\n".join(watcher.mirror.outline()))
