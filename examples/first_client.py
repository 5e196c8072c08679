import sys
from inspect_client import Inspector

with Inspector(sys.argv[1]) as client:
    client.call("Replay.load", document=[{"e": "html", "c": [{"e": "body", "c": [{"t": "x"}]}]}])
    html = client.call("DOM.getDocument")["root"]["children"][0]["nodeId"]
    client.call("DOM.requestChildNodes", nodeId=html, depth=-1)
    client.call("Replay.act", do="setAttr", node=4, name="class", value="wide")
    for method, params in client.events:
        print(method)
    print("\n".join(client.mirror.outline()))
