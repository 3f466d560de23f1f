"""A trace is a list of events; each hart's begins and ends match; harts were lent."""
import json
import sys

events = json.load(open(sys.argv[1]))
depth = {}
for event in events:
    hart = event["tid"]
    step = {"B": 1, "E": -1}.get(event["ph"], 0)
    depth[hart] = depth.get(hart, 0) + step
    assert depth[hart] >= 0, event
    assert event["ts"] >= 0 and event["pid"] == 1
names = {event["name"] for event in events}
assert {"pool", "guest", "sleep", "calls"} <= names, names
print(len(events), "events")
