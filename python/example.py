#!/usr/bin/env python3
"""A toy simulator that writes a journal: core 0 stores a message, a byte in each line of memory, and core 1 loads it. Prints what commits,
and the tally."""

import fabric

message = b"hey"
journal = f"fabric=1 cores=2 lines={len(message)} width=1 lease=10\n"
for line, byte in enumerate(message):
    store = f"op=store core=0 line={line} data={byte:02x}"
    load = f"op=load core=1 line={line}"
    own = ["op=serve core=0", "op=receive core=0"]  # core 0 gets the line as its own
    recall = ["op=serve core=1", f"op=yield line={line}", f"op=take line={line}"]  # it has to give it back
    share = ["op=serve core=1", "op=receive core=1"]  # core 1 gets a copy
    for step in [store, *own, store, load, *recall, *share, load]:  # a store or a load asks at first, and then commits
        fabric.check_line(step)  # raises fabric.Refused where this is no step line
        journal += step + "\n"

for entry in fabric.listing(journal).splitlines():
    if " commit=" in entry:
        print(entry)
print(fabric.tally(journal))
