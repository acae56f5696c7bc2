"""Prints the names of the tasks in a recording, which is its argument: an attribute and the records after it."""

import sys

import perf_event_data as ped

data = open(sys.argv[1], "rb").read()
config, length = ped.read_attribute(data)
for frame in ped.Frames(data, config, length):
    if frame.name == "comm":
        print(frame.time, frame.fields["tid"], "is", bytes(frame.fields["comm"]).decode())
