"""Counts the samples of a file of `perf record` by task and event, in order of time."""

import collections
import sys

import perf_event_data as ped

counts = collections.Counter()
for frame in ped.open(sys.argv[1]).frames("time"):
    if frame.event and frame.name == "sample":
        counts[frame.tid, frame.event.number] += 1
for (tid, event), count in counts.items():
    print(f"task {tid}, event {event}: {count}")
