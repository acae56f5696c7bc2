"""Prints how many samples were lost."""

import perf_event_data as ped

# A LOST_SAMPLES record: eight samples were lost.
data = bytes([13, 0, 0, 0, 0, 0, 16, 0, 8, 0, 0, 0, 0, 0, 0, 0])
for frame in ped.Frames(data):
    print(frame.fields["lost"], "lost")
