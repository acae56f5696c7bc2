#!/bin/sh
# Makes files of `perf record` like the bundled ones, and what their lines in `perf_data` are.
#
#     examples/record-events.sh FOLDER
#
# This creates FOLDER, which must not exist yet. It needs root, perf, taskset, unshare and python3, but no hardware
# counter. The recordings contain nothing of the caller's environment or folder.
#
# - events: three events of the kernel's software, each with a period of its own, and one with call chains: so their
#   samples have unlike fields, and perf adds an identifier to each frame. They are recorded on two processors, so that
#   the frames are not in the order of their times.
# - pipe: the same events, as perf writes them to its standard output.
# - machine: all processors, for which perf adds the event `dummy`. That has no frequency, so its fields lack the period
#   of the other event. Only processes of a new PID namespace have a number and a name: samples of others have 0.
# - group: samples of the first event that contain the counts of both. The events have the same fields, so that perf
#   adds an ID, at another place than an identifier.
# - killed: a file whose perf was killed, by the command that it recorded. The ID is not the last part of a sample id.

set -eu
here=$(cd "$(dirname "$0")" && pwd)
mkdir "$1"
cd "$1"

clean() {
    env -i PATH=/usr/bin:/bin LC_ALL=C TZ=UTC "$@"
}

three_events() {
    clean taskset -c 0,1 \
        perf record -q -B -o "$1" -e task-clock/period=2000000/ -e page-faults/period=7,call-graph=fp/ \
        -e context-switches/period=1/ --namespaces -- \
        sh -c 'ls / >/dev/null
        date > /dev/null
        sleep 0.01 & wait'
}

three_events events.data
three_events - > pipe.data

clean unshare --pid --fork --mount-proc \
    perf record -q -B -o machine.data -a -e cpu-clock/freq=1000/ -- \
    sh -c 'ls / > /dev/null
        sleep 0.01'

clean taskset -c 0,1 \
    perf record -q -B -o group.data -e '{task-clock,page-faults}:S' -c 250000 -- ls -l /usr/bin > /dev/null

clean taskset -c 0,1 \
    perf record -q -B -o killed.data -e page-faults,context-switches -c 3 --sample-cpu --no-buffering -- \
    sh -c 'ls / > /dev/null
        sleep 0.1
        kill -KILL $PPID' || [ $? -eq 137 ]

# perf refuses a file whose data have the size 0: in this copy they have the size of what is left.
python3 -c "
data = bytearray(open('killed.data', 'rb').read())
data[48:56] = (len(data) - int.from_bytes(data[40:48], 'little')).to_bytes(8, 'little')
open('mended.data', 'wb').write(data)"

for name in events pipe machine group mended; do
    for what in events dump time; do
        "$here/perf-data-dump.py" $what $name.data > $name.$what
    done
done
for what in events dump time; do
    mv mended.$what killed.$what
done
rm mended.data
awk -f "$here/count-samples.awk" events.time > events.samples
fold() {
    perf script --ns -F comm,pid,tid,time,period,event,ip,dso -i "$1.data" | awk -v files="$2" -f "$here/fold.awk" | LC_ALL=C sort
}
for name in events pipe group; do
    perf script --ns -F comm,pid,tid,time,period,event,ip,dso -i $name.data > $name.script
done
perf script --ns -F comm,pid,tid,cpu,time,period,event,ip,dso -i machine.data > machine.script
fold events '' > events.folded
fold machine 1 > machine.files
fold group 1 > group.files
"$here/big-endian.py" events.data > big-endian.data
