#!/bin/sh
# Makes a recording like the bundled one, and all texts about it.
#
#     examples/record.sh FOLDER
#
# This creates FOLDER, which must not exist yet, and leaves the file perf.data in it too. It needs root, for `unshare`,
# and perf, taskset, unshare (util-linux), xz and awk, but no hardware counter. The recording contains nothing of the
# caller's environment or folder.
#
# - One event, so one attribute: context switches, each of them a sample, with its call chain (-g).
# - All on processor 0, so that all records except READ are in the file in the order of their times, which is the order
#   in which `perf script` prints.
# - READ records by -s, SWITCH by --switch-events, NAMESPACES by --namespaces. The sample id has pid and tid, time, cpu
#   (--sample-cpu) and identifier (--sample-identifier).
# - The commands: two programs, a pipeline with threads, a program in a UTS namespace of its own, a shell that renames
#   itself, and a sleep.

set -eu
here=$(cd "$(dirname "$0")" && pwd)
mkdir "$1"
cd "$1"

clean() {
    env -i PATH=/usr/bin:/bin LC_ALL=C TZ=UTC "$@"
}

clean taskset -c 0 \
    perf record -q -B -o perf.data -e context-switches -c 1 -g -s \
    --sample-cpu --sample-identifier --switch-events --namespaces -- \
    sh -c 'ls /
        date
        head -c 300000 /dev/zero | xz -T2 --block-size=100000 | wc -c
        unshare --uts true
        printf renamed > /proc/self/comm
        sleep 0.1' > /dev/null

"$here/perf-data-to-stream.sh" perf.data > recording.stream

# Only the lines of samples are left out.
clean perf script -i perf.data -G --ns --show-task-events --show-mmap-events --show-namespace-events > all.txt
grep -v ' context-switches: ' all.txt > recording.script.txt
rm all.txt
clean perf report -i perf.data --stats > recording.stats.txt
awk -f "$here/expected.awk" recording.script.txt > recording.expected

# The fields of each sample as perf read them, without the bytes and without what it concludes from them.
clean perf report -i perf.data -D > all.txt
awk '/: PERF_RECORD_SAMPLE\(/ { keep = 1 } /^ \.\.\. thread: / { keep = 0 } keep' all.txt > recording.dump.txt
rm all.txt
awk -v absent=period,addr -f "$here/samples.awk" recording.dump.txt > recording.samples
