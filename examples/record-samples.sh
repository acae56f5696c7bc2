#!/bin/sh
# Makes a recording of samples with many fields like the bundled one, and all texts about it.
#
#     examples/record-samples.sh FOLDER
#
# This creates FOLDER, which must not exist yet, and leaves the file perf.data in it too. It needs root, for physical
# addresses and the kernel's call chains, and perf, taskset, dd and awk, but no hardware counter. The recording contains
# nothing of the caller's environment or folder.
#
# - One event, so one attribute: page faults, which have an address (-d). With a frequency (-F) each sample has a period
#   of its own; with a fixed period (-c) and a period in the samples (-P) the kernel makes each fault a sample.
# - All on processor 1, so that the samples are in the file in the order of their times, which is the order in which
#   `perf report -D` prints, and their processor is not zero.
# - Some registers of the program, and up to 64 bytes of its stack (--call-graph dwarf,64), so that the call chains are
#   only the kernel's; some registers at the interrupt (-I); raw bytes (-R), which for a fault are four zeros; everything
#   else that the kernel accepts for a software event.
# - The commands: two programs, and one that makes the kernel write to memory that was never touched, so that the kernel
#   itself faults.

set -eu
here=$(cd "$(dirname "$0")" && pwd)
mkdir "$1"
cd "$1"

clean() {
    env -i PATH=/usr/bin:/bin LC_ALL=C TZ=UTC "$@"
}

clean taskset -c 1 \
    perf record -q -B -o perf.data -e page-faults -F 30000 \
    --call-graph dwarf,64 --user-regs=ax,bp,sp,ip,r9 -Iip,sp,flags,r15 -R \
    -d --phys-data --data-page-size --code-page-size --weight --transaction --all-cgroups \
    --sample-cpu --sample-identifier -- \
    sh -c 'ls /
        date
        dd if=/dev/zero of=/dev/null bs=400k count=1' > /dev/null 2>&1

"$here/perf-data-to-stream.sh" perf.data > samples.stream

# The fields of each sample as perf read them, without the bytes and without what it concludes from them.
clean perf report -i perf.data -D > all.txt
awk '/: PERF_RECORD_SAMPLE\(/ { keep = 1 } /^ \.\.\. thread: / { keep = 0 } keep' all.txt > samples.dump.txt
rm all.txt
clean perf report -i perf.data --stats > samples.stats.txt
awk -f "$here/samples.awk" samples.dump.txt > samples.expected
awk -f "$here/sample-fields.awk" samples.dump.txt > samples.fields
