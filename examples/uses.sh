#!/usr/bin/env bash
# Makes what crates/perf_uses prints for recording.stream, from what perf reported of it.
#
#     examples/uses.sh > lines
#
# The program prints ten more lines, for bytes in its source, which are computed by hand.
set -eu
cd "$(dirname "$0")"

# The time of each sample.
awk '{ print "sample at " $1 }' recording.samples

# The number of records, and of samples.
awk '/TOTAL events:/ { total = $3 } /SAMPLE events:/ { samples = $3 }
    END { print total " frames, " samples " samples" }' recording.stats.txt

# Each call chain, the outermost call first, and the number of its samples.
awk '{
    stack = ""
    for (i = NF; i > 6; i--) {
        if ($i ~ /^0x/) stack = stack (stack == "" ? "" : ";") $i
    }
    print stack
}' recording.samples | LC_ALL=C sort | uniq -c | awk '{ print $1 " " $2 }'

# The file of each mapping.
awk '$1 == "mmap2" { print $2 " maps " $NF }' recording.expected

# When tasks got their names, and when they ended. Times there are in seconds, with nine decimals.
nanoseconds='function nanoseconds(seconds) {
    sub(/:$/, "", seconds)
    sub(/\./, "", seconds)
    return sprintf("%.0f", seconds)
}'
awk "$nanoseconds"' $5 ~ /^PERF_RECORD_COMM:?$/ {
    split($NF, parts, /[:\/]/)
    print nanoseconds($4) " " parts[3] " is " parts[1]
}' recording.script.txt
awk "$nanoseconds"' $5 ~ /^PERF_RECORD_EXIT/ {
    split($5, parts, /[(:)]/)
    print nanoseconds($4) " " parts[3] " ended"
}' recording.script.txt
