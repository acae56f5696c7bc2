#!/bin/sh
# Converts a stream that begins with an attribute to a file that `perf` reads.
#
#     stream-to-perf-data.sh recording.stream > perf.data
#
# It reverses perf-data-to-stream.sh, whose head has the file's layout: that script converts the file to the same stream
# again, byte for byte. So perf itself can report what a stream contains:
#
#     perf report -i perf.data -D
#
# The stream's records are unchanged. Before them come the head, the ids of the event, and the attribute with the place of
# the ids. The ids are those of the stream's ID_INDEX record (69), which perf wrote; without one there are none, and perf
# assigns each record to the one event. What perf records about the machine is not in a stream, and not in the file.
#
# Little endian. If the input is not such a stream, the output is not a valid perf.data. It needs `od`, `tr`, `awk` and
# `wc`.

set -eu
LC_ALL=C
export LC_ALL

if [ $# -ne 1 ]; then
    echo "usage: stream-to-perf-data.sh STREAM > PERF.DATA" >&2
    exit 2
fi
file=$1

# u64 NUMBER: the eight bytes of a number.
u64() {
    number=$1
    for place in 0 1 2 3 4 5 6 7; do
        printf "\\$(printf %03o $((number >> 8 * place & 255)))"
    done
}

total=$(($(wc -c < "$file")))
size=$(($(od -An -v -tu4 -j 4 -N 4 < "$file" | tr -d ' ')))
if [ "$size" -lt 64 ] || [ "$size" -gt "$total" ]; then
    echo "stream-to-perf-data.sh: $file: begins with no attribute" >&2
    exit 1
fi

# The ids, in decimal: the records are walked as words of four bytes.
ids=$(od -An -v -tu4 -w4 -j "$size" < "$file" | awk '
    { word[NR] = $1 }
    END {
        for (at = 1; at < NR; at += length_now) {
            length_now = int(word[at + 1] / 65536) / 4
            if (length_now < 2) exit 1
            if (word[at] != 69) continue
            for (k = 0; k < word[at + 2]; k++) printf "%.0f ", word[at + 4 + 8 * k] + word[at + 5 + 8 * k] * 4294967296
        }
    }')
count=$(echo "$ids" | wc -w)

entry=$((size + 16))
attribute=$((104 + 8 * count))
records=$((attribute + entry))
printf PERFILE2
for number in 104 $entry $attribute $entry $records $((total - size)) 0 0 0 0 0 0; do
    u64 "$number"
done
for number in $ids; do
    u64 "$number"
done
head -c "$size" < "$file"
u64 104
u64 $((8 * count))
tail -c +$((size + 1)) < "$file"
