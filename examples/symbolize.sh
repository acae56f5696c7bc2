#!/usr/bin/env bash
# Puts the names of functions in the place of offsets and of the kernel's addresses:
#
#     perf_data fold perf.data | examples/symbolize.sh KALLSYMS FILE .. | perf_data flame --folded -
#
# FILE .. are the programs and libraries that ran, with their symbols: a frame NAME+0xOFFSET is looked up in the one whose
# last part is NAME. KALLSYMS is a copy of the /proc/kallsyms of the kernel that ran, read by root. What is not found stays.
set -eu
[ $# -gt 0 ] || { echo "usage: examples/symbolize.sh KALLSYMS FILE .. <LINES" >&2; exit 2; }
export LC_ALL=C
work=$(mktemp -d)
trap 'rm -rf "$work"' EXIT
cat >"$work/lines"
sed 's/ [0-9]*$//; s/;/\n/g' "$work/lines" | sort -u >"$work/frames"

# The frames of the kernel and its symbols in one order, by 16 digits.
symbols=$1
shift
{
    awk '{ print $1, 1, $3 }' "$symbols"
    sed -n 's/^0x\([0-9a-f]*\)_\[k\]$/0000000000000000\1/p' "$work/frames" | awk '{ print substr($1, length($1) - 15), 2 }'
} | sort | awk '$2 == 1 { name = $3 } $2 == 2 && name != "" { sub(/^0+/, "", $1); print "0x" $1 "_[k]\t" name "_[k]" }' >"$work/names"

# An offset in a file is an address by the part that is loaded from there.
for file in "$@"; do
    name=${file##*/}
    grep -F -- "$name+0x" "$work/frames" | grep -E "^[^+]*\+0x[0-9a-f]+$" >"$work/here" || continue
    read -r _ from to _ < <(readelf -lW "$file" | grep -E '^ *LOAD.* R?W? ?E ') || from=0 to=0
    while read -r frame; do
        printf '0x%x\n' $((${frame##*+} - from + to))
    done <"$work/here" | addr2line -fCe "$file" | awk 'NR % 2' | paste "$work/here" - | grep -v '??$' >>"$work/names" || true
done
awk -F '\t' 'NR == FNR { gsub(/;/, "_", $2); names[$1] = $2; next }
    { count = $0; sub(/.* /, "", count); frames = split(substr($0, 1, length($0) - length(count) - 1), frame, ";"); line = ""
      for (i = 1; i <= frames; i++) line = line (i == 1 ? "" : ";") ((frame[i] in names) ? names[frame[i]] : frame[i])
      print line, count }' "$work/names" "$work/lines"
