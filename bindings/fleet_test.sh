#!/usr/bin/env bash
# Folds recordings by two workers of Dask, and compares the sum with that of one process: bindings/fleet_test.sh PROGRAM
set -eu
program=$(realpath "$1")
cd "$(dirname "$0")/../examples"
work=$(mktemp -d)
trap 'rm -rf "$work"' EXIT
for python in python3 /usr/bin/python3 ''; do
    [ -z "$python" ] || ! "$python" -c 'import distributed' 2>/dev/null || break
done
if [ -z "$python" ]; then
    echo "skipped: fleet.py: no Python with distributed (Debian's python3-distributed)"
    exit 0
fi
# (of ten files, so that sums are added up too)
files=(events.data group.data machine.data events.data 127.0.0.1:machine.data events.data group.data events.data pipe.data events.data)
count=0
for file in "${files[@]}"; do
    count=$((count + 1))
    "$program" fold "${file#*:}" >"$work/$count" || [ $? = 1 ]
done
"$program" fold --merge "$work"/* >"$work/wanted"
[ -s "$work/wanted" ]
timeout 120 "$python" fleet.py --program "$program" "${files[@]}" 2>"$work/said" | cmp - "$work/wanted" || {
    cat "$work/said"
    exit 1
}
# A file that is no recording ends it with what the program says of it.
! timeout 120 "$python" fleet.py --program "$program" events.data fold.awk >"$work/none" 2>"$work/said"
grep -q 'fold.awk: ' "$work/said"
[ ! -s "$work/none" ]
