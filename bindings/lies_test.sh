#!/bin/sh
# Reads 1,000 generated streams whose counts and sizes lie, in 128 MiB of address space:
#
#     bindings/lies_test.sh PROGRAM
#
# PROGRAM is the proved perf_replay. Its text of each stream must be that of tools/answers/page.py, which
# is written from docs/FORMATS.md alone: a line for each frame, so a list that claims more than there is
# ends neither the run nor the program. 60 seconds are allowed. The last line is what PROGRAM prints.
set -u
if [ $# -ne 1 ] || [ ! -x "$1" ]; then
    echo "usage: bindings/lies_test.sh PROGRAM" >&2
    exit 2
fi
program=$(realpath "$1")
cd "$(dirname "$0")" || exit 2
work=$(mktemp -d) || exit 2
trap 'rm -rf "$work"' EXIT
python3 streams.py lies 1 1000 >"$work/list" || exit 2
(
    ulimit -v 131072 || exit 2
    exec timeout 60 "$program" <"$work/list"
) >"$work/log" 2>&1
status=$?
tail -n 5 "$work/log"
if [ $status -ne 0 ]; then
    echo "FAILED: status $status"
    exit 1
fi
tail -n 1 "$work/log" | grep -qx '1000 cases, 1000 answers, 0 differences'
