#!/usr/bin/env bash
# Folds a recording of 4,000 mappings and 4,000 forks of forks, and one of four times as many: bindings/forks_test.sh PROGRAM
#
# Each mapping must be found in each process that inherits it. Allowed are 64 bytes of memory for each byte of the file, one
# second of processor time for the smaller one, and for the larger one eight, so that what grows by the square fails.
set -eu
program=$(realpath "$1")
cd "$(dirname "$0")"
work=$(mktemp -d)
trap 'rm -rf "$work"' EXIT
run() {
    (
        ulimit -v $((64 * $(stat -c %s "$work/file") / 1024 + 16384))
        ulimit -t "$1"
        exec "$program" "${@:2}" "$work/file"
    )
}
for limits in '4000 1' '16000 8'; do
    read -r count seconds <<<"$limits"
    python3 forks.py "$count" "$work/file" "$work/lines"
    run "$seconds" fold | cmp - "$work/lines"
    samples=$(awk '{ sum += $NF } END { print sum }' "$work/lines")
    [ "$(run "$seconds" script | wc -l)" = "$samples" ]
done
