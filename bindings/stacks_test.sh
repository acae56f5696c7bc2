#!/usr/bin/env bash
# Tests what an example does with folded stacks: bindings/stacks_test.sh
#
# examples/symbolize.sh finds functions of a program that is compiled here, and of a table of symbols that is written here.
set -eu
examples=$(cd "$(dirname "$0")/../examples" && pwd)
work=$(mktemp -d)
trap 'rm -rf "$work"' EXIT
export LC_ALL=C

if command -v cc >/dev/null && command -v readelf >/dev/null && command -v addr2line >/dev/null; then
    echo 'int inner(int n) { return n + 1; } int main(void) { return inner(2); }' >"$work/of.c"
    cc -g -O0 -o "$work/of+it" "$work/of.c"
    cp "$work/of+it" "$work/of"
    at() { nm "$work/of" | awk -v name="$1" '$2 == "T" && $3 == name { sub(/^0+/, "", $1); print $1 }'; }
    printf 'sh;of+0x%s;of+0x%s;0xffffffff81000010_[k] 3\nof+0x1;no+0x1 2;[unknown] 7\n' "$(at main)" "$(at inner)" |
        "$examples/symbolize.sh" <(printf 'ffffffff81001000 T after\nffffffff81000000 T first\n') "$work/of" >"$work/found"
    printf 'sh;main;inner;first_[k] 3\nof+0x1;no+0x1 2;[unknown] 7\n' | diff - "$work/found"
else
    echo "skipped: symbolize.sh: no cc, readelf and addr2line"
fi
