#!/bin/sh
# Collects the licences of what is installed: licences.sh FOLDER KIT. They are those of this repository, and those
# of the kit's crates that crates.txt names below the library for C.
set -u
folder=$1 kit=$2
here=$(cd "$(dirname "$0")" && pwd)
top=$here/..
[ -d "$kit/rattle" ] || {
    echo "KIT=$kit is no folder of the kit, which has the licences of its crates" >&2
    exit 1
}

# The crates below the one named, which have no line of their own.
kits_crates() {
    awk -v start="$1" '
        function visit(name, i, count, names) {
            if (name in seen) return
            seen[name] = 1
            if (!(name in below)) { print name; return }
            count = split(below[name], names, " ")
            for (i = 1; i <= count; i++) visit(names[i])
        }
        /^[a-z]/ { split($0, halves, ":"); split(halves[1], words, " "); below[words[1]] = halves[2] }
        END { visit(start) }' "$top/crates.txt" | sort
}

library=perf_event_c
grep -q "^$library[ :]" "$top/crates.txt" || library=perf_flat
rm -rf "$folder"
mkdir -p "$folder/kit" || exit 1
cp "$top"/LICENSE* "$here"/NOTICE "$folder" || exit 1
for crate in $(kits_crates $library); do
    for licence in "$kit/rattle/$crate"/LICENSE*; do
        [ -f "$licence" ] || continue
        mkdir -p "$folder/kit/$crate" && cp "$licence" "$folder/kit/$crate/" || exit 1
    done
done
