#!/bin/sh
# Copies the archive that is to be installed: archive.sh ARCHIVE COPY. It has to need nothing but the C library and
# the compiler's own. NM is the `nm` for its machine.
set -u
archive=$1 copy=$2 nm=${NM:-nm}
defined=$(mktemp) || exit 1
trap 'rm -f "$defined"' EXIT

"$nm" --defined-only "$archive" 2>/dev/null | awk 'NF == 3 { print $3 }' | sort -u >"$defined"
needed=$("$nm" -u "$archive" 2>/dev/null | awk 'NF == 2 { print $2 }' | sort -u | comm -23 - "$defined" \
    | grep -vxE 'mem(cpy|move|set|cmp)|_GLOBAL_OFFSET_TABLE_|__[a-z0-9_]*' | tr '\n' ' ')
if [ -n "$needed" ]; then
    echo "$archive needs what neither it nor the C library has: $needed" >&2
    exit 1
fi
mkdir -p "$(dirname "$copy")" && rm -f "$copy" && cp "$archive" "$copy"
