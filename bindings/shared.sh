#!/bin/sh
# Makes a shared object of an archive, which shows ped_* alone: shared.sh ARCHIVE FOLDER NAME. Its symbols have the
# version at the end of NAME, as PED_1 of libNAME.so.1. If the archive is not position independent, it prints that,
# and FOLDER stays empty.
set -u
archive=$1 folder=$2 name=$3
rm -rf "$folder"
mkdir -p "$folder" || exit 1
map=$(mktemp) log=$(mktemp)
trap 'rm -f "$map" "$log"' EXIT
echo "PED_${name##*.} { global: ped_*; local: *; };" >"$map"
if ${CC:-cc} -shared -Wl,-soname,"$name" -Wl,--version-script="$map" -Wl,-z,text -Wl,-z,defs -Wl,-z,now -s \
    -o "$folder/$name" -Wl,--whole-archive "$archive" -Wl,--no-whole-archive >"$log" 2>&1; then
    exit 0
fi
rm -f "$folder/$name"
if grep -qE 'fPIC|fPIE|read-only segment' "$log"; then
    echo "no shared object, so none for Python either: $archive is not position independent"
    exit 0
fi
rm -rf "$folder"
undefined=$(sed -n 's/.*undefined reference to .\([A-Za-z0-9_]*\).*/\1/p' "$log" | sort -u | tr '\n' ' ')
if [ -n "$undefined" ]; then
    echo "no shared object: $archive needs symbols that the C library does not have: $undefined" >&2
else
    cat "$log" >&2
fi
exit 1
