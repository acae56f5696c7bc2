#!/bin/sh
# Checks that all files name the version that is in bindings/VERSION, and one version of the structs. A file that
# is absent is skipped. The status is 0 if all agree.
set -u
here=$(cd "$(dirname "$0")" && pwd)
top=$here/..
version=$(cat "$here/VERSION")
status=0

# What a pattern finds in a file: agrees NAME EXPECTED FILE SED-PATTERN.
agrees() {
    if [ ! -f "$3" ]; then
        echo "skipped: $1: ${3#"$here/"} is absent"
        return
    fi
    found=$(sed -n "$4" "$3" | head -n 1)
    if [ "$found" = "$2" ]; then
        echo "passed: $1: $2"
    else
        echo "FAILED: $1: '$found', not $2"
        status=1
    fi
}

header=$here/c/perf_event_data.h
echo "$version" | grep -qxE '[0-9]+\.[0-9]+\.[0-9]+' || {
    echo "FAILED: bindings/VERSION: '$version' is no version"
    status=1
}
agrees "version in pkg-config" @VERSION@ "$here/perf_event_data.pc.in" 's/^Version: //p'
agrees "version in Cargo.toml" "$version" "$here/rust/Cargo.toml" 's/^version = "\(.*\)"$/\1/p'
agrees "version in Python" "$version" "$here/python/perf_event_data.py" 's/^__version__ = "\(.*\)"$/\1/p'
agrees "version in package.json" "$version" "$here/js/package.json" 's/^  "version": "\(.*\)",$/\1/p'
agrees "version in JavaScript" "$version" "$here/js/perf_event_data.mjs" 's/^export const VERSION = "\(.*\)";$/\1/p'
agrees "version in CHANGELOG" "$version" "$top/CHANGELOG.md" 's/^## \([0-9][0-9.]*[0-9]\).*/\1/p'
agrees "version in the header" "$version" "$header" 's/^#define PED_RELEASE "\(.*\)"$/\1/p'

structs=$(sed -n 's/^STRUCT_VERSION = \([0-9]*\).*/\1/p' "$here/python/perf_event_data.py")
agrees "structs in the header" "$structs" "$header" 's/^#define PED_VERSION \([0-9]*\).*/\1/p'
agrees "structs in the library" "$structs" "$top/crates/perf_flat/src/config.rt" \
    's/^pub const CONFIG_VERSION: u32 = \([0-9]*\);/\1/p'
agrees "structs in JavaScript" "$structs" "$here/js/config.mjs" \
    's/^export const STRUCT_VERSION = \([0-9]*\);$/\1/p'
agrees "structs in Rust" "$structs" "$here/rust/src/ffi.rs" 's/.*const [A-Z_]*VERSION: u32 = \([0-9]*\);/\1/p'
exit $status
