#!/bin/sh
# Makes the WebAssembly modules of an archive for wasm64-unknown-unknown: module.sh ARCHIVE KIT FOLDER. The memory of one is
# lowered to 32 bits by wasm-opt, so that it needs no more than browsers and Node 18 have, and is in the text of
# FOLDER/module.mjs; that of the other, in wide_module.mjs, has 64.
set -eu
archive=$1 kit=$2 folder=$3
work=$(mktemp -d)
trap 'rm -rf "$work"' EXIT
# the calls need less than 16 kB of stack, which bindings/c/guard.c tries
"$kit/bin/rattle-link" --target wasm64-unknown-unknown --toolchain "$kit/toolchain" --stack 65536 \
    -o "$work/wide.wasm" "$archive" 2>"$work/log" || {
    cat "$work/log" >&2
    exit 1
}
node "$(dirname "$0")/without_table.mjs" "$work/wide.wasm" >"$work/plain.wasm"
wasm-opt --enable-memory64 --enable-bulk-memory --memory64-lowering -o "$work/module.wasm" "$work/plain.wasm"
mkdir -p "$folder"
write() {
    echo '// Made of the proved library by module.sh: a WebAssembly module, in base64.'
    echo "export const MODULE = \"$(base64 -w 0 "$1")\";"
}
write "$work/module.wasm" >"$folder/module.mjs"
write "$work/plain.wasm" >"$folder/wide_module.mjs"
