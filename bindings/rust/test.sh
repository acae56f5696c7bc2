#!/bin/sh
# Checks this crate over an archive, in a target folder of its own:
#
#     ./test.sh FOLDER [UPSTREAM]
#
# FOLDER contains the archive (README.md). With UPSTREAM, a folder with the texts of the original, its
# public tests run too. With LINTS=no in the environment the layout, the lints and the pages are left
# out, which may differ from one release of Rust to another. Nothing is fetched, and nothing is left in
# this folder. The status is 0 if nothing failed.
set -eu
if [ $# -lt 1 ] || [ ! -d "$1" ]; then
    echo "usage: $0 FOLDER [UPSTREAM]" >&2
    exit 2
fi
PERF_EVENT_DATA_LIB_DIR=$(realpath "$1")
upstream=${2:+$(realpath "$2")}
cd "$(dirname "$0")"
CARGO_TARGET_DIR=$(mktemp -d)
export PERF_EVENT_DATA_LIB_DIR CARGO_TARGET_DIR
lock=
[ -e Cargo.lock ] || lock=Cargo.lock
trap 'rm -rf "$CARGO_TARGET_DIR" $lock' EXIT
if [ "${LINTS:-}" != no ]; then
    cargo fmt --check
    cargo clippy --offline --quiet --all-targets -- -D warnings
    RUSTDOCFLAGS="-D warnings" cargo doc --offline --quiet --no-deps --document-private-items
fi
cargo test --offline --quiet
cargo build --offline --quiet --example perfrec
../words_test.sh "$CARGO_TARGET_DIR/debug/examples/perfrec"
if command -v python3 >/dev/null; then
    ../streams.py list 1 200 >"$CARGO_TARGET_DIR/list"
    PERF_EVENT_DATA_CASES=$CARGO_TARGET_DIR/list cargo test --offline --quiet --test replay other
    ./upstream_tests.py ${upstream:+"$upstream"}
else
    echo "skipped: generated streams${upstream:+, tests of the original}: no python3"
fi
