#!/bin/sh
# Packs the library for arm64, and builds and runs the first programs over the unpacked copy, under qemu:
#
#     bindings/arm_test.sh ARCHIVE
#
# ARCHIVE is for aarch64-unknown-linux-gnu. A line is what passed, failed or was skipped; the status is 0 if nothing
# failed. No network is needed.
set -u
if [ $# -ne 1 ] || [ ! -f "$1" ]; then
    echo "usage: bindings/arm_test.sh ARCHIVE" >&2
    exit 2
fi
archive=$(realpath "$1")
here=$(cd "$(dirname "$0")" && pwd)
target=aarch64-unknown-linux-gnu
cross=aarch64-linux-gnu-
work=$(mktemp -d) || exit 2
trap 'rm -rf "$work"' EXIT
status=0
unset PERF_EVENT_DATA_LIB_DIR LD_LIBRARY_PATH MAKEFLAGS
export CARGO_NET_OFFLINE=true

pass() { echo "passed: $1"; }
fail() { status=1; echo "FAILED: $1"; }

pack() {
    make -s -C "$here" dist OUT="$work/out" TARGET=$target ARCHIVE="$archive" >"$work/log" 2>&1
}

package() {
    PKG_CONFIG_PATH=$prefix/lib/pkgconfig pkg-config "$@" perf_event_data
}

# Runs a program, which has to print `expected`: run NAME PROGRAM WORD..
run() {
    name=$1
    shift
    found=$(LD_LIBRARY_PATH=$prefix/lib qemu-aarch64-static -L /usr/aarch64-linux-gnu "$@" 2>&1)
    [ "$found" = "$expected" ] && pass "$name" || fail "$name: $found"
}

# Builds and runs one, with `words` after it: try NAME COMPILER WORD..
try() {
    name=$1
    shift
    if "$@" -o "$work/$name" >"$work/log" 2>&1; then
        # the words may be none
        run "$name" "$work/$name" $words
    else
        fail "build $name: $(tail -n 3 "$work/log")"
    fi
}

try_rust() {
    if ! command -v cargo >/dev/null || [ ! -d "$(rustc --print target-libdir --target $target 2>/dev/null)" ]; then
        echo "skipped: Rust: no standard library for $target"
        return
    fi
    mkdir -p "$work/rust/src" && cp "$here/first/first.rs" "$work/rust/src/main.rs"
    printf '[package]\nname = "first"\nversion = "0.1.0"\nedition = "2021"\n\n[dependencies]\n%s\n' \
        "perf-event-data = { path = \"$prefix/share/perf_event_data/rust\" }" >"$work/rust/Cargo.toml"
    PKG_CONFIG=false RUSTFLAGS="-C linker=${cross}gcc" CARGO_TARGET_DIR=$work/target \
        cargo build --offline --quiet --target $target --manifest-path "$work/rust/Cargo.toml" >"$work/log" 2>&1
    run first_rust "$work/target/$target/debug/first"
}

pack || {
    echo "FAILED: pack"
    cat "$work/log"
    exit 1
}
cp "$work"/out/*-$target.tar.gz "$work/first.tar.gz" && pass "pack: $(basename "$work"/out/*.tar.gz)"
mkdir "$work/elsewhere" && tar -C "$work/elsewhere" -xzf "$work/first.tar.gz" && rm -rf "$work/out"
prefix=$(echo "$work"/elsewhere/*)
objects=$("${cross}readelf" -h "$prefix"/lib/libperf_event_data.a "$prefix"/lib/libperf_event_data.so | grep -c 'Machine: *AArch64')
[ "$objects" -ge 2 ] && pass "the archive and the shared object are for arm64" || fail "not all is for arm64"
[ -f "$prefix/share/perf_event_data/rust/lib/$target/libperf_event_data.a" ] && pass "the archive beside the Rust crate" ||
    fail "no archive beside the Rust crate"
find "$prefix/share/perf_event_data/python" -name '*.py' | grep -q . && pass "the Python module" || fail "no Python module"
echo "skipped: Python: no python3 for arm64 is run here"

warnings="-Wall -Wextra -Wpedantic -Werror" expected="8 lost" words=
# the words that pkg-config returns are several
try first_c ${cross}gcc -std=c99 $warnings $(package --cflags) "$here/first/first.c" "$prefix/lib/libperf_event_data.a"
try first_shared ${cross}gcc -std=c99 $warnings "$here/first/first.c" $(package --cflags --libs)
if command -v ${cross}g++ >/dev/null; then
    try first_cpp ${cross}g++ -std=c++17 $warnings $(package --cflags) -x c++ "$here/first/first.c" -x none \
        "$prefix/lib/libperf_event_data.a"
else
    echo "skipped: first_cpp: no ${cross}g++"
fi
try_rust
expected=$(cat "$here/../examples/events.samples") words=$here/../examples/events.data
try samples ${cross}gcc -std=c99 $warnings $(package --cflags) "$here/first/samples.c" "$prefix/lib/libperf_event_data.a"
pack && cmp -s "$work"/out/*-$target.tar.gz "$work/first.tar.gz" && pass "the package is the same each time" ||
    fail "the package differs from one time to the next"
exit $status
