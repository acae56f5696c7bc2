#!/bin/sh
# Installs and packs the library in folders of its own, and builds and runs programs over the copies, which are
# outside the repository and need no network:
#
#     bindings/install_test.sh ARCHIVE [VARIABLE=VALUE ..]
#
# ARCHIVE is libperf_event_c.a, which `rt lib` makes in crates/perf_event_c; variables are those of the Makefile.
# A line is what passed, failed or was skipped; the status is 0 if nothing failed.
set -u
if [ $# -lt 1 ] || [ ! -f "$1" ]; then
    echo "usage: bindings/install_test.sh ARCHIVE [VARIABLE=VALUE ..]" >&2
    exit 2
fi
. "$(dirname "$0")/try.sh"
prefix=$work/usr

package() {
    PKG_CONFIG_PATH=$prefix/lib/pkgconfig pkg-config "$@" perf_event_data
}

# Builds the first program: build OUTPUT LIBRARIES COMPILER WORDS.
build() {
    output=$1 libraries=$2
    shift 2
    # the words that pkg-config returns are several
    try "$what: build $output" "$@" $pie -Wall -Wextra -Wpedantic -Werror $(package --cflags) \
        -o "$work/$output" "$work/first.c" -x none $libraries
}

try_c() {
    static="$(package --variable=libdir)/libperf_event_data.a"
    build first_c "$static" cc -std=c99 && try_first "$what: run first_c" "$work/first_c"
    build first_cpp "$static" c++ -std=c++17 -x c++ && try_first "$what: run first_cpp" "$work/first_cpp"
    if [ -n "$shared" ]; then
        build first_shared "$(package --libs)" cc -std=c99 &&
            try_first "$what: run first_shared" env LD_LIBRARY_PATH="$prefix/lib" "$work/first_shared"
    fi
}

try_python() {
    if [ -z "$shared" ]; then
        skip "$what: Python, as there is no shared object"
    elif ! command -v python3 >/dev/null; then
        skip "$what: Python: no python3"
    else
        try_first "$what: run first.py" env PYTHONPATH="$prefix/share/perf_event_data/python" \
            python3 "$work/first.py"
    fi
}

# The programs over the copy in `prefix`.
try_copy() {
    try_c
    try_python
    crate=$prefix/share/perf_event_data/rust
    try_rust "$what: first.rs, the archive by pkg-config" PKG_CONFIG_PATH="$prefix/lib/pkgconfig"
    try_rust "$what: first.rs, the archive beside the crate" PKG_CONFIG=false
}

# Without a shared object the archive has its place in memory fixed, and so have programs over it.
check_shared() {
    shared=$(find "$prefix/lib" -name 'libperf_event_data.so.*')
    pie="" rust_pie=""
    if [ -z "$shared" ]; then
        pie=-no-pie rust_pie="-C relocation-model=static"
        skip "shared object: $(grep '^no shared object' "$work/install.log")"
        return
    fi
    others=$(nm -D --defined-only --with-symbol-versions "$shared" |
        awk -v of="@@PED_${shared##*.}" '$2 != "A" && ($3 !~ /^ped_/ || substr($3, index($3, "@")) != of) { print $3 }')
    [ -z "$others" ] && pass "the shared object shows ped_* alone, of the version PED_${shared##*.}" ||
        fail "the shared object shows $others"
}

check_version() {
    version=$(cat "$here/VERSION")
    found=$(package --modversion)
    [ "$found" = "$version" ] && pass "pkg-config: version $found" || fail "pkg-config: version $found, not $version"
    "$here/version_test.sh" >"$work/log"
    while read -r entry; do
        case $entry in
        passed:*) pass "${entry#passed: }" ;;
        skipped:*) skip "${entry#skipped: }" ;;
        *) fail "${entry#FAILED: }" ;;
        esac
    done <"$work/log"
}

check_licences() {
    for licence in LICENSE-APACHE LICENSE-MIT NOTICE kit/bitflags/LICENSE-MIT; do
        [ -s "$prefix/share/doc/perf_event_data/licences/$licence" ] && pass "licences: $licence" ||
            fail "licences: $licence is absent"
    done
}

# Compares what the other words print of a recording with the names of its tasks.
has_names() {
    of=$1
    shift
    "$@" <"$here/../examples/recording.stream" >"$work/names.found" 2>&1
    if grep '^[0-9]* [0-9]* is ' "$here/../crates/perf_uses/stdout" | cmp -s - "$work/names.found"; then
        pass "$of"
    else
        fail "$of: $(head -n 3 "$work/names.found")"
    fi
}

# Compares what the other words, with its path after them, print of a file of `perf record`, and of what it writes to a
# pipe, with how many samples each task has of each event: in the order of the first of each, or as that of `order`.
order=cat
has_counts() {
    of=$1
    shift
    for name in events machine group killed big-endian pipe; do
        expected=$name
        [ $name != big-endian ] || expected=events
        prints "$(awk -f "$here/../examples/count-samples.awk" "$here/../examples/$expected.time" | $order)" \
            "$of of $name.data" "$@" "$here/../examples/$name.data" <"$here/../examples/$name.data"
    done
}

# Builds a program of the folder `first`: build_page NAME.
build_page() {
    try "build $1.c" cc -std=c99 $pie -Wall -Wextra -Wpedantic -Werror $(package --cflags) -o "$work/$1" \
        "$here/first/$1.c" "$(package --variable=libdir)/libperf_event_data.a"
}

# The programs of docs/LINKING.md and of both README, over the copy in `prefix`.
try_pages() {
    build_page names && has_names "run names.c" "$work/names"
    build_page samples && has_counts "run samples.c" "$work/samples" &&
        has_counts "run samples.c at a pipe" sh -c 'cat | "$0"' "$work/samples"
    if [ -n "$shared" ] && command -v python3 >/dev/null; then
        has_names "run names.py" env PYTHONPATH="$prefix/share/perf_event_data/python" \
            python3 "$here/first/names.py" "$here/../examples/recording.stream"
        has_counts "run samples.py" env PYTHONPATH="$prefix/share/perf_event_data/python" \
            python3 "$here/first/samples.py"
    else
        skip "names.py and samples.py: no shared object, or no python3"
    fi
    if command -v cargo >/dev/null; then
        # by rising numbers of tasks and events
        order="sort -k2,2n -k4,4n"
        build_rust "$here/first/samples.rs" samples.rs PKG_CONFIG=false &&
            has_counts "run samples.rs" "$work/target/debug/first"
        rm -rf "$work/target"
    else
        skip "samples.rs: no cargo"
    fi
}

# With DESTDIR no file may name the folder where it is for now.
check_destdir() {
    make_quietly install PREFIX=/usr DESTDIR="$work/staged" "$@" >"$work/log" 2>&1 || {
        fail "install with DESTDIR"
        return
    }
    if [ -f "$work/staged/usr/lib/libperf_event_data.a" ] && ! grep -rqI "$work" "$work/staged"; then
        pass "install with DESTDIR"
    else
        fail "install with DESTDIR: a file is absent, or names that folder"
    fi
}

make_quietly install PREFIX="$prefix" "$@" >"$work/install.log" 2>&1 || {
    cat "$work/install.log"
    exit 1
}
what=installed
check_shared
check_version
check_licences
try_copy
try_pages
check_destdir "$@"

try "pack" make_quietly dist "$@"
mkdir "$work/elsewhere"
tar -C "$work/elsewhere" -xzf "$work"/out/*.tar.gz
mv "$work"/out/*.tar.gz "$work/first.tar.gz"
rm -rf "$work/usr" "$work/staged" "$work/out"
prefix=$(echo "$work"/elsewhere/*)
what=unpacked
try_copy
make_quietly dist "$@" >/dev/null 2>&1
cmp -s "$work"/out/*.tar.gz "$work/first.tar.gz" && pass "the package is the same each time" ||
    fail "the package differs from one time to the next"
ends
