#!/bin/sh
# Runs the tests of all faces over an archive, at the top of the repository: bindings/gate.sh [ARCHIVE]
#
# Without ARCHIVE it makes one by each of the kit's two compilers over the libraries that `rt ci` proved,
# of which the second is for C and C++ alone, and one for arm64 and one for WebAssembly, if their tools are
# here. A line says of each test whether it passed, failed or was skipped, and its seconds of processor time; what a
# test skipped, or what of it failed and the end of what it printed, follows it, indented. The status is 0 if none
# failed. No network is needed, and nothing is left in the repository.
set -u
top=$(cd "$(dirname "$0")/.." && pwd)
cd "$top" || exit 2
work=$(mktemp -d) || exit 2
trap 'rm -rf "$work"' EXIT
trap 'exit 1' INT TERM
status=0
# Leaks cannot be looked for where no process may be traced.
export CARGO_NET_OFFLINE=true PYTHONDONTWRITEBYTECODE=1 ASAN_OPTIONS=detect_leaks=0 LINTS=no

# The first of these tools that is absent, if one is.
absent() {
    for tool in "$@"; do
        command -v "$tool" >/dev/null || {
            echo "$tool"
            return
        }
    done
}

# Sets `took` to the seconds of processor time since it was last called.
spent=0
count_time() {
    # (the second line is the time of all children, as 1m2.3s 0m4.5s)
    times >"$work/times"
    took=$(awk -F '[ms ]+' -v before=$spent 'NR == 2 { print int(60 * $1 + $2 + 60 * $3 + $4) - before }' "$work/times")
    spent=$((spent + took))
}

# A test, for which tools are needed: face NAME TOOLS COMMAND WORD..
face() {
    name=$1 tools=$2
    shift 2
    # the tools are several words
    missing=$(absent $tools)
    if [ -n "$missing" ]; then
        echo "skipped: $name: no $missing"
    elif timeout 900 "$@" >"$work/log" 2>&1 </dev/null; then
        count_time
        echo "passed: $name ($took seconds)"
        grep '^skipped' "$work/log" | sed 's/^/    /'
    else
        count_time
        echo "FAILED: $name ($took seconds)"
        grep '^FAILED' "$work/log" | sed 's/^/    /'
        tail -n 20 "$work/log" | sed 's/^/    | /'
        status=1
    fi
}

# A Python that has numpy, if one has it: that of the system has Debian's.
python_with_numpy() {
    for python in python3 /usr/bin/python3; do
        "$python" -c 'import numpy' >/dev/null 2>&1 && break
    done
    command -v "$python" || echo python3
}

python_face() {
    if ! make -s -C bindings shared OUT="$work/out" ARCHIVE="$archive" >"$work/log" 2>&1; then
        echo "FAILED: Python: no shared object"
        tail -n 20 "$work/log" | sed 's/^/    | /'
        status=1
        return
    fi
    shared=$(find "$work/out/shared" -name 'libperf_event_data.so.*' 2>/dev/null)
    if [ -z "$shared" ]; then
        echo "skipped: Python: $(tail -n 1 "$work/log")"
        return
    fi
    perfrec=crates/perfrec/out/perfrec
    [ -x $perfrec ] || perfrec=
    face "Python" "python3" env PERF_EVENT_DATA_SO="$shared" \
        "$(python_with_numpy)" bindings/python/test.py $perfrec
}

# C and the package for arm64, whose programs run under qemu.
arm_faces() {
    arm_archive=$work/$arm/libperf_event_c.a
    if [ -z "$(absent $arm_tools)" ] && [ ! -f "$arm_archive" ]; then
        echo "skipped: arm64: no archive for it"
        return
    fi
    face "C on arm64" "$arm_tools" env CROSS=aarch64-linux-gnu- RUN=qemu-aarch64-static TESTED="$tested" \
        bindings/test.sh "$arm_archive" crates
    face "package for arm64" "$arm_tools pkg-config tar gzip" bindings/arm_test.sh "$arm_archive"
}

# The package for JavaScript, over a module for WebAssembly.
js_face() {
    perfrec=crates/perfrec/out/perfrec
    [ -x $perfrec ] && perfrec=$PWD/$perfrec || perfrec=
    if [ -z "$(absent $js_tools)" ] && [ ! -f "$work/$wasm/libperf_event_c.a" ]; then
        echo "skipped: JavaScript: no archive for $wasm"
    else
        face "JavaScript" "$js_tools" env PERF_EVENT_DATA_SO="${shared:-}" MODULES="$work/modules" \
            bindings/js/test.sh "$work/$wasm/libperf_event_c.a" "$perfrec"
    fi
}

# The page that opens recordings, over the same module, in a browser if there is one.
web_face() {
    if [ -z "$(absent $js_tools)" ] && [ ! -f "$work/$wasm/libperf_event_c.a" ]; then
        echo "skipped: the page: no archive for $wasm"
    else
        [ -x $shows ] && program=$shows || program=
        [ -f "$work/modules/wide_module.mjs" ] && modules=$work/modules || modules=
        face "the page" "$js_tools" env MODULES="$modules" \
            bindings/web/test.sh "$work/$wasm/libperf_event_c.a" $program
    fi
}

replay=crates/perf_replay/out/perf_replay
if [ -x $replay ]; then
    face "lying counts and sizes, in 128 MiB" "python3 timeout" bindings/lies_test.sh $replay
else
    echo "skipped: lying counts and sizes: no proved perf_replay"
fi
shows=crates/perf_data/out/perf_data
if [ -x $shows ]; then
    face "words of perf_data, and damaged files" "dd" bindings/file_words_test.sh $shows
    face "folding by workers of Dask" "timeout" bindings/fleet_test.sh $shows
    face "mappings of forks of forks" "python3 awk cmp" bindings/forks_test.sh $shows
else
    echo "skipped: words of perf_data: no proved perf_data"
fi
# The machines besides this one for which all tools are here.
arm=aarch64-unknown-linux-gnu
arm_tools="aarch64-linux-gnu-gcc aarch64-linux-gnu-nm qemu-aarch64-static cc make nm"
targets=
[ -n "$(absent $arm_tools)" ] || targets=$arm
wasm=wasm64-unknown-unknown
js_tools="node npm wasm-opt make tar python3"
[ -n "$(absent $js_tools)" ] || targets="$targets $wasm"
mkdir "$work/llvm" || exit 2
archive=$work/llvm/libperf_event_c.a
second=$work/rattle/libperf_event_c.a
if [ $# -gt 0 ]; then
    cp "$1" "$archive" || exit 2
elif [ -n "$(absent python3)" ]; then
    echo "skipped: the faces: no python3"
    exit $status
elif python3 bindings/gate_archive.py "$work" x86_64-unknown-linux-gnu $targets >"$work/log" 2>&1 </dev/null; then
    cat "$work/log"
    count_time
    echo "archives: $took seconds of processor time"
else
    echo "skipped: the faces: $(head -n 1 "$work/log")"
    tail -n +2 "$work/log"
    exit $status
fi
face "names of functions in folded stacks" "awk sed" bindings/stacks_test.sh
# The proved programs are tested by the first alone of the tests of C, if it runs.
tested=$([ -n "$(absent cc c++ make nm)" ] || echo yes)
face "C and C++" "cc c++ make nm" env OBJECTS="$work/objects" bindings/test.sh "$archive" crates
if [ -f "$second" ]; then
    face "C and C++, over the archive of the kit's second compiler" "cc c++ make nm" \
        env OBJECTS="$work/objects" TESTED="$tested" bindings/test.sh "$second" crates
fi
face "Rust" "cc cargo" bindings/rust/test.sh "$work/llvm"
if [ -z "$(absent cc make python3)" ]; then
    python_face
else
    echo "skipped: Python: no $(absent cc make python3)"
fi
arm_faces
js_face
web_face
face "packages" "cc c++ make nm pkg-config tar gzip python3" bindings/install_test.sh "$archive"
face "wheel" "cc make readelf python3" bindings/packages_test.sh wheel "$archive"
face "package for Cargo" "cc make cargo git" bindings/packages_test.sh crate "$archive"
face "package for CMake" "cc c++ make cmake" bindings/packages_test.sh cmake "$archive"
face "packages for Debian" "cc make dh dh_python3 dpkg lintian pkg-config python3" \
    bindings/packages_test.sh deb "$archive"
face "manual pages and completion" "make python3 bash groff" bindings/packages_test.sh programs "$archive"
exit $status
