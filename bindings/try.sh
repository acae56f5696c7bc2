# What the tests of installed copies share, which source it: the archive and the variables of the Makefile are their
# arguments. A line is what passed, failed or was skipped; `ends` is the last.
archive=$(realpath "$1")
shift
here=$(cd "$(dirname "$0")" && pwd)
work=$(mktemp -d) || exit 2
trap 'rm -rf "$work"' EXIT
passed=0
failed=0
skipped=0
unset PERF_EVENT_DATA_LIB_DIR PERF_EVENT_DATA_SO PYTHONPATH LD_LIBRARY_PATH MAKEFLAGS
export PYTHONDONTWRITEBYTECODE=1 CARGO_NET_OFFLINE=true
cp "$here"/first/first.* "$work" && cd "$work" || exit 2

pass() { passed=$((passed + 1)); echo "passed: $1"; }
fail() { failed=$((failed + 1)); echo "FAILED: $1"; }
skip() { skipped=$((skipped + 1)); echo "skipped: $1"; }

ends() {
    echo "$passed passed, $failed failed, $skipped skipped"
    [ $failed = 0 ]
}

# Runs the other words; what they print is shown if they fail.
try() {
    label=$1
    shift
    if "$@" >"$work/log" 2>&1; then
        pass "$label"
    else
        fail "$label"
        tail -n 20 "$work/log"
        return 1
    fi
}

# Runs the other words, which have to print a text: prints TEXT NAME WORDS.
prints() {
    text=$1 label=$2
    shift 2
    found=$("$@" 2>&1)
    if [ "$found" = "$text" ]; then
        pass "$label"
    else
        fail "$label: $found"
    fi
}

# Runs the other words, which have to print what the first programs print.
try_first() {
    prints "8 lost" "$@"
}

# Runs the other words, with the path of a file of `perf record` after them: they have to print how many samples each
# task has of each event.
try_samples() {
    label=$1
    shift
    prints "$(cat "$here/../examples/events.samples")" "$label" "$@" "$here/../examples/events.data"
}

make_quietly() {
    goal=$1
    shift
    make -s -C "$here" "$goal" OUT="$work/out" ARCHIVE="$archive" "$@"
}

# Builds a program over the crate in `crate`, which finds the archive by the words given, as "$work/target/debug/first":
# build_rust FILE NAME WORDS.
build_rust() {
    source=$1 label=$2
    shift 2
    rm -rf "$work/first_rust"
    mkdir -p "$work/first_rust/src"
    cp "$source" "$work/first_rust/src/main.rs"
    printf '[package]\nname = "first"\nversion = "0.1.0"\nedition = "2021"\n\n[dependencies]\n%s\n' \
        "perf-event-data = { path = \"$crate\" }" >"$work/first_rust/Cargo.toml"
    try "build $label" env "$@" RUSTFLAGS="${rust_pie:-}" CARGO_TARGET_DIR="$work/target" \
        cargo build --offline --quiet --manifest-path "$work/first_rust/Cargo.toml"
}

# Builds and runs the first program over the crate in `crate`, which finds the archive by the words given: try_rust
# NAME WORDS.
try_rust() {
    label=$1
    shift
    if ! command -v cargo >/dev/null; then
        skip "$label: no cargo"
        return
    fi
    built=$label
    build_rust "$work/first.rs" "$label" "$@" && try_first "run $built" "$work/target/debug/first"
    rm -rf "$work/target"
}
