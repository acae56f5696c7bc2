#!/bin/sh
# Builds the programs of bindings/c over an archive, in a folder of its own, and runs them as tests:
#
#     bindings/test.sh ARCHIVE [CRATES [STREAMS]]
#
# ARCHIVE is libperf_event_c.a, which `rt lib` makes in crates/perf_event_c. CRATES is a folder like
# crates/ in which the programs perfrec, perf_count and perf_replay are built (each in its out/); with
# them the texts and counts are compared with those of the proved programs too. STREAMS is how many
# generated streams are read, 200 without it. A line says what passed, failed or was skipped; the
# status is 0 if nothing failed.
#
# For an archive of another machine, in the environment: CROSS is how the names of its tools begin, as
# aarch64-linux-gnu-, and RUN the program that runs its programs, as qemu-aarch64-static. The structs are
# then compared with those of this machine too; nothing is sanitized, and valgrind is not used. With OBJECTS=FOLDER the
# programs' objects are left there, and those that are there already are not compiled again; with TESTED=yes the proved
# programs are only compared with those of C, as another run has tested them.
set -u
if [ $# -lt 1 ] || [ ! -f "$1" ]; then
    echo "usage: bindings/test.sh ARCHIVE [CRATES [STREAMS]]" >&2
    exit 2
fi
archive=$(realpath "$1")
proved=${2:+$(realpath "$2")}
streams=${3:-200}
cross=${CROSS:-} run=${RUN:-}
cc=${cross:+${cross}gcc} cxx=${cross:+${cross}g++}
cc=${cc:-cc} cxx=${cxx:-c++}
valgrind=$([ -n "$run" ] || command -v valgrind)
top=$(cd "$(dirname "$0")/.." && pwd)
crates=$top/crates
work=$(mktemp -d) || exit 2
trap 'rm -rf "$work"' EXIT
passed=0
failed=0
skipped=0

pass() { passed=$((passed + 1)); echo "passed: $1"; }
fail() { failed=$((failed + 1)); echo "FAILED: $1"; }
skip() { skipped=$((skipped + 1)); echo "skipped: $1"; }

# Runs the other words; what they print is shown if they fail. Status 77 counts as skipped.
try() {
    name=$1
    shift
    "$@" >"$work/log" 2>&1
    status=$?
    if [ $status = 0 ]; then
        last=$(tail -n 1 "$work/log")
        pass "$name${last:+ ($last)}"
    elif [ $status = 77 ]; then
        skip "$name: $(tail -n 1 "$work/log")"
    else
        fail "$name (status $status)"
        tail -n 20 "$work/log"
    fi
}

# ---- the archive

check_symbols() {
    "${cross}nm" -g --defined-only "$archive" 2>/dev/null | awk 'NF == 3 { print $3 }' | sort -u >"$work/defined"
    "${cross}nm" -u "$archive" 2>/dev/null | awk 'NF == 2 { print $2 }' | sort -u | comm -23 - "$work/defined" \
        >"$work/undefined"
    others=$(grep -v '^ped_' "$work/defined" | tr '\n' ' ')
    [ -z "$others" ] && [ -s "$work/defined" ] && pass "global symbols are ped_* alone" ||
        fail "other global symbols: $others"
    others=$(grep -vxE 'mem(cpy|move|set|cmp)' "$work/undefined" | tr '\n' ' ')
    if [ -z "$others" ]; then
        pass "undefined symbols are memcpy, memmove, memset and memcmp at most"
    else
        fail "other undefined symbols: $others"
    fi
}

check_declared() {
    for call in $(grep '^ped_' "$work/defined"); do
        grep -q "[ *]$call(" "$top/bindings/c/perf_event_data.h" && pass "the header has $call" ||
            fail "the header lacks $call"
    done
}

# The header is for the machines that are tested alone.
check_refused() {
    for word in -U__LP64__ "-U__x86_64__ -U__aarch64__" "-U__BYTE_ORDER__ -D__BYTE_ORDER__=__ORDER_BIG_ENDIAN__"; do
        # the words are several
        echo '#include "perf_event_data.h"' | "$cc" $word -E -I "$top/bindings/c" - >/dev/null 2>"$work/log"
        grep -q 'error.*perf_event_data is for x86-64 and arm64' "$work/log" && pass "the header refuses $word" ||
            fail "the header accepts $word"
    done
}

# The headers alone, with more warnings than the programs.
check_warnings() {
    warnings="-Wall -Wextra -Wpedantic -Wconversion -Wsign-conversion -Wshadow -Werror"
    for header in perf_event_data perf_event_data_recording; do
        echo "#include <$header.h>" >"$work/header.c"
        # the warnings are several words
        try "$header.h in C99, without warnings" "$cc" -std=c99 $warnings -I "$top/bindings/c" -c -o "$work/header.o" \
            "$work/header.c"
        [ -z "$has_cxx" ] || try "$header.h in C++17, without warnings" "$cxx" -std=c++17 $warnings \
            -I "$top/bindings/c" -x c++ -c -o "$work/header.o" "$work/header.c"
    done
}

# ---- the programs

build() {
    if [ -z "$run" ]; then
        try "build in $1" make -s -C "$top/bindings/c" ARCHIVE="$archive" BUILD="$work/$1" \
            OBJECTS="${OBJECTS:-$work}/$1.objects" SANITIZE="$2"
        return
    fi
    try "build in $1" make -s -C "$top/bindings/c" ARCHIVE="$archive" BUILD="$work/$1.made" \
        CC="$cc" CXX="$cxx" CFLAGS="-O2 -g -static" PROGRAMS="$programs"
    mkdir -p "$work/$1"
    for name in $programs; do
        printf '#!/bin/sh\nexec %s "%s" "$@"\n' "$run" "$work/$1.made/$name" >"$work/$1/$name"
        chmod +x "$work/$1/$name"
    done
}

# The table of the structs' members, by a program for each machine.
check_offsets() {
    if ! command -v python3 >/dev/null; then
        skip "the structs of both machines: no python3"
        return
    fi
    python3 "$top/bindings/offsets.py" >"$work/offsets.c"
    cc -I "$top/bindings/c" -o "$work/offsets" "$work/offsets.c" && "$work/offsets" >"$work/offsets.here"
    "$cc" -static -I "$top/bindings/c" -o "$work/offsets" "$work/offsets.c" && $run "$work/offsets" >"$work/offsets.there"
    [ -s "$work/offsets.here" ] || fail "no table of the structs"
    compare "the structs are those of this machine, in $(wc -l <"$work/offsets.here") lines" \
        "$work/offsets.here" "$work/offsets.there"
}

# Compares a text with what is expected.
compare() {
    if cmp "$2" "$3"; then
        pass "$1"
    else
        fail "$1"
    fi
}

check_texts() {
    "$1/perfrec" $(cat "$crates/perfrec/args") <"$crates/perfrec/stdin" >"$work/text"
    compare "text of crates/perfrec" "$crates/perfrec/stdout" "$work/text"
    "$1/reports" tasks <"$crates/perf_tasks/stdin" >"$work/text"
    compare "lines of crates/perf_tasks" "$crates/perf_tasks/stdout" "$work/text"
    "$1/reports" samples <"$crates/perf_samples/stdin" >"$work/text"
    compare "lines of crates/perf_samples" "$crates/perf_samples/stdout" "$work/text"
}

# The path of a proved program, if CRATES has it: program NAME.
program() {
    [ -n "$proved" ] && [ -x "$proved/$1/out/$1" ] && echo "$proved/$1/out/$1"
}

check_recordings() {
    perfrec=$(program perfrec) || {
        skip "text of the recordings by the proved perfrec: it is not given"
        return
    }
    for stream in "$crates"/perf_tasks/stdin "$crates"/perf_samples/stdin "$top"/examples/*.stream; do
        for words in "little 1000000 attr" "native 100 attr" "big 1000000 attr" "big 1000000"; do
            "$perfrec" $words <"$stream" >"$work/theirs" 2>/dev/null
            echo "status $?" >>"$work/theirs"
            "$1/perfrec" $words <"$stream" >"$work/text"
            echo "status $?" >>"$work/text"
            compare "text of perfrec $words < ${stream#"$top"/}" "$work/theirs" "$work/text"
        done
    done
}

check_counts() {
    "$1/perf_count" $(cat "$crates/perf_count/args") <"$crates/perf_count/stdin" >"$work/text"
    compare "counts of crates/perf_count" "$crates/perf_count/stdout" "$work/text"
    "$1/perf_count" little 1 </dev/null >/dev/null 2>&1
    [ $? = 2 ] && pass "counts take no limit" || fail "counts with a limit"
    if count=$(program perf_count); then
        for words in "" --help "little 1" "little attr attr" "--help little"; do
            usage "$count" $words >"$work/theirs"
            usage "$1/perf_count" $words >"$work/text"
            compare "usage of perf_count $words" "$work/theirs" "$work/text"
        done
    else
        skip "usage of the proved perf_count: it is not given"
    fi
}

# What a program prints on its two outputs for words that are no command, and its status.
usage() {
    "$@" </dev/null 2>"$work/log"
    echo "status $?, and on standard error:"
    cat "$work/log"
}

# The arguments of perfrec.
check_words() {
    try "words of perfrec" "$top/bindings/words_test.sh" "$1/perfrec"
    [ -z "$sanitize" ] || try "words of perfrec, sanitized" "$top/bindings/words_test.sh" "$2/perfrec"
    [ -z "${TESTED:-}" ] || return
    if perfrec=$(program perfrec); then
        try "the same by the proved perfrec" "$top/bindings/words_test.sh" "$perfrec"
    else
        skip "words by the proved perfrec: it is not given"
    fi
}

# A file of `perf record` in place of a stream: each proved program names perf_data, which reads it.
check_other_files() {
    [ -z "${TESTED:-}" ] || return
    for words in "perfrec little 100" "perfrec little 100 attr" perf_samples perf_tasks "perf_count little" \
        "perf_count little attr"; do
        name=${words%% *}
        if path=$(program "$name"); then
            # the words after the name may be none
            "$path" ${words#"$name"} <"$top/examples/events.data" >/dev/null 2>"$work/log"
            [ $? != 0 ] && grep -q 'file of `perf record`.*perf_data' "$work/log" && pass "$words names perf_data" ||
                fail "$words does not name perf_data: $(cat "$work/log")"
        else
            skip "a file of perf record by the proved $words: it is not given"
        fi
    done
}

# The first list is read by all programs, plain and sanitized.
check_streams() {
    if ! command -v python3 >/dev/null; then
        skip "generated streams: no python3"
        return
    fi
    python3 "$top/bindings/streams.py" list 1 200 >"$work/list"
    try "generated streams" "$1/replay" "$work/list"
    [ -z "$sanitize" ] || try "generated streams, sanitized" "$2/replay" "$work/list"
    if [ -n "$valgrind" ]; then
        try "generated streams, under valgrind" valgrind -q --error-exitcode=9 "$1/replay" "$work/list"
    fi
    try "counts of generated streams" python3 "$top/bindings/streams.py" counts "$work/list" "$1/perf_count"
    if [ -z "${TESTED:-}" ]; then
        if count=$(program perf_count); then
            try "the same by the proved perf_count" python3 "$top/bindings/streams.py" counts "$work/list" "$count"
        else
            skip "counts by the proved perf_count: it is not given"
        fi
        program perf_replay >/dev/null || skip "generated streams by the proved perf_replay: it is not given"
    fi
    check_replay
    check_more "$1" $((streams - 200))
}

# The text of the list by the proved programs.
check_replay() {
    [ -z "${TESTED:-}" ] || return
    replay=$(program perf_replay) || return
    try "the same by the proved perf_replay" sh -c '"$1" <"$2"' sh "$replay" "$work/list"
}

# More streams, some thousands at a time.
check_more() {
    seed=1 left=$2
    while [ "$left" -gt 0 ]; do
        count=$((left < 5000 ? left : 5000)) seed=$((seed + 1)) left=$((left - 5000))
        python3 "$top/bindings/streams.py" list $seed $count >"$work/list"
        try "generated streams of seed $seed" "$1/replay" "$work/list"
        check_replay
    done
}

# The lines of the bundled files by a program, of which that of a big-endian machine is a copy of another.
check_lines() {
    for name in events machine group killed big-endian pipe; do
        expected=$top/examples/$name
        [ $name != big-endian ] || expected=$top/examples/events
        "$1" --lines file "$top/examples/$name.data" >"$work/text"
        compare "lines of examples/$name.data$2" "$expected.dump" "$work/text"
        "$1" --lines time "$top/examples/$name.data" >"$work/text"
        compare "lines of examples/$name.data by time$2" "$expected.time" "$work/text"
        "$1" --lines events "$top/examples/$name.data" >"$work/text"
        compare "events of examples/$name.data$2" "$expected.events" "$work/text"
    done
}

check_file_lines() {
    check_lines "$1/file" ""
    check_lines "$1/recording" ", as a recording"
    cat "$top/examples/pipe.data" | "$1/recording" --lines time - >"$work/text"
    compare "lines of a pipe, as a recording" "$top/examples/pipe.time" "$work/text"
    # what perf wrote into a file and to a pipe has one command, but for its output
    printf '%s\n' vm 6.18.44-fc-v595 /usr/bin/perf record -q -B -o - >"$work/theirs"
    "$1/file" --lines header "$top/examples/pipe.data" | head -n 8 >"$work/text"
    compare "machine and command of examples/pipe.data" "$work/theirs" "$work/text"
    "$1/file" --lines header "$top/examples/pipe.data" | sed 's/^-$/events.data/' >"$work/theirs"
    "$1/file" --lines header "$top/examples/events.data" >"$work/text"
    compare "the same of examples/events.data" "$work/theirs" "$work/text"
}

# The calls that take memory, of which each is refused, and damaged copies.
check_recordings_of_files() {
    small=$top/examples/killed.data
    try "a bundled file as a recording" "$1/recording" "$small"
    [ -z "$has_cxx" ] || try "the same in C++" "$1/recording_cpp" "$small"
    : >"$work/nothing"
    for path in "$work/nothing" "$work/absent"; do
        "$1/recording" --lines file "$path" >"$work/text" 2>"$work/log"
        [ $? = 2 ] && [ ! -s "$work/text" ] && grep -qE 'no perf.data file|No such file' "$work/log" &&
            pass "a recording that is ${path##*/}" || fail "a recording that is ${path##*/}: $(cat "$work/log")"
    done
    if [ -n "$sanitize" ]; then
        try "bundled files as recordings, cut and changed, sanitized" "$2/recording" "$top"/examples/*.data
    fi
    if [ -n "$valgrind" ]; then
        try "lines of a recording leak nothing, under valgrind" valgrind -q --leak-check=full \
            --errors-for-leak-kinds=all --error-exitcode=9 "$1/recording" --lines time "$small"
    fi
}

# The frames of each event of the example, counted as its expected text has them, and of a file that perf writes on
# this machine, where it may, the samples of each event, counted as `perf script` does.
check_files() {
    check_file_lines "$1"
    awk '{ frames[$3]++ } END { for (n = 0; n in frames; n++) print frames[n]; print frames["-"] }' \
        "$top/examples/events.dump" >"$work/theirs"
    "$1/file" "$top/examples/events.data" | sed 's/.*: \([0-9]*\) frames.*/\1/' >"$work/text"
    compare "frames of each event of examples/events.data" "$work/theirs" "$work/text"
    [ -z "$sanitize" ] || try "bundled files cut and changed, sanitized" "$2/file" --cuts "$top"/examples/*.data
    check_recordings_of_files "$1" "$2"
    if ! command -v perf >/dev/null || ! perf record -q -e task-clock,page-faults -F 4000 -o "$work/perf.data" \
        ls -R "$top/bindings" >/dev/null 2>&1; then
        skip "files of perf record: perf may not record here"
        return
    fi
    perf script -i "$work/perf.data" -F event 2>/dev/null >"$work/samples"
    for event in $(perf evlist -i "$work/perf.data" 2>/dev/null); do
        grep -c "$event" "$work/samples"
    done >"$work/theirs"
    "$1/file" "$work/perf.data" | sed -n '/^event/{s/.* 9:\([0-9]*\).*/\1/;t end;s/.*/0/;:end
        p;}' >"$work/text"
    compare "samples of each event of a file of perf record" "$work/theirs" "$work/text"
    [ -z "$sanitize" ] || try "it cut and changed, sanitized" "$2/file" --cuts "$work/perf.data"
}

# The programs in FOLDER, each after the words that follow.
run_programs() {
    folder=$work/$1
    how=$2
    shift 2
    try "calls by hand, $how" "$@" "$folder/calls"
    [ -z "$has_cxx" ] || try "calls by hand in C++, $how" "$@" "$folder/calls_cpp"
    try "runs of crates/perf_replay, $how" "$@" "$folder/replay" "$crates/perf_replay/stdin"
    try "forbidden pages, stack of 16 kB, four threads, $how" "$@" "$folder/guard" \
        "$crates/perf_tasks/stdin" "$crates/perf_samples/stdin"
}

check_symbols
check_declared
check_refused
has_cxx=$(command -v "$cxx")
check_warnings
[ -n "$has_cxx" ] || skip "calls by hand in C++: no $cxx"
programs="calls ${has_cxx:+calls_cpp} replay perfrec perf_count reports file recording ${has_cxx:+recording_cpp} guard live"
sanitize=address,undefined
echo 'int main(void) { return 0; }' >"$work/empty.c"
if [ -n "$run" ]; then
    check_offsets
    skip "sanitized programs, and valgrind: the machine is another one"
    sanitize=
elif ! cc -fsanitize=$sanitize -o "$work/empty" "$work/empty.c" 2>/dev/null || ! "$work/empty"; then
    skip "sanitized programs: the compiler has no sanitizers here"
    sanitize=
fi
build plain ""
[ -z "$sanitize" ] || build sanitized $sanitize
check_texts "$work/plain"
check_recordings "$work/plain"
check_words "$work/plain" "$work/sanitized"
check_counts "$work/plain"
check_other_files
check_streams "$work/plain" "$work/sanitized"
check_files "$work/plain" "$work/sanitized"
run_programs plain "plain"
try "a live ring" "$work/plain/live"
if [ -n "$sanitize" ]; then
    run_programs sanitized "sanitized"
    try "a live ring, sanitized" "$work/sanitized/live"
fi
if [ -n "$valgrind" ]; then
    run_programs plain "under valgrind" valgrind -q --error-exitcode=9
elif [ -z "$run" ]; then
    skip "valgrind: not installed"
fi
echo "$passed passed, $failed failed, $skipped skipped"
[ $failed = 0 ]
