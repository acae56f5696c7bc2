#!/bin/sh
# Makes the packages of one kind in a folder of its own, installs them there as their users do, and builds and runs the
# first program over what was installed, without a network:
#
#     bindings/packages_test.sh wheel|crate|cmake|deb|programs ARCHIVE [VARIABLE=VALUE ..]
#
# ARCHIVE is libperf_event_c.a, which `rt lib` makes in crates/perf_event_c; variables are those of the Makefile. Of
# programs, the manual pages and the completion for bash are tested. A line is what passed, failed or was skipped; the
# status is 0 if nothing failed.
set -u
part=${1:-}
case $part in
wheel | crate | cmake | deb | programs) ;;
*) part= ;;
esac
if [ -z "$part" ] || [ ! -f "${2:-}" ]; then
    echo "usage: bindings/packages_test.sh wheel|crate|cmake|deb|programs ARCHIVE [VARIABLE=VALUE ..]" >&2
    exit 2
fi
shift
. "$(dirname "$0")/try.sh"
version=$(cat "$here/VERSION")

# What fails, and prints a text among others: fails_with TEXT NAME WORDS.
fails_with() {
    text=$1 label=$2
    shift 2
    if ! "$@" >"$work/log" 2>&1 && grep -qF -e "$text" "$work/log"; then
        pass "$label"
    else
        fail "$label: $(tail -n 1 "$work/log")"
    fi
}

same() {
    cmp -s "$2" "$3" && pass "$1" || fail "$1: no"
}

# Whether there is a shared object, without which there is nothing to pack for Python and Debian.
has_shared() {
    make_quietly shared "$@" >"$work/log" 2>&1
    shared=$(find "$work/out/shared" -name '*.so.*')
    [ -n "$shared" ] || skip "$part: $(tail -n 1 "$work/log")"
    [ -n "$shared" ]
}

# ---- Python

try_wheel() {
    has_shared "$@" || return
    if ! python3 -c 'import ensurepip, tomllib, venv' 2>"$work/log"; then
        skip "wheel: $(tail -n 1 "$work/log")"
        return
    fi
    try "make the wheel" make_quietly wheel "$@" || return
    wheel=$(echo "$work"/out/*.whl) python=$work/venv/bin/python
    # no platform of pip is older than 2_5
    newest=$({
        echo 2_5
        objdump -T "$shared" | sed -n 's/.*GLIBC_\([0-9]*\)\.\([0-9]*\).*/\1_\2/p'
    } | sort -V | tail -n 1)
    prints "perf_event_data-$version-py3-none-manylinux_${newest}_x86_64.whl" "the name of the wheel" basename "$wheel"
    try "a fresh virtual environment" python3 -m venv "$work/venv" || return
    export PIP_DISABLE_PIP_VERSION_CHECK=1
    try "pip install --no-index" "$python" -m pip install --quiet --no-index "$wheel" || return
    try_first "run first.py" "$python" "$work/first.py"
    prints "$version" "the version that pip has" \
        "$python" -c 'import importlib.metadata; print(importlib.metadata.version("perf-event-data"))'
    for file in py.typed licenses/NOTICE licenses/LICENSE-MIT licenses/kit/bitflags/LICENSE-MIT; do
        try "the wheel has $file" sh -c '[ -n "$(find "$1" -path "*/perf_event_data*/$2")" ]' sh "$work/venv" "$file"
    done
    if command -v mypy >/dev/null; then
        try "type hints of first.py, by mypy" \
            mypy --strict --cache-dir=/dev/null --python-executable "$python" "$work/first.py"
        # numpy need not be here
        try "type hints of the module, by mypy" \
            mypy --strict --cache-dir=/dev/null --ignore-missing-imports "$here/python/perf_event_data.py"
    else
        skip "type hints of first.py and of the module: no mypy"
    fi
    try "pip wheel, over the sources" env PERF_EVENT_DATA_SO="$shared" \
        PERF_EVENT_DATA_LICENCES="$work/out/licences" "$python" -m pip wheel --quiet --no-index \
        --wheel-dir "$work/again" "$here/python" &&
        same "the wheel is the same each time" "$wheel" "$work/again/$(basename "$wheel")"
}

# ---- Rust

# Cargo in the copy of the crate that has no archive, or in the one that was unpacked, as `folder` states.
cargo_in() {
    env PKG_CONFIG=false CARGO_TARGET_DIR="$work/target" RUSTFLAGS="-D warnings" RUSTDOCFLAGS="-D warnings" \
        cargo "$@" --quiet --manifest-path "$folder/Cargo.toml"
}

# A dry run asks the registry's index alone, which is an empty one here.
publish() {
    git init --quiet "$work/index" && cd "$work/index" &&
        echo '{ "dl": "http://127.0.0.1:1/", "api": "http://127.0.0.1:1/" }' >config.json && git add config.json &&
        git -c user.name=test -c user.email=test@localhost commit --quiet -m "An empty index" &&
        CARGO_NET_OFFLINE=false cargo_in publish --dry-run --allow-dirty --registry kendzuva \
            --config "registries.kendzuva.index=\"file://$work/index\""
}

try_crate() {
    folder=$work/sources
    mkdir "$folder" && for file in Cargo.toml README.md build.rs src; do
        cp -R "$here/rust/$file" "$folder/"
    done
    try "cargo check without the archive, without warnings" cargo_in check --offline
    try "cargo doc without the archive, without warnings" cargo_in doc --offline --no-deps
    fails_with PERF_EVENT_DATA_LIB_DIR "cargo build without the archive tells what to set" cargo_in build --offline
    try "cargo package" make_quietly crate "$@" || return
    try "cargo publish --dry-run, to an index of its own" sh_in "$work/out/crate" publish
    mkdir "$work/unpacked"
    tar -C "$work/unpacked" -xzf "$work/out/perf-event-data-$version.crate"
    folder=$work/unpacked/perf-event-data-$version crate=$folder
    for file in LICENSE-MIT kit/bitflags/LICENSE-MIT; do
        try "the crate has licences/$file" [ -s "$folder/licences/$file" ]
    done
    try "the programs of its documentation" cargo_in test --offline --doc
    rm -rf "$work/target"
    try_rust "first.rs" PKG_CONFIG=false
}

# A call with another folder for Cargo.
sh_in() {
    folder=$1
    shift
    ("$@")
}

# ---- C and C++

# Configures, builds and runs a project of CMake over the copy in `prefix`.
try_cmake() {
    make_quietly install PREFIX="$work/usr" "$@" >"$work/log" 2>&1 || {
        fail "install: $(tail -n 1 "$work/log")"
        return
    }
    mv "$work/usr" "$work/moved" && prefix=$work/moved
    kinds=static
    if [ -f "$prefix/lib/libperf_event_data.so" ]; then
        kinds="static shared"
    else
        skip "the shared library: the archive is not position independent"
    fi
    mkdir "$work/project" && cp "$work/first.c" "$here/first/samples.c" "$work/project" &&
        cp "$work/first.c" "$work/project/first.cpp"
    {
        printf 'cmake_minimum_required(VERSION 3.10)\nproject(first C CXX)\n'
        printf 'find_package(perf_event_data ${LEAST} REQUIRED)\n'
        for kind in $kinds; do
            for language in c cpp; do
                printf 'add_executable(%s first.%s)\n' "${kind}_$language" $language
                printf 'target_link_libraries(%s PRIVATE perf_event_data::%s)\n' "${kind}_$language" $kind
            done
            printf 'add_executable(%s_samples samples.c)\n' $kind
            printf 'target_link_libraries(%s_samples PRIVATE perf_event_data::%s)\n' $kind $kind
        done
    } >"$work/project/CMakeLists.txt"
    configure "$version" >"$work/log" 2>&1 && pass "cmake finds version $version" || fail "cmake: $(cat "$work/log")"
    try "cmake finds a version of the series" configure "${version%.*}"
    fails_with "requested version \"99.0\"" "cmake finds no later version" configure 99.0
    fails_with "requested version \"0.0.1\"" "cmake finds no version of another series" configure 0.0.1
    try "build by cmake" cmake --build "$work/project/$version" || return
    for kind in $kinds; do
        try_first "run the program in C, $kind" "$work/project/$version/${kind}_c"
        try_first "run the program in C++, $kind" "$work/project/$version/${kind}_cpp"
        try_samples "run samples.c, $kind" "$work/project/$version/${kind}_samples"
    done
}

configure() {
    cmake -S "$work/project" -B "$work/project/$1" -DCMAKE_PREFIX_PATH="$prefix" -DLEAST="$1"
}

# ---- Debian

try_deb() {
    has_shared "$@" || return
    try "make the Debian packages" make_quietly deb "$@" || return
    for name in libperf-event-data1 libperf-event-data-dev python3-perf-event-data; do
        package=$(echo "$work/out/deb/${name}_"*.deb)
        prints "$name $version-1" "the name and the version of $name" \
            dpkg-deb --showformat='${Package} ${Version}' --show "$package"
    done
    try "lintian has no error" lintian --no-cfg --allow-root --fail-on error "$work"/out/deb/*.deb
    # it is unpacked like an installed package, and nothing of it is run; dpkg looks for programs that users need not have
    # on their path
    root=$work/root PATH=$PATH:/usr/sbin:/sbin
    mkdir -p "$root/var/lib/dpkg/info" "$root/var/lib/dpkg/updates" && : >"$root/var/lib/dpkg/status"
    try "unpack them in a root of its own" dpkg --root="$root" --force-not-root,depends --log=/dev/null \
        --unpack "$work"/out/deb/*.deb || return
    folder=$(echo "$root"/usr/lib/*-linux-gnu*)
    words=$(PKG_CONFIG_LIBDIR=$folder/pkgconfig PKG_CONFIG_SYSROOT_DIR=$root pkg-config --cflags --libs perf_event_data)
    # pkg-config leaves out folders that the system has
    words="-I$root/usr/include -L$folder $words"
    try "build first.c" cc -std=c99 -Wall -Wextra -Werror -o "$work/first_c" "$work/first.c" $words &&
        try_first "run first.c" env LD_LIBRARY_PATH="$folder" "$work/first_c"
    try "build first.c, static" cc -std=c99 -I"$root/usr/include" -o "$work/first_static" "$work/first.c" \
        "$folder/libperf_event_data.a" && try_first "run first.c, static" "$work/first_static"
    try "build samples.c" cc -std=c99 -Wall -Wextra -Werror -o "$work/samples" "$here/first/samples.c" $words &&
        try_samples "run samples.c" env LD_LIBRARY_PATH="$folder" "$work/samples"
    try_first "run first.py" env LD_LIBRARY_PATH="$folder" PYTHONPATH="$root/usr/lib/python3/dist-packages" \
        python3 "$work/first.py"
}

# ---- manual pages, completion

# What bash offers after words, of which the last is completed.
offers() {
    bash -c '. "$0"; COMP_WORDS=("$@") COMP_CWORD=$(($# - 1)); _"$1" && echo "${COMPREPLY[*]}"' \
        "$prefix/share/bash-completion/completions/$1" "$@"
}

# Checks a manual page: check_page PAGE PROGRAM
check_page() {
    prints "" "the manual page of $program has no faults" groff -man -Tutf8 -ww -z "$1"
    if [ ! -x "$2" ]; then
        skip "the usage of $program: it is not built"
        return
    fi
    "$2" --help >"$work/usage" 2>&1 </dev/null
    sed 's/\\-/-/g; s/\\f[BIR]//g; s/^perf/usage: &/' "$1" >"$work/text"
    try "it has the usage of $program" sh -c '[ -s "$2" ] && ! grep -vxFf "$1" "$2"' sh "$work/text" "$work/usage"
}

# Prints the options that bash does not offer after a command of perf_data, or that its manual page, without marks, lacks:
# lacking COMMAND PAGE PROGRAM
lacking() {
    offers perf_data "$1" -- | tr ' ' '\n' >"$work/offered"
    "$3" "$1" --help | grep -oE -e '--[a-z][a-z-]*' | sort -u | grep -vx -e --help | while read -r option; do
        grep -qx -e "$option" "$work/offered" && grep -qE -e "^\.B $option( |\$)" "$2" || echo "$option"
    done
}

# The words of perf_data are those that its help has: check_words PAGE PROGRAM
check_words() {
    if [ ! -x "$2" ]; then
        skip "the words of perf_data: it is not built"
        return
    fi
    sed 's/\\-/-/g; s/\\f[BIR]//g' "$1" >"$work/text"
    listed=$("$2" --help | sed -n 's/^  \([a-z]\{3,\}\)  *[A-Z].*/\1/p')
    # in whatever order
    offers perf_data "" | tr ' ' '\n' | sort >"$work/offered"
    try "bash offers the commands that perf_data lists" sh -c 'printf "%s\n" $2 --help | sort | diff - "$1"' \
        sh "$work/offered" "$listed"
    for command in $listed; do
        prints "" "bash and the manual page have the options of perf_data $command" lacking "$command" "$work/text" "$2"
    done
}

try_programs() {
    prefix=$work/usr
    try "install the programs" make_quietly install-programs PREFIX="$prefix" "$@" || return
    for program in perfrec perf_tasks perf_samples perf_count; do
        check_page "$prefix/share/man/man1/$program.1" "$prefix/bin/$program"
    done
    prints "little big native" "bash offers the orders to perfrec" offers perfrec ""
    prints "little" "bash completes an order" offers perfrec li
    prints "" "bash offers nothing for a limit" offers perfrec little ""
    prints "attr" "bash completes the attribute" offers perfrec little 10 a
    prints "little big native --help" "bash offers the orders and the help to perf_count" offers perf_count ""
    prints "attr" "bash offers the attribute to perf_count" offers perf_count native ""
    prints "--help" "bash offers the help to perf_tasks" offers perf_tasks -
    prints "" "bash offers perf_samples no second word" offers perf_samples --help ""
    check_words "$prefix/share/man/man1/perf_data.1" "$prefix/bin/perf_data"
}

"try_$part" "$@"
ends
