#!/bin/sh
# Makes the page of an archive, in a folder of its own, and tests it in Node, in Chromium and in Firefox, without a network:
#
#     bindings/web/test.sh ARCHIVE [PERF_DATA]
#
# ARCHIVE is for wasm64-unknown-unknown. In place of it, a folder that `make -C bindings js` made can be named. PERF_DATA is
# the proved program, whose numbers the page has to have. With MODULES=FOLDER in the environment the modules are those that
# bindings/js/test.sh left there. A line is what passed, failed or was skipped; the status is 0 if nothing failed.
set -u
if [ $# -lt 1 ] || [ ! -e "$1" ]; then
    echo "usage: bindings/web/test.sh ARCHIVE [PERF_DATA]" >&2
    exit 2
fi
archive=$(realpath "$1")
program=${2:+$(realpath "$2")}
here=$(cd "$(dirname "$0")" && pwd)
work=$(mktemp -d) || exit 2
trap 'rm -rf "$work"' EXIT
trap 'exit 1' INT TERM
status=0

pass() { echo "passed: $1"; }
fail() { status=1; echo "FAILED: $1"; }

build() {
    if [ -d "$archive" ]; then
        node "$here/build.mjs" "$archive" "$work/out/perf-view.html"
    else
        make -s -C "$here/.." web OUT="$work/out" WASM_ARCHIVE="$archive" MODULES="${MODULES:-}"
    fi >"$work/log" 2>&1
}

build || {
    echo "FAILED: make the page"
    cat "$work/log"
    exit 1
}
page=$work/perf-view.html
cp "$work/out/perf-view.html" "$page"
pass "make the page: one file of $(stat -c %s "$page") bytes"
build && cmp -s "$page" "$work/out/perf-view.html" && pass "the page is the same each time" ||
    fail "the page differs from one time to the next"
folder=$archive
[ -d "$folder" ] || folder=$work/out/js
if node "$here/model_test.mjs" "$folder" ${program:+"$program"} >"$work/log" 2>&1; then
    pass "the model of a recording: $(tail -n 1 "$work/log")"
    grep '^skipped' "$work/log"
else
    fail "the model of a recording"
    grep -A 3 '^FAILED' "$work/log"
fi
node --test "$here/page_test.mjs" >"$work/log" 2>&1 && pass "the page's own parts" || {
    fail "the page's own parts"
    grep -A 12 '^not ok' "$work/log"
}

if ! command -v python3 >/dev/null; then
    echo "skipped: in a browser: no python3"
    exit $status
fi
for browser in chromium firefox; do
    python3 "$here/browser_test.py" "$page" --browser $browser --large "$work/large.data" ${program:+--program "$program"}
    ended=$?
    [ $ended = 0 ] || [ $ended = 77 ] || status=1
done
exit $status
