#!/bin/sh
# Makes the package for JavaScript of an archive, in a folder of its own, tests what is in it, and installs it outside
# the repository, without a network:
#
#     bindings/js/test.sh ARCHIVE [PERFREC [STREAMS]]
#
# ARCHIVE is for wasm64-unknown-unknown; the others are those of test.mjs, and PERF_EVENT_DATA_SO that of test_open.mjs.
# With MODULES=FOLDER in the environment the modules that it makes are left there, for the test of the page.
# A line is what passed, failed or was skipped; the status is 0 if nothing failed.
set -u
if [ $# -lt 1 ] || [ ! -f "$1" ]; then
    echo "usage: bindings/js/test.sh ARCHIVE [PERFREC [STREAMS]]" >&2
    exit 2
fi
archive=$(realpath "$1")
shift
here=$(cd "$(dirname "$0")" && pwd)
work=$(mktemp -d) || exit 2
trap 'rm -rf "$work"' EXIT
status=0
export npm_config_cache="$work/npm-cache" npm_config_update_notifier=false

pass() { echo "passed: $1"; }
fail() { status=1; echo "FAILED: $1"; }

pack() {
    make -s -C "$here/.." npm OUT="$work/out" WASM_ARCHIVE="$archive" >"$work/log" 2>&1
}

pack || {
    echo "FAILED: pack"
    cat "$work/log"
    exit 1
}
package=$work/out/perf-event-data-$(cat "$here/../VERSION").tgz
module=$(sed -n 's/.*"\(.*\)".*/\1/p' "$work/out/js/module.mjs" | base64 -d | wc -c)
pass "pack: $(stat -c %s "$package") bytes, of a module of $module bytes"
cp "$package" "$work/first.tgz"
[ -z "${MODULES:-}" ] || { mkdir -p "$MODULES" && cp "$work/out/js/module.mjs" "$work/out/js/wide_module.mjs" "$MODULES"; }
tar -tzf "$package" | grep -qx package/licences/kit/bitflags/LICENSE-MIT && pass "its licences" || fail "its licences are absent"

mkdir "$work/elsewhere" && cd "$work/elsewhere" || exit 2
cp "$here/../first/first.mjs" .
echo '{ "private": true }' >package.json
npm install --offline --no-audit --no-fund --ignore-scripts "$work/first.tgz" >"$work/log" 2>&1 || cat "$work/log"
found=$(node first.mjs 2>&1)
[ "$found" = "8 lost" ] && pass "install without a network, and run first.mjs" || fail "first.mjs: $found"
cp "$here/../first/names.mjs" . && node names.mjs "$here/../../examples/recording.stream" >"$work/names" 2>&1
grep '^[0-9]* [0-9]* is ' "$here/../../crates/perf_uses/stdout" | cmp -s - "$work/names" && pass "run names.mjs" ||
    fail "names.mjs: $(head -n 3 "$work/names")"
cp "$here/../first/samples.mjs" .
for name in events machine group killed big-endian pipe; do
    expected=$name
    [ $name != big-endian ] || expected=events
    node samples.mjs "$here/../../examples/$name.data" >"$work/samples" 2>&1
    awk -f "$here/../../examples/count-samples.awk" "$here/../../examples/$expected.time" | cmp -s - "$work/samples" &&
        pass "run samples.mjs of $name.data" || fail "samples.mjs of $name.data: $(head -n 3 "$work/samples")"
done
found=$(find node_modules -name package.json | wc -l)
[ "$found" = 1 ] && pass "it depends on no other package" || fail "there are $found packages"
cd "$here" || exit 2

python3 "$here/browser_test.py" "$work/elsewhere/node_modules/perf-event-data" || status=1
node "$here/test.mjs" "$work/elsewhere/node_modules/perf-event-data" "$@" || status=1
node "$here/test_open.mjs" "$work/elsewhere/node_modules/perf-event-data" || status=1
# The module with a memory of 64 bits, if this Node has those.
cat >"$work/elsewhere/wide.mjs" <<'END'
import { MODULE } from "./node_modules/perf-event-data/wide_module.mjs";
process.exit(WebAssembly.validate(Buffer.from(MODULE, "base64")) ? 0 : 77);
END
if node "$work/elsewhere/wide.mjs"; then
    WIDE=yes node "$here/test_open.mjs" "$work/elsewhere/node_modules/perf-event-data" || status=1
else
    echo "skipped: in Node, the module with a memory of 64 bits: Node $(node --version) has no such memory"
fi
rm -rf "$work/out"
pack && cmp -s "$package" "$work/first.tgz" && pass "the package is the same each time" ||
    fail "the package differs from one time to the next"
exit $status
