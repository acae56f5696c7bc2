#!/usr/bin/env bash
# tools/flame/picture.sh SVG PNG: what a browser shows of a flame graph, by Debian's chromium.
set -eu
[ $# -eq 2 ] || { echo 'usage: tools/flame/picture.sh SVG PNG' >&2; exit 2; }
size=$(sed -n '1,3s/.*<svg[^>]* width="\([0-9]*\)"[^>]* height="\([0-9]*\)".*/\1,\2/p' "$1" | head -n 1)
profile=$(mktemp -d)
trap 'rm -rf "$profile"' EXIT
chromium --headless --no-sandbox --disable-gpu --hide-scrollbars --user-data-dir="$profile" \
    --window-size="$size" --screenshot="$(realpath "$2")" "file://$(realpath "$1")" 2>/dev/null
