#!/usr/bin/env bash
# Draws a quartic map of 1,000 vertices, checks it, and reads its text by another program: each counts the vertices, edges
# and faces, and they must agree.
set -eu
cd "$(dirname "$0")/.."
file=$(mktemp)
trap 'rm -f "$file"' EXIT
./planarmap draw quartic 1000 7 1 | tail -n +2 > "$file"
checked=$(./planarmap check quartic < "$file")
counted=$(python3 examples/read_map.py < "$file")
echo "$checked"
if [ "$checked" != "ok $counted" ] || [ "$checked" != "ok 1000 2000 1002" ]; then
    echo "examples/draw_and_read.sh: check says $checked, examples/read_map.py $counted" >&2
    exit 1
fi
