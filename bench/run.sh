#!/usr/bin/env bash
# Measures the program: bench/run.sh [PROGRAM] [OTHER]
#
# PROGRAM is the program to measure; without it, the one that `./planarmap --build` makes.
# OTHER is a plain program that answers alike, to measure it beside; without it, the one that the environment variable
# PLANARMAP_OTHER names; without that, the columns of OTHER and the ratios are left out.
#
# The tables go to standard output. Status 0: each run ended with the right status, and both programs printed the same.
# Status 1: one didn't. Status 2: the words are wrong, or a program isn't there. No time decides a status.
set -u
top=$(cd "$(dirname "$0")/.." && pwd) || exit 2

if [ "$#" -gt 2 ]; then
    echo "usage: bench/run.sh [PROGRAM] [OTHER]" >&2
    exit 2
fi
program=${1:-}
other=${2:-${PLANARMAP_OTHER:-}}

if [ -z "$program" ]; then
    program=$top/crates/planarmap/out/planarmap
    "$top/planarmap" --build >&2 || exit 2
fi
for path in "$program" ${other:+"$other"}; do
    if [ ! -f "$path" ] || [ ! -x "$path" ]; then
        echo "bench/run.sh: no program at $path" >&2
        exit 2
    fi
done

folder=$(mktemp -d) || exit 2
trap 'rm -rf "$folder"' EXIT
# -I and -S: the memory of the process that measures is the least memory that it can see (measure.py).
python3 -I -S "$top/bench/measure.py" "$folder" "$program" ${other:+"$other"}
