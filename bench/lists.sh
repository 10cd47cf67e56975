#!/usr/bin/env bash
# Measures the calls on long lists, code, arrange, parts, choices, tree, grow and ungrow: bench/lists.sh [PROGRAM]
#
# PROGRAM is the program of crates/pm_bench; without it, that one is proved and built where it isn't yet.
#
# The table goes to standard output. Status 0: each run ended with the right status and printed the right checksum.
# Status 1: one didn't. Status 2: the words are wrong, or a program isn't there. No time decides a status.
set -u
top=$(cd "$(dirname "$0")/.." && pwd) || exit 2

if [ "$#" -gt 1 ]; then
    echo "usage: bench/lists.sh [PROGRAM]" >&2
    exit 2
fi
folder=$(mktemp -d) || exit 2
trap 'rm -rf "$folder"' EXIT

program=${1:-}
if [ -z "$program" ]; then
    program=$top/crates/pm_bench/out/pm_bench
    if ! (cd "$top/crates/pm_bench" && rt run -- code 1) >"$folder/log" 2>&1 </dev/null; then
        cat "$folder/log" >&2
        exit 2
    fi
fi
if [ ! -f "$program" ] || [ ! -x "$program" ]; then
    echo "bench/lists.sh: no program at $program" >&2
    exit 2
fi
# -S: the memory of the process that measures is the least memory that it can see (measure.py).
python3 -E -s -S -B "$top/bench/lists.py" "$folder" "$program"
