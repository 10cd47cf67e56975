#!/usr/bin/env bash
# Makes the Nth allocation of each test of a crate fail, for N = 1, 2, ..: no test may then pass that had an Nth allocation,
# and each that fails must say that memory is wanting. It proves nothing, takes 5 to 15 seconds for each N, and is no part of
# the gate.
#
#   tests/memory.sh CRATE [MOST]      stops at the first N that no test reaches, or after MOST, 40 without it
#
# Status 0: each failure was want of memory. Status 1: one was another; its lines are printed.
set -u
top=$(cd "$(dirname "$0")/.." && pwd) || exit 2
crate=${1:?usage: tests/memory.sh CRATE [MOST]}
most=${2:-40}
cd "$top/crates/$crate" || exit 2
log=$(mktemp) || exit 2
trap 'rm -f "$log"' EXIT
status=0
for ((n = 1; n <= most; n++)); do
    rt try --test --fail-alloc "$n" >"$log" 2>&1
    ended=$?
    if ! grep -q '^test result:' "$log"; then
        echo "tests/memory.sh: the tests of $crate did not run:" >&2
        tail -5 "$log" >&2
        exit 1
    fi
    if [ "$ended" -eq 0 ]; then
        echo "$crate: no test makes $n allocations"
        exit "$status"
    fi
    # A failing test says why on the lines below its own: an error AllocError, or a value Memory where another was wanted.
    other=$(awk '/^test .* FAILED$/ { name = $2; seen = 0; next }
        /^test / { if (name != "" && !seen) print name; name = "" }
        /AllocError|Memory|memory/ { seen = 1 }
        END { if (name != "" && !seen) print name }' "$log")
    if [ -n "$other" ]; then
        echo "$crate: allocation $n fails, and these tests say something else: $other"
        status=1
    fi
done
echo "$crate: $most allocations tried"
exit "$status"
