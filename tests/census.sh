#!/usr/bin/env bash
# Runs `census` on the real process for each class and size of the table, and compares: how many different maps it prints,
# their lines `lists`, the line `total` and the status. The table has each size of `general` and `quartic` that has few enough
# lists, and each profile of `eulerian` and `bipartite` with at most 4 edges. Its numbers are those of formulas:
#
#   n edges, or n vertices of degree 4   2 * 3^n * C(2n, n) / ((n + 1) * (n + 2)) maps (Tutte), 2 * 3^n * (2n)! / n! lists
#   p of degree 2i for each i            2 * e! / (e - v + 2)! * the product of C(2i - 1, i)^p / p! maps, where v is the sum
#                                        of p and e that of i * p; 2 * (e + 1)! * the product of C(2i - 1, i)^p lists
#
#   tests/census.sh [PROGRAM]      without PROGRAM the one that `./planarmap --build` makes
#
# The last line counts the rows. Status 0: each row passed. Status 1: one failed. Status 2: there is no program.
set -u
# shellcheck source=tests/program.sh
. "$(dirname "$0")/program.sh"
passed=0
failed=0

# What is seen of a census: how many different maps it prints, each of its lines `lists` with how often it stands there, its
# last line, and its status.
seen() {
    local text status
    text=$("$program" census "$1" "$2")
    status=$?
    printf '%s\n' "$text" | awk -v status="$status" '
        $1 == "map" { map = "" }
        $1 == "v" { map = map $0 ";" }
        $1 == "end" && !(map in maps) { maps[map]; different++ }
        $1 == "lists" { lines[$0]++ }
        END { printf "%d maps; ", different; for (line in lines) printf "%s, %d times; ", line, lines[line]; print $0 "; status " status }'
}

# The row of a class and a size: so many maps, and so many lists in all.
row() {
    local wanted="$3 maps; lists $(($4 / $3)), $3 times; total $3 $4; status 0" got
    got=$(seen "$1" "$2")
    if [ "$got" = "$wanted" ]; then
        passed=$((passed + 1))
    else
        failed=$((failed + 1))
        echo "tests/census.sh: census $1 $2: $got, and not $wanted" >&2
    fi
}

row general 0 1 2
# Two classes stand in a row, since one is sampled through the other.
while read -r class other size maps lists; do
    row "$class" "$size" "$maps" "$lists"
    row "$other" "$size" "$maps" "$lists"
done <<'END'
general quartic 1 2 12
general quartic 2 9 216
general quartic 3 54 6480
general quartic 4 378 272160
bipartite eulerian 2:1 1 4
bipartite eulerian 2:2 1 12
bipartite eulerian 4:1 2 36
bipartite eulerian 2:3 1 48
bipartite eulerian 2:1,4:1 6 144
bipartite eulerian 6:1 5 480
bipartite eulerian 2:4 1 240
bipartite eulerian 2:2,4:1 12 720
bipartite eulerian 2:1,6:1 20 2400
bipartite eulerian 4:2 9 2160
bipartite eulerian 8:1 14 8400
END

echo "tests/census.sh: $passed rows passed, $failed failed"
[ "$failed" -eq 0 ]
