#!/usr/bin/env bash
# The census of a class and a size as a table: for each degree of the root's vertex, how many maps have it, and how many
# lists of choices give those maps. Its two words are the class and the size.
set -eu -o pipefail
cd "$(dirname "$0")/.."
./planarmap census "${1:-general}" "${2:-3}" | awk '
    $1 == "map" { root = $3; degree = 0 }
    $1 == "v" { for (i = 2; i <= NF; i++) if ($i == root) degree = NF - 1 }
    $1 == "lists" { maps[degree]++; lists[degree] += $2; if (degree > most) most = degree }
    $1 == "total" { total = sprintf("%6s %5d %6d", "all", $2, $3) }
    END {
        print "degree  maps  lists"
        for (d = 0; d <= most; d++) if (d in maps) printf "%6d %5d %6d\n", d, maps[d], lists[d]
        print total
    }'
