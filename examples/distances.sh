#!/usr/bin/env bash
# The profile of distances of a drawn quartic map, as a plot in text: for each distance from the root's face, how many darts
# have their face there. Its two words are the number of vertices and the seed.
set -eu -o pipefail
cd "$(dirname "$0")/.."
./planarmap draw quartic "${1:-50000}" "${2:-7}" 1 | tail -n +2 | ./planarmap layers | awk '
    $1 == "layers" { for (i = 2; i <= NF; i++) { darts[$i]++; if ($i > far) far = $i } }
    END {
        for (d = 0; d <= far; d++) if (darts[d] > most) most = darts[d]
        for (d = 0; d <= far; d++) {
            bar = sprintf("%*s", int(50 * darts[d] / most + 0.5), "")
            gsub(/ /, "#", bar)
            printf "%3d %7d %s\n", d, darts[d], bar
        }
    }'
