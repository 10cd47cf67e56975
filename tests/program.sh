# For the tests of the real process to source: names the program to test, which is the first word, or without one what
# `./planarmap --build` makes. Where there is none the test ends with 2.
top=$(cd "$(dirname "${BASH_SOURCE[0]}")/.." && pwd) || exit 2
program=${1:-$top/crates/planarmap/out/planarmap}
if [ ! -x "$program" ]; then
    echo "$0: no program at $program" >&2
    exit 2
fi
