#!/usr/bin/env bash
# Runs the real process and compares its status, its output and its line on standard error: that the words, the streams
# and the status of the process are those of the proved call `run` is only tested, and here.
#
#   tests/process.sh [PROGRAM]      without PROGRAM the one that `./planarmap --build` makes
#
# The last line counts the rows. Status 0: each row passed. Status 1: one failed. Status 2: there is no program.
set -u
# shellcheck source=tests/program.sh
. "$(dirname "$0")/program.sh"
folder=$(mktemp -d) || exit 2
trap 'rm -rf "$folder"' EXIT
passed=0
failed=0

# The row NAME: after the run, the status, what was written to standard output and what to standard error.
row() {
    local name=$1 status=$2 output=$3 line=$4
    printf '%s' "$output" >"$folder/wanted.out"
    printf '%s' "$line" >"$folder/wanted.err"
    if [ "$ended" -eq "$status" ] && cmp -s "$folder/out" "$folder/wanted.out" && cmp -s "$folder/err" "$folder/wanted.err"; then
        passed=$((passed + 1))
    else
        failed=$((failed + 1))
        echo "tests/process.sh: $name: status $ended, and not $status, or another output:" >&2
        head -c 300 "$folder/out" "$folder/err" >&2
    fi
}

# Runs the program on the text INPUT with the words that follow.
on() {
    printf '%s' "$1" >"$folder/in"
    shift
    "$program" "$@" <"$folder/in" >"$folder/out" 2>"$folder/err"
    ended=$?
}

map=$'map 2 0\nv 0 1 2 3\nend\n'
on $'tree lbl\n' close eulerian
row 'a tree is closed' 0 "$map" ''
on $'choices 0 2 0\n' sample general 1
row 'a general map' 0 $'map 1 0\nv 0\nv 1\nend\nresidue 2 0 0\n' ''
on $'map 2 0\nv 0 2\nv 1\nv 3\nend\n' dual
row 'a dual' 0 "$map" ''
on ''
row 'no word' 2 '' $'planarmap: usage 0\n'
on '' sampel quartic 2
row 'another first word' 2 '' $'planarmap: usage 0\n'
on '' sample quartic 2 x
row 'a fourth word too many' 2 '' $'planarmap: usage 3\n'
on '' draw quartic 1 7 2 x
row 'a sixth word too many' 2 '' $'planarmap: usage 5\n'
on '' sample quartic 2097153
row 'a size above the limit' 2 '' $'planarmap: usage 2\n'
on '' sample quartic ''
row 'an empty word' 2 '' $'planarmap: usage 2\n'
on '' sample $'\xff' 2
row 'a word that is not UTF-8' 1 '' ''
on $'tree x\n' close eulerian
row 'another letter' 3 '' $'planarmap: text 1\n'
on $'choices 0\n' sample quartic 1
row 'a short list' 4 '' $'planarmap: list length 3 1\n'
on $'map 1 0\nv 0 0\nend\n' canon
row 'a dart twice' 6 '' $'planarmap: map permutation 1\n'
on $'map 4194305 0\nend\n' canon
row 'too few darts, whatever the edges' 3 '' $'planarmap: text 2\n'
on $'tree ll\n' close eulerian
row 'a node of odd degree' 12 '' $'planarmap: tree degree 0\n'

"$program" canon </ >"$folder/out" 2>"$folder/err"
ended=$?
row 'an input that cannot be read' 5 '' $'planarmap: read\n'
"$program" canon <&- >"$folder/out" 2>"$folder/err"
ended=$?
row 'a closed input' 5 '' $'planarmap: read\n'
"$program" trip bipartite 4:50 3 <&- >"$folder/out" 2>"$folder/err"
ended=$?
row 'a closed input of a command that reads nothing' 0 $'trip ok 52 100 50\n' ''
: >"$folder/out"
"$program" draw quartic 1 7 2 >&- 2>"$folder/err"
ended=$?
row 'a closed output' 8 '' $'planarmap: write\n'
"$program" census quartic 1 <&- >"$folder/out" 2>"$folder/err"
ended=$?
row 'a census, which reads nothing' 0 $'map 2 0\nv 0 2 3 1\nend\nlists 6\nmap 2 0\nv 0 1 2 3\nend\nlists 6\ntotal 2 12\n' ''
on '' census general 5
row 'a census of too many lists' 7 '' $'planarmap: limit lists\n'
if [ -c /dev/full ]; then
    "$program" draw quartic 1 7 2 >/dev/full 2>"$folder/err"
    ended=$?
    row 'a full output' 8 '' $'planarmap: write\n'
fi
: >"$folder/err"
"$program" sample >"$folder/out" 2>&-
ended=$?
row 'a closed standard error' 2 '' ''
head -c 268435457 /dev/zero | "$program" canon >"$folder/out" 2>"$folder/err"
ended=$?
row 'a byte more than the limit' 7 '' $'planarmap: limit bytes\n'

echo "tests/process.sh: $passed rows passed, $failed failed"
[ "$failed" -eq 0 ]
