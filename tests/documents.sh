#!/usr/bin/env bash
# Runs each block of README.md and docs/*.md that begins with `    $ `, in order, from the repository's root, and compares
# what it prints with what stands under it. The status is 0 where all agree, and 1 where one doesn't.
set -u
cd "$(dirname "$0")/.." || exit 1
status=0
count=0
run_block() {
    local file=$1 command=$2 expected=$3 got
    got=$(bash -c "$command" 2>&1)
    count=$((count + 1))
    if [ "$got" != "$expected" ]; then
        printf '%s: the block\n    $ %s\nprints\n%s\nand not\n%s\n' "$file" "$command" "$got" "$expected" >&2
        status=1
    fi
}
for file in README.md docs/*.md; do
    command= expected= inside=no
    while IFS= read -r line || [ -n "$line" ]; do
        case $line in
        '    $ '*)
            [ "$inside" = yes ] && run_block "$file" "$command" "$expected"
            command=${line#'    $ '} expected= inside=yes
            ;;
        '    '*)
            [ "$inside" = yes ] && expected=$expected${expected:+$'\n'}${line#'    '}
            ;;
        *)
            [ "$inside" = yes ] && run_block "$file" "$command" "$expected"
            inside=no
            ;;
        esac
    done <"$file"
    [ "$inside" = yes ] && run_block "$file" "$command" "$expected"
done
rm -f map.txt
echo "documents: $count blocks run"
# The pages on calling the crates say what the sources do, where python3 is there to compare them.
if command -v python3 >/dev/null 2>&1 && ! python3 tests/calling.py --check; then
    status=1
fi
exit "$status"
