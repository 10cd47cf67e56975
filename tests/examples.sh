#!/usr/bin/env bash
# Runs each example whose tools are there, and says which aren't. The status is 0 where all that ran ended with 0.
set -u
cd "$(dirname "$0")/.." || exit 1
status=0
try() {
    echo "examples: $*"
    "$@" || status=1
}

# A Python that has the module, or nothing.
python_with() {
    local python
    for python in python3 /usr/bin/python3; do
        if command -v "$python" >/dev/null 2>&1 && "$python" -c "import $1" 2>/dev/null; then
            echo "$python"
            return
        fi
    done
}

try examples/distances.sh 2000
plain=$(python_with sys)
if [ -n "$plain" ]; then
    try examples/draw_and_read.sh
    try "$plain" examples/root_degrees.py
    try "$plain" examples/typical_distances.py
else
    echo "examples: there is no python3, so those in Python didn't run"
fi
graphs=$(python_with networkx)
if [ -n "$graphs" ]; then
    try "$graphs" examples/into_networkx.py <<<"$(./planarmap draw general 200 7 1 | tail -n +2)"
    try "$graphs" examples/fuzz_planarity.py
else
    echo "examples: there is no networkx, so those over it didn't run"
fi
exit "$status"
