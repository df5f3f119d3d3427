#!/usr/bin/env bash
# Times oxt beside oxt_floor, which only reads and writes the same JSON, on made trees, and beside Babel on sources.
# bench/run.sh [RUNS [FILE.ts ..]]; both programs are proved and built first. Babel is found by NODE_PATH.
set -euo pipefail
cd "$(dirname "$0")/.."

for program in oxt oxt_floor; do
    (cd "crates/$program" && rt run < ../../examples/const_number.json > /dev/null 2>&1)
done

trees=$(mktemp -d)
trap 'rm -r "$trees"' EXIT
names="10000 1500000 15000000 enums-1500000 namespaces-1500000 fields-1500000 decorators-1500000"
python3 bench/make_trees.py "$trees" $names
python3 bench/times.py "${1:-9}" "$trees" $names
if (($# > 1)); then
    node bench/babel.mjs "$@"
fi
