#!/bin/bash
# How fast `design` is beside plain Rust: the same search by pairs, document and all, by a program that is given by its path and takes
# `design --budget B --mode warm < TREE`. Both design the made trees of 16 leaves (see made.sh), one after the other. Prints a table for
# docs/SPEED.md: processor seconds with the program's start, the least of five times, then all together and how many times plain Rust's. Trees
# whose opening meets the floor, and those that need less than half the budget, are left out, as there is little to time.
#
#   tools/design_speed.sh BASELINE [SEEDS [BUDGET [PROGRAM]]]
#
# SEEDS is 20, so seeds 1 to 20; BUDGET is 200000; PROGRAM is crates/boxpleat/out/boxpleat. With four workers the search is another one, which may
# examine as many branches and end elsewhere.
set -u
here=$(dirname "$0")
source "$here/made.sh"
[ $# -ge 1 ] || { sed -n '2,12s/^# \{0,1\}//p' "$0" >&2; exit 2; }
baseline=$1 seeds=${2:-20} budget=${3:-200000} program=${4:-$here/../crates/boxpleat/out/boxpleat}
for file in "$baseline" "$program"; do
    [ -x "$file" ] || { echo "no program $file" >&2; exit 2; }
done
folder=$(mktemp -d)
trap 'rm -r "$folder"' EXIT
tree=$folder/tree document=$folder/document
TIMEFORMAT='%U %S'

# Processor seconds of the command on the tree, the least of five.
seconds() {
    for _ in 1 2 3 4 5; do
        { time "$@" <"$tree" >"$document" 2>/dev/null; } 2>&1
    done | awk '{ took = $1 + $2; if (NR == 1 || took < least) least = took } END { printf "%.3f", least }'
}

# A row: what plain Rust, one worker and four workers took.
row() {
    awk -v name="$1" -v nodes="$2" -v theirs="$3" -v one="$4" -v four="$5" 'BEGIN {
        printf "| %s | %s | %.3f | %.3f | %.2f | %.3f | %.2f |\n", name, nodes, theirs, one, one / theirs, four, four / theirs
    }'
}

echo '| Seed | proof lines | plain Rust, s | 1 worker, s | times | 4 workers, s | times |'
echo '|---|---|---|---|---|---|---|'
all_theirs=0 all_one=0 all_four=0 all_nodes=0
for seed in $(seq 1 "$seeds"); do
    made 16 "$seed" >"$tree"
    one=$(seconds "$program" design --budget "$budget" --workers 1)
    nodes=$(sed -n 's/^proof \([0-9]*\)$/\1/p' "$document")
    [ "${nodes:-0}" -ge $((budget / 2)) ] || continue
    theirs=$(seconds "$baseline" design --budget "$budget" --mode warm)
    four=$(seconds "$program" design --budget "$budget" --workers 4)
    row "$seed" "$nodes" "$theirs" "$one" "$four"
    all_theirs=$(awk -v a="$all_theirs" -v b="$theirs" 'BEGIN { print a + b }')
    all_one=$(awk -v a="$all_one" -v b="$one" 'BEGIN { print a + b }')
    all_four=$(awk -v a="$all_four" -v b="$four" 'BEGIN { print a + b }')
    all_nodes=$((all_nodes + nodes))
done
row all "$all_nodes" "$all_theirs" "$all_one" "$all_four"
