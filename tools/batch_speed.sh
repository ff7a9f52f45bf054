#!/bin/bash
# How fast `boxpleat_batch` is by one worker and by several: made trees (see made.sh), each with a seed of its own, in one batch. Prints the
# least wall-clock seconds of three times for each number of workers, and how many times as fast as by one worker that is. The outputs are to be
# equal; ends with 1 where they aren't.
#
#   tools/batch_speed.sh [LEAVES [TREES [BUDGET [PROGRAM]]]]
#
# 200 trees of 8 leaves, a budget of 1000 and crates/boxpleat_batch/out/boxpleat_batch where nothing is given.
set -u
here=$(dirname "$0")
source "$here/made.sh"
leaves=${1:-8} trees=${2:-200} budget=${3:-1000} program=${4:-$here/../crates/boxpleat_batch/out/boxpleat_batch}
[ -x "$program" ] || { echo "no program $program" >&2; exit 2; }
folder=$(mktemp -d)
trap 'rm -r "$folder"' EXIT
TIMEFORMAT=%R

for seed in $(seq 1 "$trees"); do
    [ "$seed" -eq 1 ] || echo %
    made "$leaves" "$seed"
done >"$folder/trees"

# Wall-clock seconds of a batch by $1 workers, the least of three.
seconds() {
    for _ in 1 2 3; do
        { time "$program" --workers "$1" --budget "$budget" <"$folder/trees" >"$folder/by_$1"; } 2>&1
    done | sort -n | head -n 1
}

one=$(seconds 1)
echo "1 worker: $one s, $(grep -c '^reply [0-9]* 0$' "$folder/by_1") of $trees with the smallest sheet"
for workers in 2 4; do
    took=$(seconds "$workers")
    cmp -s "$folder/by_1" "$folder/by_$workers" || { echo "$workers workers: another output"; exit 1; }
    awk -v workers="$workers" -v took="$took" -v one="$one" 'BEGIN { printf "%d workers: %.3f s, %.2f times as fast\n", workers, took, one / took }'
done
