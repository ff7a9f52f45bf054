#!/bin/bash
# Runs `design` many times with 2 to 16 workers on small made trees, squares and strips, and has `check` read each document. Every run is to end
# within a minute with status 0 or 3, and every answer is to be yes with the document's side and bound; with status 0 the side is to be the
# one that one worker finds. Ends with 1 where a run does otherwise.
#
#   tools/many_designs.sh [RUNS [PROGRAM]]     2,000 runs of crates/boxpleat/out/boxpleat where nothing is given
set -u
here=$(dirname "$0")
source "$here/made.sh"
runs=${1:-2000} program=${2:-$here/../crates/boxpleat/out/boxpleat}
[ -x "$program" ] || { echo "no program $program" >&2; exit 2; }
folder=$(mktemp -d)
trap 'rm -r "$folder"' EXIT
tree=$folder/tree document=$folder/document

number_of() {
    sed -n "s/^$1 //p" "$2" | head -n 1
}

faults=0 given_up=0

fault() {
    echo "made $leaves $seed, $options: $1"
    faults=$((faults + 1))
}

for ((run = 0; run < runs; run++)); do
    leaves=$((3 + run % 6)) seed=$((1 + run / 6))
    workers=$((2 + run % 15))
    options="--workers $workers --budget 20000"
    [ $((run % 4)) -ne 3 ] || options="$options --strip $((run % 23))"
    made "$leaves" "$seed" >"$tree"
    timeout 60 "$program" design $options <"$tree" >"$document" 2>"$folder/told"
    status=$?
    case $status in
    0) ;;
    3) given_up=$((given_up + 1)) ;;
    *) fault "status $status: $(cat "$folder/told")"; continue ;;
    esac
    side=$(number_of side "$document") bound=$(number_of bound "$document")
    answer=$("$program" check --tree "$tree" <"$document" 2>/dev/null)
    [ "$answer" = "yes side $side bound $bound" ] || fault "check: $answer"
    [ $status -ne 0 ] || [ "$side" = "$bound" ] || fault "side $side bound $bound"
    [ $((run % 10)) -eq 0 ] && [ $status -eq 0 ] || continue
    "$program" design ${options/--workers $workers/--workers 1} <"$tree" >"$folder/one" 2>/dev/null
    [ $? -ne 0 ] || [ "$(number_of side "$folder/one")" = "$side" ] || fault "one worker finds side $(number_of side "$folder/one")"
done
echo "$runs runs, $given_up given up, $faults faults"
[ "$faults" -eq 0 ]
