#!/bin/bash
# How fast `solve` is beside another program that answers `solve` in the same way (a tree on standard input, a certificate on standard
# output), and how much memory it takes. Prints a table for docs/SPEED.md: processor seconds with the program's start, the least of three times
# one after the other; of the made trees all together; of a figure that takes less than a tenth of a second the mean of 20 runs.
#
#   tools/solve_speed.sh PROTOTYPE [FIGURES [PROGRAM]]
#
# FIGURES is a folder of trees, examples/ where it isn't given; PROGRAM is crates/boxpleat/out/boxpleat. Figures are solved with the default
# budget, and the memory is the greatest over the figures, with a budget of 1,000,000 conflicts (`/usr/bin/time -v`).
set -u
here=$(dirname "$0")
source "$here/made.sh"
[ $# -ge 1 ] || { sed -n '2,11s/^# \{0,1\}//p' "$0" >&2; exit 2; }
prototype=$1 figures=${2:-$here/../examples} program=${3:-$here/../crates/boxpleat/out/boxpleat}
for file in "$prototype" "$program"; do
    [ -x "$file" ] || { echo "no program $file" >&2; exit 2; }
done
folder=$(mktemp -d)
trap 'rm -r "$folder"' EXIT
certificate=$folder/certificate
TIMEFORMAT='%U %S'

# Processor seconds of one round of `$1 solve` over the trees from $3 on, the least of three times $2 rounds.
seconds() {
    local solver=$1 rounds=$2 round file
    shift 2
    for _ in 1 2 3; do
        {
            time for ((round = 0; round < rounds; round++)); do
                for file in "$@"; do "$solver" solve <"$file" >"$certificate" 2>/dev/null; done
            done
        } 2>&1
    done | awk -v rounds="$rounds" '{ took = ($1 + $2) / rounds; if (NR == 1 || took < least) least = took } END { printf "%.4f", least }'
}

# A row of the table, for $2 rounds over the trees from $3 on.
row() {
    local name=$1 rounds=$2 ours theirs
    shift 2
    theirs=$(seconds "$prototype" "$rounds" "$@")
    ours=$(seconds "$program" "$rounds" "$@")
    local ending='many'
    [ $# -gt 1 ] || ending=$(sed -n 's/^side //p;s/^bound //p' "$certificate" | head -n 2 | paste -sd ' ')
    awk -v name="$name" -v ending="$ending" -v ours="$ours" -v theirs="$theirs" \
        'BEGIN { printf "| %s | %s | %s | %s | %.2f |\n", name, ending, ours, theirs, (theirs > 0 ? ours / theirs : 0) }'
}

echo '| Trees | side, bound | boxpleat, s | prototype, s | times |'
echo '|---|---|---|---|---|'
trees=()
for leaves in $(seq 3 16); do
    for seed in $(seq 1 20); do
        made "$leaves" "$seed" >"$folder/made_${leaves}_$seed"
        trees+=("$folder/made_${leaves}_$seed")
    done
done
row '280 made trees' 1 "${trees[@]}"
for file in "$figures"/*.tree "$figures"/*.txt; do
    [ -e "$file" ] || continue
    rounds=1
    if timeout 0.1 "$prototype" solve <"$file" >"$certificate" 2>/dev/null; then rounds=20; fi
    row "$(basename "${file%.*}")" "$rounds" "$file"
done

most=0 heaviest=
for file in "$figures"/*.tree "$figures"/*.txt; do
    [ -e "$file" ] || continue
    took=$(/usr/bin/time -v "$program" solve --budget 1000000 <"$file" 2>&1 >/dev/null | sed -n 's/.*Maximum resident set size (kbytes): //p')
    [ "$took" -le "$most" ] || { most=$took heaviest=$(basename "${file%.*}"); }
done
echo
echo "Greatest memory, with a budget of 1,000,000: $((most / 1024)) MB ($heaviest)"
