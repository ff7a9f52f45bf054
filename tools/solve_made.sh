#!/bin/bash
# Solves the made trees of 3 to 16 leaves from seeds 1 to 20, with lengths as they are drawn and times 100: 560 runs. Each is to end with
# status 0, the bound of its certificate being its side, and `verify` is to say yes to the certificate; where the program has no `verify`
# yet, that is left out and said. Ends with 1 where a run does otherwise.
#
#   tools/solve_made.sh [PROGRAM]     PROGRAM is crates/boxpleat/out/boxpleat where it isn't given
set -u
here=$(dirname "$0")
source "$here/made.sh"
program=${1:-$here/../crates/boxpleat/out/boxpleat}
[ -x "$program" ] || { echo "no program $program" >&2; exit 2; }
folder=$(mktemp -d)
trap 'rm -r "$folder"' EXIT
tree=$folder/tree certificate=$folder/certificate

# The number of a line of the certificate.
number_of() {
    sed -n "s/^$1 //p" "$certificate" | head -n 1
}

runs=0 faults=0 verified=0 unbuilt=0

fault() {
    echo "made $leaves $seed times $factor: $1"
    faults=$((faults + 1))
}

for factor in 1 100; do
    for leaves in $(seq 3 16); do
        for seed in $(seq 1 20); do
            made "$leaves" "$seed" "$factor" >"$tree"
            runs=$((runs + 1))
            "$program" solve <"$tree" >"$certificate" 2>"$folder/told"
            status=$?
            if [ "$status" -ne 0 ]; then
                fault "status $status: $(cat "$folder/told")"
                continue
            fi
            side=$(number_of side) bound=$(number_of bound)
            [ "$side" = "$bound" ] || fault "side $side bound $bound"
            answer=$("$program" verify --tree "$tree" <"$certificate" 2>/dev/null)
            status=$?
            if [ "$status" -eq 8 ]; then
                unbuilt=$((unbuilt + 1))
            elif [ "$status" -eq 0 ] && [ "$answer" = "yes side $side bound $bound" ]; then
                verified=$((verified + 1))
            else
                fault "verify: status $status: $answer"
            fi
        done
    done
done
echo "$runs runs, $verified verified, $faults faults"
[ "$unbuilt" -eq 0 ] || echo "verify isn't built: $unbuilt certificates weren't verified"
[ "$faults" -eq 0 ]
