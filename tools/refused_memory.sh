#!/bin/bash
# Refuses each demand for memory in turn, one run of the real program for each: every run is to end within 20 seconds with its command's usual
# status, or with 6 and nothing written on standard output or in the file of --fold. Ends with 1 where a run does otherwise. A C compiler makes
# the piece that refuses (refuse_memory.c).
#
#   tools/refused_memory.sh [PROGRAM [MOST [BATCH]]]     crates/boxpleat/out/boxpleat, at most 400 runs a command: the first half of them
#                                                        refuse the first demands, the others demands at equal steps up to the last; and
#                                                        crates/boxpleat_batch/out/boxpleat_batch
set -u
here=$(cd "$(dirname "$0")/.." && pwd)
program=${1:-$here/crates/boxpleat/out/boxpleat} most=${2:-400} batch=${3:-$here/crates/boxpleat_batch/out/boxpleat_batch}
for file in "$program" "$batch"; do
    [ -x "$file" ] || { echo "no program $file" >&2; exit 2; }
done
folder=$(mktemp -d)
trap 'rm -rf "$folder"' EXIT
cc -O1 -shared -fPIC -o "$folder/refuse.so" "$here/tools/refuse_memory.c" || exit 2
cd "$folder" || exit 2
cp "$here"/examples/*.tree .
"$program" design <star_2_2_2_1_1.tree >star.design
"$program" design <two_twigs.tree >twigs.design
sed 's/r 2/r 3/' star_2_2_2_1_1.tree >longer.tree
"$program" solve <star_2_2_2_1_1.tree >star.cert
{ cat two_twigs.tree; echo %; cat star_2_2_2_1_1.tree; echo %; echo c p 0; echo %; cat two_twigs.tree; } >trees
faults=0 runs=0 refusals=0

fault() {
    echo "demand $number of: ${program##*/} $words < $input: $1"
    faults=$((faults + 1))
}

# one run in which the demand $number is refused
refuse() {
    runs=$((runs + 1))
    rm -f drawing
    REFUSED=$number LD_PRELOAD=./refuse.so timeout 20 "$program" $words <"$input" >out 2>err
    local status=$?
    if [ "$status" -eq 6 ]; then
        refusals=$((refusals + 1))
        [ ! -s out ] || fault "status 6 behind $(wc -c <out) bytes"
        [ ! -s drawing ] || fault "status 6 behind a drawing"
    elif [ "$status" -ne "$usual" ]; then
        fault "status $status for $usual"
    elif [ "$same" = yes ]; then
        cmp -s out usual || fault "another text"
    fi
}

# row SAME INPUT WORDS..: SAME is yes where the text is the same at each run
row() {
    same=$1 input=$2
    shift 2
    words=$*
    COUNTED=$folder/count LD_PRELOAD=./refuse.so "$program" $words <"$input" >usual 2>err
    usual=$?
    local demands half=$((most / 2)) step
    demands=$(od -An -td8 count | tr -d " ")
    for ((number = 1; number <= demands && number <= half; number++)); do refuse; done
    step=$(((demands - half) / half + 1))
    for ((; number <= demands; number += step)); do refuse; done
    echo "${program##*/} $words < $input: status $usual, $demands demands"
}

row yes star_of_four.tree design --fold drawing
row no star_2_2_2_1_1.tree design --workers 3
row no star_2_2_2_1_1.tree design --workers 16
row yes star_2_2_2_1_1.tree design --workers 1
row yes star_2_2_2_1_1.tree design --replay 1 --workers 4
row yes star_2_2_2_1_1.tree design --replay 1 --workers 4 --fold drawing
row no star_2_2_2_1_1.tree design --budget 1
row yes star_2_2_2_1_1.tree design --workers 1 --strip 4
row yes star.design check --tree star_2_2_2_1_1.tree
row yes star.design revise --tree star_2_2_2_1_1.tree
row yes star.design revise --tree longer.tree
row yes star.design rewrite
row yes twigs.design contours
row yes twigs.design pieces
row yes twigs.design picture
row yes star_2_2_2_1_1.tree solve
row yes beetle.tree solve --fold drawing
row yes star.cert verify --tree star_2_2_2_1_1.tree
row yes star.cert contours
row yes star.cert pieces
row yes star.cert picture
row yes /dev/null made 16 7
row yes /dev/null trial 6 3
row yes /dev/null help
program=$batch
row yes trees --workers 1
row yes trees --workers 4
row yes trees --workers 16 --budget 1
row yes /dev/null
echo "$runs runs, $refusals of them ended with 6, $faults faults"
[ "$faults" -eq 0 ]
