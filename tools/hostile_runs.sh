#!/bin/bash
# Runs the real program on closed pipes, a full disk, missing files, folders in the place of files and files without permission, and compares
# each status with the one that its reader would expect. Rows without permission are run as another user where this one is root. Ends with 1
# where a status is another one.
#
#   tools/hostile_runs.sh [PROGRAM [BATCH]]     crates/boxpleat/out/boxpleat and crates/boxpleat_batch/out/boxpleat_batch where they aren't
#                                               given
set -u
here=$(cd "$(dirname "$0")/.." && pwd)
given=${1:-$here/crates/boxpleat/out/boxpleat} batch=${2:-$here/crates/boxpleat_batch/out/boxpleat_batch}
for file in "$given" "$batch"; do
    [ -x "$file" ] || { echo "no program $file" >&2; exit 2; }
done
folder=$(mktemp -d)
trap 'rm -rf "$folder"' EXIT
chmod 755 "$folder"
# copies, which another user can run too
cp "$given" "$folder/boxpleat"
cp "$batch" "$folder/batch"
cp "$here"/examples/two_twigs.tree "$folder/tree"
cd "$folder" || exit 2
b=./boxpleat
$b design <tree >design
$b solve <tree >certificate
mkdir nest
cp tree locked.tree
: >locked.fold
chmod 000 locked.tree locked.fold
chmod 777 .
chmod 644 tree design certificate

as_other=
if [ "$(id -u)" -eq 0 ]; then
    as_other="setpriv --reuid=65534 --regid=65534 --clear-groups --"
fi
rows=0 faults=0

# row STATUS COMMAND: the command, a line of shell, ends with this status
row() {
    rows=$((rows + 1))
    timeout 60 bash -c "set -o pipefail; $2" >"$folder/out" 2>"$folder/err"
    local status=$?
    if [ "$status" -ne "$1" ]; then
        echo "status $status for $1: $2"
        faults=$((faults + 1))
    fi
}

# what is read
row 4 "$b check --tree missing.tree <design"
row 4 "$b check --tree nest <design"
row 4 "$b verify --tree missing.tree <certificate"
row 4 "$b design <nest"
row 4 "$b check --tree tree <nest"
row 4 "$b revise --tree missing.tree <design"
row 4 "$b revise --tree tree <nest"
row 4 "$b contours <nest"
row 4 "$as_other $b check --tree locked.tree <design"
row 1 "$b design </dev/null"
row 1 "$b check --tree /dev/null <design"
row 1 "$b check --tree tree </dev/null"
row 1 "head -c 100 /dev/zero | $b solve"
row 1 "head -c 70000 /dev/urandom | $b design"
row 1 "head -c 100 design | $b contours"
row 1 "gzip -c design | $b rewrite"
# what is written
row 5 "$b design <tree >/dev/full"
row 5 "$b solve <tree >/dev/full"
row 5 "$b check --tree tree <design >/dev/full"
row 5 "$b verify --tree tree <certificate >/dev/full"
row 5 "$b revise --tree tree <design >/dev/full"
row 5 "$b contours <design >/dev/full"
row 5 "$b made 5 1 >/dev/full"
row 5 "$b design --fold /dev/full <tree"
row 5 "$b design --fold nest <tree"
row 5 "$b solve --fold missing/x.fold <tree"
row 5 "$as_other $b design --fold locked.fold <tree"
# a reader that goes away before a byte is read
row 5 "{ sleep 1; $b design <tree; } | true"
row 5 "{ sleep 1; $b rewrite <design; } | true"
# the error output fails, and the status stays
row 2 "$b fold 2>/dev/full"
row 1 "$b design </dev/null 2>/dev/full"
row 3 "$b design --budget 1 <$here/examples/star_2_2_2_1_1.tree 2>/dev/full"
row 10 "$b revise --tree $here/examples/beetle.tree <design 2>/dev/full"
# words
row 2 "$b"
row 2 "$b design --budget 0 <tree"
row 2 "$b check --tree"
row 2 "$b design \$'\\xff' <tree"
# a fault of writing leaves no drawing behind a document that wasn't written
row 5 "$b design --fold late.fold <tree >/dev/full"
row 1 "test -e late.fold"
# what is wanted: a document is written whole before the drawing, which a folder keeps from being written
row 0 "$b design --fold nest <tree >whole 2>/dev/null; cmp whole design"
# many trees at once
row 0 "./batch <tree"
row 0 "./batch <nest 2>/dev/null; test \$? -eq 4"
row 1 "head -c 5000000 /dev/zero | ./batch"
row 5 "./batch <tree >/dev/full"
row 5 "{ sleep 1; ./batch <tree; } | true"
row 2 "./batch --workers 17 <tree 2>/dev/full"
row 2 "./batch \$'\\xff' <tree"
echo "$rows runs, $faults faults"
[ "$faults" -eq 0 ]
