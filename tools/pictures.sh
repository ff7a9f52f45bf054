#!/bin/bash
# Makes the pictures in examples/ anew: each figure is solved or designed, and what was written is drawn.
#
#   tools/pictures.sh [PROGRAM]     crates/boxpleat/out/boxpleat where nothing is given
set -eu -o pipefail
here=$(dirname "$0")
program=${1:-$here/../crates/boxpleat/out/boxpleat}

# picture_of COMMAND FIGURE
picture_of() {
    "$program" "$1" < "$here/../examples/$2.tree" | "$program" picture > "$here/../examples/$2.svg"
}

picture_of solve human
picture_of solve beetle
picture_of solve star_of_four
picture_of design two_twigs
