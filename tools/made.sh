# Made trees, for the scripts beside this one: `made N SEED [FACTOR]` prints the tree with N leaves that the generator of docs/FORMATS.md makes
# from SEED, its lengths times FACTOR.

# The next draw of the generator.
draw() {
    state=$(((state * 1103515245 + 12345) % 2147483648))
    drawn=$((state / 65536))
}

# Makes a node below node $1.
grow() {
    draw
    printf 'n%d n%d %d\n' "$1" "$nodes" $(((drawn % 9 + 1) * factor))
    children[$1]=1
    nodes=$((nodes + 1))
}

made() {
    local most=$1 state=$2 factor=${3:-1} nodes=1 leaves=2 drawn node
    local -A children=()
    grow 0
    grow 0
    while [ "$leaves" -lt "$most" ]; do
        draw
        node=$((drawn % nodes))
        [ -n "${children[$node]:-}" ] || grow "$node"
        grow "$node"
        leaves=$((leaves + 1))
    done
}
