# Reads the design of examples/star_of_32.tree, which has no proof, and writes it with a proof of nearly 800,001 lines, which fits: splits of the
# pairs (1,2), (2,3), .. (31,32), each followed into its child Left, so that the leaves stand in one chain on x; below that a tree of splits of the
# pairs (1,4), (1,5), ..; and each leaf of the proof with a chain of its path.

# How many choices the pair (i,j) allows on a square. Leaves from 4 on are twins.
function choices(i, j) {
    if (i == 1 && j == 2) return 1
    if (i == 1 && j == 3) return 3
    return i >= 4 ? 2 : 4
}

# The leaves 1 to n in a list.
function list(n,    k, text) {
    for (k = 1; k <= n; k++) text = text " " k
    return text
}

function add(line) {
    lines[count++] = line
}

# A tree of splits at this depth, where `below` of them lie above, with the chain of all 32 leaves at its leaves.
function tree(depth, below,    k) {
    if (below == 10 || (below == 9 && count > 600000)) {
        add(depth " walk x" all)
        return
    }
    add(depth " split 1 " (4 + below))
    for (k = 0; k < 4; k++) tree(depth + 1, below + 1)
}

# The split of (k,k+1), with its child Left, and behind that its other children, each with the chain of the leaves before it.
function comb(k,    c) {
    if (k == 32) {
        tree(31, 0)
        return
    }
    add((k - 1) " split " k " " (k + 1))
    comb(k + 1)
    for (c = 1; c < choices(k, k + 1); c++) add(k " walk x" list(k))
}

$0 == "proof none" {
    all = list(32)
    comb(1)
    print "proof " count
    for (k = 0; k < count; k++) print lines[k]
    next
}

{ print }
