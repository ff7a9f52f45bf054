# Prints a tree of 64 nodes and 32 leaves whose regions have many cuts: a line of 31 short edges, with a long flap at each of its nodes, so that
# few of the squares round a tip hang over the border.
#
#   awk -f examples/largest_drawing.awk > largest.tree
BEGIN {
    for (k = 1; k <= 31; k++) {
        print "s" k - 1, "s" k, 1 + k % 3
        print "s" k, "l" k, 400 + (k * k * 53) % 211
    }
    print "s0", "l0", 431
}
