#!/usr/bin/env bash
# What is at a point of a deep and of a wide tree of 1,024, 4,096 and 8,192 nodes: nanoseconds by the clock from child to child, and by a
# search over all nodes, both in one run; and how many times the one takes the other. Then the lines of `hit` on such trees: processor time of
# a point, of a place, and of a node that is added, placed and removed, in microseconds.
# usage: bench/hit.sh [POINTS [LINES]]
# PROGRAM: the words that run another program in place of `atspi hit`.
set -eu
top=$(cd "$(dirname "$0")/.." && pwd)
points=${1:-300} lines=${2:-20000}
work=$(mktemp -d)
trap 'rm -rf "$work"' EXIT
program=$("$top/bench/programs.sh" built atspi_hit_speed)
echo "load: $(cut -d' ' -f1-3 /proc/loadavg), processors: $(nproc)"
for shape in deep wide; do
    for nodes in 1024 4096 8192; do
        "$program" "$shape" "$nodes" "$points" >"$work/out" 2>"$work/times"
        read -r found all <"$work/out"
        [ "$found" = "$all" ] || { echo "$shape $nodes: $found and $all" >&2; exit 1; }
        awk '{ print $0 ", " int($8 * 10 / ($4 > 0 ? $4 : 1)) / 10 " times" }' "$work/times"
    done
done

hit=${PROGRAM:-}
if [ -z "$hit" ]; then
    "$top/atspi" hit </dev/null >/dev/null
    hit="$top/crates/atspi/out/atspi hit"
fi

# tree SHAPE NODES: the lines that make it; as above, a point to the right is in few nodes of the deep one, and in one of the wide one
tree() {
    awk -v deep="$([ "$1" = deep ] && echo 1 || echo 0)" -v nodes="$2" 'BEGIN {
        print "app \"speed\""
        for (n = 1; n < nodes; n++) print "insert " (deep ? n - 1 : 0) " 0 panel \"panel\""
        for (n = 0; n < nodes; n++) print "place " n (n && !deep ? " " n " 0 1 1" : " 0 0 " nodes - n " 1")
    }'
}

# used INPUT: milliseconds of a processor that the input takes
used() {
    local TIMEFORMAT='%3U %3S'
    { time $hit <"$1" >"$work/told"; } 2>"$work/time"
    awk '{ print int(($1 + $2) * 1000 + 0.5) }' "$work/time"
}

# line NAME TREE: what a line takes, of so many that come from standard input behind the tree
line() {
    cat "$2" - >"$work/both"
    alone=$(used "$2") both=$(used "$work/both")
    echo "  $1: $(awk -v a="$alone" -v b="$both" -v n="$lines" 'BEGIN { printf "%.2f", (b - a) * 1000 / n }') us"
}
for shape in deep wide; do
    for nodes in 1024 4096 8191; do
        tree "$shape" "$nodes" >"$work/tree"
        echo "hit, $shape, $nodes nodes, $lines lines:"
        awk -v nodes="$nodes" -v lines="$lines" 'BEGIN { for (k = 0; k < lines; k++) print "point 0 " nodes - 1 - k % 8 " 0" }' | line point "$work/tree"
        awk -v nodes="$nodes" -v lines="$lines" 'BEGIN { for (k = 0; k < lines; k++) print "place " k % nodes " 0 0 1 1" }' | line place "$work/tree"
        awk -v nodes="$nodes" -v lines="$lines" 'BEGIN { for (k = 0; k < lines; k++) { n = nodes + k
            print "insert 0 0 label \"\"\nplace " n " 0 0 1 1\nremove " n } }' | line "insert, place and remove" "$work/tree"
    done
done
