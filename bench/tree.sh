#!/usr/bin/env bash
# A drawn edit in a tree of 1,000, 2,000, 4,000 and 8,192 nodes, its steps told and done: instructions, and nanoseconds by
# the clock (which the program writes to standard error). The focus that goes to a drawn node, and a walk over all nodes:
# instructions a node.
# usage: bench/tree.sh [EDITS]      (wants valgrind)
set -eu
top=$(cd "$(dirname "$0")/.." && pwd)
edits=${1:-20000}
work=$(mktemp -d)
trap 'rm -rf "$work"' EXIT
program=$("$top/bench/programs.sh" built atspi_speed)

# count NODES EDITS FOCUSES WALKS: the instructions of a run
count() {
    valgrind --tool=callgrind --callgrind-out-file="$work/callgrind" "$program" tree "$1" "$2" "$3" "$4" >"$work/out" 2>"$work/log"
    awk '/^totals:|^summary:/ { n = $2 } END { print n }' "$work/callgrind"
}
echo "load: $(cut -d' ' -f1-3 /proc/loadavg), processors: $(nproc)"
for nodes in 1000 2000 4000 8192; do
    "$program" tree "$nodes" "$edits" 200 0
    grown=$(count "$nodes" 0 0 0)
    all=$(count "$nodes" "$edits" 0 0)
    focused=$(count "$nodes" 0 100 0)
    walked=$(count "$nodes" 0 0 10)
    echo "$nodes nodes: $(((all - grown) / edits)) instructions an edit, $((grown / nodes)) for an insert while it grew, $(((focused - grown) / 100 / nodes)) a node at a focus, $(((walked - grown) / 10 / nodes)) a node walked over"
done
