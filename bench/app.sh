#!/usr/bin/env bash
# An application of 1,000 to 8,000 nodes: all its items, and the state, the name and the children of a node; nanoseconds of processor time (bench/clock.c; the program writes them to
# standard error), the least of RUNS runs, the bytes of the reply that has all items, and the growth from the first size to the last.
# usage: bench/app.sh [CALLS [RUNS]]
set -eu
calls=${1:-100000}
runs=${2:-5}
. "$(dirname "$0")/ends.sh"

for nodes in 1000 2000 4000 8000; do
    for _run in $(seq "$runs"); do
        LD_PRELOAD=$work/clock.so "$program" app "$nodes" "$calls" 2>&1 | tr -d ',' | tr '\n' ' '
        echo
    done | awk -v n="$nodes" '
        function least(name, value) { if (!(name in all) || value + 0 < all[name]) all[name] = value + 0 }
        { for (i = 1; i < NF; i++) { if ($i ~ /^(items|writing|state|name|children)$/) least($i, $(i + 1)); if ($(i + 1) == "bytes") bytes = $i } }
        END { print n, all["items"], all["writing"], bytes / n, all["state"], all["name"], all["children"] }'
done | awk '
    { printf "%d nodes: items %d ns a node, with their writing %d ns, %.1f bytes a node; state %d ns, name %d ns, children %d ns\n", $1, $2, $3, $4, $5, $6, $7 }
    NR == 1 { for (i = 2; i <= 7; i++) first[i] = $i }
    { for (i = 2; i <= 7; i++) last[i] = $i }
    END { printf "growth: a node of all items %.2f, with their writing %.2f, state %.2f, name %.2f, children %.2f\n", last[2] / first[2], last[3] / first[3], last[5] / first[5], last[6] / first[6], last[7] / first[7] }'
