#!/usr/bin/env bash
# A reader among 1,000 to 8,000 rows or applications: news of an application whose parts are known beside the reading and folding of the same news with a cache alone, as a
# ratio of the two in one run (the least, the middle and the greatest of RUNS runs); a part that is asked for and told; an application that a reply tells, and its error.
# Nanoseconds of processor time (bench/clock.c; the program writes them to standard error), the least of the runs.
# usage: bench/reader.sh [NEWS [RUNS]]
set -eu
news=${1:-10000}
runs=${2:-5}
. "$(dirname "$0")/ends.sh"

# numbers WORD..: the numbers that each run of the program with these words writes, a line a run
numbers() {
    for _run in $(seq "$runs"); do
        LD_PRELOAD=$work/clock.so "$program" reader "$@" 2>&1 >/dev/null | tr -d ',' | awk '{ for (k = 1; k <= NF; k++) if ($k ~ /^[0-9]+$/) printf "%d ", $k; print "" }'
    done
}

# least: the least of each column
least() {
    awk '{ for (k = 1; k <= NF; k++) if (NR == 1 || $k < all[k]) all[k] = $k; n = NF } END { for (k = 1; k <= n; k++) printf "%d ", all[k] }'
}

for count in 1000 2000 4000 8000; do
    all=$(numbers news "$count" "$news")
    ratios=$(echo "$all" | awk '{ printf "%.2f\n", $1 / $2 }' | sort -n | awk '{ r[NR] = $1 } END { print r[1], r[int((NR + 1) / 2)], r[NR] }')
    echo "$all" | least | awk -v n="$count" -v r="$ratios" '{ split(r, q, " "); printf "%d rows: a news %d ns, its reading and fold alone %d ns; in one run %s to %s times as much, mostly %s\n", n, $1, $2, q[1], q[3], q[2] }'
done
for count in 1000 2000 4000 8000; do
    numbers load "$count" | least | awk -v n="$count" '{ printf "%d items: loaded by a reader %d ns each, read and loaded by a cache alone %d ns each\n", n, $1, $2 }'
done
for count in 1000 2000 4000 8000; do
    numbers parts "$count" | least | awk -v n="$count" '{ printf "%d nodes with a text: a part %d ns\n", n, $1 }'
done
for count in 1000 2000 4000 8000; do
    numbers children "$count" | least | awk -v n="$count" '{ printf "%d applications: told %d ns each, refused %d ns each\n", n, $1, $2 }'
done
