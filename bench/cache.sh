#!/usr/bin/env bash
# A load, a walk over all rows and drawn news in views of 1,000 to 8,000 rows, wide, deep and mixed, and then each kind of news in wide
# views: nanoseconds by the clock (which the program writes to standard error), the best of RUNS runs.
# usage: bench/cache.sh [FOLDS [RUNS]]
set -eu
top=$(cd "$(dirname "$0")/.." && pwd)
folds=${1:-100000}
runs=${2:-5}
program=$("$top/bench/programs.sh" built atspi_speed)

# best SHAPE ITEMS KIND: the least of the runs
best() {
    for _run in $(seq "$runs"); do
        "$program" cache "$1" "$2" "$folds" "$3" 2>&1 >/dev/null
    done | tr -d , | awk -v name="$1 $2 $3" '
        NR == 1 || $2 < load { load = $2 }
        NR == 1 || $7 < rows { rows = $7 }
        NR == 1 || $11 < news { news = $11 }
        END { print name ": load", load, "ns an item, rows", rows, "ns a row,", news, "ns a news" }'
}
echo "load: $(cut -d' ' -f1-3 /proc/loadavg), processors: $(nproc)"
for shape in wide deep mixed; do
    for items in 1000 2000 4000 8000; do
        best "$shape" "$items" all
    done
done
for kind in nothing item child-added child-removed removed name description role state inserted deleted caret text-is caret-is columns-is; do
    for items in 1000 8000; do
        best wide "$items" "$kind"
    done
done
