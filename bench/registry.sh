#!/usr/bin/env bash
# A registry with pairs of listeners and embedded roots: nanoseconds by the clock (which the program writes to standard error), the least of
# RUNS runs for each figure.
# usage: bench/registry.sh [RUNS]
set -eu
top=$(cd "$(dirname "$0")/.." && pwd)
runs=${1:-5}
program=$("$top/bench/programs.sh" built atspi_speed)
echo "load: $(cut -d' ' -f1-3 /proc/loadavg), processors: $(nproc)"
for size in "1000 100 100" "2000 100 200" "4000 100 400" "10000 100 1000"; do
    for _run in $(seq "$runs"); do
        # shellcheck disable=SC2086
        "$program" registry $size 2>&1 >/dev/null | tr -d '\n'
        echo
    done | awk -v size="$size" '
        function least(name, value) { if (!(name in all) || value < all[name]) all[name] = value }
        { for (i = 1; i < NF; i++) { if ($i ~ /^(register|embed|again|list|listener|application)$/) least($i, $(i + 1)) } }
        END { print size ": register", all["register"], "embed", all["embed"], "again", all["again"], "list", all["list"], "listener", all["listener"], "application", all["application"] }'
done
