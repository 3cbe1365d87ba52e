#!/usr/bin/env bash
# 1,000,000 lines of a script, of twenty forms, read one after another: nanoseconds a line.
# usage: bench/lines.sh [ROUNDS]      (twenty lines a round)
set -eu
top=$(cd "$(dirname "$0")/.." && pwd)
rounds=${1:-50000}
program=$("$top/bench/programs.sh" built atspi_speed)
begin=$(date +%s%N)
"$program" lines "$rounds" >/dev/null
end=$(date +%s%N)
awk -v t="$((end - begin))" -v n="$((rounds * 20))" 'BEGIN { printf "%.0f nanoseconds a line\n", t / n }'
