#!/usr/bin/env bash
# The text of 1,000,000 events, of ten forms, written one after another: nanoseconds an event.
# usage: bench/events.sh [ROUNDS]      (ten events a round)
set -eu
top=$(cd "$(dirname "$0")/.." && pwd)
rounds=${1:-100000}
program=$("$top/bench/programs.sh" built atspi_speed)
begin=$(date +%s%N)
"$program" events "$rounds" >/dev/null
end=$(date +%s%N)
awk -v t="$((end - begin))" -v n="$((rounds * 10))" 'BEGIN { printf "%.0f nanoseconds an event\n", t / n }'
