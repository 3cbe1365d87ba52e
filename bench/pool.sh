#!/usr/bin/env bash
# 64 queues of bytes, 200 bytes pushed to each and popped again in each round: chains of a pool against a VecDeque<u8> a
# queue, side by side, in instructions for one byte.
# usage: bench/pool.sh [ROUNDS]      (wants valgrind)
set -eu
top=$(cd "$(dirname "$0")/.." && pwd)
rounds=${1:-500}
work=$(mktemp -d)
trap 'rm -rf "$work"' EXIT
program=$("$top/bench/programs.sh" built atspi_speed)

# count WORD: the instructions of a run
count() {
    valgrind --tool=callgrind --callgrind-out-file="$work/$1.callgrind" "$program" pool "$1" "$rounds" >"$work/$1.out" 2>"$work/log"
    awk '/^totals:|^summary:/ { n = $2 } END { print n }' "$work/$1.callgrind"
}
none=$(count none)
for kind in pool deque; do
    awk -v a="$(count $kind)" -v n="$none" -v bytes="$((rounds * 64 * 200))" -v kind="$kind" \
        'BEGIN { printf "%-5s %.2f instructions for one byte pushed and popped\n", kind, (a - n) / bytes }'
done
