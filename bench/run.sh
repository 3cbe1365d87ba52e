#!/usr/bin/env bash
# Decoding and dropping an array of structs (utu): the proved program `atspi_speed` against bench/marshal.c, side by side.
# usage: bench/run.sh [STRUCTS] [ROUNDS] [STRUCTS_FOR_COUNTS]
set -eu
top=$(cd "$(dirname "$0")/.." && pwd)
structs=${1:-2000000} rounds=${2:-5} counted=${3:-100000}
work=$(mktemp -d)
trap 'rm -rf "$work"' EXIT

${CC:-cc} -O2 -o "$work/c" "$top/bench/marshal.c"
program=$("$top/bench/programs.sh" built atspi_speed)
cp "$program" "$work/proved"

# part PROGRAM: the word before its others
part() { [ "$1" = c ] || echo values; }
# run PROGRAM WORD: appends the processor time in ms to PROGRAM.WORD.cpu, and what the program measured in us to PROGRAM.WORD.clock
run() {
    local TIMEFORMAT='%3U %3S'
    { time "$work/$1" $(part "$1") "$2" "$structs" >>"$work/$1.out" 2>>"$work/$1.$2.clock"; } 2>"$work/time"
    awk '{ print int(($1 + $2) * 1000 + 0.5) }' "$work/time" >>"$work/$1.$2.cpu"
}
median() { sort -n "$1" | awk '{ all[NR] = $1 } END { print all[int((NR + 1) / 2)] }'; }
ratio() { awk -v a="$1" -v b="$2" 'BEGIN { printf "%.2f", a / b }'; }

echo "load: $(cut -d' ' -f1-3 /proc/loadavg), processors: $(nproc)"
for ((round = 0; round < rounds; round++)); do
    for program in c proved; do
        run $program make
        run $program decode
    done
done
cmp <(sort -u "$work/c.out") <(sort -u "$work/proved.out")
for program in c proved; do
    declare "$program"_clock="$(median "$work/$program.decode.clock")"
    declare "$program"_cpu="$(($(median "$work/$program.decode.cpu") - $(median "$work/$program.make.cpu")))"
done
echo "$structs structs, medians of $rounds rounds, decode and drop alone:"
echo "  processor time: C $c_cpu ms, proved $proved_cpu ms, ratio $(ratio "$proved_cpu" "$c_cpu")"
echo "  by the clock:   C $((c_clock / 1000)) ms, proved $((proved_clock / 1000)) ms, ratio $(ratio "$proved_clock" "$c_clock")"

command -v valgrind >/dev/null || exit 0
# count PROGRAM WORD: the instructions of a run
count() {
    valgrind --tool=callgrind --callgrind-out-file="$work/$1.$2.callgrind" "$work/$1" $(part "$1") "$2" "$counted" >"$work/log" 2>&1
    awk '/^totals:|^summary:/ { n = $2 } END { print n }' "$work/$1.$2.callgrind"
}
for program in c proved; do
    declare "$program"_count="$((($(count $program decode) - $(count $program make)) / counted))"
done
echo "  instructions for one struct, of $counted: C $c_count, proved $proved_count, ratio $(ratio "$proved_count" "$c_count")"
for program in c proved; do
    echo "  where they are spent, $program:"
    callgrind_annotate "$work/$program.decode.callgrind" | grep -E '^ *[0-9,]+ \(' | sed -n '2,13p' | sed "s|$work/||; s/^/    /" | cut -c1-110
done
