#!/usr/bin/env bash
# `check` on a stream of messages against bench/check.c, which does the same through libdbus, side by side; and against bench/check-sd.c, through sd-bus,
# where libsystemd's headers are and where sd-bus takes every message of the stream.
# usage: bench/check.sh STREAM [ROUNDS], STREAM a file of messages one behind the other, as it is or as .gz
# PROGRAM: the words that run another program in place of `atspi check`.
set -eu
top=$(cd "$(dirname "$0")/.." && pwd)
stream=$1 rounds=${2:-5}
work=$(mktemp -d)
trap 'rm -rf "$work"' EXIT

# libdbus's headers: apt-get install libdbus-1-dev
${CC:-cc} -O2 -o "$work/c" "$top/bench/check.c" $(pkg-config --cflags --libs dbus-1)
proved=${PROGRAM:-}
if [ -z "$proved" ]; then
    "$top/atspi" check </dev/null >/dev/null
    proved="$top/crates/atspi/out/atspi check"
fi
if [ "${stream%.gz}" != "$stream" ]; then zcat "$stream"; else cat "$stream"; fi >"$work/one"
size=$(stat -c %s "$work/one")
for ((copy = 0; copy * size < 67108864; copy++)); do cat "$work/one"; done >"$work/many"

"$work/c" <"$work/one" >"$work/c.text"
$proved <"$work/one" >"$work/proved.text"
cmp "$work/c.text" "$work/proved.text"

# libsystemd's headers: apt-get install libsystemd-dev
sd='' same=both
if pkg-config --exists libsystemd; then
    ${CC:-cc} -O2 -o "$work/sd" "$top/bench/check-sd.c" $(pkg-config --cflags --libs libsystemd)
    if "$work/sd" <"$work/one" >"$work/sd.text" 2>"$work/sd.fault" && cmp "$work/sd.text" "$work/proved.text" >>"$work/sd.fault" 2>&1; then
        sd=sd same="all three"
    else
        echo "sd-bus does not do this stream and is left out: $(tail -n 1 "$work/sd.fault")"
    fi
fi
names="c $sd proved"
declare -A words=([c]="$work/c" [sd]="$work/sd" [proved]="$proved")
messages=$(wc -l <"$work/c.text")
echo "load: $(cut -d' ' -f1-3 /proc/loadavg), processors: $(nproc)"
echo "$messages messages of $((size / messages)) bytes, the same text from $same; repeated to $(stat -c %s "$work/many") bytes:"

# run NAME WORDS: appends the processor time in ms to NAME.cpu
run() {
    local name=$1 TIMEFORMAT='%3U %3S'
    shift
    { time "$@" <"$work/many" >/dev/null; } 2>"$work/time"
    awk '{ print int(($1 + $2) * 1000 + 0.5) }' "$work/time" >>"$work/$name.cpu"
}
median() { sort -n "$1" | awk '{ all[NR] = $1 } END { print all[int((NR + 1) / 2)] }'; }
ratio() { awk -v a="$1" -v b="$2" 'BEGIN { printf "%.2f", a / b }'; }
for ((round = 0; round < rounds; round++)); do
    for name in $names; do run $name ${words[$name]}; done
done
c=$(median "$work/c.cpu") p=$(median "$work/proved.cpu")
echo "  processor time, medians of $rounds rounds: libdbus $c ms, proved $p ms, ratio $(ratio "$p" "$c")"
if [ -n "$sd" ]; then
    s=$(median "$work/sd.cpu")
    echo "  beside sd-bus, in the same rounds: sd-bus $s ms, ratio $(ratio "$p" "$s")"
fi

command -v valgrind >/dev/null || exit 0
# count NAME WORDS: the instructions of a run over the stream once
count() {
    local name=$1
    shift
    valgrind --tool=callgrind --callgrind-out-file="$work/$name.callgrind" "$@" <"$work/one" >/dev/null 2>"$work/log"
    awk '/^totals:|^summary:/ { n = $2 } END { print n }' "$work/$name.callgrind"
}
for name in $names; do
    total=$(count $name ${words[$name]})
    echo "  instructions a message, $name: $((total / messages)); of these by function:"
    callgrind_annotate "$work/$name.callgrind" | grep -E '^ *[0-9,]+ \(' | sed -n '2,25p' \
        | awk -v m="$messages" '{ n = $1; gsub(",", "", n); $1 = ""; printf "%9d %s\n", n / m, $0 }' | cut -c1-120
done
