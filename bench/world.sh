#!/usr/bin/env bash
# The world of `replay` and `make`: `make 20000 7`; 100,000 edits on a tree of 4,000 nodes with one reader and with four; sixteen
# applications. Seconds, microseconds an event of the trace, peak memory; and twice the edits, to see how both grow.
# usage: bench/world.sh [PROGRAM] [EDITS]
set -eu
top=$(cd "$(dirname "$0")/.." && pwd)
program=${1:-$top/atspi}
edits=${2:-100000}
work=$(mktemp -d)
trap 'rm -rf "$work"' EXIT

# run NAME WORDS..: the seconds and the peak memory of a run on NAME
run() {
    name=$1
    shift
    /usr/bin/time -f '%e %M' -o "$work/time" "$program" "$@" <"$work/$name" >"$work/out"
    read -r seconds memory <"$work/time"
}

# of NAME: its line: brief, and then with the whole trace, whose lines are its events
tell() {
    run "$1" replay --brief
    brief=$seconds
    peak=$memory
    run "$1" replay
    events=$(grep -cv '^| ' "$work/out" || true)
    awk -v name="$1" -v brief="$brief" -v whole="$seconds" -v peak="$peak" -v events="$events" 'BEGIN {
        printf "%s: %d events, %.2f s brief, %.2f s whole, %.2f us an event, %.0f MB, %.0f bytes an event\n", name, events, brief, whole, brief * 1e6 / events, peak / 1024, peak * 1024 / events }'
}

# script NODES READERS EDITS: a tree of so many nodes, and so many edits of it, with turns behind each 16th
script() {
    awk -v nodes="$1" -v readers="$2" -v edits="$3" 'BEGIN {
        print "app \"Bench\""
        for (r = 0; r < readers; r++) print "reader"
        print "drain"
        for (n = 1; n < nodes; n++) {
            print "edit a0 insert " int((n - 1) / 8) " " (n - 1) % 8 " push-button \"n" n "\""
            if (n % 16 == 0) print "turns 4096"
        }
        print "drain"
        for (k = 1; k <= edits; k++) {
            n = (k * 7919) % nodes
            if (k % 4 == 0) print "edit a0 state " n " checked " (k % 8 == 0 ? "on" : "off")
            else print "edit a0 name " n " \"m" k "\""
            if (k % 16 == 0) print "turns 4096"
        }
        print "drain"
    }'
}

# many EDITS: sixteen applications of 250 nodes each, one reader, and so many edits, one application after another
many() {
    awk -v edits="$1" 'BEGIN {
        for (a = 0; a < 16; a++) print "app \"A" a "\""
        print "reader"
        print "drain"
        for (n = 1; n < 250; n++) for (a = 0; a < 16; a++) print "edit a" a " insert " int((n - 1) / 8) " " (n - 1) % 8 " push-button \"n" n "\""
        print "drain"
        for (k = 1; k <= edits; k++) {
            print "edit a" k % 16 " name " (k * 7919) % 250 " \"m" k "\""
            if (k % 16 == 0) print "turns 4096"
        }
        print "drain"
    }'
}

echo "load: $(cut -d' ' -f1-3 /proc/loadavg), processors: $(nproc)"
: >"$work/none"
for count in 5000 10000 20000; do
    run none make "$count" 7
    echo "make $count 7: $seconds s, $((memory / 1024)) MB: $(cat "$work/out")"
done
script 4000 1 "$edits" >"$work/one-reader"
script 4000 1 "$((edits * 2))" >"$work/one-reader-twice"
script 4000 4 "$edits" >"$work/four-readers"
many "$edits" >"$work/sixteen-applications"
for name in one-reader one-reader-twice four-readers sixteen-applications; do
    tell "$name"
done
