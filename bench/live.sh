#!/usr/bin/env bash
# A bus on a Unix socket beside dbus-daemon and dbus-broker, where they are installed, in one run: connects with Hello, round trips with 1 and 16 in
# flight, beside 60 quiet links, signals to 8 receivers. bench/live.c is the client of all three; each number is the middle one of three.
# usage: bench/live.sh PROGRAM [COUNT]      PROGRAM is the built atspi; COUNT round trips are made (20,000). Ends by itself within some minutes.
set -u
top=$(cd "$(dirname "$0")/.." && pwd)
program=${1:?the built program atspi}
count=${2:-20000}
work=$(mktemp -d)
started=()
stop() {
    for it in "${started[@]}"; do kill "$it" 2>/dev/null; done
    wait 2>/dev/null
    rm -rf "$work"
}
trap stop EXIT
cc -O2 -o "$work/live" "$top/bench/live.c" || exit 2

# middle WORDS..: the middle of three runs
middle() {
    for _ in 1 2 3; do timeout 70 "$work/live" "$@" 2>>"$work/errors"; done | sort -n | sed -n 2p
}
measure() {
    echo "== $1"
    local bus=$work/$2
    for _ in $(seq 50); do [ -S "$bus" ] && break; sleep 0.1; done
    middle "$bus" connect $((count / 20))
    middle "$bus" round "$count" 1
    middle "$bus" round "$count" 16
    middle "$bus" round "$((count / 4))" 1 50
    middle "$bus" signals $((count / 4)) 8
}
timeout 600 "$program" bus "$work/ours" 1000000000 2>/dev/null &
started+=($!)
measure "atspi bus" ours
if command -v dbus-daemon >/dev/null; then
    timeout 600 dbus-daemon --session --nofork --address="unix:path=$work/daemon" 2>/dev/null &
    started+=($!)
    measure "$(dbus-daemon --version | sed -n 1p)" daemon
fi
if command -v dbus-broker >/dev/null && /usr/bin/python3 -c 'import jeepney' 2>/dev/null; then
    /usr/bin/python3 "$top/bench/broker.py" "$work/broker" 600 2>/dev/null &
    started+=($!)
    measure "$(dbus-broker --version | sed -n 1p)" broker
fi
[ ! -s "$work/errors" ] || { echo "== errors"; sort "$work/errors" | uniq -c; }
