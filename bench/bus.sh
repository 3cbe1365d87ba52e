#!/usr/bin/env bash
# A bus in one process, without sockets, in one run: instructions (callgrind; a run of two rounds is taken off, so setting up is not counted) and nanoseconds of processor
# time (bench/clock.c; the program writes them to standard error; the least of RUNS runs) of a round: a call with its return, a call of 256 KiB, a signal to 8 and to 32 receivers
# with 1, 64 and 500 rules each that differ in one key, a new bus with a Hello and an AddMatch, and of each of many connections that join one bus.
# usage: bench/bus.sh [ROUNDS [RUNS]]     (wants valgrind; the names of 10,000 connections take most of its time)
#        bench/bus.sh rules [ROUNDS [RUNS]]        (the tables of rules alone)
#        bench/bus.sh where               (where the instructions of a call with its return go, by function)
#        bench/bus.sh hello               (what a Hello and a leaving take, alone)
set -eu
top=$(cd "$(dirname "$0")/.." && pwd)
work=$(mktemp -d)
# stop: what still runs behind is ended, by the number of the process that began it
stop() {
    local job
    for job in $(jobs -p); do pkill -P "$job" || true; done
    wait
    rm -rf "$work"
}
trap stop EXIT
built=$("$top/bench/programs.sh" built atspi_bus_speed)
program=$work/atspi_bus_speed
cp "$built" "$program"
cc -O2 -Wall -Wextra -shared -fPIC -o "$work/clock.so" "$top/bench/clock.c"

# counted FILE WORD..: the instructions of a run, whose profile goes to the file
counted() {
    local file=$1
    shift
    valgrind --tool=callgrind --callgrind-out-file="$file" "$program" "$@" >"$file.out" 2>"$file.log" || { cat "$file.log" >&2; return 1; }
    awk '/^totals:|^summary:/ { n = $2 } END { print n }' "$file"
}

# least WORD..: the least nanoseconds of a round, of the runs
least() {
    for _run in $(seq "$runs"); do
        LD_PRELOAD=$work/clock.so "$program" "$@" 2>&1 >"$work/out"
    done | awk 'NR == 1 || $1 < n { n = $1 } END { print n }'
}

# show NAME ROUNDS TIMED WORK WORD..: the instructions of one of so many rounds, and the nanoseconds of one of so many timed ones. Two rounds are
# taken off, and not one: what the C library does to let go of 16,000 rules at the end may depend on whether the last round was the first.
show() {
    local name=$1 rounds=$2 timed=$3 two all
    shift 3
    two=$(counted "$work/two" "$1" 2 "${@:2}")
    all=$(counted "$work/all" "$1" $((rounds + 2)) "${@:2}")
    printf '%-48s %11d instructions %11d ns\n' "$name" $(((all - two) / rounds)) "$(least "$1" "$timed" "${@:2}")"
}

# show_names COUNT ALL: what each of so many connections takes that join one bus, where all take so many instructions
show_names() {
    printf '%-48s %11d instructions %11d ns\n' "Hello, each of $1" $((($2 - none) / $1)) "$(least names "$1")"
}

# where: the functions with their own instructions for a call with its return, the dearest first
where() {
    local rounds=1000
    counted "$work/one" call 1 4 0 >/dev/null
    counted "$work/all" call $((rounds + 1)) 4 0 >/dev/null
    for file in one all; do
        callgrind_annotate --threshold=100 --show-percs=no "$work/$file" | sed -nE 's/^ *([0-9,]+) +[^:]*:(.*)$/\1 \2/p' | sed -E 's/ \[[^]]*\]$//' >"$work/$file.txt"
    done
    awk -v n="$rounds" '
        { count = $1; gsub(",", "", count); $1 = ""; if (FILENAME ~ /one.txt$/) own[$0] -= count; else own[$0] += count }
        END { for (name in own) { each = own[name] / n; if (each >= 1) printf "%8.0f%s\n", each, name } }' "$work/one.txt" "$work/all.txt" | sort -rn
}

# hello: a new bus with a Hello and an AddMatch, and each of many connections that join one bus, and that leave it then
hello() {
    local count joined left
    rounds=200 runs=5
    show "new bus, Hello and AddMatch" "$rounds" 2000 hello
    none=$(counted "$work/one" names 0)
    for count in 1000 10000; do
        joined=$(counted "$work/all" names "$count")
        left=$(counted "$work/all" leavings "$count")
        show_names "$count" "$joined"
        printf '%-48s %11d instructions %11d ns\n' "leaving, each of $count" $(((left - joined) / count)) "$(least leavings "$count")"
    done
}

case "${1:-}" in
    where | hello)
        "$1"
        exit
        ;;
esac

# show_rules: signals to 8 and to 32 receivers with 1, 64 and 500 rules each that differ in one key, of that key alone and of all
show_rules() {
    local conditions receivers key rules
    for conditions in one all; do
        for receivers in 8 32; do
            for key in sender interface member path arg0; do
                for rules in 1 64 500; do
                    show "signal to $receivers, $rules by $key, $conditions" "$rounds" 2000 signal "$receivers" "$rules" "$conditions" "$key"
                done
            done
        done
    done
}

only=
if [ "${1:-}" = rules ]; then
    only=rules
    shift
fi
rounds=${1:-200} runs=${2:-5}
echo "load: $(cut -d' ' -f1-3 /proc/loadavg), processors: $(nproc)"
if [ "$only" = rules ]; then
    show_rules
    exit
fi
counted "$work/many" names 10000 >"$work/many.count" &
show "call and return" 1000 20000 call 4 0
show "call and return, 1,000 other connections" 1000 20000 call 4 1000
show "call of 256 KiB and return" 20 200 call 262144 0
show "new bus, Hello and AddMatch" "$rounds" 2000 hello
show_rules
none=$(counted "$work/one" names 0)
show_names 1000 "$(counted "$work/all" names 1000)"
wait
runs=1
show_names 10000 "$(cat "$work/many.count")"
echo "load: $(cut -d' ' -f1-3 /proc/loadavg)"
