#!/usr/bin/env bash
# Scripts of an application and of a reader in which each request for memory fails in turn: at each line how many failed, and at how many of them memory was wanting. The
# program itself ends with an error where anything happens that does not happen without a failing request.
# usage: bench/failing.sh
set -eu
top=$(cd "$(dirname "$0")/.." && pwd)
work=$(mktemp -d)
trap 'rm -rf "$work"' EXIT
program=$("$top/bench/programs.sh" built atspi_failing)
cc -O2 -Wall -Wextra -shared -fPIC -o "$work/failing.so" "$top/bench/failing.c" -ldl
for end in app reader; do
    echo "# $end"
    LD_PRELOAD=$work/failing.so "$program" "$end" >"$work/$end" || { cat "$work/$end"; exit 1; }
    cat "$work/$end"
    awk '{ f += $1; w += $3 } END { print f " requests failed, " w " wanting" }' "$work/$end"
done
