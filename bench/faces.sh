#!/usr/bin/env bash
# How long a typed character takes in a text of 1,000,000 characters, for each face of texts: at one place, at the end and at
# random places, of characters of one byte and of two.
# usage: bench/faces.sh [LENGTH] [TYPED]
set -eu
top=$(cd "$(dirname "$0")/.." && pwd)
echo "load: $(cut -d' ' -f1-3 /proc/loadavg), processors: $(nproc)"
program=$("$top/bench/programs.sh" built atspi_speed)
"$program" faces "${1:-1000000}" "${2:-10000}"
