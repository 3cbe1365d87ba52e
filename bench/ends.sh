# Sourced by bench/app.sh and bench/reader.sh: builds the program of both ends, $program, and the clock that it is run with, in a folder $work of its own that goes at the end.
top=$(cd "$(dirname "$0")/.." && pwd)
program=$("$top/bench/programs.sh" built atspi_ends_speed) || exit 1
work=$(mktemp -d)
trap 'rm -rf "$work"' EXIT
cc -O2 -Wall -Wextra -shared -fPIC -o "$work/clock.so" "$top/bench/clock.c"
echo "load: $(cut -d' ' -f1-3 /proc/loadavg), processors: $(nproc)"
