#!/usr/bin/env bash
# Whether a stored trace is still one of its script: what a job of continuous integration would call.
# usage: drafts/audit.sh SCRIPT TRACE
# TRACE is what `atspi replay --wire` wrote for the script, or any other program. Writes the verdict; the status is that of `atspi audit`: 0 where
# the trace is lawful, 1 where a line of the script is refused, 11 where the trace is not lawful. The program is the one of this checkout, or ATSPI.
set -u
[ $# -eq 2 ] || { sed -n '2,5s/^# //p' "$0" >&2; exit 2; }
here=$(cd "$(dirname "$(readlink -f "$0")")/.." && pwd)
{
    cat "$1"
    [ -z "$(tail -c 1 "$1")" ] || echo # (the last line may lack its line feed)
    echo --
    cat "$2"
} | "${ATSPI:-$here/atspi}" audit
