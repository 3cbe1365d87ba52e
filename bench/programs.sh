#!/usr/bin/env bash
# The programs that measure (bench/programs) stand beside the gate. This lays them out as crates of a copy of the repository, beside its own, and has rt work on them
# there. Their files end in .rt.txt and .antt.txt, since the gate refuses a file of its own kinds that it does not read.
# usage: bench/programs.sh built NAME              proves and builds the program, looks whether it writes what it must, and prints where it is
#        bench/programs.sh COMMAND NAME [WORD..]   that command of rt (check, try, run, must-fail, ..) in the program's folder
#        bench/programs.sh fmt NAME                lays out its files, here
#        bench/programs.sh lay FOLDER              lays all of them out in that copy of the repository, and no more
# The copy is the folder ROOM, or one of this checkout's own below TMPDIR that stays, so that later only what has changed is proved; what was proved here is taken from here.
set -eu
top=$(cd "$(dirname "$0")/.." && pwd)

# lay FOLDER: the programs as crates of the copy of the repository there
lay() {
    local file to
    for file in $(cd "$top/bench/programs" && find ./* -type f ! -name list); do
        to=$1/crates/${file%.txt}
        mkdir -p "$(dirname "$to")"
        cp "$top/bench/programs/$file" "$to"
    done
    cat "$top/bench/programs/list" >>"$1/crates.txt"
}

# copy FOLDER: the repository's crates as they are now, without what was made of them
copy() {
    mkdir -p "$1/crates"
    find "$1/crates" -mindepth 2 -maxdepth 2 ! -name out -exec rm -rf {} +
    tar -C "$top" -cf - --anchored --no-wildcards-match-slash --exclude='crates/*/out' crates crates.txt HANDLES | tar -C "$1" -xf -
}

# built NAME: says where the program is once it is proved and built, and writes what the gate would want of it
built() {
    local program=$room/crates/$1/out/$1 log args
    log=$(mktemp)
    mapfile -t args <"$top/bench/programs/$1/args"
    if ! (cd "$room/crates/$1" && rt run -- "${args[@]}") >"$log" 2>&1 </dev/null; then
        cat "$log" >&2
        rm -f "$log"
        return 1
    fi
    rm -f "$log"
    "$program" "${args[@]}" </dev/null 2>/dev/null | cmp - "$top/bench/programs/$1/stdout" >&2
    echo "$program"
}

# taken_back NAME: the program's files as rt laid them out
taken_back() {
    local file
    for file in $(cd "$top/bench/programs" && find "./$1" -type f -name '*.txt'); do
        cp "$room/crates/${file%.txt}" "$top/bench/programs/$file"
    done
}

[ $# -ge 2 ] || { sed -n '4,8s/^# //p' "$0" >&2; exit 2; }
[ "$1" = lay ] && { lay "$2"; exit; }
room=${ROOM:-${TMPDIR:-/tmp}/atspi-programs-$(id -u)-$(echo "$top" | cksum | cut -d' ' -f1)}
command=$1 name=$2
shift 2
[ -d "$top/bench/programs/$name" ] || { echo "bench/programs has no $name" >&2; exit 2; }
copy "$room"
lay "$room"
if [ "$command" = built ]; then
    built "$name"
else
    (cd "$room/crates/$name" && rt "$command" "$@")
    [ "$command" != fmt ] || taken_back "$name"
fi
