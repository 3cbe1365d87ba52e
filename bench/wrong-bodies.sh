#!/usr/bin/env bash
# Tries wrong bodies that the gate does not: each file of wrong-bodies/CRATE is an edit that the prover must refuse.
# usage: bench/wrong-bodies.sh [CRATE..]; with no name, all. It works in a clone of its own and leaves this tree alone. Libraries that the
# clone lacks are built first, so a crate high up takes long the first time; KEEP=FOLDER names a clone to use again.
set -u
top=$(cd "$(dirname "$0")/.." && pwd) || exit 2
room=${KEEP:-$(mktemp -d)}
[ -d "$room/.git" ] || git clone -q "$top" "$room" || exit 2
[ -n "${KEEP:-}" ] || trap 'rm -rf "$room"' EXIT
cd "$room" || exit 2
[ $# -gt 0 ] || set -- $(ls wrong-bodies)
failed=0
for crate in "$@"; do
    [ -d "wrong-bodies/$crate" ] || { echo "$crate has none"; continue; }
    # (a program that measures is no crate of the gate)
    [ ! -d "bench/programs/$crate" ] || bench/programs.sh lay "$PWD"
    mkdir -p "crates/$crate/must-fail"
    cp wrong-bodies/"$crate"/*.edit "crates/$crate/must-fail/"
    rt must-fail "$crate" || failed=1
    git checkout -q -- crates crates.txt && git clean -qfd crates
done
exit $failed
