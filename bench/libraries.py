#!/usr/bin/env python3
"""Gives checkouts of this repository the libraries that another one proved of the same files, so that `rt check` there proves none of them anew.

usage: bench/libraries.py FROM TO..     (checkouts; FROM is one in which `rt ci` without names has run, or runs)

`rt ci` leaves each proved library in crates/NAME/out/rlib of its checkout, without the stamp by which `rt check` knows it. This writes the stamp
beside a copy of it (hard links, where both stand on one disk). A crate in whose folder a command works just then is left alone.
"""
import glob
import os
import shutil
import sys

sys.path.insert(0, "/opt/rattle/bin")
import rtlib

made, known = rtlib.Crate.stamp, {}


def stamp(crate):
    """The sum of all that a library is made from; asked for once a crate, since it is made anew for each way down."""
    if crate.folder not in known:
        known[crate.folder] = made(crate)
    return known[crate.folder]


rtlib.Crate.stamp = stamp


def crates(top):
    top = os.path.abspath(top)
    os.chdir(top)
    return {crate.name: crate for crate in rtlib.crates_below(top)}


def in_use():
    found = set()
    for place in glob.glob("/proc/[0-9]*/cwd"):
        try:
            found.add(os.readlink(place))
        except OSError:
            pass
    return found


def link_or_copy(source, to):
    try:
        os.link(source, to)
    except OSError:
        shutil.copy2(source, to)


def main(words):
    if len(words) < 2:
        sys.exit(__doc__)
    here = os.getcwd()
    words = [os.path.join(here, word) for word in words]
    proved, busy = crates(words[0]), in_use()
    for top in words[1:]:
        given = 0
        for name, crate in crates(top).items():
            other = proved.get(name)
            if other is None or crate.is_program or crate.folder in busy or stamp(crate) != stamp(other) or crate.is_built():
                continue
            library = f"{other.folder}/out/rlib/{name}.rlib"
            if not os.path.isfile(f"{library}/format"):
                continue
            to = f"{crate.folder}/out/rlib"
            shutil.rmtree(to, ignore_errors=True)
            os.makedirs(to)
            shutil.copytree(library, f"{to}/{name}.rlib", copy_function=link_or_copy)
            with open(f"{to}/stamp", "w", encoding="utf-8") as it:
                it.write(stamp(crate))
            given += 1
        print(f"{top}: {given}")


if __name__ == "__main__":
    main(sys.argv[1:])
