#!/usr/bin/env python3
"""Tells how many ways lead down from each crate to the libraries below it, and how many files are read on them.

usage: bench/ways.py [N]      at the top of the repository; the N crates with the most ways, 12 with no number, and the sums

`rt` goes each way whenever it asks what lies below a crate, and where it sums a library's files, which kit 13b does twice a library, it reads them once for
each way down to it (kit 13f makes each sum once). The ways double with each layer, so crates that each stand on the one before are dear, and one that many
list costs all of them.
"""
import os
import sys


def files_of(crate):
    found = 0
    for part in ("src", "specs", "proofs"):
        for _, _, names in os.walk(f"crates/{crate}/{part}"):
            found += len(names)
    return found


libraries, kind = {}, {}
with open("crates.txt", encoding="utf-8") as lines:
    for line in lines:
        name, colon, words = line.partition("#")[0].partition(":")
        if colon:
            kind[name.split()[0]] = name.split()[1:]
            libraries[name.split()[0]] = words.split()
counted = {}


def count(crate):
    """The ways from the crate down, itself the first, and the files that are read on them."""
    if crate not in counted:
        below = [count(it) for it in libraries[crate] if it in libraries]
        counted[crate] = 1 + sum(it for it, _ in below), files_of(crate) + sum(it for _, it in below)
    return counted[crate]


print("    ways     files crate")
for crate in sorted(libraries, key=count, reverse=True)[: int(sys.argv[1]) if len(sys.argv) > 1 else 12]:
    ways, files = count(crate)
    print(f"{ways:>8} {files:>9} {crate}")
# (a program and a static library, which is only checked, are summed by no build)
built = [it for it in libraries if os.path.isfile(f"crates/{it}/src/lib.rt") and kind[it] != ["staticlib"]]
print(f"{sum(count(it)[0] for it in libraries):>8} {2 * sum(count(it)[1] for it in built):>9} in all, each library's files twice")
