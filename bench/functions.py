#!/usr/bin/env python3
"""Tells what each function of a crate costs its first check, the dearest first.

usage: bench/functions.py CRATE [--test] [--count N] [LIBRARIES]
       at the top of the repository, once `rt check` in the crate's folder has built the libraries below it (or LIBRARIES/crates/*/out has them)
       bench/functions.py watch FOLDER      writes what every check of this machine takes, module by module, to FOLDER, until it is stopped
       bench/functions.py dearest FOLDER [SECONDS]
                                            the functions that took more, 8 with no number, of all checks that were watched

The crate is checked from nothing, in one process, which writes a file for each module as soon as it has checked it: the processor time since the file
before is that module's. A function has several: the derivation that the borrow checker makes of its body (Lts), the search for its goals (Proof) and the
answers that are written for them (Answers), and others. What comes before the first is loading. A cycle of functions has one search.
Where several files come within a twentieth of a second they share its time. (Linux)

`watch` costs a gate next to nothing, so all crates are measured while they are proved anyway: a check keeps what it has checked in a folder of its own below
/tmp, and its files tell by their times. A check with several jobs has several functions at once, so of it only the sum counts; `dearest` leaves it out.
"""
import collections
import glob
import os
import re
import subprocess
import sys
import tempfile
import time

KINDS = r"\.(Lts|Tie|Proof|Answers|Invariants|Code|Statement|Met|Symbol|Reads|Layout|Kinds|Key|Goals|Given|TheLinks?)\b"
TICKS = os.sysconf("SC_CLK_TCK")


def lists():
    """Returns of each crate whether it is a static library, and what it uses."""
    found = {}
    with open("crates.txt", encoding="utf-8") as it:
        for line in it:
            head, colon, uses = line.partition("#")[0].partition(":")
            if colon:
                found[head.split()[0]] = "staticlib" in head.split(), uses.split()
    return found


def command(crate, tests, libraries, kept):
    """Returns the check as the toolchain's page gives it, for a crate of the repository."""
    page = subprocess.run(["rt", "doc"], stdout=subprocess.PIPE, text=True, check=True).stdout.strip()
    kit, known = os.path.dirname(page), lists()
    is_static, uses = known[crate]
    rlib = lambda it: f"{libraries}/crates/{it}/out/rlib/{it}.rlib"
    below, ahead = [], [it for it in uses if it in known]
    while ahead:
        it = ahead.pop()
        if it not in below:
            below.append(it)
            ahead += [it for it in known[it][1] if it in known]
    root = "src/main.rt" if os.path.isfile(f"crates/{crate}/src/main.rt") else "src/lib.rt"
    words = [f"{kit}/bin/rattle", "check", "--crate-name", crate, root, "-L", f"dependency={kit}/rlibs"]
    for it in ["std", *uses]:
        words += ["--extern", f"{it}={rlib(it) if it in known else f'{kit}/rlibs/{it}.rlib'}"]
    for it in below:
        words += ["-L", f"dependency={os.path.dirname(rlib(it))}"]
    words += ["--test"] * tests + ["--crate-type", "staticlib"] * (is_static and not tests)
    return [*words, "--links", f"{crate}=", "--jobs", "1", "--antt-project", f"{kit}/rattle/logic/antt-project.json", "--logic-built", f"{kit}/logic_built", "--incremental", kept]


def ticks(pid):
    try:
        with open(f"/proc/{pid}/stat", encoding="utf-8", errors="replace") as it:
            stat = it.read()
    except OSError:
        return None
    return sum(map(int, stat[stat.rindex(")") + 2 :].split()[11:15]))


def modules(words, folder, kept, said):
    """Runs the check, and gives the name of each module as it comes, with its seconds; the check's status comes last."""
    check, seen, last = subprocess.Popen(words, cwd=folder, stdout=said, stderr=subprocess.STDOUT), set(), 0
    while check.poll() is None:
        time.sleep(0.05)
        new = {name for _, _, names in os.walk(kept) for name in names if name.endswith(".oantt")} - seen
        now = ticks(check.pid)
        if new and now is not None:
            seen |= new
            for name in new:
                yield name.removesuffix(".oantt"), (now - last) / TICKS / len(new)
            last = now
    yield None, check.returncode


class Check:
    """A check that is watched: what it has written so far, and its processor seconds at the last look."""

    def __init__(self, pid, folder):
        with open(f"/proc/{pid}/cmdline", encoding="utf-8", errors="replace") as it:
            words = it.read().split("\0")
        crate, jobs = (words[words.index(it) + 1] for it in ("--crate-name", "--jobs"))
        kind = "edits" if "rt-edit" in os.readlink(f"/proc/{pid}/cwd") else "tests" if "--test" in words else "proof"
        self.file = open(f"{folder}/{crate}.{kind}.{jobs}.{pid}", "w", encoding="utf-8")
        self.seen, self.seconds, self.clock = set(), 0.0, time.time_ns()

    def look(self, pid, kept):
        """Writes each new module with the processor seconds at which it came: those since the last look are spread evenly over the clock."""
        try:
            new = {it: os.stat(f"{kept}/{it}").st_mtime_ns for it in set(os.listdir(kept)) - self.seen}
        except OSError:
            return
        seconds, clock = (ticks(pid) or 0) / TICKS, time.time_ns()
        for name, came in sorted(new.items(), key=lambda it: it[1]):
            part = min(max(came - self.clock, 0) / max(clock - self.clock, 1), 1)
            print(f"{self.seconds + max(seconds - self.seconds, 0) * part:.2f} {name}", file=self.file)
        self.seen |= set(new)
        self.seconds, self.clock = max(seconds, self.seconds), clock

    def end(self):
        print(f"{self.seconds:.2f} end", file=self.file)
        self.file.close()


def watch(folder):
    os.makedirs(folder, exist_ok=True)
    known = {}
    while True:
        there = {it.split("-")[-2]: it for it in glob.glob("/tmp/rattle-logic-built-locked-*-0")}
        for pid, kept in there.items():
            try:
                if pid not in known:
                    known[pid] = Check(pid, folder)
                known[pid].look(pid, kept)
            except (OSError, ValueError):
                continue  # (it ended, or is no check)
        for pid in [it for it in known if not os.path.exists(f"/proc/{it}")]:
            known.pop(pid).end()
        time.sleep(0.3)


def dearest(folder, least):
    rows = []
    for file in sorted(os.listdir(folder)):
        crate, kind, jobs = file.split(".")[:3]
        with open(f"{folder}/{file}", encoding="utf-8") as it:
            came = [line.rstrip("\n").split(" ", 1) for line in it]
        of = collections.defaultdict(collections.Counter)
        for (before, _), (now, module) in zip(came, came[1:]):
            if "-proofs." in module:
                function, part = function_of(module.removesuffix(".oantt"))
                of[function][part] += float(now) - float(before)
        if jobs == "1" and kind != "edits":
            rows += [(sum(it.values()), it, crate, function) for function, it in of.items()]
    print("seconds derivation search answers function")
    for seconds, kinds, crate, function in sorted(rows, key=lambda it: -it[0]):
        if seconds > least:
            print(f"{seconds:7.1f} {kinds['Lts']:10.1f} {kinds['Proof']:6.1f} {kinds['Answers']:7.1f} {crate} {function}")


def function_of(module):
    """Returns the function or the file that a module is of, and which of its modules it is."""
    module = re.sub(r"^Rattle-\w+-(proofs|specs\.contracts|specs)\.", "", module)
    found = re.search(KINDS, module)
    return (module[: found.start()], found[1]) if found else (module, "other")


def main(crate, tests, count, libraries):
    of, first = collections.defaultdict(collections.Counter), None
    with tempfile.TemporaryDirectory() as kept, tempfile.TemporaryFile("w+") as said:
        for module, seconds in modules(command(crate, tests, libraries, kept), f"crates/{crate}", kept, said):
            if module is None:
                if seconds:
                    said.seek(0)
                    sys.exit(said.read()[-4000:] + f"the check ended with status {seconds}")
            elif first is None:
                first = seconds
            else:
                function, kind = function_of(module)
                of[function][kind] += seconds
    sums = sum(of.values(), collections.Counter())
    print(f"{crate}: {first + sum(sums.values()):.0f} processor seconds, {first:.0f} before the first module; derivation {sums['Lts']:.0f}, search {sums['Proof']:.0f}, answers {sums['Answers']:.0f}")
    print("seconds derivation search answers function")
    for function, kinds in sorted(of.items(), key=lambda it: -sum(it[1].values()))[:count]:
        print(f"{sum(kinds.values()):7.1f} {kinds['Lts']:10.1f} {kinds['Proof']:6.1f} {kinds['Answers']:7.1f} {function}")


if __name__ == "__main__":
    words = sys.argv[1:]
    if words[:1] == ["watch"] and len(words) == 2:
        watch(words[1])
    if words[:1] == ["dearest"] and len(words) in (2, 3):
        sys.exit(dearest(words[1], float(words[2]) if words[2:] else 8))
    tests = "--test" in words
    words = [it for it in words if it != "--test"]
    count = 20
    if "--count" in words[:-1]:
        at = words.index("--count")
        count = int(words[at + 1])
        del words[at : at + 2]
    if len(words) not in (1, 2) or words[0] not in lists():
        sys.exit(__doc__)
    main(words[0], tests, count, os.path.abspath(words[1] if words[1:] else "."))
