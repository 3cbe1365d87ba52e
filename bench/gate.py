#!/usr/bin/env python3
"""Tells what each crate costs in the gate, and how long the gate would take.

usage: bench/gate.py watch PID FILE     while `rt ci` runs as PID: writes what each of its checks took, by crate and kind, to FILE (Linux)
       bench/gate.py table FILE         that as a table in Markdown, the dearest first
       bench/gate.py plan FILE [LANES [GB]]
                                        at the top of the repository: the clock of `rt ci` on so many processors, 4 with no number, in its own order with
                                        these costs, and the chain of crates that cannot be shorter; what FILE lacks counts 0.06 s a line. With GB, the free
                                        memory, a check begins only where the memory that the kit reckons for it fits beside those that run
       bench/gate.py memory [GB]        at the top of the repository: the crates for which the kit reckons the most memory, and which of them fit only beside
                                        fewer than three others of the middle size, of 24 GB with no number

FILE has a line for each check: crate, kind (proof, tests, edits), processor seconds, and the minute at which it began and ended. Edit it to see what a cut
would bring. `watch` asks every two seconds, so a check counts up to two seconds too little; a check that ended before it was started is missing.
"""
import os
import re
import sys
import time

TICKS = os.sysconf("SC_CLK_TCK")


def text(path):
    try:
        with open(path, encoding="utf-8", errors="replace") as it:
            return it.read()
    except OSError:
        return ""


def processes():
    """Returns, for each process, its parent, the ticks that it and its ended children took, and when it started."""
    found = {}
    for name in filter(str.isdigit, os.listdir("/proc")):
        stat = text(f"/proc/{name}/stat")
        if stat:
            words = stat[stat.rindex(")") + 2 :].split()
            if words[0] != "Z":
                found[int(name)] = int(words[1]), sum(map(int, words[11:15])), int(words[19])
    return found


def told(pid):
    """Returns the crate of a check, and what of it is checked."""
    words = text(f"/proc/{pid}/cmdline").split("\0")
    if "--crate-name" not in words:
        return None
    crate = words[words.index("--crate-name") + 1]
    over = [it for it in words if "rt-edit" in it]
    edits = over or "rt-edit" in os.path.realpath(f"/proc/{pid}/cwd")
    return crate, "edits" if edits else "tests" if "--test" in words else "proof"


def watch(root, file):
    began, known = time.time(), {}
    with open(file, "a", buffering=1, encoding="utf-8") as out:
        while True:
            now, found, below = (time.time() - began) / 60, processes(), {}
            for pid, (parent, _, _) in found.items():
                below.setdefault(parent, []).append(pid)
            ticks = lambda pid: found[pid][1] + sum(map(ticks, below.get(pid, ())))
            there = {(pid, found[pid][2]) for pid in below.get(root, ())}
            for key in there:
                first, what, most, _ = known.get(key, (now, None, 0, 0))
                known[key] = first, what or told(key[0]), max(most, ticks(key[0])), now
            for key in [it for it in known if it not in there]:
                first, what, most, last = known.pop(key)
                if what:
                    print(*what, f"{most / TICKS:.1f} {first:.1f} {last:.1f}", file=out)
            if root not in found:
                return
            time.sleep(2)


def costs(file):
    found = {}
    for line in text(file).splitlines():
        crate, kind, seconds = line.split()[:3]
        of = found.setdefault(crate, {})
        of[kind] = of.get(kind, 0) + float(seconds)
    return found


def table(file):
    found = costs(file)
    print("| crate | proof | its tests | its edits |\n|---|---|---|---|")
    for crate, of in sorted(found.items(), key=lambda it: -sum(it[1].values())):
        print(f"| `{crate}` |", " | ".join(f"{of[it]:.0f}" if it in of else "" for it in ("proof", "tests", "edits")), "|")
    for kind in ("proof", "tests", "edits"):
        print(f"{kind}: {sum(of.get(kind, 0) for of in found.values()) / 60:.0f} processor minutes")


def libraries():
    """Returns the crates of the repository that each crate uses, the lowest first."""
    uses = {}
    for line in text("crates.txt").splitlines():
        name, colon, words = line.partition("#")[0].partition(":")
        if colon:
            uses[name.split()[0]] = words.split()
    return {crate: [it for it in words if it in uses] for crate, words in uses.items()}


def lines_of(crate, ending):
    """Returns how many lines the crate's files with that ending have."""
    found = [f"{at}/{it}" for part in ("src", "specs", "proofs") for at, _, names in os.walk(f"crates/{crate}/{part}") for it in names if it.endswith(ending)]
    return sum(text(it).count("\n") for it in found)


def reckoned(uses, lines):
    """Returns the bytes that the kit reckons for a check of each crate, before it starts one (without the kit's own libraries, which are small here)."""
    known = {}

    def below(crate):
        if crate not in known:
            known[crate] = set(uses[crate]).union(*map(below, uses[crate]))
        return known[crate]

    return {it: 10**9 + 10**6 * lines[it] + 200_000 * lines_of(it, ".antt") + 80_000 * sum(map(lines.get, below(it))) for it in uses}


def memory(free):
    uses = libraries()
    needs = reckoned(uses, {crate: lines_of(crate, ".rt") for crate in uses})
    middle = sorted(needs.values())[len(needs) // 2]
    print(f"of {free:.0f} GB that are free the kit gives {0.85 * free:.1f}; the middle crate is reckoned at {middle / 1e9:.1f}")
    for crate in sorted(needs, key=lambda it: -needs[it])[:12]:
        beside = int((0.85 * free - needs[crate] / 1e9) / (middle / 1e9))
        print(f"{needs[crate] / 1e9:>6.1f} {crate}" + (f"  beside {max(beside, 0)} others" if beside < 3 else ""))


def plan(file, lanes, free):
    found, uses, tasks = costs(file), libraries(), {}
    lines = {crate: lines_of(crate, ".rt") for crate in uses}
    needs = reckoned(uses, lines) if free else dict.fromkeys(uses, 0)
    for crate in uses:
        of = found.get(crate) or {"proof": 0.06 * lines[crate]}
        edits = [it for it in os.listdir(f"crates/{crate}/must-fail") if it.endswith(".edit")] if os.path.isdir(f"crates/{crate}/must-fail") else []
        low = [(it, "proof") for it in uses[crate]]
        tasks[crate, "proof"] = low, lines[crate], of.get("proof", 0)
        tasks[crate, "tests"] = low, lines[crate] if "tests" in of else 0, of.get("tests", 0)
        if len(edits) == 1:
            # (one alone is tried from nothing)
            tasks[crate, edits[0]] = [(crate, "proof"), (crate, "tests")], lines[crate], of.get("edits", of.get("proof", 0))
        elif edits:
            # the check that they begin with, and each of them
            seed = min(of.get("proof", 0), of.get("edits", 0))
            tasks[crate, "seed"] = low, 0, seed
            for it in edits:
                tasks[crate, it] = [(crate, "proof"), (crate, "tests"), (crate, "seed")], lines[crate], (of.get("edits", 0) - seed) / len(edits)
    behind = {}

    def chain(key):
        """The crates that a task needs one after the other, and their time."""
        if key not in behind:
            most = max((chain(it) for it in tasks[key][0]), default=(0, []), key=lambda it: it[0])
            behind[key] = most[0] + tasks[key][2], [*most[1], key]
        return behind[key]

    longest = max((chain(it) for it in tasks), key=lambda it: it[0])
    weight = {it: 0 for it in tasks}
    # (crates.txt has the lowest first, so a task comes after those that it waits for)
    for key in reversed([*tasks]):
        weight[key] += tasks[key][1]
        for it in tasks[key][0]:
            weight[it] = max(weight[it], weight[key])
    left = sorted(tasks, key=lambda it: (it[1] not in ("proof", "tests"), -weight[it]))
    now, running, done, proved = 0, [], set(), 0
    while left or running:
        for key in [*left]:
            fits = not running or sum(needs[it[0]] for _, it in running) + needs[key[0]] <= 0.85e9 * free
            if len(running) < lanes and done.issuperset(tasks[key][0]) and fits:
                left.remove(key)
                running.append((now + tasks[key][2], key))
        running.sort()
        now, key = running.pop(0)
        done.add(key)
        proved = now if key[1] == "proof" else proved
    print(f"{sum(it[2] for it in tasks.values()) / 60:.0f} processor minutes; on {lanes} processors {now / 60:.0f} minutes by the clock, the last proof at {proved / 60:.0f}")
    print(f"no less than {longest[0] / 60:.0f}:", " ".join(f"{crate.removeprefix('atspi_')} {tasks[crate, kind][2]:.0f}" for crate, kind in longest[1]))


if __name__ == "__main__":
    words = sys.argv[1:]
    if words[:1] == ["watch"] and len(words) == 3:
        watch(int(words[1]), words[2])
    elif words[:1] == ["table"] and len(words) == 2:
        table(words[1])
    elif words[:1] == ["plan"] and len(words) in (2, 3, 4):
        plan(words[1], int(words[2]) if words[2:] else 4, float(words[3]) if words[3:] else 0)
    elif words[:1] == ["memory"] and len(words) in (1, 2):
        memory(float(words[1]) if words[1:] else 24)
    else:
        sys.exit(__doc__)
