#!/usr/bin/env python3
"""Checks a crate before the crates below it are proved.

usage: bench/assumed.py build [CRATE..]                     builds libraries with assumed bodies, of these crates and those below (none named: of all)
       bench/assumed.py check CRATE [FUNCTION..] [-- FLAG..]  checks these functions (none named: the whole crate) over such libraries

In a library with assumed bodies each function's body is replaced by a call of a foreign function that ensures a falsehood, so that its contract holds
without a proof; contracts, definitions, types and lemmas are the true ones, so what stands above is checked as the gate checks it. Nothing that is built
so counts for the gate, and nothing of it lies in the repository: libraries are in $ASSUMED, else in /tmp/assumed-UID; what a check keeps, in
crates/NAME/out/assumed. Build a crate's library anew (name it) where its contracts or definitions changed. JOBS says how many are built at once.

A crate whose lemmas are at fault has no library: mend those first, or build it with them cut. Flags go to `rattle check`, as --allow-holes.
"""
import os
import re
import shutil
import subprocess
import sys
import time
from concurrent.futures import FIRST_COMPLETED, ThreadPoolExecutor, wait

KIT = os.path.dirname(subprocess.run(["rt", "doc"], capture_output=True, text=True, check=True).stdout.strip())
OUT = os.environ.get("ASSUMED", f"/tmp/assumed-{os.getuid()}")
BLANKED = re.compile(r'//[^\n]*|/\*.*?\*/|b?"(?:\\.|[^"\\])*"|b?\'(?:\\x[0-9a-fA-F]{2}|\\u\{[^}]*\}|\\.|[^\'\\\n])\'', re.S)
FUNCTION = re.compile(r"^[ \t]*(?:pub(?:\([^)]*\))? )?(?:const )?(?:unsafe )?(?:extern \"[^\"]*\" )?fn (\w+)", re.M)
CYCLE = re.compile(r"^[ \t]*#\[cycle\([^\n]*\)\]\n((?:[ \t]*(?:#\[|///|//)[^\n]*\n)*[ \t]*(?:pub(?:\([^)]*\))? )?(?:const )?(?:unsafe )?fn )", re.M)
ANSWERS = {"Answers.antt", "Invariants.antt", "Proof.antt"}


def read(path):
    with open(path, encoding="utf-8") as it:
        return it.read()


def write(path, text):
    with open(path, "w", encoding="utf-8") as it:
        it.write(text)


def crates():
    """Each crate of crates.txt with what it uses."""
    found = {}
    for line in read("crates.txt").split("\n"):
        name, _, uses = line.split("#")[0].strip().partition(":")
        if name:
            found[name.split()[0]] = uses.split()
    return found


CRATES = crates()


def below(crate):
    seen = []

    def go(one):
        for used in CRATES[one]:
            if used in CRATES and used not in seen:
                seen.append(used)
                go(used)

    go(crate)
    return seen


def masked(text):
    """The text, as long, without what stands in comments and literals."""
    return BLANKED.sub(lambda it: re.sub(r"[^\n]", " ", it[0]), text)


def body_of(code, place):
    """Where the body of the function whose name ends at the place begins and ends, or None: past the braces of its clauses."""
    depth, in_clause = 0, False
    while place < len(code):
        char = code[place]
        if depth == 0 and re.match(r"(requires|ensures|ghost)\b", code[place : place + 9]) and not re.match(r"\w", code[place - 1]):
            in_clause = True
        if char in "([":
            depth += 1
        elif char in ")]":
            depth -= 1
        elif char == ";" and depth == 0:
            return None
        elif char == "{":
            if depth == 0 and not in_clause:
                break
            depth += 1
        elif char == "}":
            depth -= 1
            in_clause = in_clause and depth > 0
        place += 1
    end, depth = place, 0
    while end < len(code):
        depth += (code[end] == "{") - (code[end] == "}")
        if depth == 0:
            return place, end
        end += 1
    return None


def assume(text, crate):
    """The text with each body assumed, and the names of the functions that are left as they are."""
    code, parts, last, left = masked(text), [], 0, set()
    for it in FUNCTION.finditer(code):
        found = body_of(code, it.end())
        if found is None or it.start() < last:
            continue
        head = re.split(r"\b(?:requires|ensures)\b", code[it.start() : found[0]])[0]
        if "const fn" in head or re.search(r"->\s*impl\b", head):
            left.add(it[1])
            continue
        parts += [text[last : found[0]], f"{{\n    unsafe {{ crate::assumed::assumed_in_{crate}() }};\n    unreachable!()\n}}"]
        last = found[1] + 1
    return CYCLE.sub(r"\1", "".join(parts) + text[last:]), left


def cut(folder, crate):
    left = set()
    for at, _, files in os.walk(f"{folder}/src"):
        for name in [it for it in files if it.endswith(".rt")]:
            text, whole = assume(read(f"{at}/{name}"), crate)
            left |= whole
            write(f"{at}/{name}", text)
    for at, _, files in os.walk(f"{folder}/proofs", topdown=False):
        if ANSWERS & set(files) and "Lib.antt" not in files and os.path.basename(at) not in left:
            shutil.rmtree(at)
    write(f"{folder}/src/lib.rt", read(f"{folder}/src/lib.rt") + "\nmod assumed;\n")
    contract = f'unsafe extern "C" {{\n    pub fn assumed_in_{crate}()\n        ensures {{ true ≡ false }};\n}}\n'
    write(f"{folder}/src/assumed.rt", f"ghost use Rattle.std.specs.Prelude.{{◌≡◌, true, false}};\n\n{contract}")


def rlib(crate):
    return f"{OUT}/{crate}/out/rlib/{crate}.rlib"


def is_built(crate):
    return os.path.isfile(f"{rlib(crate)}/format")


def words(crate, root):
    said = ["--crate-name", crate, root]
    for name in ["std", *[it for it in CRATES[crate] if it not in CRATES]]:
        said += ["--extern", f"{name}={KIT}/rlibs/{name}.rlib"]
    said += ["-L", f"dependency={KIT}/rlibs"]
    for name in [it for it in CRATES[crate] if it in CRATES]:
        said += ["--extern", f"{name}={rlib(name)}"]
    for name in below(crate):
        said += ["-L", f"dependency={os.path.dirname(rlib(name))}"]
    return [*said, "--antt-project", f"{KIT}/rattle/logic/antt-project.json", "--logic-built", f"{KIT}/logic_built"]


def build(crate):
    folder, began = f"{OUT}/{crate}", time.time()
    shutil.rmtree(folder, ignore_errors=True)
    for part in ("src", "specs", "proofs"):
        if os.path.isdir(f"crates/{crate}/{part}"):
            shutil.copytree(f"crates/{crate}/{part}", f"{folder}/{part}")
    cut(folder, crate)
    os.makedirs(f"{folder}/out/rlib")
    with open(f"{folder}/out/log", "w", encoding="utf-8") as log:
        command = [f"{KIT}/bin/rattle", "build", *words(crate, "src/lib.rt"), "--jobs", "1", "-o", rlib(crate)]
        status = subprocess.call(command, cwd=folder, stdout=log, stderr=subprocess.STDOUT)
    print(f"{crate}: {'built' if status == 0 else f'not built, see {folder}/out/log'}, {time.time() - began:.0f} s", flush=True)
    return status == 0


def build_all(named):
    libraries = [it for it in CRATES if os.path.isfile(f"crates/{it}/src/lib.rt")]
    wanted = {one for it in named or libraries for one in [it, *below(it)]}
    waiting = [it for it in libraries if it in wanted and (it in named or not is_built(it))]
    failed, running, jobs = set(), {}, int(os.environ.get("JOBS", "3"))
    with ThreadPoolExecutor(jobs) as pool:
        while waiting or running:
            for crate in list(waiting):
                under = below(crate)
                if failed & set(under):
                    print(f"{crate}: one below it is not built", flush=True)
                    failed.add(crate)
                    waiting.remove(crate)
                elif len(running) < jobs and not any(it in waiting or it in running.values() for it in under):
                    running[pool.submit(build, crate)] = crate
                    waiting.remove(crate)
            for it in wait(running, return_when=FIRST_COMPLETED)[0] if running else []:
                crate = running.pop(it)
                if not it.result():
                    failed.add(crate)
    return 1 if failed else 0


def check(crate, functions, flags):
    missing = [it for it in below(crate) if not is_built(it)]
    if missing:
        sys.exit(f"not built: {' '.join(missing)}: bench/assumed.py build {crate}")
    folder = f"crates/{crate}"
    os.makedirs(f"{folder}/out/assumed", exist_ok=True)
    root = "src/lib.rt" if os.path.exists(f"{folder}/src/lib.rt") else "src/main.rt"
    only = [word for it in functions for word in ("--only", it)]
    command = [f"{KIT}/bin/rattle", "check", *words(crate, root), "--incremental", f"{os.getcwd()}/{folder}/out/assumed", *only, *flags]
    return subprocess.call(command, cwd=folder)


def main():
    given, flags = sys.argv[1:], []
    if "--" in given:
        given, flags = given[: given.index("--")], given[given.index("--") + 1 :]
    unknown = [it for it in given[1:2] if it not in CRATES]
    if not given or given[0] not in ("build", "check") or unknown or (given[0] == "check" and len(given) < 2):
        sys.exit(__doc__)
    sys.exit(build_all(given[1:]) if given[0] == "build" else check(given[1], given[2:], flags))


main()
