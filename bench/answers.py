#!/usr/bin/env python3
"""Answers the goals of functions for which the search takes longest.

usage: bench/answers.py CRATE FUNCTION.. [--libraries FOLDER]
       at the top of the repository, once `rt check` in the crate's folder has built the libraries below it (or FOLDER/crates/*/out has them);
       a function is named as a check prints it

What takes long is a goal at which `search rules` fails and one of the tries behind it ends. So each goal that has no answer is tried with
`search rules` alone, and those that this leaves with `grind (arith, common_steps)`. Where that closes a goal it stays in the function's
Answers.antt; all others are left to the search as before. The crate's last check is over the files as they stay.
"""
import glob
import os
import re
import subprocess
import sys
import tempfile

from functions import command, lists

OFFER = re.compile(r"^pub (\S+) : (goal\.\S+)\n(?:unfolding [^\n]*\n)?\1((?: [^=\n]+)?) = \?", re.M)
COMMON, GRIND = "Rattle.std.proofs.Common", "Rattle.std.proofs.lemmas.Grind"


def run(words, crate):
    """Returns what a check with these words says."""
    ran = subprocess.run(words, cwd=f"crates/{crate}", stdout=subprocess.PIPE, stderr=subprocess.STDOUT, errors="replace", check=False)
    return ran.stdout


def offered(words, crate, functions, folder):
    """Returns, for each function's folder below proofs/, all its goals as the toolchain offers them, and the module that has them."""
    starts = [it for function in functions for it in ("--start", function)]
    said = run([*words, *starts, "--generated", folder], crate)
    top, found = f"{folder}/Rattle-{crate}-proofs", {}
    for file in glob.glob(f"{top}/**/AnswersOffered.antt", recursive=True):
        with open(file, encoding="utf-8") as it:
            text = it.read()
        found[os.path.relpath(os.path.dirname(file), top)] = OFFER.findall(text), re.search(r"use (\S+\.Goals) as goal", text)[1]
    return found or sys.exit(said[-2000:])


def with_import(text, module, name):
    """Returns a file that imports the name, if it did not."""
    line = re.search(rf"^use {re.escape(module)}\.\{{([^}}]*)\}}", text, re.M)
    if not line:
        return f"use {module}.{{{name}}}\n{text}"
    if name in line[1].split(", "):
        return text
    return f"{text[: line.end() - 1]}, {name}}}{text[line.end() :]}"


class Answers:
    """The file of a function's answers, as it was, and its goals that have none."""

    def __init__(self, file, goals, module):
        self.file, self.module, self.old = file, module, None
        if os.path.isfile(file):
            with open(file, encoding="utf-8") as it:
                self.old = it.read()
        self.goals = [it for it in goals if f"pub {it[0]} :" not in (self.old or "")]

    def write(self, term, imports):
        """Gives each of the goals this answer."""
        if not self.goals:
            return self.put_back()
        text = self.old or f"use {self.module} as goal\n"
        for module, name in imports:
            text = with_import(text, module, name)
        text += "".join(f"\npub {name} : {goal}\n{name}{args} = {term}\n" for name, goal, args in self.goals)
        os.makedirs(os.path.dirname(self.file), exist_ok=True)
        with open(self.file, "w", encoding="utf-8") as it:
            it.write(text)

    def put_back(self):
        if self.old is None:
            if os.path.isfile(self.file):
                os.remove(self.file)
            return
        with open(self.file, "w", encoding="utf-8") as it:
            it.write(self.old)

    def refused(self, said):
        """Returns the goals whose answers a check refused."""
        return {it for it in self.goals if re.search(rf"{re.escape(self.file.partition('/proofs/')[2])}:\d+:\d+: error: `{re.escape(it[0])}`", said)}


def main(crate, functions, libraries):
    with tempfile.TemporaryDirectory() as kept, tempfile.TemporaryDirectory() as folder:
        words = command(crate, False, libraries, kept)
        files = [Answers(f"crates/{crate}/proofs/{at}/Answers.antt", *of) for at, of in offered(words, crate, functions, folder).items()]
        check = [*words, *[it for function in functions for it in ("--only", function)]]
        try:
            for one in files:
                one.write("search rules", [(COMMON, "rules")])
            said = run(check, crate)
            for one in files:
                one.goals = [it for it in one.goals if it in one.refused(said)]
            left = True
            while left:
                for one in files:
                    one.write("grind (arith, common_steps)", [(COMMON, "arith"), (GRIND, "common_steps")])
                said = run(check, crate)
                left = {one.file: one.refused(said) for one in files if one.refused(said)}
                for one in files:
                    one.goals = [it for it in one.goals if it not in left.get(one.file, ())]
        except BaseException:
            for one in files:
                one.put_back()
            raise
    for one in files:
        print(f"{one.file}: {len(one.goals)} answered")
    print(said.rstrip().rpartition("\n")[2])


if __name__ == "__main__":
    words = sys.argv[1:]
    libraries = "."
    if "--libraries" in words[:-1]:
        at = words.index("--libraries")
        libraries = words[at + 1]
        del words[at : at + 2]
    if len(words) < 2 or words[0] not in lists():
        sys.exit(__doc__)
    main(words[0], words[1:], os.path.abspath(libraries))
