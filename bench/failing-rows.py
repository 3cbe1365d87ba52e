#!/usr/bin/env python3
"""Whole runs of `replay` and `make` in which each request for memory fails in turn.

usage: bench/failing-rows.py [PROGRAM]     the built program; crates/atspi/out/atspi where none is given

Each run is made with its first request failing, then with its second, until none is left. It has to end as where
nothing fails, or with status 5 and a front of that output; else the sweep ends with an error.
"""
import os
import subprocess
import sys
import tempfile

TOP = os.path.dirname(os.path.dirname(os.path.abspath(__file__)))
RUNS = [
    ("a button, shown twice", ["replay", "--brief"],
     'app "Demo"\nreader\nturns 1000\nedit a0 insert 0 0 push-button "OK"\nedit a0 name 1 "Save"\nshow r0 a0\nturns 1000\nshow r0 a0\n'),
    ("a text that a reader's user changes, with all bytes", ["replay", "--wire"],
     'app "T"\nreader\ndrain\nedit a0 insert 0 0 text "E" text ""\nedit a0 focus 1\ndrain\ncall r0 a0 1 insert-text 0 "hi"\ndrain\nshow r0 a0\n'),
    ("messages kept out at a quota", ["replay", "--brief"],
     'quota 1024\napp "Demo"\nreader\ndrain\nedit a0 name 0 "a"\nedit a0 name 0 "b"\nedit a0 name 0 "c"\nedit a0 name 0 "d"\nbytes a0 up 1000000\nshow r0 a0\ndrain\n'),
    ("an exchange of faces, two readers, an exit", ["replay"],
     'app "A"\nreader\nreader\ndrain\nedit a0 insert 0 0 text "E" text "one"\nswap a0\nedit a0 put 1 0 "so "\ndrain\nleave r1\nexit a0\ndrain\n'),
    ("a line that is refused", ["replay"], 'app "Demo"\nedit a0 insert 7 0 push-button "OK"\n'),
    ("twelve drawn edits", ["make", "12", "7"], ""),
]


def run(program, shim, words, text, failing):
    """Status, output, and how many requests there were."""
    back, told = os.pipe()
    os.set_inheritable(told, True)

    def third():
        os.dup2(told, 3)

    done = subprocess.run([program] + words, input=text.encode(), stdout=subprocess.PIPE, stderr=subprocess.DEVNULL, pass_fds=(3,) if told == 3 else (3, told),
                          preexec_fn=third, env=dict(os.environ, LD_PRELOAD=shim, FAILING=str(failing)), timeout=60)
    os.close(told)
    with os.fdopen(back) as file:
        return done.returncode, done.stdout, int(file.read() or 0)


def main():
    program = sys.argv[1] if sys.argv[1:] else os.path.join(TOP, "crates/atspi/out/atspi")
    with tempfile.TemporaryDirectory() as folder:
        shim = os.path.join(folder, "failing.so")
        subprocess.check_call(["cc", "-O2", "-Wall", "-Wextra", "-shared", "-fPIC", "-o", shim, os.path.join(TOP, "bench/failing-rows.c"), "-ldl"])
        failed = wanting = 0
        for name, words, text in RUNS:
            status, output, requests = run(program, shim, words, text, 0)
            wants = 0
            for failing in range(1, requests + 1):
                ends, told, _ = run(program, shim, words, text, failing)
                if ends == 5 and output.startswith(told):
                    wants += 1
                elif (ends, told) != (status, output):
                    sys.exit(f"{name}: request {failing} of {requests}: status {ends}, {len(told)} bytes")
            print(f"{name}: status {status}, {len(output)} bytes; {requests} requests failed in turn, {wants} ended with 5")
            failed += requests
            wanting += wants
        print(f"all: {failed} requests, {wanting} ended with 5, {failed - wanting} as where none fails")


main()
