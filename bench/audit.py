#!/usr/bin/env python3
"""Tries `atspi audit` on traces of random scripts, and on what was changed in them.

usage: bench/audit.py PROGRAM complete FROM TO LINES    random scripts: what `replay --wire` wrote is lawful, with its count of events
       bench/audit.py PROGRAM lost                      small quotas: so it is where the registry was dropped, and nothing may follow
       bench/audit.py PROGRAM changed FROM TO LINES     one event left out, twice, exchanged, or a byte of it changed: refused at the first that differs
       bench/audit.py PROGRAM order                     a reader that asks for the parts of a row in the other order: lawful; with the old replies not
       bench/audit.py PROGRAM speed                     how long it takes beside `replay --wire`

Each seed is a script; its lines that are refused are left out.
"""
import random
import resource
import struct
import subprocess
import sys

ROLES = "push-button panel label text table list check-box alert entry password-text frame notification 42 200".split()
STATES = "focused checked expanded selected pressed checkable expandable multiselectable enabled".split()
ACTIONS = "press toggle expand focus".split()
PIECES = ["a", "b", " ", "é", '\\"', "\\\\", "\\x01", "日"]


def run(words, data):
    done = subprocess.run([PROGRAM, *words], input=data, stdout=subprocess.PIPE, stderr=subprocess.PIPE)
    return done.returncode, done.stdout


def replay(script):
    return run(["replay", "--wire"], script)


def audit(script, trace):
    return run(["audit"], script + b"--\n" + trace)


def events(trace):
    """The text of each event."""
    found = []
    for line in trace.split(b"\n")[:-1]:
        if line[:1] in (b"|", b"="):
            found[-1] += line + b"\n"
        else:
            found.append(line + b"\n")
    return found


class Script:
    """The lines of a random script."""

    def __init__(self, seed):
        self.random = random.Random(seed)
        self.apps = self.readers = 0
        self.made = {}

    def text(self):
        return '"' + "".join(self.random.choice(PIECES) for _ in range(self.random.randint(0, 6))) + '"'

    def insertion(self, app, node):
        draw = self.random
        words = f"insert {node()} {draw.choice([0, 0, 0, 1])} {draw.choice(ROLES)} {self.text()}"
        if draw.random() < 0.4:
            words += f" {draw.choice(['text', 'static'])} {self.text()}"
        if draw.random() < 0.2:
            words += f" columns {draw.randint(1, 3)}"
        if draw.random() < 0.2:
            words += " select"
        for _ in range(draw.choice([0, 0, 1, 2])):
            words += f' action "{draw.choice(ACTIONS)}"'
        self.made[app] += 1
        return words

    def edit(self):
        draw, app = self.random, self.random.randrange(self.apps)

        def node():
            return draw.randint(0, self.made[app] + (draw.random() < 0.03))

        if draw.random() < 0.3:
            return f"edit a{app} " + self.insertion(app, node)
        forms = (
            lambda: f"remove {node()}",
            lambda: f"move {node()} {node()} {draw.choice([0, 0, 1])}",
            lambda: f"name {node()} {self.text()}",
            lambda: f"describe {node()} {self.text()}",
            lambda: f"role {node()} {draw.choice(ROLES)}",
            lambda: f"state {node()} {draw.choice(STATES)} {draw.choice(['on', 'off'])}",
            lambda: f"focus {node()}",
            lambda: f"put {node()} 0 {self.text()}",
            lambda: f"type {node()} {self.text()}",
            lambda: f"cut {node()} 0 1",
            lambda: f"caret {node()} {draw.randint(0, 2)}",
            lambda: f"mark {node()} 0 1",
            lambda: f"unmark {node()}",
            lambda: f"select {node()} 0",
            lambda: f"press {node()} 0",
            lambda: f"relate {node()} 2 {node()}",
        )
        return f"edit a{app} " + draw.choice(forms)()

    def call(self):
        draw = self.random
        deeds = ("set-caret 0", f"insert-text 0 {self.text()}", "delete-text 0 1", f"set-text {self.text()}", "select-child 0", "do-action 0",
                 "select-all", "clear-selection")
        return f"call r{draw.randrange(self.readers)} a{draw.randrange(self.apps)} {draw.randint(0, 3)} {draw.choice(deeds)}"

    def line(self):
        draw = self.random
        share = draw.random()
        if (self.apps == 0 or share < 0.06) and self.apps < 4:
            self.made[self.apps] = 0
            self.apps += 1
            return f"app {self.text()}"
        if (self.readers == 0 or share < 0.1) and self.readers < 3:
            self.readers += 1
            return "reader"
        if share < 0.55:
            return self.edit()
        if share < 0.65:
            party = draw.choice([f"a{draw.randrange(self.apps)}"] * 3 + [f"r{draw.randrange(self.readers)}"] * 3 + ["reg"])
            return f"bytes {party} {draw.choice(['up', 'down'])} {draw.choice([1, 10, 100, 300, 1000, 100000])}"
        if share < 0.78:
            return f"turns {draw.choice([0, 1, 2, 5, 20, 100])}"
        if share < 0.88:
            return "drain"
        if share < 0.93:
            return f"show r{draw.randrange(self.readers)} a{draw.randrange(self.apps)}"
        if share < 0.96:
            return self.call()
        if share < 0.98:
            return f"swap a{draw.randrange(self.apps)}"
        if share < 0.985 and self.apps > 1:
            return f"exit a{draw.randrange(self.apps)}"
        if share < 0.99 and self.readers > 1:
            return f"leave r{draw.randrange(self.readers)}"
        return "# nothing"


def script_of(seed, count):
    """A script none of whose lines is refused, how its replay ends, and its trace."""
    made = Script(seed)
    lines = [f"quota {made.random.choice([1024, 2000, 4000, 10000])}"] if made.random.random() < 0.15 else []
    lines += [made.line() for _ in range(count)]
    while True:
        script = ("\n".join(lines) + "\n").encode()
        status, trace = replay(script)
        if status != 1:
            return script, status, trace
        del lines[int(trace.split(b"\n")[-2].split()[1]) - 1]


def complete(first, last, count):
    ends, bad = {}, 0
    for seed in range(first, last):
        script, status, trace = script_of(seed, count)
        ends[status] = ends.get(status, 0) + 1
        found = audit(script, trace)
        if found != (0, b"lawful %d\n" % len(events(trace))):
            bad += 1
            print("seed", seed, "replay", status, "audit", found)
    print("scripts by the status of their replay:", ends, "not found lawful:", bad)


def lost():
    count = bad = 0
    for quota in (1024, 1100, 1300, 1500, 2000):
        for apps in (2, 6, 12, 16):
            for readers in (0, 2, 4):
                lines = [f"quota {quota}"] + ['app "x"'] * apps + ["reader"] * readers
                for _ in range(30):
                    lines += [f"bytes a{a} up 1000" for a in range(apps)] + [f"bytes r{r} up 1000" for r in range(readers)] + ["turns 3"]
                script = ("\n".join(lines + ["drain"]) + "\n").encode()
                status, trace = replay(script)
                held = len(events(trace))
                bad += audit(script, trace)[1] != b"lawful %d\n" % held
                if status == 9:
                    count += 1
                    bad += audit(script, trace + b"quiet\n")[1] != b"unlawful %d\ndue nothing\n" % (held + 1)
    print("registries dropped:", count, "wrong answers:", bad)


def change(draw, told):
    """The events with one change, which says what it is; none where that makes no change."""
    at, kind = draw.randrange(len(told)), draw.choice(["left out", "twice", "exchanged", "a byte", "a digit"])
    told = list(told)
    if kind == "left out":
        del told[at]
    elif kind == "twice":
        told.insert(at, told[at])
    elif kind == "exchanged" and at + 1 < len(told):
        told[at], told[at + 1] = told[at + 1], told[at]
    elif kind in ("a byte", "a digit"):
        held = bytearray(told[at])
        begin = held.rfind(b"= ") + 2 if kind == "a digit" else 0
        if kind == "a digit" and begin == 1:
            return kind, None
        held[draw.randrange(begin, len(held) - 1)] = draw.choice(b"0123456789abcdef" if kind == "a digit" else b'0123456789abcdef "x\n|=')
        told[at] = bytes(held)
    return kind, b"".join(told)


def changed(first, last, count):
    tried, bad = {}, 0
    for seed in range(first, last):
        script, status, trace = script_of(seed, count)
        told = events(trace)
        draw = random.Random(seed)
        for _ in range(12 if told else 0):
            kind, wrong = change(draw, told)
            if wrong is None or wrong == trace:
                continue
            same = next((i for i, pair in enumerate(zip(wrong, trace)) if pair[0] != pair[1]), min(len(wrong), len(trace)))
            at = trace[:same].count(b"\n") - sum(trace[:same].count(b"\n" + mark) for mark in (b"|", b"="))
            at -= trace[same:same + 1] in (b"|", b"=") and trace[same - 1:same] == b"\n"
            status, found = audit(script, wrong)
            tried[kind] = tried.get(kind, 0) + 1
            # (where a call of a reader's own is missing, the lines go on without it, and one may be refused)
            free = told[at].startswith(b"sent r") if at < len(told) else False
            if not found.startswith(b"unlawful %d\n" % (at + 1)) and not (free and status == 1):
                bad += 1
                print("seed", seed, kind, "audit", status, found[:200], "due at event", at + 1)
    print("changes tried:", tried, "not refused at the first event that differs:", bad)


def patched(event, serial, reply):
    """An event about a message, with another serial, and the serial that a return replies to."""
    line, wire = event.split(b"\n")[:2]
    words = line.split(b" ")
    words[5 if words[0] == b"sent" else 3] = b"%d" % serial
    words = [b"reply=%d" % reply if reply and word.startswith(b"reply=") else word for word in words]
    held = bytearray(bytes.fromhex(wire[2:].decode()))
    struct.pack_into("<I", held, 8, serial)
    if reply and held[1] == 2:
        fields = struct.unpack_from("<I", held, 12)[0]
        struct.pack_into("<I", held, held.find(b"\5\1u\0", 16, 16 + fields) + 4, reply)
    return b" ".join(words) + b"\n= " + held.hex().encode() + b"\n"


def order():
    script = b'app "T"\nreader\ndrain\nedit a0 insert 0 0 text "E" text "hi"\ndrain\nshow r0 a0\n'
    told = events(replay(script)[1])
    at = next(i for i, event in enumerate(told) if event.startswith(b"sent r0") and b"member=GetText" in event)
    # a call, three events that take it on, and two more; an echo is taken between the first one's
    text, echo, caret = told[at:at + 5] + [told[at + 6]], told[at + 5], told[at + 7:at + 13]

    def serial(event):
        words = event.split(b"\n")[0].split()
        return int(words[5] if words[0] == b"sent" else words[3])

    calls, replies = (serial(text[0]), serial(caret[0])), (serial(text[3]), serial(caret[3]))

    def as_one(which, events_, replied):
        call, reply = calls[which], replies[which]
        return [patched(e, call, 0) for e in events_[:3]] + [patched(e, reply, call) for e in replied]

    def trace(first, second):
        return b"".join(told[:at] + first[:5] + [echo] + first[5:] + second + told[at + 13:])

    print("asked in the other order:", audit(script, trace(as_one(0, caret, caret[3:]), as_one(1, text, text[3:]))))
    print("with the old replies:", audit(script, trace(as_one(0, caret, text[3:]), as_one(1, text, caret[3:]))))


def spent(words, data):
    """What a run wrote, and the seconds of a processor that it took."""
    with subprocess.Popen([PROGRAM, *words], stdin=subprocess.PIPE, stdout=subprocess.PIPE) as started:
        before = resource.getrusage(resource.RUSAGE_CHILDREN).ru_utime
        written = started.communicate(data)[0]
    return written, resource.getrusage(resource.RUSAGE_CHILDREN).ru_utime - before


def speed():
    for nodes, edits, readers in ((4000, 2500, 1), (4000, 5000, 1), (4000, 10000, 1), (4000, 5000, 4)):
        lines = ['app "T"'] + ["reader"] * readers + ["drain"]
        lines += [f'edit a0 insert {0 if i < 50 else 1 + i % 50} 0 label "n{i}"' for i in range(nodes)] + ["drain"]
        for i in range(edits):
            lines += [f'edit a0 name {1 + i * 7919 % nodes} "m{i}"'] + ["turns 300"] * (i % 64 == 63)
        script = ("\n".join(lines + ["drain"]) + "\n").encode()
        trace, replayed = spent(["replay", "--wire"], script)
        found, audited = spent(["audit"], script + b"--\n" + trace)
        print(f"{nodes} nodes, {edits} edits, {readers} readers, {len(trace)} bytes: replay {replayed:.2f} s, audit {audited:.2f} s, {found.decode().strip()}")


if len(sys.argv) < 3:
    sys.exit(__doc__)
PROGRAM = sys.argv[1]
numbers = [int(word) for word in sys.argv[3:]]
{"complete": complete, "lost": lost, "changed": changed, "order": order, "speed": speed}[sys.argv[2]](*numbers)
