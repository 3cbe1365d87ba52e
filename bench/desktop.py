#!/usr/bin/python3
"""What bench/desktop.sh needs beside the shell: who owns org.a11y.Bus on a session bus, a walk by libatspi, and a comparison of two trees.

    desktop.py launcher ADDRESS         owns org.a11y.Bus on the session bus and answers GetAddress with ADDRESS, until it is ended
    desktop.py walk FILE [SECONDS]      writes what libatspi walks of the first application of the desktop, a line of JSON a node
    desktop.py compare FILE READ        compares that with what `read` wrote: one line, and the differences on standard error
    desktop.py read PATH ROUNDS         walks each application on the bus at PATH by calls, as a reader that asks for all would, and writes a line a node:
                                        beside `--capture` it stands for a reader, since libatspi's own walk goes by sockets beside the bus
    desktop.py stream PCAP FILE ATSPI   writes the messages of a pcap of dbus-monitor that an application sent, and the calls that it answered, at most
                                        60,000 bytes; ATSPI is the program atspi, whose `check` tells what they are
"""

import json
import re
import sys
import time

OWN = "/org/a11y/atspi/accessible/"
LAUNCHER = """<node>
  <interface name="org.a11y.Bus"><method name="GetAddress"><arg direction="out" type="s"/></method></interface>
  <interface name="org.a11y.Status">
    <property name="IsEnabled" type="b" access="readwrite"/><property name="ScreenReaderEnabled" type="b" access="readwrite"/>
  </interface>
</node>"""


def launcher(address):
    from gi.repository import Gio, GLib

    def call(_bus, _sender, _path, _interface, _member, _arguments, answer):
        answer.return_value(GLib.Variant("(s)", (address,)))

    def get(*_):
        return GLib.Variant("b", True)

    def acquired(bus, _name):
        for interface in Gio.DBusNodeInfo.new_for_xml(LAUNCHER).interfaces:
            bus.register_object("/org/a11y/bus", interface, call, get, lambda *_: True)

    Gio.bus_own_name(Gio.BusType.SESSION, "org.a11y.Bus", Gio.BusNameOwnerFlags.NONE, acquired, None, None)
    GLib.MainLoop().run()


def node_of(path):
    """A path as `read` shows it."""
    rest = path[len(OWN):] if path.startswith(OWN) else path
    return rest if rest == "root" or re.fullmatch(r"0|[1-9][0-9]{0,9}", rest) and int(rest) < 1 << 32 else path


def text_of(accessible):
    text = accessible.get_text_iface()
    if text is None:
        return None, None
    try:
        return Atspi.Text.get_text(text, 0, -1), Atspi.Text.get_caret_offset(text)
    except GLib.Error:
        return None, None


def row_of(accessible, parent, index):
    states = accessible.get_state_set()
    bits = sum(1 << int(state) for state in states.get_states() if int(state) < 64)
    text, caret = text_of(accessible)
    return {
        "node": node_of(accessible.path), "parent": parent, "index": index, "name": accessible.get_name() or "",
        "role": accessible.get_role_name() or "", "states": bits, "text": text, "caret": caret,
        "showing": states.contains(Atspi.StateType.SHOWING),
        "managed": states.contains(Atspi.StateType.MANAGES_DESCENDANTS), "count": accessible.get_child_count(),
    }


def walk(file, seconds):
    until = time.time() + seconds
    desktop = Atspi.get_desktop(0)
    if desktop.get_child_count() < 1:
        sys.exit("no application at the registry")
    seen, queue = set(), [(desktop.get_child_at_index(0), "-", -1, False)]
    with open(file, "w") as out:
        while queue and time.time() < until:
            accessible, parent, index, below = queue.pop(0)
            if accessible is None or accessible.path in seen:
                continue
            seen.add(accessible.path)
            try:
                row = row_of(accessible, parent, index)
                row["below_managed"] = below
                out.write(json.dumps(row) + "\n")
                for child in range(min(row["count"], 70000)):
                    queue.append((accessible.get_child_at_index(child), row["node"], child, below or row["managed"]))
            except GLib.Error as error:
                print("walk:", accessible.path, error, file=sys.stderr)
    if queue:
        print("walk: cut off by the clock", file=sys.stderr)


def unquote(word):
    out, at = [], 1
    while at < len(word) - 1:
        if word[at] != "\\":
            out.append(word[at])
            at += 1
        elif word[at + 1] == "x":
            out.append(chr(int(word[at + 2:at + 4], 16)))
            at += 4
        else:
            out.append(word[at + 1])
            at += 2
    return "".join(out)


WORD = re.compile(r'"(?:\\.|[^"\\])*"|[^ ]+')


def held_rows(file):
    """The rows behind the last `show` of the first application that has any."""
    rows, shown = {}, False
    for line in open(file, encoding="utf-8"):
        if line.startswith("show "):
            if rows:
                break
            shown = True
        elif shown and line.startswith("| "):
            words = WORD.findall(line[2:].rstrip("\n"))
            node, parent, index, role, states, name, _description, _kinds, text, caret, _columns = words[:11]
            rows[node] = {"parent": parent, "index": int(index), "role": role, "states": int(states, 16), "name": unquote(name),
                          "text": unquote(text) if text.startswith('"') else None if text == "-" else text, "caret": caret}
    return rows


# states that come and go with what a listener does, or with the pointer, and so say nothing of the reader
PASSING = 0


def compare(file, read):
    walked = [json.loads(line) for line in open(file)]
    held = held_rows(read)
    by_node = {row["node"]: row for row in walked}
    missing = [row for row in walked if row["node"] not in held]
    count = {"walked": len(walked), "held": len(held), "missing": len(missing),
             "showing": sum(row["showing"] and not row["below_managed"] for row in missing),
             "cells": sum(row["showing"] and row["below_managed"] for row in missing),
             "extra": sum(node not in by_node for node in held)}
    wrong = {"name": [], "role": [], "states": [], "text": [], "place": []}
    for node, row in held.items():
        true = by_node.get(node)
        if true is None:
            continue
        role = true["role"].replace(" ", "-")
        if row["name"] != true["name"]:
            wrong["name"].append((node, row["name"], true["name"]))
        if row["role"] != role and not row["role"].isdigit():
            wrong["role"].append((node, row["role"], role))
        if (row["states"] ^ true["states"]) & ~PASSING:
            wrong["states"].append((node, hex(row["states"]), hex(true["states"])))
        if row["text"] not in (None, "?") and true["text"] is not None and row["text"] != true["text"]:
            wrong["text"].append((node, row["text"], true["text"]))
        if true["parent"] != "-" and (row["parent"] != true["parent"] or row["index"] != true["index"]):
            wrong["place"].append((node, row["parent"], row["index"], true["parent"], true["index"]))
    unknown = sum(row["text"] == "?" or row["caret"] == "?" for row in held.values())
    spoken = sum(line.startswith("say ") for line in open(read, encoding="utf-8"))
    print(" ".join(f"{word}={number}" for word, number in count.items()), *(f"{word}={len(those)}" for word, those in wrong.items()),
          f"unknown={unknown} spoken={spoken}")
    for word, those in wrong.items():
        for one in those[:12]:
            print("   ", word, *one, file=sys.stderr)
    for row in [row for row in missing if row["showing"]][:12]:
        print("    missing", row["node"], row["role"], repr(row["name"]), "below", row["parent"], file=sys.stderr)


ACCESSIBLE, PROPERTIES, REGISTRY = "org.a11y.atspi.Accessible", "org.freedesktop.DBus.Properties", "org.a11y.atspi.Registry"
PATTERNS = ("children-changed", "property-change", "state-changed", "text-changed", "text-caret-moved", "active-descendant-changed")


def ask(path):
    """Registers for the events, and asks each node of each application all that an item has. GetAll is not sent: a Qt 6.4 application was gone behind it."""
    from gi.repository import Gio, GLib

    flags = Gio.DBusConnectionFlags.AUTHENTICATION_CLIENT | Gio.DBusConnectionFlags.MESSAGE_BUS_CONNECTION
    bus = Gio.DBusConnection.new_for_address_sync(f"unix:path={path}", flags, None, None)

    def call(name, node, interface, member, body=None):
        try:
            return bus.call_sync(name, node, interface, member, body, None, Gio.DBusCallFlags.NONE, 2000, None).unpack()
        except GLib.Error as error:
            return (f"error {error.message[:60]}",)

    for pattern in PATTERNS:
        call(REGISTRY, "/org/a11y/atspi/registry", REGISTRY, "RegisterEvent", GLib.Variant("(s)", (f"object:{pattern}",)))
    for app, root in call(REGISTRY, OWN + "root", ACCESSIBLE, "GetChildren")[0]:
        items = call(app, "/org/a11y/atspi/cache", "org.a11y.atspi.Cache", "GetItems")[0]
        print("items", items if isinstance(items, str) else len(items))
        queue, seen = [(root, "-", -1)], set()
        while queue and len(seen) < 4000:
            node, parent, index = queue.pop(0)
            if node in seen:
                continue
            seen.add(node)
            told = [call(app, node, ACCESSIBLE, member)[0] for member in ("GetChildren", "GetRole", "GetState", "GetInterfaces", "GetIndexInParent")]
            got = [call(app, node, PROPERTIES, "Get", GLib.Variant("(ss)", (ACCESSIBLE, name)))[0] for name in ("Name", "Description", "ChildCount", "Parent")]
            print(node, parent, index, *told[1:], *got)
            if not isinstance(told[0], str):
                queue += [(child, node, at) for at, (name, child) in enumerate(told[0]) if name == app]
        print("nodes", len(seen))
    sys.stdout.flush()
    time.sleep(14)


def messages_in(pcap):
    import struct

    data = open(pcap, "rb").read()
    order, at = "<" if data[:4] == b"\xd4\xc3\xb2\xa1" else ">", 24
    while at + 16 <= len(data):
        length = struct.unpack(order + "IIII", data[at:at + 16])[2]
        yield data[at + 16:at + 16 + length]
        at += 16 + length


def stream(pcap, file, atspi):
    """Of what a toolkit tells by the hundred as it is walked (`accessible-parent`, items of nodes that are realized) only the first."""
    import subprocess

    messages = list(messages_in(pcap))
    told = subprocess.run([atspi, "check"], input=b"".join(messages), stdout=subprocess.PIPE).stdout.decode().splitlines()
    app = next(re.search(r" sender=(\S+)", line).group(1) for line in told if "member=Embed" in line)
    kept, calls, often = b"", set(), 0
    for message, line in zip(messages, told):
        words = line.split(" ")
        field = dict(word.split("=", 1) for word in words[5:] if "=" in word)
        mine = field.get("sender") == app
        if words[1] == "signal" and mine:
            often += any(word in line for word in ('"accessible-parent"', '"widget"', '"renderer"', '"defunct" 0', "AddAccessible"))
            keep = often <= 30 or not any(word in line for word in ('"accessible-parent"', '"widget"', '"renderer"', '"defunct" 0', "AddAccessible"))
        elif words[1] == "call":
            keep = field.get("destination") == app and len(calls) < 100
            if keep:
                calls.add((field.get("sender"), words[4]))
        else:
            keep = mine and (field.get("destination"), field.get("reply")) in calls
        if keep and len(kept) + len(message) <= 60000:
            kept += message
    open(file, "wb").write(kept)


if __name__ == "__main__":
    words = sys.argv[1:]
    if words[:1] == ["compare"] and len(words) == 3:
        compare(words[1], words[2])
    elif words[:1] == ["stream"] and len(words) == 4:
        stream(*words[1:])
    elif words[:1] == ["read"] and len(words) == 3:
        import gi

        ask(words[1])
    elif words[:1] in (["launcher"], ["walk"]):
        import gi

        gi.require_version("Atspi", "2.0")
        from gi.repository import Atspi, GLib

        launcher(words[1]) if words[0] == "launcher" else walk(words[1], float(words[2]) if words[2:] else 60)
    else:
        sys.exit(__doc__)
