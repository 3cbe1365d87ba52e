#!/usr/bin/env python3
"""Writes a stream of small messages for bench/check.sh, to standard output: 1,499 messages in one of two kinds.

usage: bench/small.py names|calls

names: what a bus and its connections say to one another (D-Bus Specification, "Message Bus Messages"): names asked for, won and lost, rules, errors.
calls: a reader's calls to accessible objects, their returns with references and variants, and signals of states. Little-endian.
"""
import struct
import sys

COUNT = 1500
NUMBER = {"path": 1, "interface": 2, "member": 3, "error": 4, "reply": 5, "destination": 6, "sender": 7}
CALL, RETURN, ERROR, SIGNAL = 1, 2, 3, 4
BUS = {"path": b"/org/freedesktop/DBus", "interface": b"org.freedesktop.DBus"}


def padded(data, alignment):
    """The bytes with zeros behind them up to a multiple of the alignment."""
    return data + b"\0" * (-len(data) % alignment)


def text(value):
    return struct.pack("<I", len(value)) + value + b"\0"


def field(name, value):
    """A header field: its number, its type in a variant, and its value."""
    if name == "reply":
        return bytes([NUMBER[name]]) + b"\1u\0" + struct.pack("<I", value)
    return bytes([NUMBER[name]]) + (b"\1o\0" if name == "path" else b"\1s\0") + text(value)


def message(kind, serial, fields, signature=b"", body=b""):
    flags = 0 if kind == CALL else 1
    held = b""
    for name, value in fields.items():
        held = padded(held, 8) + field(name, value)
    if signature:
        held = padded(held, 8) + b"\x08\1g\0" + bytes([len(signature)]) + signature + b"\0"
    front = struct.pack("<BBBBIII", ord("l"), kind, flags, 1, len(body), serial, len(held))
    return padded(front + held, 8) + body


def names(at):
    """A message between a bus and a connection."""
    connection = b":1.%d" % (at % 40)
    back = {"reply": at, "destination": connection, "sender": b"org.freedesktop.DBus"}
    asked = {**BUS, "destination": b"org.freedesktop.DBus"}
    rule = b"type='signal',interface='org.a11y.atspi.Event.Object',member='ChildrenChanged'"
    owner = padded(padded(text(connection), 4) + text(b""), 4) + text(connection)
    return (
        message(CALL, at, {**asked, "member": b"RequestName"}, b"su", padded(text(b"org.example.Name%d" % at), 4) + struct.pack("<I", at % 8)),
        message(RETURN, at, back, b"u", struct.pack("<I", at % 5)),
        message(SIGNAL, at, {**BUS, "member": b"NameOwnerChanged", "sender": b"org.freedesktop.DBus"}, b"sss", owner),
        message(ERROR, at, {"error": b"org.freedesktop.DBus.Error.NameHasNoOwner", **back}, b"s", text(b"Could not get owner of name: no such name")),
        message(CALL, at, {**asked, "member": b"AddMatch"}, b"s", text(rule)),
        message(RETURN, at, back),
    )[at % 6]


def calls(at):
    """A message between a reader and an application."""
    connection, path = b":1.%d" % (at % 40), b"/org/a11y/atspi/accessible/%d" % at
    back = {"reply": at, "destination": connection, "sender": b":1.2"}
    get = {"path": path, "interface": b"org.freedesktop.DBus.Properties", "member": b"Get", "destination": connection}
    child = {"path": path, "interface": b"org.a11y.atspi.Accessible", "member": b"GetChildAtIndex", "destination": connection}
    state = {"path": path, "interface": b"org.a11y.atspi.Event.Object", "member": b"StateChanged", "sender": connection}
    focused = padded(padded(padded(text(b"focused"), 4) + struct.pack("<ii", 1, 0) + b"\1i\0", 4) + struct.pack("<iI", 0, 0), 8)
    return (
        message(CALL, at, child, b"i", struct.pack("<i", at % 9)),
        message(RETURN, at, back, b"(so)", padded(text(connection), 4) + text(path)),
        message(CALL, at, get, b"ss", padded(text(b"org.a11y.atspi.Accessible"), 4) + text(b"Name")),
        message(RETURN, at, back, b"v", padded(b"\1s\0", 4) + text(b"Button %d" % at)),
        message(SIGNAL, at, state, b"siiva{sv}", focused),
    )[at % 5]


if len(sys.argv) != 2 or sys.argv[1] not in ("names", "calls"):
    sys.exit(__doc__)
kind = names if sys.argv[1] == "names" else calls
for serial in range(1, COUNT):
    sys.stdout.buffer.write(kind(serial))
