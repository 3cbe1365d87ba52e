#!/usr/bin/env python3
"""Writes a stream of large messages for bench/check.sh, to standard output.

usage: bench/large.py [KIND]

With no KIND four messages, whose bodies are an array of 1 MiB of bytes, 20,000 texts, 20,000 structs of four numbers, 10,000 references (D-Bus: `ay`, `as`,
`a(iiii)`, `a(so)`); with one of these four that message alone; with `a{sv}` a dictionary of 20,000 entries; with `items256` or `items8192` a reply to GetItems
with so many nodes, each with three references, two interfaces, a name and a description. Little-endian, as the D-Bus Specification marshals them.
"""
import struct
import sys


def padded(data, alignment):
    """The bytes with zeros behind them up to a multiple of the alignment."""
    return data + b"\0" * (-len(data) % alignment)


def text(value):
    return struct.pack("<I", len(value)) + value + b"\0"


def array(elements, alignment):
    """An array at a multiple of 8 whose elements stand at multiples of the alignment."""
    items = bytearray()
    for element in elements:
        items += b"\0" * (-len(items) % alignment)
        items += element
    return padded(struct.pack("<I", len(items)), alignment) + bytes(items)


def message(signature, body):
    """A reply to serial 1 with this body."""
    reply = b"\5\1u\0" + struct.pack("<I", 1)
    types = b"\x08\1g\0" + bytes([len(signature)]) + signature + b"\0"
    fields = reply + types
    front = struct.pack("<BBBBIII", ord("l"), 2, 1, 1, len(body), 7, len(fields))
    return padded(front + fields, 8) + body


def reference(number):
    return padded(text(b":1.%d" % (number % 9)), 4) + text(b"/org/a11y/atspi/accessible/%d" % number)


def entry(number):
    """An entry of a dictionary from a text to a variant: a number, a text or a boolean in turn."""
    kinds = ((b"u", struct.pack("<I", number)), (b"s", text(b"value %d" % number)), (b"b", struct.pack("<I", number % 2)))
    types, value = kinds[number % 3]
    front = text(b"key %d" % number) + bytes([1]) + types + b"\0"
    return padded(front, 4) + value


def item(number):
    """A node of a reply to GetItems: itself, its application, its parent, index, children, interfaces, name, role, description, states."""
    out = b""
    for at in (number, 0, number // 8):
        out = padded(out, 8) + reference(at)
    out = padded(out, 4) + struct.pack("<ii", number % 8, 8)
    interfaces = padded(text(b"org.a11y.atspi.Accessible"), 4) + text(b"org.a11y.atspi.Component")
    out += struct.pack("<I", len(interfaces)) + interfaces
    out = padded(out, 4) + text(b"node %d" % number)
    out = padded(out, 4) + struct.pack("<I", 43) + text(b"what node %d is for" % number)
    return padded(out, 4) + struct.pack("<III", 8, 1124073472, 0)


def body_of(kind):
    """The body of the message of that kind, whose signature is the kind but for items."""
    if kind == b"ay":
        raw = bytes(i % 251 for i in range(1 << 20))
        return struct.pack("<I", len(raw)) + raw
    if kind == b"as":
        return array((text(b"item %d of a list" % i) for i in range(20000)), 4)
    if kind == b"a(iiii)":
        return array((struct.pack("<iiii", i, -i, i * 7, 3) for i in range(20000)), 8)
    if kind == b"a(so)":
        return array((reference(i) for i in range(10000)), 8)
    if kind == b"a{sv}":
        return array((entry(i) for i in range(20000)), 8)
    return array((item(i) for i in range(int(kind.removeprefix(b"items")))), 8)


def main():
    wanted = [it.encode() for it in sys.argv[1:]] or [b"ay", b"as", b"a(iiii)", b"a(so)"]
    for kind in wanted:
        signature = b"a((so)(so)(so)iiassusau)" if kind.startswith(b"items") else kind
        sys.stdout.buffer.write(message(signature, body_of(kind)))


main()
