#!/usr/bin/env python3
"""viewer_large.py EDITS: a script of one application, one reader and so many edits, each of which brings about four events."""
import sys

NODES = 600


def edits(count):
    there = 0
    for k in range(count):
        kind = k % 10
        if there < NODES and kind < 4:
            parent = there // 8
            there += 1
            yield f'insert {parent} 0 text "field {there}" text ""'
        elif kind < 6:
            yield f'name {k * 7 % there + 1} "name {k}"'
        elif kind == 6:
            yield f'state {k * 11 % there + 1} checked {"on" if k // 10 % 2 else "off"}'
        elif kind == 7:
            yield f'put {k * 13 % there + 1} 0 "x"'
        elif kind == 8:
            yield f'describe {k * 3 % there + 1} "about {k}"'
        else:
            yield f"focus {k * 5 % there + 1}"


def main():
    if len(sys.argv) != 2:
        sys.exit(__doc__)
    lines = ['app "Large"', "reader", "drain"]
    for k, edit in enumerate(edits(int(sys.argv[1]))):
        lines.append("edit a0 " + edit)
        if k % 16 == 15:
            lines.append("turns 64")
    print("\n".join(lines + ["drain", "show r0 a0"]))


if __name__ == "__main__":
    main()
