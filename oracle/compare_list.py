#!/usr/bin/env python3
"""Compares the proved program `list` with `oracle list` on random sheets, sound and damaged.

usage: compare_list.py SEED COUNT     (after the README's first command and `cargo build --release` in this folder)

Each sheet is run by both programs in a temporary folder and their standard output is compared byte for byte.
"""
import collections
import os
import random
import struct
import subprocess
import sys
import tempfile

HERE = os.path.dirname(os.path.abspath(__file__))
LIST = os.path.join(HERE, "..", "crates", "list", "out", "list")
ORACLE = os.path.join(HERE, "target", "release", "oracle")
TOKEN, START, FINISH, CHECKPOINT, START_AT, NO_CODE = 1, 2, 3, 4, 5, 6


def random_event(rnd, depth):
    """A code, kind and operand, and the text bytes that it takes."""
    code = rnd.choices([TOKEN, START, FINISH, CHECKPOINT, START_AT, NO_CODE], [40, 22, 22, 6, 6, 0.15])[0]
    if code == FINISH and depth == 0 and rnd.random() < 0.97:
        code = START
    if code == TOKEN:
        length = rnd.choice([0, 1, 1, 2, 3])
        text = bytes(rnd.choice(b"ab \n") if rnd.random() < 0.9995 else 200 for _ in range(length))
        return (code, rnd.randrange(4), length), text
    if code == CHECKPOINT:
        return (code, 0, rnd.choice([0, 1, 2, 63, 63 if rnd.random() < 0.95 else 64])), b""
    if code == START_AT:
        return (code, rnd.randrange(4), rnd.choice([0, 1, 2, 63])), b""
    return (code, 0 if code == FINISH else rnd.randrange(4), 0), b""


def random_sheet(rnd):
    """A sheet's bytes and its text, mostly under one root, sometimes with bytes missing or left over."""
    events, text, depth = [], b"", 0
    for _ in range(rnd.choice([0, 1, 3, 8, 20, 60, 200, rnd.randrange(700)])):
        event, more = random_event(rnd, depth)
        events.append(event)
        text += more
        depth += {START: 1, START_AT: 1, FINISH: -1}.get(event[0], 0)
    if rnd.random() < 0.7:
        events += [(FINISH, 0, 0)] * max(depth, 0)
        if rnd.random() < 0.8:
            events = [(START, 7, 0)] + events + [(FINISH, 0, 0)]
    if rnd.random() < 0.03:
        text += b"x"
    if rnd.random() < 0.02:
        text = text[:-1]
    sheet = struct.pack("<II", len(events), len(text))
    sheet += b"".join(struct.pack("<I", code << 16 | kind) for code, kind, _ in events)
    sheet += b"".join(struct.pack("<I", operand) for _, _, operand in events)
    if rnd.random() < 0.02 and len(sheet) > 9:
        sheet = sheet[: -rnd.randrange(1, 9)]
    return sheet, text


def main():
    if len(sys.argv) != 3:
        sys.exit(__doc__)
    rnd, count = random.Random(int(sys.argv[1])), int(sys.argv[2])
    seen = collections.Counter()
    with tempfile.TemporaryDirectory() as folder:
        for number in range(count):
            sheet, text = random_sheet(rnd)
            for name, content in (("sheet", sheet), ("text", text)):
                with open(os.path.join(folder, name), "wb") as file:
                    file.write(content)
            port = subprocess.run([LIST], cwd=folder, capture_output=True).stdout
            rust = subprocess.run([ORACLE, "list", "sheet", "text"], cwd=folder, capture_output=True).stdout
            if port != rust:
                sys.exit(f"sheet {number}: list printed {port[:200]!r}, rowan {rust[:200]!r}")
            first = port.split(b"\n")[0].split(b" ")
            seen[b" ".join(first[:2] if first[0] == b"refused" else first[:1]).decode()] += 1
    print(f"no difference in {count} sheets:", ", ".join(f"{name} {times}" for name, times in sorted(seen.items())))


main()
