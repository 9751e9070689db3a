"""Pairs of recorded traces, each with the lines that document 02, f gives it, written by hand. Writes parts/NAME.first, parts/NAME.second
and parts/NAME.lines:

    python3 second/cases/parts.py

Nothing here works a line out: the hand gives how many entries and bytes are shared, and the refusal. `cargo test` in second/ and
second/compare-parts hold the programs to them."""
import os
import shutil

HERE = os.path.join(os.path.dirname(os.path.abspath(__file__)), "parts")
BODY = {1: 65, 2: 4097, 3: 32, 4: 0}


def entry(kind, byte=0):
    """an entry whose body is that byte throughout"""
    return bytes([kind]) + bytes([byte]) * BODY[kind]


def pair(name, first, second, entries, length, refusal=None):
    lines = "shared %d entries, %d bytes; next %d\n" % (entries, length, entries + 1)
    for end, text in (("first", first), ("second", second), ("lines", (lines + (refusal + "\n" if refusal else "")).encode())):
        with open(os.path.join(HERE, "%s.%s" % (name, end)), "wb") as file:
            file.write(text)


def both(name, one, other, entries, length):
    """the same either way round"""
    pair(name, one, other, entries, length)
    pair(name + "-turned", other, one, entries, length)


shutil.rmtree(HERE, ignore_errors=True)
os.mkdir(HERE)

UNDO = b"\x04"
SBE = entry(3, 8)

# Equal traces that read to the end: all of the first. 66 + 1 + 33 + 4,098 = 4,198.
ALL = entry(1, 7) + UNDO + entry(3, 9) + entry(2, 1)
pair("equal", ALL, ALL, 4, 4198)
pair("equal-undo", UNDO, UNDO, 1, 1)
pair("equal-300-undos", UNDO * 300, UNDO * 300, 300, 300)

# An empty trace shares nothing, and is no refusal.
pair("empty", b"", b"", 0, 0)
both("empty-and-undo", b"", UNDO, 0, 0)
both("empty-and-sbe", b"", SBE, 0, 0)

# One is a start of the other.
both("start", entry(1, 7), entry(1, 7) + entry(3, 2), 1, 66)
both("start-of-undos", UNDO * 2, UNDO * 5, 2, 2)
both("start-long", entry(2, 3), entry(2, 3) + entry(2, 3), 1, 4098)

# One byte off, in 1 + 33 + 66 bytes: the kind of the second entry (at 1, 83 is unknown), its first and last body byte (2 and 33); the
# third's kind (34), first and last body byte (35 and 99). All after the first entry, so no refusal.
GOOD = UNDO + entry(3, 2) + entry(1, 1)
for at, entries, length in ((1, 1, 1), (2, 1, 1), (33, 1, 1), (34, 2, 34), (35, 2, 34), (99, 2, 34)):
    both("off-at-%d" % at, GOOD, GOOD[:at] + bytes([GOOD[at] ^ 0x80]) + GOOD[at + 1:], entries, length)
# The last byte of a long body: 4,097 of 4,098 bytes are alike, and no whole entry.
both("off-at-4097", entry(2), entry(2)[:4097] + b"\1", 0, 0)
# The sender alone differs.
both("sender", UNDO + b"\1\x10" + bytes(64), UNDO + b"\1\x20" + bytes(64), 1, 1)

# Another kind at the same place: both read, and they differ.
both("kinds-1-2", entry(1), entry(2), 0, 0)
both("kinds-4-3", UNDO * 2, UNDO + entry(3), 1, 1)
# 04 and then a 03 whose body is all 04: bytes alike for a while, the entries aren't.
both("undos-and-body", UNDO * 40, UNDO * 3 + entry(3, 4), 3, 3)

# The first kind is unknown in one: its refusal.
BAD = b"\x84" + GOOD[1:]
pair("unknown-first", BAD, GOOD, 0, 0, "unknown kind in the first")
pair("unknown-second", GOOD, BAD, 0, 0, "unknown kind in the second")

# A first entry that is cut; the first trace's refusal before the second's, whatever they are.
pair("cut-first", SBE[:32], SBE, 0, 0, "cut entry in the first")
pair("cut-second", SBE, SBE[:32], 0, 0, "cut entry in the second")
pair("cut-both", SBE[:32], SBE[:32], 0, 0, "cut entry in the first")
pair("cut-long", entry(2)[:4097], UNDO, 0, 0, "cut entry in the first")
pair("unknown-then-cut", b"\0", b"\1", 0, 0, "unknown kind in the first")
pair("cut-then-unknown", b"\1", b"\0", 0, 0, "cut entry in the first")
pair("unknown-both", b"\5", b"\xff", 0, 0, "unknown kind in the first")
# Beside an empty trace too.
pair("empty-and-unknown", b"", b"\0", 0, 0, "unknown kind in the second")
pair("cut-and-empty", b"\2", b"", 0, 0, "cut entry in the first")
pair("empty-and-cut", b"", b"\3\0", 0, 0, "cut entry in the second")

# Damage after the first entry ends the run, with no refusal beside it, in one or in both, alike or not.
for number, tail in enumerate((b"\0", b"\5\5", b"\1", b"\2\0\0", b"\3")):
    both("damage-%d" % number, SBE + tail, SBE + entry(1), 1, 33)
    pair("damage-%d-both" % number, SBE + tail, SBE + tail, 1, 33)
pair("damage-unlike", SBE + b"\0", SBE + b"\1", 1, 33)
# The first differs in its first entry, so that the damage is never reached.
both("differ-then-damage", SBE + b"\0", entry(3, 9) + b"\1", 0, 0)
print("%d pairs" % (len(os.listdir(HERE)) // 3))
