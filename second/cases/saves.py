"""Saved sessions that are refused, made by hand of those that are kept (../../saves): saves/NAME.up-11, NAME.down-11 and NAME.down-12, the name
says which way and how.

    python3 second/cases/saves.py"""
import os

HERE = os.path.join(os.path.dirname(os.path.abspath(__file__)), "saves")
KEPT = os.path.join(os.path.dirname(os.path.dirname(os.path.dirname(os.path.abspath(__file__)))), "saves")
MADE = set()


def written(name, data):
    with open(os.path.join(HERE, name), "wb") as file:
        file.write(data)
    MADE.add(name)


def kept(name):
    with open(os.path.join(KEPT, name), "rb") as file:
        return file.read()


def marks(*others):
    return b"".join(m.to_bytes(2, "big") for m in (0,) + others).ljust(64, b"\0")


def new(base, marked=marks(), redo=b"", profile=0, timer=bytes(9)):
    return (b"\1" + base[:230] + b"\2" + base[230:232] + b"\3" + base[232:].ljust(2048, b"\0") + b"\4" + redo.ljust(2048, b"\0") + b"\5" + marked
            + b"\6" + bytes([profile]) + b"\7" + timer)


def changed(save, *changes):
    """bytes put over others, at offsets"""
    save = bytearray(save)
    for at, text in changes:
        data = bytes.fromhex(text)
        save[at:at + len(data)] = data
    return bytes(save)


os.makedirs(HERE, exist_ok=True)
FRESH, KINDS = kept("fresh.base"), kept("every-kind.base")
H = bytes.fromhex

# Moving up: 11.
UNSET = changed(FRESH, (172, "FF5F05"), (184, "01"))                 # DVFS unset, ERROR 95, thermal received
for name, save in (
        ("nothing", b""), ("a-byte", b"\1"), ("no-next-id", FRESH[:230]), ("cut-in-the-next-id", FRESH[:231]), ("a-zero-more", FRESH + b"\0"),
        ("2281-bytes", kept("full-journal.base") + b"\0"), ("an-entry-too-many", kept("full-journal.base") + H("0201")), ("new-form", new(FRESH)),
        ("kind-0C", FRESH + H("0C 00 0000000000000000")), ("kind-0D", FRESH + H("0D 00")), ("cut-entry", FRESH + H("0201 0500")), ("kind-alone", FRESH + H("02")),
        ("cut-by-a-byte", KINDS[:-1]), ("first-rule", UNSET), ("first-rule-in-the-journal", FRESH + H("06 01 FFFFFF FF5F05 FFFFFF")),
        ("first-rule-behind-others", KINDS + H("06 01 FFFFFF FFFFFF FF0000")), ("thresholds-out-of-order", changed(UNSET, (172, "605F05"))),
        ("state-0", changed(FRESH, (0, "00"))), ("role-2", changed(FRESH, (1, "02"), (181, "01"))), ("master-not-received", changed(FRESH, (1, "01"))),
        ("minimum-over-maximum", changed(KINDS, (2, "05DD"))), ("mark-2", changed(FRESH, (182, "02"))), ("absent-pair", changed(FRESH, (19, "01"))),
        ("next-id-0", changed(FRESH, (230, "0000"))), ("next-id-257", changed(FRESH, (230, "0101"))), ("log-at-next-id", changed(FRESH, (185, "0101"))),
        ("log-without-reason", changed(FRESH, (185, "0100"), (230, "0005"))), ("logs-falling", changed(FRESH, (185, "02010101"), (230, "0005"))),
        ("deadman-off-with-time", changed(FRESH, (205, "01"))), ("area-without-size", changed(FRESH, (213, "80"))),
        ("wrong-body", FRESH + H("02 04")), ("wrong-body-of-a-log", FRESH + H("01 04 01 01"))):
    written(name + ".up-11", save)

# Moving down: 11, in every part.
GOOD = new(KINDS)
STARTS = (0, 231, 234, 2283, 4332, 4397, 4399)
for part, at in enumerate(STARTS, 1):
    written("kind-of-part-%d.down-11" % part, changed(GOOD, (at, "%02X" % (part + 1))))
    written("kind-of-part-%d-is-0.down-11" % part, changed(GOOD, (at, "00")))
    written("cut-before-part-%d.down-11" % part, GOOD[:at])
WATCHED = new(FRESH, profile=1)
for name, save in (
        ("cut-by-a-byte", GOOD[:-1]), ("a-byte-more", GOOD + b"\0"), ("base-save", KINDS), ("parts-turned-round", GOOD[:4397] + GOOD[4399:] + GOOD[4397:4399]),
        ("state-0", changed(GOOD, (1, "00"))), ("next-id-0", changed(GOOD, (232, "0000"))), ("next-id-257", changed(GOOD, (232, "0101"))),
        ("kind-0D", changed(new(FRESH), (235, "0D"))), ("entry-behind-a-zero", changed(new(FRESH), (236, "0201"))),
        ("last-byte-of-the-journal", changed(GOOD, (2282, "01"))), ("cut-entry-at-the-end", new(FRESH + H("0201") * 1023 + H("05 00"), marks(*[64 * k for k in range(1, 32)]))),
        ("wrong-body", new(FRESH + H("0200"))), ("redo-kind-0D", new(FRESH, redo=H("0D"))), ("redo-wrong-body", new(FRESH, redo=H("0204"))),
        ("redo-last-byte", changed(new(FRESH), (4331, "01"))), ("both-stores-too-long", new(kept("full-journal.base"), marks(*[64 * k for k in range(1, 32)]), redo=H("0201"))),
        ("first-mark", changed(GOOD, (4333, "0002"))), ("unused-mark", changed(GOOD, (4395, "0001"))), ("mark-missing", new(kept("33-changes.base"))),
        ("mark-off", new(kept("33-changes.base"), marks(64))), ("profile-2", new(FRESH, profile=2)), ("timer-2", new(FRESH, timer=H("02") + bytes(8))),
        ("timer-off-with-time", new(FRESH, timer=bytes(8) + H("01"))), ("watch-only-with-a-role", new(kept("one-change.base"), profile=1)),
        ("watch-only-redo", new(FRESH, profile=1, redo=H("0201"))), ("timer-in-the-journal-wrong", new(FRESH + H("0C 00 0000000000000001"))),
        ("ill-formed-and-watched", changed(WATCHED, (1, "00"))), ("ill-formed-with-a-timer", changed(new(FRESH, timer=H("01") + bytes(8)), (232, "0000"))),
        ("thresholds-out-of-order", new(changed(UNSET, (172, "605F05"))))):
    written(name + ".down-11", save)

# Moving down: 12, each reason by itself, and some together.
RUNS = H("01 0000000000000005")
for name, save in (
        ("redo", new(FRESH, redo=H("0201"))), ("redo-full", new(FRESH, redo=H("0201") * 1024)), ("watched", WATCHED),
        ("watched-with-a-clear", new(changed(FRESH, (230, "0002")) + H("01 00 01 01"), profile=1)), ("timer", new(FRESH, timer=RUNS)),
        ("timer-with-none-left", new(FRESH, timer=H("01") + bytes(8))), ("timer-in-the-journal", new(FRESH + H("0C 00 0000000000000000"))),
        ("timer-ran-in-the-journal", new(KINDS + H("0C") + RUNS + H("0201"))), ("first-rule", new(UNSET)), ("first-rule-in-the-journal", new(FRESH + H("06 01 FFFFFF FF5F05 FFFFFF 0201"))),
        ("first-rule-dvfs-0", new(FRESH + H("06 01 FFFFFF FFFFFF FF0000"))), ("several", new(UNSET + H("0C") + RUNS, redo=H("0201"), timer=RUNS)),
        ("watched-with-a-timer", new(FRESH, profile=1, timer=RUNS)), ("watched-with-a-clear-to-redo", new(changed(FRESH, (230, "0002")), profile=1, redo=H("01 00 01 01"))),
        ("watched-by-the-first-rule", new(UNSET, profile=1))):
    written(name + ".down-12", save)

for stray in set(os.listdir(HERE)) - MADE:
    os.remove(os.path.join(HERE, stray))
print("%d saves that are refused" % len(MADE))
