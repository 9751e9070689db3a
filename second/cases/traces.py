"""Recorded traces, each with the lines that documents 01 and 02 give it, written by hand. Writes traces/NAME.trace and traces/NAME.lines:

    python3 second/cases/traces.py

Nothing here works a line out: the hand gives the answer and the status of each entry; the helpers number the lines, fill an entry up
with zeros and put a frame and its sum around a command. `cargo test` in second/ and second/compare-traces hold the players to them."""
import os
import shutil

HERE = os.path.join(os.path.dirname(os.path.abspath(__file__)), "traces")


def checked(b):
    return b + (sum(b) % 65536).to_bytes(2, "big")


def short(command, sender=0x10):
    return (bytes([1, sender]) + command).ljust(66, b"\0")


def long(command, sender=0x10):
    return (bytes([2, sender]) + command).ljust(4098, b"\0")


def packet(kind, *data):
    return checked(bytes([0x11, kind]) + len(data).to_bytes(2, "big") + bytes(data))


def request(text):
    return (b"\x03" + bytes.fromhex(text)).ljust(33, b"\0")


def trace(name, entries, lines, stop=None):
    """the lines by what follows the number; the stop line as it is"""
    text = "".join("%d %s\n" % (n + 1, l) for n, l in enumerate(lines))
    with open(os.path.join(HERE, name + ".trace"), "wb") as file:
        file.write(b"".join(entries))
    with open(os.path.join(HERE, name + ".lines"), "w") as file:
        file.write(text + (stop + "\n" if stop else ""))


shutil.rmtree(HERE, ignore_errors=True)
os.mkdir(HERE)

UNDO = b"\x04"
POLL = packet(0x00, 0x10)
ROLE = packet(0x21, 0x03, 1)
RESET = packet(0x25, 0, 1)
STANDBY = packet(0x20, 0, 1, 0)
MASK = request("00 00 01 00 00 07 D1 03 00 00 00 03")

# Nothing to play, nothing written.
trace("empty", [], [])
# Document 01's answer 6: undo with an empty journal. An entry of kind 04 is its kind alone.
trace("undo-alone", [UNDO], ["6"])
trace("undo-300-times", [UNDO] * 300, ["6"] * 300)

# Kinds: 01 to 04, nothing else. The offset is the kind's, and nothing after it is read.
trace("kind-00", [b"\0"], [], "unknown kind at 0")
trace("kind-05", [b"\5\4\4"], [], "unknown kind at 0")
trace("kind-ff-third", [UNDO, UNDO, b"\xff", UNDO], ["6", "6"], "unknown kind at 2")
# A poll takes 66 bytes, an undo 1: the kind 10 is at 67.
trace("kind-10-after-two", [short(POLL), UNDO, b"\x10"], ["0 00", "6"], "unknown kind at 67")
# 4,098 and 33 bytes before it.
trace("kind-80-far", [long(POLL), MASK, b"\x80" + bytes(70)], ["0 00", "0 00000000"], "unknown kind at 4131")

# Cut: the kind alone, the kind and a byte, one byte short. A cut entry isn't played.
for kind, body in ((1, 65), (2, 4097), (3, 32)):
    for kept in (0, 1, body - 1):
        trace("cut-%02X-%d" % (kind, kept), [bytes([kind]) + bytes(kept)], [], "cut entry at 0")
trace("cut-after-undo", [UNDO, short(POLL)[:65]], ["6"], "cut entry at 1")
# The role is set at 0, the reset at 66 is cut by its last byte, though its packet is whole.
trace("cut-whole-packet", [short(ROLE), short(RESET)[:65]], ["0 00"], "cut entry at 66")
# The undo at 66 takes the role back, the second one finds nothing; the mailbox entry at 68 is cut.
trace("cut-03-later", [short(ROLE), UNDO, UNDO, MASK[:32]], ["0 00", "0", "6"], "cut entry at 68")

# Each status of an OCC reply.
trace("occ-statuses", [
    short(POLL),                                    # 00
    short(POLL[:-1] + b"\x00"),                     # 14: the sum differs
    short(packet(0x30)),                            # 11: no such type
    short(ROLE, sender=0x20),                       # 11: the BMC may not
    short(POLL, sender=0x20),                       # 00: the BMC may poll
    short(packet(0x00)),                            # 12: L = 0 is wrong for a poll
    short(b"\x11\x00\x00\x3b"),                     # 12: L = 59 takes 65 bytes
    short(b"\x11\x30\x00\x3a" + bytes(58) + b"\x00\x7b"),   # 11: L = 58 takes 64, all that there are; 11 + 30 + 3A = 7B
    short(packet(0x00, 0x20)),                      # 13: version 20
    short(packet(0x20, 0, 3, 0)),                   # 16: active is forbidden when fresh
    short(RESET), short(RESET), short(RESET), short(RESET),  # 00: four logs
    short(RESET),                                   # 15: four pend
], ["0 00", "0 14", "0 11", "0 11", "0 00", "0 12", "0 12", "0 11", "0 13", "0 16", "0 00", "0 00", "0 00", "0 00", "0 15"])
# Answer 2, and so no reply: neither 10 nor 20.
trace("senders", [short(POLL, sender=0x00), short(POLL, sender=0x11), long(POLL, sender=0xFF), short(POLL)], ["2", "2", "2", "0 00"])
# All zeros: type 00, L = 0, and the sum of four zeros is 0000: 12, for L is wrong for a poll. Sender 00: answer 2.
trace("zeros", [short(b""), long(b"", sender=0x20), short(b"", sender=0)], ["0 12", "0 12", "2"])
# What follows the packet counts for nothing; the same command as a long entry is the same call.
trace("after-the-packet", [short(ROLE + b"\xff" * (64 - len(ROLE))), long(ROLE + b"\xff" * 4000), UNDO, UNDO, UNDO],
      ["0 00", "0 00", "0", "0", "6"])
# L = 4,090 is read and its type unknown; 4,091 is 12; a sum that passes 65,535 wraps.
trace("longest", [long(packet(0x30, *([0xFF] * 4090))), long(b"\x11\x30\x0f\xfb" + bytes(4092)), long(packet(0x30, *([0xFF] * 300)))],
      ["0 11", "0 12", "0 11"])
# The mailbox: each primary and secondary status.
trace("sbe-statuses", [
    MASK,                                           # done
    request("00 00 01 00 00 07 D2 03"),             # no such class
    request("00 00 00 00 00 07 D1 04"),             # no such command
    request("00 00 00 04 00 07 D1 03"),             # a flag that isn't named
    request("00 00 00 03 00 07 D1 01"),             # start and stop
    request("00 00 03 00 00 07 D7 04 00 00 00 80 00 00 00 00 00 00 00 00 00 00 00 40"),  # FFDC address 64
    request("00 00 03 00 00 07 D7 04 00 00 00 81 00 00 00 00 00 00 00 00 00 00 00 80"),  # FFDC size 129
    request("00 00 00 01 00 07 D1 01 00 00 00 00 00 00 00 09"),                         # start
    request(""),                                    # zeros: class 00
    UNDO, UNDO, UNDO,
], ["0 00000000", "0 00010001", "0 00010002", "0 00020019", "0 00020019", "0 00020003", "0 00020019", "0 00000000", "0 00010001",
    "0", "0", "6"])
# More of the mailbox: no image is lent, so nothing can be read but nothing. The timer's start and stop are the only changes.
trace("sbe-more", [
    request("00 00 01 00 00 07 D1 02"),                                                 # exit cache contained mode
    request("00 00 00 01 00 07 D1 02"),                                                 # a flag that isn't named
    request("00 00 01 00 00 07 D3 01 00 01 00 27 00 00 00 00"),                         # ring: type 1, chiplet 27
    request("00 00 01 00 00 07 D3 01 00 01 00 28 00 00 00 00"),                         # chiplet 28
    request("00 00 01 00 00 07 D3 01 00 05 00 28 00 00 00 00"),                         # type 5
    request("00 00 01 00 00 07 D7 03 00 00 00 00 00 00 00 00"),                         # SEEPROM: 0 bytes at 0
    request("00 00 01 00 00 07 D7 03 00 00 00 00 00 00 00 08"),                         # 8 bytes
    request("00 00 01 00 00 07 D7 03 00 00 00 08 00 00 00 00"),                         # at 8
    request("00 00 00 01 00 07 D4 01 00 00 00 00 00 00 00 09"),                         # timer: start
    request("00 00 00 02 00 07 D4 01"),                                                 # stop
    request("00 00 00 00 00 07 D4 01"),                                                 # neither
    UNDO, UNDO, UNDO,
], ["0 00000000", "0 00020019", "0 00000000", "0 00020005", "0 00020004", "0 00000000", "0 00020019", "0 00020019", "0 00000000", "0 00000000",
    "0 00020019", "0", "0", "6"])
# The session goes on: four logs pend, the fifth reset is 15; the undo takes a log away, so that one can be made again.
trace("session-goes-on", [short(RESET)] * 5 + [UNDO, short(RESET), short(packet(0x12, 4)), short(packet(0x12, 5)), short(packet(0x12, 5))],
      ["0 00"] * 4 + ["0 15", "0", "0 00", "0 13", "0 00", "0 13"])
# 2,048 bytes take 1,024 entries of two; then answer 5 without a status, to SBE requests too, and polls go on.
trace("journal-full", [short(STANDBY)] * 1025 + [MASK, short(POLL), UNDO, short(STANDBY), short(STANDBY)],
      ["0 00"] * 1024 + ["5", "5", "0 00", "0", "0 00", "5"])
# 12 throttle packets take 12 * 164 = 1,968; 80 are left: no thirteenth, but a role (3) fits.
PAIRS = packet(0x21, 0x12, 0x10, 16, *[b for n in range(16) for b in [n // 2, n % 2] + [0, 1] * 5])
trace("throttles-full", [long(PAIRS)] * 13 + [short(ROLE), UNDO, UNDO, long(PAIRS), long(PAIRS)],
      ["0 00"] * 12 + ["5", "0 00", "0", "0", "0 00", "5"])
# Bring-up: not ready, then each that is missing, and active.
trace("bring-up", [
    short(packet(0x20, 0, 2, 0)), short(ROLE), short(packet(0x21, 0x13, 0x10, 1, 0, 85, 95, 5)), short(packet(0x20, 0, 2, 0)),
    short(packet(0x21, 0x07, 0x10, 0x01, 0xF4, 0x05, 0xDC, 0, 0)), short(packet(0x20, 0, 2, 0)), short(packet(0x20, 0, 3, 0)),
    long(PAIRS), short(packet(0x20, 0, 3, 0)), short(ROLE), short(packet(0x22, 0x07, 0xD0), sender=0x20),
    short(packet(0x22, 0x03, 0xE8), sender=0x20),
], ["0 16", "0 00", "0 00", "0 16", "0 00", "0 00", "0 16", "0 00", "0 00", "0 16", "0 13", "0 00"])
print("%d traces" % (len(os.listdir(HERE)) // 2))
