"""A master OCC brought up and capped; changes taken back, one step too far, and one put in again; a cap that is too high; the oldest changes forgotten; the
SBE's timer; a part of its SEEPROM read; a session that can only be watched; a plan for a bring-up; a session saved, moved to the base version's form and back,
and restored.

usage: python3 main.py LIBRARY, the shared object that is made from the archive
"""
import ctypes
import sys

HTMGT, BMC = 0x10, 0x20
SESSION = 4411  # BJARGOLSK_SESSION of bjargolsk.h
SLOT, ORDER = 4096, 5  # BJARGOLSK_SLOT, BJARGOLSK_ORDER
SAVED, BASE_SAVED = 4409, 2280  # BJARGOLSK_SAVED, BJARGOLSK_BASE_SAVED


def load(path):
    """The functions of include/bjargolsk.h, with the types that it gives them."""
    lib = ctypes.CDLL(path)
    buffer = [ctypes.c_char_p, ctypes.c_size_t]
    lib.bjargolsk_fresh.argtypes = buffer
    lib.bjargolsk_occ.argtypes = buffer + [ctypes.c_uint8] + buffer + buffer
    lib.bjargolsk_sbe.argtypes = buffer + buffer + buffer
    lib.bjargolsk_sbe_seeprom.argtypes = buffer + buffer + buffer + buffer + buffer
    lib.bjargolsk_time.argtypes = buffer + [ctypes.c_uint64]
    lib.bjargolsk_undo.argtypes = buffer
    lib.bjargolsk_redo.argtypes = buffer
    lib.bjargolsk_forget.argtypes = buffer + [ctypes.c_uint32]
    lib.bjargolsk_watch.argtypes = buffer
    lib.bjargolsk_plan.argtypes = buffer + buffer + [ctypes.c_uint8] + buffer
    lib.bjargolsk_plan_ok.argtypes = buffer + buffer + [ctypes.c_uint8] + buffer
    lib.bjargolsk_save.argtypes = buffer + buffer
    lib.bjargolsk_restore.argtypes = buffer + buffer
    lib.bjargolsk_move_up.argtypes = buffer + buffer
    lib.bjargolsk_move_down.argtypes = buffer + buffer
    for name in ("fresh", "occ", "sbe", "sbe_seeprom", "time", "undo", "redo", "forget", "watch", "plan", "plan_ok", "save", "restore", "move_up", "move_down"):
        getattr(lib, "bjargolsk_" + name).restype = ctypes.c_uint32
    return lib


class Bench:
    """A session's image, and the buffer for replies."""

    def __init__(self, lib):
        self.lib = lib
        self.session = ctypes.create_string_buffer(SESSION)
        self.reply = ctypes.create_string_buffer(4096)
        self.sequence = 0
        self.fresh()

    def fresh(self):
        print("fresh: answer %d" % self.lib.bjargolsk_fresh(self.session, SESSION))

    def shown(self, answer, length):
        return "".join(" %02X" % b for b in self.reply.raw[:length]) if answer == 0 else ""

    def framed(self, kind, data):
        """A packet is sequence, type, two bytes of data length, data, and the two-byte sum of all that."""
        self.sequence += 1
        packet = bytes([self.sequence, kind]) + len(data).to_bytes(2, "big") + bytes(data)
        return packet + (sum(packet) % 65536).to_bytes(2, "big")

    def occ(self, name, sender, kind, data):
        self.sent(name, sender, self.framed(kind, data))

    def sent(self, name, sender, packet):
        result = self.lib.bjargolsk_occ(self.session, SESSION, sender, packet, len(packet), self.reply, 4096)
        answer = result & 0xFF
        reason = result >> 8 & 0xFF
        wrong = " reason %d byte %d" % (reason, result >> 16) if reason else ""
        length = 7 + int.from_bytes(self.reply.raw[3:5], "big")
        print("%s: answer %d%s%s" % (name, answer, wrong, self.shown(answer, length)))

    def sbe(self, name, request):
        result = self.lib.bjargolsk_sbe(self.session, SESSION, request, len(request), self.reply, 4096)
        answer = result & 0xFF
        print("%s: answer %d bell %04X%s" % (name, answer, result >> 16, self.shown(answer, 32)))

    def seeprom(self, request, image):
        """The call lends an image of the SEEPROM, and a buffer for what the request reads of it."""
        data = ctypes.create_string_buffer(8)
        result = self.lib.bjargolsk_sbe_seeprom(self.session, SESSION, request, len(request), self.reply, 4096, image, len(image), data, 8)
        answer = result & 0xFF
        print("seeprom: answer %d bell %04X%s" % (answer, result >> 16, self.shown(answer, 32)))
        print("data:" + "".join(" %02X" % b for b in data.raw))

    def time(self, microseconds):
        result = self.lib.bjargolsk_time(self.session, SESSION, microseconds)
        print("time %d: answer %d bell %04X" % (microseconds, result & 0xFF, result >> 16))

    def undo(self):
        result = self.lib.bjargolsk_undo(self.session, SESSION)
        print("undo: answer %d kind %02X passed %d" % (result & 0xFF, result >> 16, result >> 8 & 0xFF))

    def redo(self):
        result = self.lib.bjargolsk_redo(self.session, SESSION)
        print("redo: answer %d kind %02X" % (result & 0xFF, result >> 16))

    def forget(self, n):
        result = self.lib.bjargolsk_forget(self.session, SESSION, n)
        print("forget: answer %d" % (result & 0xFF))

    def watch(self):
        result = self.lib.bjargolsk_watch(self.session, SESSION)
        print("watch: answer %d" % (result & 0xFF))

    def plan(self, packets, wanted):
        """Packets stand in slots; the numbers of the plan are returned, from 1."""
        order = ctypes.create_string_buffer(ORDER)
        result = self.lib.bjargolsk_plan(self.session, SESSION, packets, len(packets), wanted, order, ORDER)
        numbers = list(order.raw[:result >> 16])
        answer = result & 0xFF
        told = "" if answer != 0 else " plan" if result >> 8 & 0xFF else " no plan"
        print("plan %d: answer %d%s%s" % (wanted, answer, told, "".join(" %d" % n for n in numbers)))
        return numbers

    def check(self, packets, wanted, proposal):
        result = self.lib.bjargolsk_plan_ok(self.session, SESSION, packets, len(packets), wanted, bytes(proposal), len(proposal))
        told = "accepted" if result >> 8 & 0xFF else "not accepted"
        print("proposal%s: answer %d %s" % ("".join(" %d" % n for n in proposal), result & 0xFF, told))

    def save(self):
        out = ctypes.create_string_buffer(SAVED)
        return moved("save", self.lib.bjargolsk_save(self.session, SESSION, out, SAVED), out)

    def restore(self, saved):
        result = self.lib.bjargolsk_restore(self.session, SESSION, saved, len(saved))
        print("restore: answer %d" % (result & 0xFF))

    def move_up(self, saved):
        out = ctypes.create_string_buffer(SAVED)
        return moved("move up", self.lib.bjargolsk_move_up(saved, len(saved), out, SAVED), out)

    def move_down(self, saved):
        out = ctypes.create_string_buffer(BASE_SAVED)
        return moved("move down", self.lib.bjargolsk_move_down(saved, len(saved), out, BASE_SAVED), out)


def moved(name, result, out):
    """Of a saved session: the bytes that were written."""
    print("%s: answer %d bytes %d" % (name, result & 0xFF, result >> 16))
    return out.raw[:result >> 16]


def main():
    if len(sys.argv) != 2:
        sys.exit(__doc__)
    bench = Bench(load(sys.argv[1]))
    bench.occ("poll", HTMGT, 0x00, [0x10])
    bench.occ("role", HTMGT, 0x21, [0x03, 0x01])
    bench.occ("thermal", HTMGT, 0x21, [0x13, 0x10, 1, 0, 80, 90, 10])
    bench.occ("caps", HTMGT, 0x21, [0x07, 0x10, 0x01, 0xF4, 0x05, 0xDC, 0x07, 0xD0])
    bench.occ("throttles", HTMGT, 0x21, [0x12, 0x10, 1, 0, 0, 0, 1, 0, 2, 0, 3, 0, 4, 0, 5])
    bench.occ("state", HTMGT, 0x20, [0, 3, 0])
    bench.occ("user cap", BMC, 0x22, [0x03, 0xE8])
    bench.occ("poll", BMC, 0x00, [0x10])
    bench.undo()
    bench.occ("poll", BMC, 0x00, [0x10])
    deadman = bytes([0, 0, 0x01, 0x01, 0, 7, 0xD1, 0x01, 0, 0, 0, 0, 0, 0, 0x03, 0xE8]) + bytes(16)
    bench.sbe("deadman", deadman)
    # The deadman is to go. The state went too: that was one step too far.
    bench.undo()
    bench.undo()
    bench.redo()
    bench.occ("poll", BMC, 0x00, [0x10])
    # Status 0x13; the result says which data byte is wrong, and why.
    bench.occ("high cap", BMC, 0x22, [0x07, 0xD0])
    bench.occ("stranger", 0x30, 0x00, [0x10])
    # Five changes are held. All but the newest are forgotten: undo takes that one back, and no more.
    bench.forget(6)
    bench.forget(4)
    bench.undo()
    bench.undo()
    # A timer of 1,000 microseconds, of which 400 pass. Undo stops it, redo gives it back with 600 left; it expires when these have passed, and rings once.
    bench.sbe("timer", bytes([0, 0, 0x00, 0x01, 0, 8, 0xD4, 0x01, 0, 0, 0, 0, 0, 0, 0x03, 0xE8]) + bytes(16))
    bench.time(400)
    bench.undo()
    bench.time(600)
    bench.redo()
    bench.time(600)
    bench.time(600)
    # 8 bytes from offset 8 on.
    bench.seeprom(bytes([0, 0, 0x01, 0x00, 0, 9, 0xD7, 0x03, 0, 0, 0, 8, 0, 0, 0, 8]) + bytes(16), bytes(range(16)))
    # A reset leaves log 1. For a training room the session is made watch-only: status 0x16 to the state, 05/20 to the deadman; the log may be cleared, and that
    # taken back. No change from before can be.
    bench.occ("reset", HTMGT, 0x25, [0, 1])
    bench.watch()
    bench.occ("state", HTMGT, 0x20, [0, 3, 0])
    bench.sbe("deadman", deadman)
    bench.occ("clear", HTMGT, 0x12, [1])
    bench.undo()
    bench.undo()
    bench.occ("poll", BMC, 0x00, [0x10])
    # Five packets in the wrong order, for a fresh session: the plan for active, and none for observation, which no packet asks for. Another order that leads
    # there is accepted too. The plan is sent; a command's bytes past its packet are ignored. Then active is there, and the plan for it is empty.
    bench.fresh()
    prepared = [
        bench.framed(0x20, [0, 3, 0]),
        bench.framed(0x21, [0x12, 0x10, 1, 0, 0, 0, 1, 0, 2, 0, 3, 0, 4, 0, 5]),
        bench.framed(0x21, [0x07, 0x10, 0x01, 0xF4, 0x05, 0xDC, 0x07, 0xD0]),
        bench.framed(0x21, [0x13, 0x10, 1, 0, 80, 90, 10]),
        bench.framed(0x21, [0x03, 0x01]),
    ]
    packets = b"".join(packet.ljust(SLOT, b"\0") for packet in prepared)
    bench.plan(packets, 2)
    order = bench.plan(packets, 3)
    bench.check(packets, 3, [5, 4, 3, 2, 1])
    bench.check(packets, 3, [1, 2, 3, 4, 5])
    for number in order:
        bench.sent("planned", HTMGT, packets[(number - 1) * SLOT:number * SLOT])
    bench.plan(packets, 3)
    bench.plan(packets, 4)
    # Saved, and the state taken back. It could be redone, and the base version has no place for that: saved now, the session can't go down. The first save can,
    # and up again it has the same bytes; cut by a byte it won't read. Restored, the state is active again.
    saved = bench.save()
    bench.undo()
    bench.move_down(bench.save())
    base = bench.move_down(saved)
    again = bench.move_up(base)
    print("same: bytes %d" % (len(saved) if again == saved else 0))
    bench.move_up(base[:-1])
    bench.restore(saved)
    bench.occ("poll", BMC, 0x00, [0x10])


main()
