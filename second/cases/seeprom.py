"""Reads of a SEEPROM that a file lends, with their answers by hand. Writes seeprom/image, a file longer than what counts of it (65,536 bytes),
seeprom/lines for `standin FILE`, and seeprom/answers:

    python3 second/cases/seeprom.py
    ./standin second/cases/seeprom/image < second/cases/seeprom/lines | diff - second/cases/seeprom/answers"""
import os

HERE = os.path.join(os.path.dirname(os.path.abspath(__file__)), "seeprom")
IMAGE = bytes((7 * n + n // 251) % 256 for n in range(65552))
LINES, ANSWERS = [], []


def put(line, answer):
    LINES.append(line)
    ANSWERS.append(answer)


def read(note, offset, size, refused=False):
    """02/19, or the image's bytes"""
    LINES.append("# " + note)
    request = bytes.fromhex("000001000007D703") + offset.to_bytes(4, "big") + size.to_bytes(4, "big") + bytes(16)
    status = "00 02 00 19" if refused else "00 00 00 00"
    data = "" if refused else " data" + (" " if size else "") + IMAGE[offset:offset + size].hex().upper()
    put("sbe " + request.hex(), "0 " + status + " 00 07 D7 03" + " 00" * 24 + " bell 8000" + data)


read("the file is lent from the start: its first 8 bytes", 0, 8)
read("8 bytes that stand at 8,192, past what a line can lend", 8192, 8)
read("the last 8 that count", 65528, 8)
read("none, at the very end", 65536, 0)
read("none, before it", 65528, 0)
read("02/19: byte 65,537 doesn't count, though the file has it", 65536, 8, refused=True)
read("02/19: nor any past it", 65528, 16, refused=True)
read("02/19: 8 more than all", 0, 65544, refused=True)
read("02/19: none, past the end", 65544, 0, refused=True)
read("all that counts", 0, 65536)
read("02/19: all, from 8 on", 8, 65536, refused=True)
read("all but the first 65,000", 65000, 536)
put("fresh", "ok")
read("fresh doesn't touch it", 65520, 16)
LINES.append("# a line lends another one instead")
put("seeprom " + IMAGE[:16].hex(), "ok")
read("that one is read now", 0, 16)
read("02/19: it has 16 bytes", 16, 8, refused=True)

os.makedirs(HERE, exist_ok=True)
with open(os.path.join(HERE, "image"), "wb") as file:
    file.write(IMAGE)
for name, lines in (("lines", LINES), ("answers", ANSWERS)):
    with open(os.path.join(HERE, name), "w") as file:
        file.write("\n".join(lines) + "\n")
print("%d lines" % len(ANSWERS))
