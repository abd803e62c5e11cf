#!/usr/bin/env python3
"""Lays an image of one executable segment at 0x401000: lay_image.py OUT SIZE [DATA] < CODE

SIZE is the segment's number of bytes, in the file and in memory; the code is filled up with zeros. With DATA there is a
second segment at 0x1000000, of DATA bytes that can be read and written, none of them in the file.
"""
import struct
import sys

BASE, PLACE, DATA_BASE = 0x401000, 4096, 0x1000000


def image(code, size, data):
    count = 2 if data else 1
    header = struct.pack(
        "<4sBBB9xHHIQQQIHHHHHH", b"\x7fELF", 2, 1, 1, 2, 62, 1, BASE, 64, 0, 0, 64, 56, count, 0, 0, 0
    )
    segment = struct.pack("<IIQQQQQQ", 1, 5, PLACE, BASE, BASE, size, size, 4096)
    behind = struct.pack("<IIQQQQQQ", 1, 6, 0, DATA_BASE, DATA_BASE, 0, data, 4096) if data else b""
    return (header + segment + behind).ljust(PLACE, b"\0") + code.ljust(size, b"\0")


if __name__ == "__main__":
    data = int(sys.argv[3]) if len(sys.argv) > 3 else 0
    with open(sys.argv[1], "wb") as out:
        out.write(image(sys.stdin.buffer.read(), int(sys.argv[2]), data))
