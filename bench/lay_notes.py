#!/usr/bin/env python3
"""Lays an image with the greatest notes: lay_notes.py OUT COUNT

It has 64 program headers, and its file header counts COUNT of them: 32 segments of code of two pages each, the notes,
and 31 segments of data with 129 pages each. 128 functions stand in each segment of code. The 256 records are a page of
trusted text, an entry, and 254 ranges that have all pages of data.
"""
import struct
import sys

CODE, DATA, PLACE, PAGE = 0x401000, 0x1000000, 4096, 4096


def note(name, kind, items):
    desc = struct.pack("<II", 1, len(items)) + b"".join(items)
    head = struct.pack("<III", len(name), len(desc), kind)
    return head + name.ljust(8, b"\0") + desc


def header(kind, flags, place, address, in_file, in_memory):
    return struct.pack("<IIQQQQQQ", kind, flags, place, address, address, in_file, in_memory, 4)


def image(count):
    codes = [CODE + 3 * PAGE * i for i in range(32)]
    datas = [DATA + 130 * PAGE * i for i in range(31)]
    functions = [struct.pack("<QQ", code + 64 * i, 64) for code in codes for i in range(128)]
    records = [struct.pack("<IIQQ", 1, 1, CODE, PAGE), struct.pack("<IIQQ", 3, 1, CODE, 0)]
    for number, data in enumerate(datas):
        ranges = 9 if number < 6 else 8
        ends = [129 * i // ranges for i in range(ranges + 1)]
        for start, end in zip(ends, ends[1:]):
            records.append(struct.pack("<IIQQ", 2, 1, data + start * PAGE, (end - start) * PAGE))
    notes = note(b"ERIM\0", 1, records) + note(b"ERIMF\0", 2, functions)
    place = PLACE + 32 * 2 * PAGE
    headers = [header(1, 5, PLACE + 2 * PAGE * i, code, 2 * PAGE, 2 * PAGE) for i, code in enumerate(codes)]
    headers.append(header(4, 4, place, 0, len(notes), len(notes)))
    headers += [header(1, 6, 0, data, 0, 129 * PAGE) for data in datas]
    assert (len(headers), len(records), len(functions)) == (64, 256, 4096)
    front = struct.pack(
        "<4sBBB9xHHIQQQIHHHHHH", b"\x7fELF", 2, 1, 1, 2, 62, 1, CODE, 64, 0, 0, 64, 56, count, 0, 0, 0
    )
    return (front + b"".join(headers)).ljust(place, b"\0") + notes


if __name__ == "__main__":
    with open(sys.argv[1], "wb") as out:
        out.write(image(int(sys.argv[2])))
