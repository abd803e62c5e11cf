#!/usr/bin/env python3
"""Random programs that hide unsafe sequences in what can be rewritten, images to time, and a comparison of old and
rewritten images on this processor.

usage: rewrite.py make SEED COUNT LENGTH FOLDER    writes COUNT programs of about LENGTH instructions
       rewrite.py sites MIB COUNT FILE             writes an image of MIB MiB with COUNT sites, in 4,096 functions
       rewrite.py compare PROGRAM IMAGE..          rewrites each image with PROGRAM, runs both here, and the new one with
                                                   PROGRAM too; ends with 1 at the first difference
"""
import os
import random
import struct
import subprocess
import sys
import tempfile

CODE, DATA, FAR = 0x401000, 0x403000, 0x12F0000
# a program header's type, flags, offset, addresses, sizes and alignment (ELF-64, "Program header")
HEADER = "<IIQQQQQQ"


def image(segments, functions):
    """An image of segments (address, flags, bytes, size in memory), with a functions note; it starts at CODE."""
    count = len(segments) + 1
    file = bytearray(64 + 56 * count)
    headers = b""
    for address, flags, data, size in segments:
        file += bytes(-len(file) % 4096)
        headers += struct.pack(HEADER, 1, flags, len(file), address, address, len(data), size, 4096)
        file += data
    file += bytes(-len(file) % 4)
    note = struct.pack("<III8sII", 6, 8 + 16 * len(functions), 2, b"ERIMF", 1, len(functions))
    note += b"".join(struct.pack("<QQ", *function) for function in functions)
    headers += struct.pack(HEADER, 4, 4, len(file), 0, 0, len(note), len(note), 4)
    file += note
    file[:64] = struct.pack("<16sHHIQQQIHHHHHH", b"\x7fELF\x02\x01\x01", 2, 62, 1, CODE, 64, 0, 0, 64, 56, count, 0, 0, 0)
    file[64:64 + len(headers)] = headers
    return bytes(file)


def rex(wide, reg=0, base=0):
    """The REX prefix of a register and of a register or base, where there is to be one."""
    value = 0x40 | wide << 3 | (reg >> 3) << 2 | base >> 3
    return bytes([value]) if value != 0x40 else b""


def hiding(pick, reg):
    """A number of four bytes that hides a sequence, moved into a register."""
    number = pick.choice([b"\x0f\x01\xef" + bytes([pick.randrange(128)]), bytes([pick.randrange(126)]) + b"\x0f\x01\xef",
                          b"\x0f\xae" + bytes([pick.choice([0x28, 0x29, 0x2A, 0x2F]), pick.randrange(128)])])
    kind = pick.randrange(3)
    if kind == 0:
        return rex(0, 0, reg) + bytes([0xB8 | reg & 7]) + number
    if kind == 1:
        return rex(1, 0, reg) + bytes([0xC7, 0xC0 | reg & 7]) + number
    filler = bytes(pick.randrange(1, 12) for _ in range(4))
    # a number less by d keeps its high bytes, so few hide their sequence there
    return rex(1, 0, reg) + bytes([0xB8 | reg & 7]) + (number + filler if pick.randrange(50) else filler + number)


def over_two(pick, reg):
    """An instruction that ends with 0F, and add edi, ebp."""
    first = pick.choice([rex(0, 0, reg) + bytes([0xB8 | reg & 7]) + pick.randbytes(3) + b"\x0f", b"\x04\x0f", b"\x34\x0f",
                         rex(0, 0, reg) + bytes([0x81, 0xC0 | reg & 7]) + pick.randbytes(3) + b"\x0f",
                         rex(1, 0, reg) + bytes([0x83, 0xF0 | reg & 7]) + b"\x0f"])
    return first + b"\x01\xef"


def plain(pick, reg, other):
    """An instruction on registers. A TEST follows those that leave flags undefined."""
    test = rex(1, reg, reg) + bytes([0x85, 0xC0 | (reg & 7) << 3 | reg & 7])
    opcode = pick.choice([0x01, 0x29, 0x31, 0x21, 0x09, 0x11, 0x19])
    return pick.choice([
        rex(pick.randrange(2), other, reg) + bytes([opcode, 0xC0 | (other & 7) << 3 | reg & 7]),
        rex(1, reg, other) + bytes([0x8D, 0x80 | (reg & 7) << 3 | other & 7]) + struct.pack("<i", pick.randrange(-999, 999))
        if other & 7 != 4 else b"\x90",
        rex(1, 0, reg) + bytes([0xC1, 0xE0 | reg & 7, pick.randrange(64)]) + test,
        rex(1, 0, reg) + bytes([0xF7, 0xD0 | reg & 7]),
        rex(1, reg, other) + bytes([0x0F, 0xAF, 0xC0 | (reg & 7) << 3 | other & 7]) + test,
        b"\x90"])


def program(pick, length):
    """Random instructions, and then the registers are written, and the program leaves with the last byte of RAX."""
    registers = [0, 1, 2, 3, 5, 6, 7, 8, 9, 10, 11, 12, 13, 14, 15]
    code = b"".join(rex(1, 0, reg) + bytes([0xB8 | reg & 7]) + pick.randbytes(8) for reg in registers)
    code = code.replace(b"\x0f\x01\xef", b"\x0e\x01\xef")
    for _ in range(length):
        reg, other = pick.choice(registers), pick.choice(registers)
        kind = pick.randrange(10)
        if kind < 2:
            block = hiding(pick, reg)
        elif kind < 4:
            block = over_two(pick, reg)
        elif kind == 4:  # mov reg, [rip + 0xEF010F], far away
            block = rex(1, reg, 0) + bytes([0x8B, 0x05 | (reg & 7) << 3]) + b"\x0f\x01\xef\x00"
        elif kind == 5:  # jcc over a few instructions
            inner = b"".join(plain(pick, reg, other) for _ in range(pick.randrange(1, 4)))
            block = bytes([0x70 | pick.randrange(16), len(inner)]) + inner
        else:
            block = plain(pick, reg, other)
        code += block
    code = code[:3900]
    for reg in registers:  # mov [DATA + 8 * reg], reg
        code += rex(1, reg, 0) + bytes([0x89, 0x04 | (reg & 7) << 3, 0x25]) + struct.pack("<I", DATA + 8 * reg)
    code += b"\xbf\x01\0\0\0\xbe" + struct.pack("<I", DATA) + b"\xba\x80\0\0\0\xb8\x01\0\0\0\x0f\x05"
    code += b"\x8b\x3c\x25" + struct.pack("<I", DATA) + b"\xb8\xe7\0\0\0\x0f\x05"
    return code


def make(seed, count, length, folder):
    pick = random.Random(seed)
    far = pick.randbytes(12288)
    for number in range(count):
        code = program(pick, length)
        segments = [(CODE, 5, code, len(code)), (DATA, 6, b"", 4096), (FAR, 4, far, len(far))]
        path = os.path.join(folder, f"{number}")
        with open(path, "wb") as out:
            out.write(image(segments, [(CODE, len(code))]))
        os.chmod(path, 0o755)


def sites(mib, count, path):
    """Functions of the same size, in a given number of which one MOV hides a sequence."""
    functions = 4096
    size = (mib * 1048576 - 65536 - 8192) // functions
    every = functions // count if count else functions + 1
    code = bytearray()
    for number in range(functions):
        body = b"\xb8\x0f\x01\xef\x00" if count and number % every == 0 and number // every < count else b"\xb8\1\2\3\0"
        while len(body) + 10 < size:
            body += b"\x48\x01\xc8\x48\x8d\x40\x07\x75\x00"
        code += (body + b"\xc3").ljust(size, b"\x90")
    listed = [(CODE + size * number, size) for number in range(functions)]
    with open(path, "wb") as out:
        out.write(image([(CODE, 5, bytes(code), len(code))], listed).ljust(mib * 1048576, b"\0"))


def ran(command):
    done = subprocess.run(command, stdout=subprocess.PIPE, stderr=subprocess.DEVNULL, timeout=60)
    return done.returncode, done.stdout


def compare(program_path, paths):
    rewritten = refused = count = 0
    for path in paths:
        with tempfile.TemporaryDirectory() as folder:
            new, journal = os.path.join(folder, "new"), os.path.join(folder, "journal")
            status, line = ran([program_path, "rewrite", path, new])
            if status == 8:
                refused += 1
                continue
            if status != 0:
                sys.exit(f"{path}: rewrite ended with {status}")
            os.chmod(new, 0o755)
            if ran([program_path, "inspect", new]) != (0, b"unsafe 0\n"):
                sys.exit(f"{path}: rewritten, and something in it is unsafe")
            before, after = ran([path]), ran([new])
            status, report = ran([program_path, "run", new, journal])
            head = b"output %d\n%s\n" % (len(before[1]), before[1])
            end = b"\nend exit %d\n" % before[0]
            if before != after or not report.startswith(head) or end not in report:
                sys.exit(f"{path}: rewritten, it does something else")
            rewritten += 1
            count += int(line.split()[1])
    print(f"{rewritten} programs with {count} sites do the same; {refused} were refused")


if __name__ == "__main__":
    command, *words = sys.argv[1:]
    if command == "make":
        make(int(words[0]), int(words[1]), int(words[2]), words[3])
    elif command == "sites":
        sites(int(words[0]), int(words[1]), words[2])
    else:
        compare(words[0], words[1:])
