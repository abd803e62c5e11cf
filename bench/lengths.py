#!/usr/bin/env python3
"""The parts of lengths.sh.

lengths.py bytes SEED SIZE                    writes random bytes, prefixes and escapes more often than others
lengths.py slots CODE LINES SLOTS LENGTHS     puts each instruction of `erim disasm`'s lines into 32 bytes of its own
lengths.py spellings TEXTS SLOTS LENGTHS      the same with texts in hexadecimal digits, a line each
lengths.py compare OBJDUMP LENGTHS            compares the first instruction of each slot with objdump's
"""
import random
import re
import sys

BASE, SLOT = 0x401000, 32


def random_bytes(seed, size):
    source = random.Random(int(seed))
    often = [0x0F, 0x2E, 0x66, 0xF0, 0xF3] + list(range(0x40, 0x50))
    for _ in range(int(size)):
        yield source.choice(often) if source.random() < 0.15 else source.randrange(256)


def instructions(code, lines):
    starts = [(int(line.split()[0], 16) - BASE, line.split()[1] != "bad") for line in lines]
    ends = [start for start, _ in starts[1:]] + [len(code)]
    return [code[start:end] for (start, whole), end in zip(starts, ends) if whole]


def objdump_lengths(lines):
    found = {}
    for line in lines:
        match = re.match(r"\s*([0-9a-f]+):\t((?:[0-9a-f]{2} )+)", line)
        if match:
            found[int(match.group(1), 16)] = len(match.group(2).split())
    return found


def write_slots(texts, slots, lengths):
    open(slots, "wb").write(b"".join(text.ljust(SLOT, b"\x90") for text in texts))
    open(lengths, "w").write("".join(text.hex() + "\n" for text in texts))


def main(part, *names):
    if part == "bytes":
        sys.stdout.buffer.write(bytes(random_bytes(*names)))
    elif part == "slots":
        code, lines = open(names[0], "rb").read(), open(names[1]).readlines()
        write_slots(sorted(set(instructions(code, lines))), *names[2:])
    elif part == "spellings":
        write_slots([bytes.fromhex(text) for text in open(names[0])], *names[1:])
    else:
        found, texts = objdump_lengths(open(names[0])), open(names[1]).read().split()
        for number, text in enumerate(texts):
            if found.get(SLOT * number) != len(text) // 2:
                sys.exit(f"{text}: objdump reads {found.get(SLOT * number)} bytes")
        print(f"{len(texts)} instructions agree")


if __name__ == "__main__":
    main(*sys.argv[1:])
