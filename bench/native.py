#!/usr/bin/env python3
"""Random programs for a processor and for `erim run`: native.py make SEED COUNT LENGTH DIR; native.py compare ERIM IMAGE ..

`make` writes DIR/0 .. DIR/COUNT-1, static images that run on Linux as they are. Each sets all registers and flags, makes
LENGTH random steps over registers, a page and a stack, and writes that page with the registers and flags in it. Flags
that the SDM leaves undefined are set anew by a CMP right after. `compare` runs each image natively and by ERIM, and ends
with 1 where output and exit status of one differ.
"""
import os
import random
import struct
import subprocess
import sys

CODE, PAGE = 0x401000, 0x410000
NAMES = "rax rcx rdx rbx rsp rbp rsi rdi r8 r9 r10 r11 r12 r13 r14 r15".split()
HALVES = "eax ecx edx ebx esp ebp esi edi r8d r9d r10d r11d r12d r13d r14d r15d".split()
BYTES = "al cl dl bl spl bpl sil dil r8b r9b r10b r11b r12b r13b r14b r15b".split()
WORDS = "ax cx dx bx sp bp si di r8w r9w r10w r11w r12w r13w r14w r15w".split()
HIGH = ["ah", "ch", "dh", "bh"]
# RSP, RSI (the page) and RDI (a small index) keep their values
FREE = [n for n in range(16) if n not in (4, 6, 7)]
SIZES = {1: "byte", 2: "word", 4: "dword", 8: "qword"}
CONDITIONS = "o no b ae e ne be a s ns p np l ge le g".split()


class Maker:
    def __init__(self, seed):
        self.pick = random.Random(seed)
        self.labels = 0
        self.pushed = 0

    def label(self):
        self.labels += 1
        return f".L{self.labels}"

    def number(self, width):
        bits = 8 * width
        low = -(1 << bits - 1)
        return self.pick.choice([0, 1, -1, low, -low - 1, self.pick.randrange(low, -low), self.pick.randrange(-128, 128)])

    def immediate(self, width):
        return self.number(min(width, 4))

    def register(self, width, high=True):
        if width == 1 and high and self.pick.random() < 0.2:
            return self.pick.choice(HIGH)
        return {1: BYTES, 2: WORDS, 4: HALVES, 8: NAMES}[width][self.pick.choice(FREE)]

    def address(self):
        return self.pick.choice([
            lambda: f"[rsi + {self.pick.randrange(-0x3F0, 0x3E0)}]",
            lambda: f"[rsi + rdi*{self.pick.choice([1, 2, 4, 8])} + {self.pick.randrange(-0x80, 0x80)}]",
            lambda: f"[{PAGE + self.pick.randrange(0x7F0)}]",
            lambda: f"[rdi*8 + {PAGE + self.pick.randrange(0x700)}]",
        ])()

    def memory(self, width):
        return f"{SIZES[width]} ptr {self.address()}"

    def place(self, width):
        return self.memory(width) if self.pick.random() < 0.4 else self.register(width)

    def width(self, *widths):
        return self.pick.choice(widths or (1, 4, 8))

    def two(self, width):
        """A destination and a source, of which at most one is in memory; no high byte meets a REX."""
        form = self.pick.randrange(4)
        if form == 0:
            return self.memory(width), self.register(width, False)
        if form == 1:
            return self.register(width, False), self.memory(width)
        if form == 2:
            return self.place(width), str(self.immediate(width))
        if width == 1 and self.pick.random() < 0.3:
            low = self.pick.choice(["al", "cl", "dl", "bl"])
            return tuple(self.pick.sample([low, self.pick.choice(HIGH)], 2))
        return self.register(width, False), self.register(width, False)

    def compare(self):
        return f"cmp {self.register(8)}, {self.register(8)}"

    def step(self):
        w = self.width()
        kind = self.pick.choice(
            "alu alu alu test unary shift shift imul bt mov mov wide lea ext widen cmov set push pop xchg xadd cmpxchg "
            "jump call leave nop flags".split())
        return getattr(self, kind)(w)

    def alu(self, w):
        op = self.pick.choice("add or adc sbb and sub xor cmp".split())
        dst, src = self.two(w)
        lock = "lock " if "[" in dst and op != "cmp" and self.pick.random() < 0.3 else ""
        return [f"{lock}{op} {dst}, {src}"]

    def test(self, w):
        dst, src = self.two(w)
        return [f"test {src}, {dst}" if "[" in src else f"test {dst}, {src}"]

    def unary(self, w):
        return [f"{self.pick.choice(['not', 'neg', 'inc', 'dec'])} {self.place(w)}"]

    def shift(self, w):
        by = self.pick.choice(["cl", "1", str(self.pick.randrange(256))])
        return [f"{self.pick.choice(['shl', 'shr', 'sar'])} {self.place(w)}, {by}", self.compare()]

    def imul(self, w):
        w = self.width(4, 8)
        factor = f", {self.immediate(w)}" if self.pick.random() < 0.5 else ""
        return [f"imul {self.register(w)}, {self.place(w)}{factor}", self.compare()]

    def bt(self, w):
        return [f"bt {self.place(self.width(4, 8))}, {self.pick.randrange(128)}", self.compare()]

    def mov(self, w):
        dst, src = self.two(w)
        return [f"mov {dst}, {src}"]

    def wide(self, w):
        return [f"movabs {self.register(8)}, {self.number(8)}"]

    def lea(self, w):
        base, index = self.register(8), self.register(8)
        scale = self.pick.choice([1, 2, 4, 8])
        form = self.pick.choice([f"[{base} + {index}*{scale} + {self.number(4)}]", f"[rip + {self.number(1)}]"])
        return [f"lea {self.register(self.width(4, 8))}, {form}"]

    def ext(self, w):
        w, source = self.width(4, 8), self.width(1, 2)
        src = self.memory(source) if self.pick.random() < 0.5 else self.register(source, False)
        if self.pick.random() < 0.25:
            return [f"movsxd {self.register(8)}, {self.place(4)}"]
        return [f"{self.pick.choice(['movzx', 'movsx'])} {self.register(w)}, {src}"]

    def widen(self, w):
        return [self.pick.choice(["cwde", "cdqe", "cdq", "cqo"])]

    def cmov(self, w):
        w = self.width(4, 8)
        return [f"cmov{self.pick.choice(CONDITIONS)} {self.register(w)}, {self.place(w)}"]

    def set(self, w):
        return [f"set{self.pick.choice(CONDITIONS)} {self.place(1)}"]

    def push(self, w):
        self.pushed += 1
        return [f"push {self.pick.choice([self.register(8), self.memory(8), str(self.immediate(4)), 'rsp'])}"]

    def pop(self, w):
        if self.pushed == 0:
            return self.push(w)
        self.pushed -= 1
        return [f"pop {self.register(8)}"]

    def xchg(self, w):
        return [f"xchg {self.memory(w)}, {self.register(w, False)}"]

    def xadd(self, w):
        dst, lock = self.pick.choice([(self.memory(w), "lock "), (self.memory(w), ""), (self.register(w, False), "")])
        return [f"{lock}xadd {dst}, {self.register(w, False)}"]

    def cmpxchg(self, w):
        # a register of 4 bytes is left out: what a failing one leaves of its upper half is the emulator's own
        dst = self.memory(w) if w == 4 or self.pick.random() < 0.6 else self.register(w, False)
        first = [f"mov {self.register(w, False)}, {BYTES[0] if w == 1 else HALVES[0] if w == 4 else NAMES[0]}"]
        return self.pick.choice([[], first]) + [f"cmpxchg {dst}, {self.register(w, False)}"]

    def jump(self, w):
        to = self.label()
        jump = self.pick.choice([f"j{self.pick.choice(CONDITIONS)} {to}", f"jmp {to}"])
        return [jump, f"inc {self.place(4)}", f"{to}:"]

    def call(self, w):
        to, behind, register = self.label(), self.label(), NAMES[self.pick.choice(FREE)]
        how = self.pick.choice([[f"call {to}"], [f"lea {register}, {to}[rip]", f"call {register}"]])
        return how + [f"jmp {behind}", f"{to}:", f"not {self.place(8)}", "ret", f"{behind}:"]

    def leave(self, w):
        return ["push rbp", "mov rbp, rsp", f"push {self.register(8)}", "leave"]

    def nop(self, w):
        return [self.pick.choice(["nop", "nop dword ptr [rax]", "lfence", "mfence", "sfence"])]

    def flags(self, w):
        return [self.compare()]

    def program(self, length):
        lines = [f"movabs {name}, {self.number(8)}" for n, name in enumerate(NAMES) if n in FREE]
        lines += [f"mov esi, {PAGE + 0x400}", f"mov edi, {self.pick.randrange(16)}", f"mov esp, {PAGE + 0x1800}", self.compare()]
        self.pushed = 0
        for _ in range(length):
            lines += self.step()
        for k, c in enumerate("ocesp"):
            lines.append(f"set{c} byte ptr [{PAGE + 0x800 + k}]")
        lines += [f"mov qword ptr [{PAGE + 0x808 + 8 * n}], {name}" for n, name in enumerate(NAMES)]
        lines += ["mov edi, 1", f"mov esi, {PAGE}", "mov edx, 0x1000", "mov eax, 1", "syscall"]
        return lines + [f"mov edi, [{PAGE + 0x808}]", "mov eax, 231", "syscall"]


def image(code, page):
    """The code at CODE, and PAGE with a page for the stack after it."""
    place = 4096
    behind = place + (len(code) + 4095) // 4096 * 4096
    header = struct.pack("<4sBBB9xHHIQQQIHHHHHH", b"\x7fELF", 2, 1, 1, 2, 62, 1, CODE, 64, 0, 0, 64, 56, 2, 0, 0, 0)
    text = struct.pack("<IIQQQQQQ", 1, 5, place, CODE, CODE, len(code), len(code), 4096)
    data = struct.pack("<IIQQQQQQ", 1, 6, behind, PAGE, PAGE, len(page), 2 * 4096, 4096)
    return ((header + text + data).ljust(place, b"\0") + code).ljust(behind, b"\0") + page


def make(seed, count, length, folder):
    maker = Maker(seed)
    source, binary = os.path.join(folder, "source.s"), os.path.join(folder, "object")
    with open(source, "w") as out:
        out.write(".intel_syntax noprefix\n")
        for k in range(count):
            out.write(f"program{k}:\n" + "\n".join(maker.program(length)) + "\n")
        out.write(f"program{count}:\n")
    subprocess.check_call(["as", "-o", binary + ".o", source])
    subprocess.check_call(["objcopy", "-O", "binary", "-j", ".text", binary + ".o", binary])
    places = {}
    for line in subprocess.check_output(["nm", binary + ".o"], text=True).splitlines():
        place, _, name = line.split()
        places[name] = int(place, 16)
    code = open(binary, "rb").read()
    for k in range(count):
        name = os.path.join(folder, str(k))
        page = bytes(maker.pick.randrange(256) for _ in range(4096))
        with open(name, "wb") as out:
            out.write(image(code[places[f"program{k}"]:places[f"program{k + 1}"]], page))
        os.chmod(name, 0o755)


def emulated(erim, name):
    """Output and exit status of `erim run`, as its report says; None where the process ended otherwise."""
    report = subprocess.run([erim, "run", name, os.devnull], capture_output=True, check=False).stdout
    head, _, rest = report.partition(b"\n")
    size = int(head.split()[1]) if head.startswith(b"output ") else 0
    lines = rest[size:].decode("latin-1").split("\n")
    ends = [line for line in lines if line.startswith("end exit ")]
    return (rest[:size], int(ends[0].split()[2])) if ends else (report[-400:], None)


def compare(erim, names):
    for name in names:
        native = subprocess.run([name], capture_output=True, check=False)
        told = emulated(erim, name)
        if told != (native.stdout, native.returncode):
            places = [k for k, (a, b) in enumerate(zip(told[0], native.stdout)) if a != b]
            print(f"{name} differs: natively {native.returncode}, by erim {told[1]}; bytes {places[:20]}; {told[0][-200:]}")
            return 1
    print(f"{len(names)} programs, no difference")
    return 0


if __name__ == "__main__":
    if sys.argv[1] == "make":
        make(int(sys.argv[2]), int(sys.argv[3]), int(sys.argv[4]), sys.argv[5])
    else:
        sys.exit(compare(sys.argv[2], sys.argv[3:]))
