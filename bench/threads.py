#!/usr/bin/env python3
"""Runs a small program of several threads in time slices of QUANTUM steps, round robin, and prints the report that it is to
have. It reads assembly, in which lines `# data ADDRESS SIZE VALUE` say what the page at 0x404000 begins with, and knows a
handful of instructions, the calls write, sched_yield, clone, exit, gettid and exit_group, and one page of code that is
published at the first step. The output is printed in hexadecimal digits. The tests of threads have their numbers from here.

usage: threads.py QUANTUM FILE [the address of each instruction]"""
import re
import sys

CLOSED = 0x55555554
REGISTERS = "rax rcx rdx rbx rsp rbp rsi rdi r8 r9 r10 r11 r12 r13 r14 r15".split()
NAMES = {n: (i, 8) for i, n in enumerate(REGISTERS)}
NAMES.update({"e" + n[1:]: (i, 4) for i, n in enumerate(REGISTERS[:8])})
NAMES.update({n + "d": (i, 4) for i, n in enumerate(REGISTERS) if i >= 8})


class Fault(Exception):
    pass


def read(path):
    code, labels, data = [], {}, []
    for line in open(path):
        if line.startswith("# data "):
            data.append([int(x, 0) for x in line.split()[2:]])
        line = line.split("#")[0].strip()
        if not line or line.startswith("."):
            continue
        label = re.match(r"(\w+):$", line)
        if label:
            labels[label[1]] = len(code)
            continue
        line = line.removeprefix("lock ")
        name, _, rest = line.partition(" ")
        code.append((name, [x.strip() for x in rest.split(",")] if rest else []))
    return code, labels, data


class Machine:
    def __init__(self, code, labels, data, stack_low, stack_high):
        self.code, self.labels = code, labels
        self.memory, self.out, self.end = {}, bytearray(), None
        self.mapped = [(0x404000, 0x405000), (stack_low, stack_high)]
        self.threads = [dict(regs=[0] * 16, at=0, flags=(False, False), live=True, steps=0)]
        self.threads[0]["regs"][4] = 0x7FFEFFF0
        self.published = False
        for address, size, value in data:
            self.store(address, size, value)

    def address(self, thread, text):
        inner = re.search(r"\[(.*)\]", text)[1]
        total = 0
        for part in inner.split("+"):
            part = part.strip()
            total += thread["regs"][NAMES[part][0]] if part in NAMES else int(part, 0)
        return total

    def check(self, address, size):
        for byte in range(address, address + size):
            if not any(low <= byte < high for low, high in self.mapped):
                raise Fault(byte)

    def load(self, address, size):
        self.check(address, size)
        return sum(self.memory.get(address + i, 0) << 8 * i for i in range(size))

    def store(self, address, size, value):
        self.check(address, size)
        for i in range(size):
            self.memory[address + i] = value >> 8 * i & 255

    def width(self, operands):
        for o in operands:
            if o in NAMES:
                return NAMES[o][1]
        return 4 if "dword" in operands[0] else 8

    def get(self, thread, o, size):
        if o in NAMES:
            return thread["regs"][NAMES[o][0]] & (1 << 8 * size) - 1
        if "[" in o:
            return self.load(self.address(thread, o), size)
        return int(o, 0) & (1 << 8 * size) - 1

    def put(self, thread, o, size, value):
        value &= (1 << 8 * size) - 1
        if o in NAMES:
            thread["regs"][NAMES[o][0]] = value
        else:
            self.store(self.address(thread, o), size, value)

    def flags(self, thread, value, size, carry):
        thread["flags"] = (value & (1 << 8 * size) - 1 == 0, carry)

    def step(self, number):
        thread = self.threads[number]
        thread["steps"] += 1
        if not self.published:
            self.published = True
            return
        name, ops = self.code[thread["at"]]
        before = thread["at"]
        try:
            thread["at"] += 1
            getattr(self, "do_" + name)(number, thread, *ops)
        except Fault as fault:
            thread["at"] = before
            self.end = ("unmapped", number, before, fault.args[0])

    def do_mov(self, n, t, a, b):
        size = self.width([a, b])
        self.put(t, a, size, self.get(t, b, size))

    def arithmetic(self, t, a, b, operation, keep=True):
        size = self.width([a, b])
        x, y = self.get(t, a, size), self.get(t, b, size)
        value = operation(x, y)
        if keep:
            self.put(t, a, size, value)
        self.flags(t, value, size, value < 0 or value >> 8 * size > 0)

    def do_add(self, n, t, a, b): self.arithmetic(t, a, b, lambda x, y: x + y)
    def do_sub(self, n, t, a, b): self.arithmetic(t, a, b, lambda x, y: x - y)
    def do_xor(self, n, t, a, b): self.arithmetic(t, a, b, lambda x, y: x ^ y)
    def do_cmp(self, n, t, a, b): self.arithmetic(t, a, b, lambda x, y: x - y, False)
    def do_test(self, n, t, a, b): self.arithmetic(t, a, b, lambda x, y: x & y, False)

    def do_inc(self, n, t, a):
        carry = t["flags"][1]
        self.arithmetic(t, a, "1", lambda x, y: x + y)
        t["flags"] = (t["flags"][0], carry)

    def do_dec(self, n, t, a):
        carry = t["flags"][1]
        self.arithmetic(t, a, "1", lambda x, y: x - y)
        t["flags"] = (t["flags"][0], carry)

    def do_xchg(self, n, t, a, b):
        size = self.width([a, b])
        x, y = self.get(t, a, size), self.get(t, b, size)
        self.put(t, a, size, y)
        self.put(t, b, size, x)

    def do_xadd(self, n, t, a, b):
        size = self.width([a, b])
        x, y = self.get(t, a, size), self.get(t, b, size)
        self.put(t, b, size, x)
        self.put(t, a, size, x + y)
        self.flags(t, x + y, size, (x + y) >> 8 * size > 0)

    def do_push(self, n, t, a):
        value = self.get(t, a, 8)
        self.store(t["regs"][4] - 8, 8, value)
        t["regs"][4] -= 8

    def do_jmp(self, n, t, label): t["at"] = self.labels[label]

    def do_jz(self, n, t, label):
        if t["flags"][0]:
            t["at"] = self.labels[label]

    def do_jnz(self, n, t, label):
        if not t["flags"][0]:
            t["at"] = self.labels[label]

    def do_syscall(self, n, t):
        r = t["regs"]
        r[1], r[11] = 0, 0  # no program here looks at them
        call = r[0]
        if call == 1:
            self.out += bytes(self.load(r[6] + i, 1) for i in range(r[2]))
            r[0] = r[2]
        elif call == 24:
            r[0] = 0
        elif call == 56:
            if len(self.threads) == 16:
                r[0] = 2**64 - 11
                return
            new = dict(regs=list(r), at=t["at"], flags=t["flags"], live=True, steps=0)
            new["regs"][0] = 0
            if r[6]:
                new["regs"][4] = r[6]
            self.threads.append(new)
            r[0] = len(self.threads)
        elif call == 60:
            t["live"] = False
            if not any(x["live"] for x in self.threads):
                self.end = ("exit", r[7] & 255)
        elif call == 186:
            r[0] = n + 1
        elif call == 231:
            self.end = ("exit", r[7] & 255)
        else:
            r[0] = 2**64 - 38

    def run(self, quantum, budget=1_000_000):
        number, left, steps = 0, quantum, 0
        while self.end is None and steps < budget:
            if not (left and self.threads[number]["live"]):
                count = len(self.threads)
                order = [x % count for x in range(number + 1, number + 1 + count)]
                number = next(x for x in order if self.threads[x]["live"])
                left = quantum
            self.step(number)
            left -= 1
            steps += 1
        return steps


def main():
    quantum, path = int(sys.argv[1]), sys.argv[2]
    machine = Machine(*read(path), 0x7FFE0000, 0x7FFF0000)
    places = [int(x, 16) for x in sys.argv[3:]]
    steps = machine.run(quantum)
    end = machine.end
    if end is None:
        text = "spent"
    elif end[0] == "exit":
        text = f"exit {end[1]}"
    else:
        text = f"fault unmapped thread {end[1]} rip {places[end[2]]:#014x} at {end[3]:#014x}"
    print(f"output {len(machine.out)}\n{machine.out.hex()}\nsteps {steps}\nend {text}\nescape none")
    for number, thread in enumerate(machine.threads):
        print(f"thread {number} steps {thread['steps']} pkru {CLOSED:#010x}")
    print(f"worker 0 steps {steps}")


main()
