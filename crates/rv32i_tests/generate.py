#!/usr/bin/env python3
"""Writes the table of cases (stdin) and what each must do (stdout).

The guest below is written from the RISC-V unprivileged manual and docs/RV32I.md, apart from the Rattle code, and nothing
here is taken from the program's output. It draws no random number, so it always writes the same.
"""

import itertools
import pathlib

FOLDER = pathlib.Path(__file__).parent
SIZE = 4232
SPACE = 4700
FILL = 0xA5
PLACE, SAVED, ENABLED, STOPPED, LAMP, SWITCH, ROM, RAM = 124, 128, 132, 133, 134, 135, 136, 2184
MASK = 0xFFFFFFFF


def signed(value, width=32):
    """The two's complement number that the low bits hold."""
    value &= (1 << width) - 1
    return value - (1 << width) if value >> (width - 1) else value


class Guest:
    """An RV32I guest over its image."""

    def __init__(self, image):
        self.x = [0] + [int.from_bytes(image[4 * k:4 * k + 4], "big") for k in range(31)]
        self.pc = int.from_bytes(image[PLACE:PLACE + 4], "big")
        self.saved = int.from_bytes(image[SAVED:SAVED + 4], "big")
        self.enabled = image[ENABLED] == 1
        self.stopped = image[STOPPED] == 1
        self.lamp = image[LAMP]
        self.switch = image[SWITCH]
        self.rom = bytearray(image[ROM:ROM + 2048])
        self.ram = bytearray(image[RAM:RAM + 2048])

    def image(self):
        words = self.x[1:] + [self.pc, self.saved]
        flags = bytes([int(self.enabled), int(self.stopped), self.lamp, self.switch])
        return b"".join(w.to_bytes(4, "big") for w in words) + flags + bytes(self.rom) + bytes(self.ram)

    def read_byte(self, address):
        address &= MASK
        if address <= 0x7FF:
            return self.rom[address]
        if 0x1000 <= address <= 0x17FF:
            return self.ram[address - 0x1000]
        return {0x2000: self.lamp, 0x2001: self.switch}.get(address, 0)

    def write_byte(self, address, byte):
        address &= MASK
        if 0x1000 <= address <= 0x17FF:
            self.ram[address - 0x1000] = byte
        elif address == 0x2000:
            self.lamp = byte

    def read(self, address, count):
        return sum(self.read_byte(address + k) << (8 * k) for k in range(count))

    def write(self, address, value, count):
        for k in range(count):
            self.write_byte(address + k, (value >> (8 * k)) & 0xFF)

    def set(self, rd, value):
        if rd:
            self.x[rd] = value & MASK

    def ready(self):
        return self.enabled and not self.stopped

    def take(self, event):
        """None, or True: a taken event is always a transfer."""
        if not self.ready():
            return None
        self.saved, self.enabled = self.pc, False
        if event == "T":
            self.pc = 0x10
        else:
            self.pc, self.switch = 0x20, int(event[1:], 16)
        return True

    def step(self):
        """None, or whether the instruction was a transfer."""
        if self.stopped:
            return None
        start = self.pc
        target = self.execute(self.read(start, 4))
        if target is None:
            self.stopped = True
            return True
        self.pc = target & MASK
        return self.pc != start + 4

    def execute(self, word):
        """Carries the word out and gives the next place, or None where the guest stops."""
        opcode, funct3, funct7 = word & 0x7F, (word >> 12) & 7, word >> 25
        rd, rs1, rs2 = (word >> 7) & 31, (word >> 15) & 31, (word >> 20) & 31
        a, b = self.x[rs1], self.x[rs2]
        pc, following = self.pc, self.pc + 4
        imm_i = signed(word >> 20, 12)
        imm_s = signed((funct7 << 5) | rd, 12)
        imm_b = signed(((word >> 31) << 12) | (((word >> 7) & 1) << 11) | (((word >> 25) & 0x3F) << 5) | (((word >> 8) & 0xF) << 1), 13)
        imm_u = word & 0xFFFFF000
        imm_j = signed(((word >> 31) << 20) | (((word >> 12) & 0xFF) << 12) | (((word >> 20) & 1) << 11) | (((word >> 21) & 0x3FF) << 1), 21)

        if opcode == 0x37:
            self.set(rd, imm_u)
            return following
        if opcode == 0x17:
            self.set(rd, pc + imm_u)
            return following
        if opcode == 0x6F:
            return self.link(rd, pc + imm_j)
        if opcode == 0x67 and funct3 == 0:
            return self.link(rd, (a + imm_i) & ~1)
        if opcode == 0x63:
            taken = {
                0: a == b,
                1: a != b,
                4: signed(a) < signed(b),
                5: signed(a) >= signed(b),
                6: a < b,
                7: a >= b,
            }.get(funct3)
            if taken is None:
                return None
            return self.aligned(pc + imm_b) if taken else following
        if opcode == 0x03:
            load = {0: (1, True), 1: (2, True), 2: (4, False), 4: (1, False), 5: (2, False)}.get(funct3)
            if load is None:
                return None
            count, extended = load
            value = self.read(a + imm_i, count)
            self.set(rd, signed(value, 8 * count) if extended else value)
            return following
        if opcode == 0x23:
            if funct3 > 2:
                return None
            self.write(a + imm_s, b, 1 << funct3)
            return following
        if opcode == 0x13:
            if funct3 in (1, 5):
                return self.compute(rd, funct3, funct7, a, rs2, following)
            return self.compute(rd, funct3, 0, a, imm_i & MASK, following)
        if opcode == 0x33:
            return self.compute(rd, funct3, funct7, a, b, following)
        if opcode == 0x0F and funct3 == 0:
            return following
        if word == 0x30200073:
            self.enabled = True
            return self.saved
        return None

    def aligned(self, target):
        return target if target % 4 == 0 else None

    def link(self, rd, target):
        if target % 4:
            return None
        self.set(rd, self.pc + 4)
        return target

    def compute(self, rd, funct3, funct7, a, b, following):
        shift = b % 32
        value = {
            (0, 0x00): a + b,
            (0, 0x20): a - b,
            (1, 0x00): a << shift,
            (2, 0x00): int(signed(a) < signed(b)),
            (3, 0x00): int(a < b),
            (4, 0x00): a ^ b,
            (5, 0x00): a >> shift,
            (5, 0x20): signed(a) >> shift,
            (6, 0x00): a | b,
            (7, 0x00): a & b,
        }.get((funct3, funct7))
        if value is None:
            return None
        self.set(rd, value)
        return following


# --- what a case prints


def fault_of(image):
    if len(image) != SIZE:
        return "wrong length"
    for at in (PLACE, SAVED):
        if image[at + 3] % 4:
            return f"unlawful at {at}"
    for at in (ENABLED, STOPPED):
        if image[at] > 1:
            return f"unlawful at {at}"
    return None


def differences(before, after):
    text, same = "", True
    for at in range(SPACE):
        if before[at] == after[at]:
            same = True
            continue
        text += f" {at:x}:" if same else ""
        text += f"{after[at]:02x}"
        same = False
    return text


def expected(name, actions, patches, length, room):
    space = bytearray([0] * SIZE + [FILL] * (SPACE - SIZE))
    space[ENABLED] = 1
    for at, data in patches:
        space[at:at + len(data)] = data
    fault = fault_of(space[:length])
    if fault:
        return f"{name} {fault}"
    guest = Guest(space[:SIZE])
    reports = ""
    for action in actions.split(","):
        unit = guest.step() if action == "S" else guest.take(action)
        reports += "-" if unit is None else "t" if unit else "n"
    seen = f"{guest.pc:08x} {'stopped' if guest.stopped else 'running'} {'ready' if guest.ready() else 'busy'} {guest.lamp:02x}"
    if room < SIZE:
        return f"{name} {reports} {seen} short, needs {SIZE}"
    after = bytearray([FILL] * SPACE)
    after[:SIZE] = guest.image()
    return f"{name} {reports} {seen}{differences(space, after)}"


class Table:
    def __init__(self):
        self.lines, self.answers, self.names = [], [], set()

    def add(self, name, word=None, regs=(), place=0, actions="S", saved=None, enabled=None, stopped=None, lamp=None, switch=None,
            rom=(), ram=(), raw=(), length=SIZE, room=SPACE):
        """A case: registers by number, memory by address, and `raw` bytes by offset."""
        assert name not in self.names, name
        self.names.add(name)
        patches = [(4 * (k - 1), value.to_bytes(4, "big")) for k, value in dict(regs).items() if k]
        if place:
            patches.append((PLACE, place.to_bytes(4, "big")))
        if saved is not None:
            patches.append((SAVED, saved.to_bytes(4, "big")))
        for at, byte in ((ENABLED, enabled), (STOPPED, stopped), (LAMP, lamp), (SWITCH, switch)):
            if byte is not None:
                patches.append((at, bytes([byte])))
        patches += [(ROM + address, bytes(data)) for address, data in rom]
        patches += [(RAM + address - 0x1000, bytes(data)) for address, data in ram]
        patches += [(at, bytes(data)) for at, data in raw]
        if word is not None:
            code = word.to_bytes(4, "little")
            patches.append((ROM + place, code) if place < 0x800 else (RAM + place - 0x1000, code))
        parts = [f"{at:x}:{data.hex()}" for at, data in patches]
        parts += [f"len={length}"] if length != SIZE else []
        parts += [f"room={room}"] if room != SPACE else []
        self.lines.append(" ".join([name, actions] + parts))
        self.answers.append(expected(name, actions, patches, length, room))


# --- encodings


def r_type(opcode, funct3, funct7, rd, rs1, rs2):
    return (funct7 << 25) | (rs2 << 20) | (rs1 << 15) | (funct3 << 12) | (rd << 7) | opcode


def i_type(opcode, funct3, rd, rs1, imm):
    return ((imm & 0xFFF) << 20) | (rs1 << 15) | (funct3 << 12) | (rd << 7) | opcode


def s_type(funct3, rs1, rs2, imm):
    return ((imm & 0xFE0) << 20) | (rs2 << 20) | (rs1 << 15) | (funct3 << 12) | ((imm & 0x1F) << 7) | 0x23


def b_type(funct3, rs1, rs2, imm):
    return (((imm >> 12) & 1) << 31) | (((imm >> 5) & 0x3F) << 25) | (rs2 << 20) | (rs1 << 15) | (funct3 << 12) \
        | (((imm >> 1) & 0xF) << 8) | (((imm >> 11) & 1) << 7) | 0x63


def u_type(opcode, rd, imm):
    return (imm << 12) | (rd << 7) | opcode


def j_type(rd, imm):
    return (((imm >> 20) & 1) << 31) | (((imm >> 1) & 0x3FF) << 21) | (((imm >> 11) & 1) << 20) | (((imm >> 12) & 0xFF) << 12) | (rd << 7) | 0x6F


OPERATIONS = {"add": (0, 0), "sub": (0, 0x20), "sll": (1, 0), "slt": (2, 0), "sltu": (3, 0), "xor": (4, 0), "srl": (5, 0),
              "sra": (5, 0x20), "or": (6, 0), "and": (7, 0)}
IMMEDIATES = {"addi": 0, "slti": 2, "sltiu": 3, "xori": 4, "ori": 6, "andi": 7}
SHIFTS = {"slli": (1, 0), "srli": (5, 0), "srai": (5, 0x20)}
BRANCHES = {"beq": 0, "bne": 1, "blt": 4, "bge": 5, "bltu": 6, "bgeu": 7}
LOADS = {"lb": 0, "lh": 1, "lw": 2, "lbu": 4, "lhu": 5}
STORES = {"sb": 0, "sh": 1, "sw": 2}
EDGES = [0, 1, 31, 32, 0x7FFFFFFF, 0x80000000, 0x80000001, 0xFFFFFFFF, 0x55555555, 0xDEADBEEF]
RETURN = 0x30200073
NOP = i_type(0x13, 0, 0, 0, 0)


def arithmetic(t):
    for name, (funct3, funct7) in OPERATIONS.items():
        for i, j in itertools.product(range(len(EDGES)), repeat=2):
            t.add(f"{name}-{i}-{j}", r_type(0x33, funct3, funct7, 3, 1, 2), {1: EDGES[i], 2: EDGES[j]})
        # the target is a source, is x0, or is the last register; a source is x0, or both are one
        for rd, rs1, rs2 in ((1, 1, 2), (2, 1, 2), (0, 1, 2), (31, 30, 29), (3, 0, 2), (3, 1, 0), (3, 0, 0), (3, 1, 1), (1, 1, 1), (0, 0, 0)):
            regs = {1: 0x80000005, 2: 3, 29: 7, 30: 0xFFFFFFF0, 3: 9, 31: 1}
            t.add(f"{name}-x{rd}-x{rs1}-x{rs2}", r_type(0x33, funct3, funct7, rd, rs1, rs2), regs)
    for name, funct3 in IMMEDIATES.items():
        for i, imm in itertools.product(range(len(EDGES)), (0, 1, -1, 2047, -2048, 0x555, -0x556)):
            t.add(f"{name}-{i}-{imm}", i_type(0x13, funct3, 3, 1, imm), {1: EDGES[i]})
        for rd, rs1 in ((0, 1), (1, 1), (3, 0), (0, 0), (31, 31)):
            t.add(f"{name}-x{rd}-x{rs1}", i_type(0x13, funct3, rd, rs1, -7), {1: 5, 31: 0x80000000, 3: 4})
    for name, (funct3, funct7) in SHIFTS.items():
        for i, amount in itertools.product(range(len(EDGES)), (0, 1, 4, 16, 30, 31)):
            t.add(f"{name}-{i}-{amount}", i_type(0x13, funct3, 3, 1, (funct7 << 5) | amount), {1: EDGES[i]})
        for rd, rs1 in ((0, 1), (1, 1), (3, 0)):
            t.add(f"{name}-x{rd}-x{rs1}", i_type(0x13, funct3, rd, rs1, (funct7 << 5) | 3), {1: 0x87654321, 3: 4})
    t.add("minus-one", 0xFFF00093)
    for name, opcode in (("lui", 0x37), ("auipc", 0x17)):
        for place, imm in itertools.product((0, 0x100, 0x7FC, 0x1000, 0x17FC), (0, 1, 0x12345, 0x7FFFF, 0x80000, 0xFFFFF)):
            t.add(f"{name}-{place:x}-{imm:x}", u_type(opcode, 5, imm), {5: 77}, place)
        t.add(f"{name}-x0", u_type(opcode, 0, 0x12345))


def jumps(t):
    distances = sorted({sign * d for d in [1 << k for k in range(1, 20)] + [0, 6, 12, 0x7FE, 0x802, 0xFFFFC, 0xFFFFE] for sign in (1, -1)} | {-(1 << 20)})
    for place, distance in itertools.product((0, 0x400, 0x1400), distances):
        t.add(f"jal-{place:x}-{distance}", j_type(5, distance), {5: 77}, place)
    for rd in (0, 1, 31):
        t.add(f"jal-x{rd}", j_type(rd, 8))
        t.add(f"jal-x{rd}-misaligned", j_type(rd, 10), {1: 3, 31: 4})
    for base in (0, 1, 2, 3, 4, 0x100, 0x101, 0x102, 0x103, 0x1000, 0x7FFFFFFF, 0x80000000, 0xFFFFFFFC, 0xFFFFFFFD, 0xFFFFFFFE, 0xFFFFFFFF):
        for imm in (0, 1, 2, 3, 4, 8, 0x555, 2047, 2044, -1, -2, -4, -2048):
            t.add(f"jalr-{base:x}-{imm}", i_type(0x67, 0, 5, 6, imm), {5: 77, 6: base}, 0x200)
    for k in range(11):
        t.add(f"jalr-bit-{k}", i_type(0x67, 0, 5, 6, 1 << k), {6: 0x1000})
    for rd, rs1 in ((0, 6), (6, 6), (5, 0), (0, 0)):
        t.add(f"jalr-x{rd}-x{rs1}", i_type(0x67, 0, rd, rs1, 8), {6: 0x300}, 0x40)
        t.add(f"jalr-x{rd}-x{rs1}-misaligned", i_type(0x67, 0, rd, rs1, 6), {6: 0x300}, 0x40)
    t.add("jalr-next", i_type(0x67, 0, 1, 2, 0), {2: 0x44}, 0x40)
    t.add("jalr-next-odd", i_type(0x67, 0, 1, 2, 1), {2: 0x44}, 0x40)


def branches(t):
    values = [0, 1, 0x7FFFFFFF, 0x80000000, 0x80000001, 0xFFFFFFFF]
    for name, funct3 in BRANCHES.items():
        for i, j in itertools.product(range(len(values)), repeat=2):
            t.add(f"{name}-{i}-{j}", b_type(funct3, 1, 2, -64), {1: values[i], 2: values[j]}, 0x100)
        for rs1, rs2 in ((0, 0), (0, 1), (1, 0), (1, 1), (31, 30)):
            t.add(f"{name}-x{rs1}-x{rs2}", b_type(funct3, rs1, rs2, 16), {1: 0x80000000, 30: 1, 31: 2}, 0x100)
    distances = sorted({sign * d for d in [1 << k for k in range(1, 12)] + [0, 6, 0x7FE, 0x802, 0xFFC, 0xFFE] for sign in (1, -1)} | {-4096})
    for distance in distances:
        for place in (0, 0x400, 0x1400):
            t.add(f"taken-{place:x}-{distance}", b_type(0, 1, 2, distance), {}, place)
        t.add(f"passed-{distance}", b_type(1, 1, 2, distance), {}, 0x400)


def memory(t):
    pattern = [(3 * k + 0x81) & 0xFF for k in range(8)]
    regions = dict(rom=[(0, pattern), (0x7F8, pattern)], ram=[(0x1000, pattern[::-1]), (0x17F8, pattern)], lamp=0x9C, switch=0x7E)
    addresses = [0, 1, 2, 3, 0x7F8, 0x7FC, 0x7FD, 0x7FE, 0x7FF, 0x800, 0x801, 0xFFC, 0xFFD, 0xFFE, 0xFFF, 0x1000, 0x1001, 0x1002, 0x1003,
                 0x17FC, 0x17FD, 0x17FE, 0x17FF, 0x1800, 0x1FFC, 0x1FFD, 0x1FFE, 0x1FFF, 0x2000, 0x2001, 0x2002, 0x10000, 0x7FFFFFFF,
                 0x80000000, 0xFFFFFFFC, 0xFFFFFFFD, 0xFFFFFFFE, 0xFFFFFFFF]
    for name, funct3 in LOADS.items():
        for address in addresses:
            t.add(f"{name}-{address:x}", i_type(0x03, funct3, 5, 6, 0), {5: 77, 6: address}, 0x400, **regions)
        for base, imm in ((0x1004, -4), (0x1004, -1), (0x800, 2047), (0x1800, -2048), (2, -4), (0xFFFFFFFF, 2), (0, 0x555), (0, -1)):
            t.add(f"{name}-{base:x}-{imm}", i_type(0x03, funct3, 5, 6, imm), {6: base}, 0x400, **regions)
        for rd, rs1 in ((0, 6), (6, 6), (5, 0)):
            t.add(f"{name}-x{rd}-x{rs1}", i_type(0x03, funct3, rd, rs1, 1), {5: 77, 6: 0x1000}, 0x400, **regions)
        for byte in (0x00, 0x7F, 0x80, 0xFF):
            t.add(f"{name}-all-{byte:02x}", i_type(0x03, funct3, 5, 6, 0), {6: 0x1000}, 0x400, ram=[(0x1000, [byte] * 4)])
            t.add(f"{name}-top-{byte:02x}", i_type(0x03, funct3, 5, 6, 0), {6: 0x1000}, 0x400, ram=[(0x1000, [0, byte, 0, byte])])
    for name, funct3 in STORES.items():
        for address in addresses:
            t.add(f"{name}-{address:x}", s_type(funct3, 6, 5, 0), {5: 0x8899AABB, 6: address}, 0x400, **regions)
        for base, imm in ((0x1004, -4), (0x1004, -1), (0x800, 2047), (0x1800, -2048), (2, -4), (0xFFFFFFFF, 2), (0x1000, 0x555), (0x1000, 31), (0x1000, 32)):
            t.add(f"{name}-{base:x}-{imm}", s_type(funct3, 6, 5, imm), {5: 0x01020304, 6: base}, 0x400, **regions)
        for rs1, rs2 in ((6, 0), (6, 6), (0, 5)):
            t.add(f"{name}-x{rs1}-x{rs2}", s_type(funct3, rs1, rs2, 0), {5: 0x01020304, 6: 0x1004}, 0x400, **regions)
        t.add(f"{name}-itself", s_type(funct3, 6, 5, 0), {5: 0x01020304, 6: 0x1400}, 0x1400)
    # a store that changes the next instruction, which is then carried out
    t.add("store-ahead", s_type(2, 6, 5, 4), {5: i_type(0x13, 0, 7, 0, 99), 6: 0x1400}, 0x1400, actions="S,S")


def words(t):
    """Every opcode with every funct3; every funct7 where it tells instructions apart; whole words of opcode 73h."""
    regs = {1: 0x1004, 2: 0x80000003, 3: 5}
    for opcode, funct3 in itertools.product(range(128), range(8)):
        t.add(f"word-{opcode:02x}-{funct3}", r_type(opcode, funct3, 0, 3, 1, 2), regs, 0x40)
    for opcode, funct3, funct7 in itertools.product((0x33, 0x13), range(8), range(128)):
        if opcode == 0x13 and funct3 not in (1, 5):
            continue
        t.add(f"word-{opcode:02x}-{funct3}-{funct7:02x}", r_type(opcode, funct3, funct7, 3, 1, 2), regs, 0x40)
    for opcode, funct3, funct7 in itertools.product((0x03, 0x0F, 0x23, 0x63, 0x67), range(8), (0x20, 0x7F)):
        t.add(f"word-{opcode:02x}-{funct3}-{funct7:02x}", r_type(opcode, funct3, funct7, 3, 1, 2), regs, 0x40)
    for word in (0x00000000, 0xFFFFFFFF, 0x00000073, 0x00100073, 0x00200073, 0x10200073, 0x10500073, 0x30200073, 0x30200F73, 0x302000F3,
                 0x30208073, 0x30201073, 0x30300073, 0x70200073, 0x00008073, 0x000000F3, 0x00101073, 0xC0002573, 0x00001073, 0x30047073,
                 0x0FF0000F, 0x8330000F, 0x0100000F, 0xFFFF8F8F, 0x0000100F, 0x0000000F, 0x00000013, 0x00000093, 0x0000006F, 0x00000063):
        t.add(f"whole-{word:08x}", word, {1: 6}, 0x40, saved=0x123C, enabled=0)
    for k in range(32):
        t.add(f"return-but-{k}", RETURN ^ (1 << k), {}, 0x40, saved=0x80, enabled=0)
        t.add(f"ecall-but-{k}", 0x00000073 ^ (1 << k), {}, 0x40, saved=0x80, enabled=0)


def places(t):
    """Fetches: ROM, RAM, the lamp and the switch as an instruction, and where there is nothing."""
    for place in (0, 4, 0x7F8, 0x7FC, 0x1000, 0x17FC):
        t.add(f"fetch-{place:x}", NOP, {}, place)
    for place in (0x800, 0xFFC, 0x1800, 0x1FFC, 0x2000, 0x2004, 0x80000000, 0xFFFFFFF8, 0xFFFFFFFC):
        t.add(f"fetch-{place:x}", None, {}, place)
    t.add("fetch-lamp", None, {}, 0x2000, lamp=0x0F, switch=0x00)
    t.add("fetch-lamp-switch", None, {}, 0x2000, lamp=0xB7, switch=0x12)
    t.add("fetch-lamp-rd", None, {}, 0x2000, lamp=0x37, switch=0x05)
    t.add("rom-to-nothing", NOP, {}, 0x7FC, actions="S,S,S")
    t.add("jump-over-the-top", j_type(1, -8), {}, 0, actions="S,S,S")
    for actions in ("S", "T", "W05", "S,T,W05,S"):
        t.add(f"stopped-{actions}", NOP, {}, 0x40, stopped=1, actions=actions)


def events(t):
    for enabled, stopped, place, action in itertools.product((0, 1), (0, 1), (0, 0x0C, 0x1C, 0x10, 0x20, 0x1000, 0xFFFFFFFC), ("T", "W00", "W05", "Wff")):
        t.add(f"event-{enabled}{stopped}-{place:x}-{action}", None, {1: 5}, place, enabled=enabled, stopped=stopped, switch=0x33, saved=0x44, actions=action)
    for place, saved, enabled in itertools.product((0x40, 0x1000), (0, 0x3C, 0x40, 0x44, 0x48, 0x1004, 0xFFFFFFFC), (0, 1)):
        t.add(f"return-{place:x}-{saved:x}-{enabled}", RETURN, {1: 5}, place, saved=saved, enabled=enabled)
    handlers = [(0x10, i_type(0x13, 0, 5, 5, 1).to_bytes(4, "little") + RETURN.to_bytes(4, "little")),
                (0x20, i_type(0x03, 4, 6, 7, 1).to_bytes(4, "little") + s_type(0, 7, 6, 0).to_bytes(4, "little") + RETURN.to_bytes(4, "little"))]
    main = [(0x100, i_type(0x13, 0, 1, 1, 1).to_bytes(4, "little") + j_type(0, -4).to_bytes(4, "little"))]
    for actions in ("T", "T,S", "T,S,S", "T,S,S,S", "S,T,S,S,S,S", "T,T", "T,W05", "W05", "W05,S", "W05,S,S", "W05,S,S,S", "W05,S,S,S,S,S",
                    "W05,S,S,S,T,S,S,S", "T,S,S,T,S,S", "S,S,S,W80,S,S,S,S", "W01,W02,S,S,S,W03,S,S,S", "S,S,S,S,S,S,S,S"):
        t.add(f"run-{actions}", None, {7: 0x2000}, 0x100, rom=handlers + main, actions=actions)


def refusals(t):
    for at in (PLACE, SAVED):
        for low in (1, 2, 3, 0xFF, 0xFE, 0xFD):
            t.add(f"unlawful-{at}-{low:x}", raw=[(at + 3, [low])])
        for high in (0x00, 0x01, 0xFF):
            t.add(f"lawful-{at}-{high:x}", raw=[(at, [high, 0xFF, 0xFF, 0xFC])])
    for at in (ENABLED, STOPPED):
        for byte in (0, 1, 2, 3, 0x80, 0xFF):
            t.add(f"flag-{at}-{byte:x}", raw=[(at, [byte])])
    broken = [(PLACE + 3, [2]), (SAVED + 3, [1]), (ENABLED, [2]), (STOPPED, [2])]
    for first in range(4):
        t.add(f"first-of-{4 - first}", raw=broken[first:])
        t.add(f"all-but-{first}", raw=broken[:first] + broken[first + 1:])
    for length in (0, 1, 4231, 4233, 4608):
        t.add(f"length-{length}", length=length)
        t.add(f"length-{length}-unlawful", raw=broken, length=length)
    t.add("free-bytes", NOP, {k: 0x01010101 * k for k in range(1, 32)}, 0x40, lamp=0xFF, switch=0xFF, rom=[(0x7FF, [0xFF])], ram=[(0x1000, [0xFF]), (0x17FF, [0xFF])])
    for room in (0, 1, 4231, 4232, 4233, 4608):
        t.add(f"room-{room}", NOP, {1: 0x01020304}, room=room)


def main():
    table = Table()
    for section in (arithmetic, jumps, branches, memory, words, places, events, refusals):
        section(table)
    (FOLDER / "stdin").write_text("\n".join(table.lines) + "\n")
    (FOLDER / "stdout").write_text("\n".join(table.answers) + "\n")
    print(len(table.lines), "cases")


main()
