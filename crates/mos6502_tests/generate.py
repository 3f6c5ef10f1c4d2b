#!/usr/bin/env python3
"""Writes stdin and stdout of this crate: a table of cases for the 6502 guest, and what each has to leave.

The processor below is written from the MCS6500 programming manual and the guest's house rules, and shares nothing with the
program under test. Run it in this folder; it is deterministic.

A line of stdin is a name, settings and actions. A setting is KEY=HEX: a register (A X Y S P), the place (PC), STOP, LAMP, SW
(the switch) or an address in RAM or ROM, with the bytes from there on. Memory that is not set holds pattern(address). An action is
step, timer or switch:HEX.
A line of stdout has the name, a letter for each action (o: onward, t: transfer, -: no unit took place), all registers, and
each byte of memory that changed.
"""
import random

RAM = range(0x0000, 0x0800)
ROM = range(0xF800, 0x10000)


def pattern(at):
    return (at % 256 * 7 + at // 256 * 13 + 3) % 256


# ---- the manual's opcode tables --------------------------------------------------------------------------------------

GROUPS = {
    # mnemonic: mode -> opcode
    'ADC': dict(imm=0x69, zp=0x65, zpx=0x75, abs=0x6D, abx=0x7D, aby=0x79, inx=0x61, iny=0x71),
    'AND': dict(imm=0x29, zp=0x25, zpx=0x35, abs=0x2D, abx=0x3D, aby=0x39, inx=0x21, iny=0x31),
    'ASL': dict(acc=0x0A, zp=0x06, zpx=0x16, abs=0x0E, abx=0x1E),
    'BIT': dict(zp=0x24, abs=0x2C),
    'CMP': dict(imm=0xC9, zp=0xC5, zpx=0xD5, abs=0xCD, abx=0xDD, aby=0xD9, inx=0xC1, iny=0xD1),
    'CPX': dict(imm=0xE0, zp=0xE4, abs=0xEC),
    'CPY': dict(imm=0xC0, zp=0xC4, abs=0xCC),
    'DEC': dict(zp=0xC6, zpx=0xD6, abs=0xCE, abx=0xDE),
    'EOR': dict(imm=0x49, zp=0x45, zpx=0x55, abs=0x4D, abx=0x5D, aby=0x59, inx=0x41, iny=0x51),
    'INC': dict(zp=0xE6, zpx=0xF6, abs=0xEE, abx=0xFE),
    'LDA': dict(imm=0xA9, zp=0xA5, zpx=0xB5, abs=0xAD, abx=0xBD, aby=0xB9, inx=0xA1, iny=0xB1),
    'LDX': dict(imm=0xA2, zp=0xA6, zpy=0xB6, abs=0xAE, aby=0xBE),
    'LDY': dict(imm=0xA0, zp=0xA4, zpx=0xB4, abs=0xAC, abx=0xBC),
    'LSR': dict(acc=0x4A, zp=0x46, zpx=0x56, abs=0x4E, abx=0x5E),
    'ORA': dict(imm=0x09, zp=0x05, zpx=0x15, abs=0x0D, abx=0x1D, aby=0x19, inx=0x01, iny=0x11),
    'ROL': dict(acc=0x2A, zp=0x26, zpx=0x36, abs=0x2E, abx=0x3E),
    'ROR': dict(acc=0x6A, zp=0x66, zpx=0x76, abs=0x6E, abx=0x7E),
    'SBC': dict(imm=0xE9, zp=0xE5, zpx=0xF5, abs=0xED, abx=0xFD, aby=0xF9, inx=0xE1, iny=0xF1),
    'STA': dict(zp=0x85, zpx=0x95, abs=0x8D, abx=0x9D, aby=0x99, inx=0x81, iny=0x91),
    'STX': dict(zp=0x86, zpy=0x96, abs=0x8E),
    'STY': dict(zp=0x84, zpx=0x94, abs=0x8C),
    'JMP': dict(abs=0x4C, ind=0x6C),
    'JSR': dict(abs=0x20),
    'BPL': dict(rel=0x10), 'BMI': dict(rel=0x30), 'BVC': dict(rel=0x50), 'BVS': dict(rel=0x70),
    'BCC': dict(rel=0x90), 'BCS': dict(rel=0xB0), 'BNE': dict(rel=0xD0), 'BEQ': dict(rel=0xF0),
    'BRK': dict(imp=0x00), 'RTI': dict(imp=0x40), 'RTS': dict(imp=0x60),
    'PHP': dict(imp=0x08), 'PLP': dict(imp=0x28), 'PHA': dict(imp=0x48), 'PLA': dict(imp=0x68),
    'CLC': dict(imp=0x18), 'SEC': dict(imp=0x38), 'CLI': dict(imp=0x58), 'SEI': dict(imp=0x78),
    'CLV': dict(imp=0xB8), 'CLD': dict(imp=0xD8), 'SED': dict(imp=0xF8), 'NOP': dict(imp=0xEA),
    'TAX': dict(imp=0xAA), 'TXA': dict(imp=0x8A), 'TAY': dict(imp=0xA8), 'TYA': dict(imp=0x98),
    'TSX': dict(imp=0xBA), 'TXS': dict(imp=0x9A),
    'INX': dict(imp=0xE8), 'DEX': dict(imp=0xCA), 'INY': dict(imp=0xC8), 'DEY': dict(imp=0x88),
}
DECODE = {code: (name, mode) for name, modes in GROUPS.items() for mode, code in modes.items()}
assert len(DECODE) == 151
LENGTH = dict(imp=1, acc=1, imm=2, zp=2, zpx=2, zpy=2, inx=2, iny=2, rel=2, abs=3, abx=3, aby=3, ind=3)

# ---- the processor ---------------------------------------------------------------------------------------------------

N, V, U, B, D, I, Z, C = 0x80, 0x40, 0x20, 0x10, 0x08, 0x04, 0x02, 0x01


class Guest:
    def __init__(self):
        self.a = self.x = self.y = self.s = self.pc = 0
        self.p = U
        self.stop = self.lamp = self.sw = 0
        self.mem = {at: pattern(at) for r in (RAM, ROM) for at in r}

    # memory

    def rd(self, at):
        at &= 0xFFFF
        if at == 0xD000:
            return self.lamp
        if at == 0xD001:
            return self.sw
        return self.mem.get(at, 0)

    def wr(self, at, v):
        if at == 0xD000:
            self.lamp = v
        elif at in RAM:
            self.mem[at] = v

    def push(self, v):
        self.mem[0x100 | self.s] = v
        self.s = (self.s - 1) & 0xFF

    def pull(self):
        self.s = (self.s + 1) & 0xFF
        return self.mem[0x100 | self.s]

    # flags

    def flag(self, bit, on):
        self.p = self.p | bit if on else self.p & ~bit

    def nz(self, v):
        self.flag(N, v & 0x80)
        self.flag(Z, v == 0)
        return v

    def set_p(self, v):
        self.p = v & ~(B | U) | U

    # addresses

    def where(self, mode, p):
        b = self.rd(p + 1)
        w = b | self.rd(p + 2) << 8
        if mode == 'imm':
            return (p + 1) & 0xFFFF
        if mode == 'zp':
            return b
        if mode == 'zpx':
            return (b + self.x) & 0xFF
        if mode == 'zpy':
            return (b + self.y) & 0xFF
        if mode == 'abs':
            return w
        if mode == 'abx':
            return (w + self.x) & 0xFFFF
        if mode == 'aby':
            return (w + self.y) & 0xFFFF
        if mode == 'ind':
            return self.rd(w) | self.rd(w & 0xFF00 | (w + 1) & 0xFF) << 8
        if mode == 'inx':
            z = (b + self.x) & 0xFF
            return self.rd(z) | self.rd((z + 1) & 0xFF) << 8
        if mode == 'iny':
            return ((self.rd(b) | self.rd((b + 1) & 0xFF) << 8) + self.y) & 0xFFFF
        if mode == 'rel':
            return (p + 2 + (b - 256 if b & 0x80 else b)) & 0xFFFF
        return None

    # units

    def interrupt(self, back, pushed, vector):
        self.push(back >> 8)
        self.push(back & 0xFF)
        self.push(pushed)
        self.flag(I, True)
        self.pc = self.rd(vector) | self.rd(vector + 1) << 8

    def take(self, event, data=0):
        if self.stop or event == 'switch' and self.p & I:
            return '-'
        if event == 'switch':
            self.sw = data
        self.interrupt(self.pc, self.p & ~B | U, 0xFFFE if event == 'switch' else 0xFFFA)
        return 't'

    def step(self):
        if self.stop:
            return '-'
        p = self.pc
        if self.rd(p) not in DECODE:
            self.stop = 1
            return 't'
        name, mode = DECODE[self.rd(p)]
        at = self.where(mode, p)
        self.pc = (p + LENGTH[mode]) & 0xFFFF
        self.carry_out(name, mode, at, p)
        return 'o' if self.pc == p + LENGTH[mode] else 't'

    def carry_out(self, name, mode, at, p):
        if name in ('LDA', 'LDX', 'LDY'):
            setattr(self, name[2].lower(), self.nz(self.rd(at)))
        elif name in ('STA', 'STX', 'STY'):
            self.wr(at, getattr(self, name[2].lower()))
        elif name == 'AND':
            self.a = self.nz(self.a & self.rd(at))
        elif name == 'ORA':
            self.a = self.nz(self.a | self.rd(at))
        elif name == 'EOR':
            self.a = self.nz(self.a ^ self.rd(at))
        elif name in ('ADC', 'SBC'):
            self.arithmetic(self.rd(at), name == 'SBC')
        elif name in ('CMP', 'CPX', 'CPY'):
            r = self.a if name == 'CMP' else self.x if name == 'CPX' else self.y
            m = self.rd(at)
            self.flag(C, r >= m)
            self.nz((r - m) & 0xFF)
        elif name == 'BIT':
            m = self.rd(at)
            self.flag(N, m & 0x80)
            self.flag(V, m & 0x40)
            self.flag(Z, not self.a & m)
        elif name in ('INC', 'DEC'):
            self.wr(at, self.nz((self.rd(at) + (1 if name == 'INC' else -1)) & 0xFF))
        elif name in ('ASL', 'LSR', 'ROL', 'ROR'):
            v = self.shift(name, self.a if mode == 'acc' else self.rd(at))
            if mode == 'acc':
                self.a = v
            else:
                self.wr(at, v)
        elif mode == 'rel':
            bit, on = {'BPL': (N, 0), 'BMI': (N, 1), 'BVC': (V, 0), 'BVS': (V, 1),
                       'BCC': (C, 0), 'BCS': (C, 1), 'BNE': (Z, 0), 'BEQ': (Z, 1)}[name]
            if bool(self.p & bit) == bool(on):
                self.pc = at
        else:
            self.other(name, at, p)

    def other(self, name, at, p):
        if name == 'JMP':
            self.pc = at
        elif name == 'JSR':
            low = self.rd(p + 1)
            back = (p + 2) & 0xFFFF
            self.push(back >> 8)
            self.push(back & 0xFF)
            self.pc = low | self.rd(p + 2) << 8
        elif name == 'RTS':
            low = self.pull()
            self.pc = ((low | self.pull() << 8) + 1) & 0xFFFF
        elif name == 'RTI':
            self.set_p(self.pull())
            low = self.pull()
            self.pc = low | self.pull() << 8
        elif name == 'BRK':
            self.interrupt((p + 2) & 0xFFFF, self.p | B | U, 0xFFFE)
        elif name == 'PHA':
            self.push(self.a)
        elif name == 'PHP':
            self.push(self.p | B | U)
        elif name == 'PLA':
            self.a = self.nz(self.pull())
        elif name == 'PLP':
            self.set_p(self.pull())
        elif name in ('CLC', 'CLD', 'CLI', 'CLV', 'SEC', 'SED', 'SEI'):
            self.flag(dict(C=C, D=D, I=I, V=V)[name[2]], name[0] == 'S')
        elif name in ('INX', 'DEX', 'INY', 'DEY'):
            r = name[2].lower()
            setattr(self, r, self.nz((getattr(self, r) + (1 if name[0] == 'I' else -1)) & 0xFF))
        elif name == 'TXS':
            self.s = self.x
        elif name[0] == 'T':
            setattr(self, name[2].lower(), self.nz(getattr(self, name[1].lower())))
        else:
            assert name == 'NOP'

    def arithmetic(self, m, minus):
        def signed(v):
            return v - 256 if v & 0x80 else v
        carry = self.p & C
        if minus:
            t = self.a - m - (1 - carry)
            s = signed(self.a) - signed(m) - (1 - carry)
            self.flag(C, t >= 0)
        else:
            t = self.a + m + carry
            s = signed(self.a) + signed(m) + carry
            self.flag(C, t > 255)
        self.flag(V, not -128 <= s <= 127)
        self.a = self.nz(t & 0xFF)

    def shift(self, name, v):
        carry = self.p & C
        left = name in ('ASL', 'ROL')
        self.flag(C, v & (0x80 if left else 0x01))
        r = v << 1 & 0xFF if left else v >> 1
        if name[0] == 'R' and carry:
            r |= 0x01 if left else 0x80
        return self.nz(r)


# ---- the cases -------------------------------------------------------------------------------------------------------

rng = random.Random(6502)
stdin, stdout = [], []
HEAD = ('a', 'x', 'y', 's', 'p', 'pc', 'stop', 'lamp', 'sw')
WIDTH = dict(pc=4)


def case(name, actions=('step',), pokes=None, **regs):
    g = Guest()
    words = ['%s-%d' % (name, len(stdin))]
    for r in HEAD:
        if r in regs:
            setattr(g, r, regs[r])
            words.append('%s=%0*X' % (r.upper(), WIDTH.get(r, 2), regs[r]))
    last = None
    for at, v in sorted((pokes or {}).items()):
        if at in g.mem:
            g.mem[at] = v
            if at - 1 == last:
                words[-1] += '%02X' % v
            else:
                words.append('%04X=%02X' % (at, v))
            last = at
    before = dict(g.mem)
    told = ''
    for action in actions:
        if action == 'step':
            told += g.step()
        elif action == 'timer':
            told += g.take('timer')
        else:
            told += g.take('switch', int(action.split(':')[1], 16))
    stdin.append(' '.join(words + list(actions)))
    after = ['%s=%0*X' % (r.upper(), WIDTH.get(r, 2), getattr(g, r)) for r in HEAD]
    changed = ['%04X=%02X' % (at, g.mem[at]) for at in sorted(g.mem) if g.mem[at] != before[at]]
    stdout.append(' '.join([words[0], told] + after + changed))


def flags(fixed=0, mask=0):
    """Some P, with the bits of mask as in fixed."""
    p = rng.randrange(256) & ~mask | fixed
    return p & ~B | U


def byte():
    return rng.choice((0x00, 0x01, 0x7F, 0x80, 0xFF, rng.randrange(256)))


def regs(**given):
    r = dict(a=byte(), x=byte(), y=byte(), s=rng.randrange(256), p=flags(), pc=rng.choice((0xF900, 0x0600, 0x04FE)))
    r.update(given)
    return r


def code(at, *data):
    return {(at + k) & 0xFFFF: v for k, v in enumerate(data)}


def word(w):
    return w & 0xFF, w >> 8 & 0xFF


EDGES = (0x00, 0x01, 0x0F, 0x10, 0x7E, 0x7F, 0x80, 0x81, 0xFE, 0xFF)
READS = ('ADC', 'AND', 'BIT', 'CMP', 'CPX', 'CPY', 'EOR', 'LDA', 'LDX', 'LDY', 'ORA', 'SBC')
SHIFTS = ('ASL', 'LSR', 'ROL', 'ROR')
PLACES = (0x0000, 0x00FF, 0x0100, 0x01FF, 0x0345, 0x07FF, 0x0800, 0xCFFF, 0xD000, 0xD001, 0xD002, 0xF7FF, 0xF800, 0xFABC, 0xFFFF)


def placements(mode):
    """Operand bytes, registers and pointer bytes that lead to edges of a mode, with the address that they should lead to."""
    if mode == 'imm':
        yield None, {}, {}, None
    elif mode == 'zp':
        for b in (0x00, 0x42, 0xFF):
            yield (b,), {}, {}, b
    elif mode in ('zpx', 'zpy'):
        for b, i in ((0x10, 0x20), (0x80, 0x7F), (0x80, 0x80), (0xFF, 0x01), (0xFF, 0xFF), (0x00, 0x00)):
            yield (b,), {mode[2]: i}, {}, (b + i) & 0xFF
    elif mode == 'abs':
        for w in PLACES:
            yield word(w), {}, {}, w
    elif mode in ('abx', 'aby'):
        for w, i in ((0x0200, 0x00), (0x02F0, 0x20), (0x07FF, 0x01), (0x07F0, 0x0F), (0xCFFF, 0x01), (0xCF02, 0xFF),
                     (0xFFFF, 0x01), (0xFFFF, 0xFF), (0xF7FF, 0x01), (0x00FF, 0x01)):
            yield word(w), {mode[2]: i}, {}, (w + i) & 0xFFFF
    elif mode == 'inx':
        for b, i, w in ((0x20, 0x04, 0x0345), (0xF0, 0x20, 0x0612), (0xFF, 0x00, 0x0345), (0x80, 0x7F, 0xD000), (0x10, 0x00, 0xD001),
                        (0xFE, 0x01, 0x07FF), (0x40, 0x02, 0xF812), (0x40, 0x02, 0x9000)):
            z = (b + i) & 0xFF
            low, high = word(w)
            yield (b,), dict(x=i), {z: low, (z + 1) & 0xFF: high, 0x100: 0x05}, w
    elif mode == 'iny':
        for b, i, w in ((0x20, 0x04, 0x0345), (0xFF, 0x10, 0x0345), (0x80, 0xFF, 0x0301), (0x10, 0x01, 0xCFFF), (0x10, 0x01, 0xD000),
                        (0x30, 0xFF, 0xFFFF), (0x40, 0x80, 0x0780), (0x40, 0x12, 0xF800), (0x00, 0x00, 0x8000)):
            low, high = word(w)
            yield (b,), dict(y=i), {b: low, (b + 1) & 0xFF: high, 0x100: 0x05}, (w + i) & 0xFFFF


def operated(name, mode, data, **given):
    """An instruction with its operand at each edge of its mode."""
    for operand, extra, pointer, at in placements(mode):
        r = regs(lamp=byte(), sw=byte(), **extra)
        r.update(given)
        r.update(extra)
        pc = r['pc']
        pokes = dict(pointer)
        value = rng.choice(data)
        if mode == 'imm':
            operand = (value,)
        elif at == 0xD000:
            r['lamp'] = value
        elif at == 0xD001:
            r['sw'] = value
        else:
            pokes[at] = value
        pokes.update(pointer)
        pokes.update(code(pc, GROUPS[name][mode], *operand))
        case('%s-%s' % (name, mode), pokes=pokes, **r)


def memory_cases():
    for name in READS + SHIFTS + ('INC', 'DEC', 'STA', 'STX', 'STY'):
        for mode in GROUPS[name]:
            if mode != 'acc':
                operated(name, mode, EDGES)
                operated(name, mode, EDGES)


def arithmetic_cases():
    for name in ('ADC', 'SBC'):
        for a in EDGES:
            for m in EDGES:
                for c in (0, C):
                    case(name + '-imm', pokes=code(0xF900, GROUPS[name]['imm'], m), **regs(a=a, pc=0xF900, p=flags(c, C)))
        for a, m in ((0x09, 0x01), (0x99, 0x01), (0x50, 0x50), (0x0A, 0x0B), (0x12, 0x21), (0x00, 0x01)):
            for p in (D, D | C):
                case(name + '-decimal', pokes=code(0xF900, GROUPS[name]['imm'], m), **regs(a=a, pc=0xF900, p=flags(p, D | C)))
    for name, r in (('CMP', 'a'), ('CPX', 'x'), ('CPY', 'y')):
        for v in (0x00, 0x01, 0x7F, 0x80, 0xFE, 0xFF):
            for m in (0x00, 0x01, 0x7F, 0x80, 0x81, 0xFF):
                case(name + '-imm', pokes=code(0xF900, GROUPS[name]['imm'], m), **regs(pc=0xF900, **{r: v}))
    for name in ('AND', 'ORA', 'EOR'):
        for a in (0x00, 0x0F, 0x55, 0x80, 0xFF):
            for m in (0x00, 0xAA, 0xF0, 0x7F, 0xFF):
                case(name + '-imm', pokes=code(0xF900, GROUPS[name]['imm'], m), **regs(a=a, pc=0xF900))
    for a in (0x00, 0x01, 0x40, 0x80, 0xFF):
        for m in (0x00, 0x01, 0x40, 0x80, 0xC0, 0xFF):
            case('BIT-zp', pokes={**code(0xF900, 0x24, 0x33), 0x33: m}, **regs(a=a, pc=0xF900))
    for name in ('LDA', 'LDX', 'LDY'):
        for m in EDGES:
            case(name + '-imm', pokes=code(0xF900, GROUPS[name]['imm'], m), **regs(pc=0xF900))
    for name in SHIFTS:
        for v in EDGES + (0x55, 0xAA):
            for c in (0, C):
                case(name + '-acc', pokes=code(0xF900, GROUPS[name]['acc']), **regs(a=v, pc=0xF900, p=flags(c, C)))
                case(name + '-zp', pokes={**code(0xF900, GROUPS[name]['zp'], 0x33), 0x33: v}, **regs(pc=0xF900, p=flags(c, C)))
    for name in ('INC', 'DEC'):
        for v in EDGES:
            case(name + '-zp', pokes={**code(0xF900, GROUPS[name]['zp'], 0x33), 0x33: v}, **regs(pc=0xF900))


def implied_cases():
    for name in ('INX', 'INY', 'DEX', 'DEY', 'TAX', 'TAY', 'TXA', 'TYA', 'TSX', 'TXS', 'NOP'):
        for v in EDGES:
            case(name, pokes=code(0xF900, GROUPS[name]['imp']), **regs(pc=0xF900, a=v, x=v ^ 0x80, y=(v + 1) & 0xFF, s=v ^ 0xFF))
            case(name, pokes=code(0x0300, GROUPS[name]['imp']), **regs(pc=0x0300, a=v ^ 0xFF, x=v, y=v, s=v))
    for name in ('CLC', 'SEC', 'CLI', 'SEI', 'CLV', 'CLD', 'SED'):
        for p in (U, 0xEF, flags(), flags()):
            case(name, pokes=code(0xF900, GROUPS[name]['imp']), **regs(pc=0xF900, p=p))
    for s in (0x00, 0x01, 0x80, 0xFE, 0xFF):
        for v in (0x00, 0x80, 0x30, 0xCF, 0xFF):
            for name in ('PHA', 'PLA', 'PHP', 'PLP'):
                case(name, pokes={**code(0xF900, GROUPS[name]['imp']), 0x100 | (s + 1) & 0xFF: v}, **regs(pc=0xF900, s=s, a=v))
    for v in range(0, 256, 5):
        case('PLP-bits', pokes={**code(0xF900, 0x28), 0x1F0: v}, **regs(pc=0xF900, s=0xEF))
        case('PHP-bits', pokes=code(0xF900, 0x08), **regs(pc=0xF900, s=0xEF, p=v & ~B | U))


def branch_cases():
    for name, (bit, on) in dict(BPL=(N, 0), BMI=(N, 1), BVC=(V, 0), BVS=(V, 1), BCC=(C, 0), BCS=(C, 1), BNE=(Z, 0), BEQ=(Z, 1)).items():
        op = GROUPS[name]['rel']
        for taken in (True, False):
            p = bit if bool(on) == taken else 0
            for pc, offset in ((0xF900, 0x00), (0xF900, 0x01), (0xF900, 0x7F), (0xF900, 0x80), (0xF900, 0xFF), (0xF900, 0xFE), (0xF9F0, 0x40),
                               (0x0000, 0x80), (0x0000, 0xFE), (0xFFFD, 0x00), (0xFFFD, 0x01), (0xFFFE, 0x00), (0xFFFF, 0x7F), (0xFFF0, 0x7F),
                               (0xD000, 0x10)):
                r = regs(pc=pc, p=flags(p, bit))
                if pc == 0xD000:
                    r.update(lamp=op, sw=offset)
                case(name, pokes=code(pc, op, offset), **r)


def jump_cases():
    for pc in (0xF900, 0x0300, 0xFFFD, 0xFFFE, 0x07FE):
        for target in (0x0000, 0x1234, 0x0303, 0xF903, 0xFFFF, 0xF900, 0x0301):
            case('JMP-abs', pokes=code(pc, 0x4C, *word(target)), **regs(pc=pc))
            for s in (0x00, 0x01, 0xFF):
                case('JSR', pokes=code(pc, 0x20, *word(target)), **regs(pc=pc, s=s))
    for at in (0x02FF, 0x0200, 0x00FF, 0x07FF, 0xF8FF, 0xFFFF, 0xD000, 0xCFFF, 0xD0FF):
        for v in (0x1234, 0xF903, 0x00FF):
            pokes = code(0xF900, 0x6C, *word(at))
            pokes.update({at: v & 0xFF, at & 0xFF00 | (at + 1) & 0xFF: v >> 8, (at + 1) & 0xFFFF: 0x05 if at & 0xFF == 0xFF else v >> 8})
            case('JMP-ind', pokes=pokes, **regs(pc=0xF900, lamp=0x77, sw=0x66))
    # where the instruction lies on the stack, under its own push
    for pc, s in ((0x01FD, 0xFF), (0x01FD, 0xFE), (0x01FC, 0xFE), (0x01FC, 0xFF), (0x0100, 0x02), (0x0100, 0x01), (0x01FE, 0x00), (0x01FE, 0x01)):
        case('JSR-under-push', pokes=code(pc, 0x20, 0x34, 0x06), **regs(pc=pc, s=s))
    for s in (0xFD, 0xFE, 0xFF, 0x00, 0x40):
        for w in (0x0000, 0x1233, 0xFFFF, 0xF900, 0xF8FF):
            stack = {0x100 | (s + 1 + k) & 0xFF: v for k, v in enumerate(word(w))}
            case('RTS', pokes={**code(0xF900, 0x60), **stack}, **regs(pc=0xF900, s=s))
            for p in (0x00, 0x30, 0xFF, rng.randrange(256)):
                stack = {0x100 | (s + 1 + k) & 0xFF: v for k, v in enumerate((p,) + word(w))}
                case('RTI', pokes={**code(0xF900, 0x40), **stack}, **regs(pc=0xF900, s=s))


def interrupt_cases():
    for pc in (0xF900, 0x0300, 0xFFFE, 0xFFFF, 0xFFFD, 0x00FF, 0x8000):
        for s in (0x00, 0x01, 0x02, 0xFF):
            for vector in (0x0300, (pc + 1) & 0xFFFF):
                pokes = code(0xFFFE, *word(vector))
                if pc < 0xFFFE:
                    pokes.update(code(pc, 0x00))
                case('BRK', pokes=pokes, **regs(pc=pc, s=s))
    for p in (U, U | I, U | D | C, 0xEF, 0xEB):
        for s in (0x00, 0x01, 0x02, 0x80, 0xFF):
            for pc in (0x0000, 0x1234, 0xF8FF, 0xFFFF):
                vectors = {**code(0xFFFA, 0x20, 0xF8), **code(0xFFFE, 0x40, 0x03)}
                case('timer', ('timer',), pokes=vectors, **regs(pc=pc, s=s, p=p))
                case('switch', ('switch:%02X' % byte(),), pokes=vectors, **regs(pc=pc, s=s, p=p, sw=byte()))
    for p in (U, U | I):
        for stop in (0, 1):
            for actions in (('timer',), ('switch:05',), ('step',), ('step', 'timer', 'switch:05', 'step')):
                case('stopped', actions, pokes=code(0xF900, 0xEA), **regs(pc=0xF900, stop=stop, p=p))
    # a handler that changes nothing, entered and left: the place and P come back
    handlers = {**code(0xFFFA, 0x20, 0xF8), **code(0xFFFE, 0x40, 0xF8), **code(0xF820, 0x40), **code(0xF840, 0x40), **code(0xF900, 0xEA, 0xEA, 0xEA)}
    for p in (U, U | I, 0xEF, 0xEB, flags(), flags(), flags()):
        for s in (0x00, 0x01, 0x02, 0x03, 0x80, 0xFF):
            for pc in (0xF900, 0xF901):
                case('timer-and-back', ('timer', 'step', 'step'), pokes=handlers, **regs(pc=pc, s=s, p=p))
                case('switch-and-back', ('switch:9C', 'step', 'step'), pokes=handlers, **regs(pc=pc, s=s, p=p))
                case('nested', ('switch:11', 'switch:22', 'timer', 'step', 'step', 'switch:33'), pokes=handlers, **regs(pc=pc, s=s, p=p))
    # BRK and back: RTI comes back one byte further than the byte behind BRK
    for s in (0x00, 0x02, 0xFF):
        case('BRK-and-back', ('step', 'step', 'step'), pokes={**handlers, **code(0xF900, 0x00, 0xFF, 0xEA)}, **regs(pc=0xF900, s=s))
    # nothing is delayed after CLI and SEI
    case('CLI-switch', ('switch:01', 'step', 'switch:02'), pokes={**handlers, **code(0xF900, 0x58)}, **regs(pc=0xF900, p=U | I))
    case('SEI-switch', ('step', 'switch:02', 'timer'), pokes={**handlers, **code(0xF900, 0x78)}, **regs(pc=0xF900, p=U))
    case('PLP-switch', ('step', 'switch:02'), pokes={**handlers, **code(0xF900, 0x28), 0x1FF: 0x00}, **regs(pc=0xF900, s=0xFE, p=U | I))


def place_cases():
    # every operation at the end of memory: the operand wraps, and just past does not
    for opcode, (name, mode) in sorted(DECODE.items()):
        for pc in (0xFFFF, 0xFFFE, 0xFFFD):
            case('%s-%s-end' % (name, mode), pokes=code(pc, opcode, 0x01, 0x02), **regs(pc=pc))
    # code in the lamp and the switch, in unmapped space, and on the way out of RAM
    case('NOP-lamp', ('step', 'step', 'step'), **regs(pc=0xD000, lamp=0xEA, sw=0xEA))
    case('LDA-lamp', **regs(pc=0xD000, lamp=0xA9, sw=0x80))
    case('STA-self', ('step', 'step'), pokes=code(0x0300, 0x85, 0x33), **regs(pc=0x0300, a=0x55))
    case('unmapped', ('step', 'step'), pokes=code(0xFFFE, 0x00, 0x03), **regs(pc=0x9000))
    case('out-of-RAM', ('step', 'step'), pokes={**code(0x07FF, 0xEA), **code(0xFFFE, 0x00, 0x03)}, **regs(pc=0x07FF))
    case('into-ROM', ('step', 'step'), pokes={**code(0xFFFE, 0x00, 0x03)}, **regs(pc=0xF7FF))
    case('self-change', ('step', 'step'), pokes=code(0x0300, 0x8D, 0x03, 0x03, 0x00), **regs(pc=0x0300, a=0xEA))


def undefined_cases():
    for opcode in range(256):
        if opcode not in DECODE:
            for pc in (0xF900, 0x0345, 0xFFFF):
                case('undefined', ('step', 'step') if pc == 0xF900 else ('step',), pokes=code(pc, opcode), **regs(pc=pc))


def random_cases():
    codes = sorted(DECODE)
    for _ in range(900):
        pc = rng.choice((rng.randrange(0x0000, 0x0800), rng.randrange(0xF800, 0xFFF0), rng.choice((0x00FE, 0x01FE, 0x07FD, 0xFFFD))))
        opcode = rng.choice(codes)
        pokes = {rng.randrange(0x100): rng.choice((0x00, 0x07, 0xD0, 0xFF, rng.randrange(256))) for _ in range(4)}
        pokes.update(code(pc, opcode, rng.randrange(256), rng.choice((0x00, 0x01, 0x03, 0x07, 0xD0, 0xCF, 0xF8, 0xFF))))
        case('random', pokes=pokes, **regs(pc=pc, lamp=rng.randrange(256), sw=rng.randrange(256)))
    for _ in range(150):
        # a stretch of code, stepped through with an event now and then
        pokes = code(0xFFFA, 0x00, 0x03, 0x00, 0x02, 0x00, 0x04)
        for at in (0x0200, 0x0300, 0x0400):
            stretch = []
            while len(stretch) < 32:
                opcode = rng.choice(codes)
                operand = (rng.randrange(256), rng.choice((0x00, 0x01, 0x02, 0x03, 0x04, 0xD0)))
                stretch += [opcode, *operand[:LENGTH[DECODE[opcode][1]] - 1]]
            pokes.update(code(at, *stretch))
        actions = [rng.choice(('step',) * 8 + ('timer', 'switch:%02X' % rng.randrange(256))) for _ in range(16)]
        case('stretch', actions, pokes=pokes, **regs(pc=0x0200))


memory_cases()
arithmetic_cases()
implied_cases()
branch_cases()
jump_cases()
interrupt_cases()
place_cases()
undefined_cases()
random_cases()

with open('stdin', 'w') as f:
    f.write('\n'.join(stdin) + '\n')
with open('stdout', 'w') as f:
    f.write('\n'.join(stdout) + '\n')
