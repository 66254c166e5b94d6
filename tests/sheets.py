#!/usr/bin/env python3
"""Sheets, as crates/sheets_main reads them.

    tests/sheets.py crates/sheets_main DIR..     writes stdin and stdout
    tests/sheets.py --model SHEET..              prints what the model below makes of each sheet

stdin has each NAME.sheet of the folders and the sheets of `damaged`, stdout what each must print (NAME.out, or what the model gives) and
the two lines that the program writes after it. The model reads a sheet line by line and runs a few instructions (`Machine.plan`), written
from the standard on Python's integers. Where it knows every word of a sheet, it must give what NAME.out says.
"""
import glob
import re
import sys

class Bad(Exception):
    """A bad sheet, and its first bad line."""

class Illegal(Exception):
    """A word that is illegal in this state."""

class Unknown(Exception):
    """A word that the model does not know."""

FIRST_LINES = [rb'rights=([-rw]{16})', rb'x10=([0-9a-f]{16})', rb'x11=([0-9a-f]{16})', rb'x12=([0-9a-f]{16})',
               rb'allow=([1-9]|[1-9][0-9]|1[01][0-9]|12[0-8])']

def parse(sheet):
    """The values of the first five lines, and the words."""
    *lines, rest = sheet.split(b'\n')
    values, words = [], []
    for n, pattern in enumerate(FIRST_LINES, 1):
        match = n <= len(lines) and re.fullmatch(pattern, lines[n - 1])
        if not match:
            raise Bad(n)
        values.append(match[1])
    for n in range(6, 71):
        line = lines[n - 1] if n <= len(lines) else b''
        match = re.fullmatch(rb'word=([0-9a-f]{8})', line)
        if match and n < 70:
            words.append(int(match[1], 16))
        elif n == 6 or line != b'end=1':
            raise Bad(n)
        elif lines[n:] or rest:
            raise Bad(n + 1)
        else:
            return values, words

def signed(bits, x):
    return x - (1 << bits) if x >> (bits - 1) else x

# funct6: funct3 of its vector, scalar and immediate forms, and the result of an element of vs2, the other operand, and the element of vd
OPERATIONS = {
    0x00: ((0, 4, 3), lambda a, b, d: a + b),      # vadd
    0x17: ((0, 4, 3), lambda a, b, d: b),          # vmv
    0x25: ((2, 6, None), lambda a, b, d: a * b),   # vmul
    0x2d: ((2, 6, None), lambda a, b, d: b * a + d)}  # vmacc

class Machine:
    def __init__(self, rights, x10, x11, x12):
        self.rights = ['-rw'.index(chr(mark)) for mark in rights] + [0] * 240
        self.x = [0] * 10 + [int(x, 16) for x in (x10, x11, x12)] + [0] * 19
        self.memory, self.file = bytearray(a % 256 for a in range(4096)), bytearray(512)
        self.vtype, self.vl, self.vstart, self.vs = 1 << 63, 0, 0, 1
        self.wanted = 256, 0

    def set_type(self, word):
        rd, rs1, immediate = word >> 7 & 31, word >> 15 & 31, word >> 30 == 3
        if word >> 30 == 2 or rd == rs1 == 0 and not immediate:
            raise Unknown
        vtype = word >> 20 & (0x3ff if immediate else 0x7ff)
        eighths, sew = (8, 16, 32, 64, 0, 1, 2, 4)[vtype % 8], 8 << vtype // 8 % 8
        vlmax = 0 if vtype > 255 or sew > 64 or sew > 8 * eighths else 16 * eighths // sew
        avl = rs1 if immediate else self.x[rs1] if rs1 else 2**64 - 1
        self.vtype, self.vl = (vtype, min(avl, vlmax)) if vlmax else (1 << 63, 0)
        self.x[rd] = self.vl if rd else 0
        return 0

    def number(self, part, at, size):
        return int.from_bytes(part[at:at + size], 'little')

    def put(self, part, at, size, value):
        part[at:at + size] = (value % (1 << 8 * size)).to_bytes(size, 'little')

    def group(self, register, size):
        """The first byte of a group of elements of a size."""
        sew, eighths = 1 << self.vtype // 8 % 8, (8, 16, 32, 64, 0, 1, 2, 4)[self.vtype % 8]
        emul = eighths * size // sew
        if self.vtype >> 63 or not 1 <= emul <= 64 or register % max(emul // 8, 1):
            raise Illegal
        return 16 * register

    def plan(self, word):
        """What an element of the word does: it gives 0 or the trap."""
        opcode, vd, funct3, rs1, vs2 = word & 127, word >> 7 & 31, word >> 12 & 7, word >> 15 & 31, word >> 20 & 31
        if opcode in (0x07, 0x27) and word >> 25 == 1 and vs2 == 0 and funct3 in (0, 5, 6, 7):
            return self.access(self.group(vd, 1 << funct3 % 4), 1 << funct3 % 4, self.x[rs1], opcode == 0x27)
        if opcode == 0x57 and word >> 26 in (0x0e, 0x0f) and word >> 25 & 1 and funct3 in (3, 4, 6):
            offset = {3: rs1, 4: self.x[rs1], 6: 1}[funct3]
            return self.slide(word >> 26 == 0x0e, vd, vs2, offset, self.x[rs1] if funct3 == 6 else None)
        forms, result = OPERATIONS.get(word >> 26, ((), None))
        if opcode != 0x57 or not word >> 25 & 1 or funct3 not in forms or word >> 26 == 0x17 and vs2:
            raise Unknown
        size = 1 << self.vtype // 8 % 8
        d, a, b = (self.group(r, size) for r in (vd, vs2, rs1 if funct3 == forms[0] else 0))
        scalar = {forms[1]: self.x[rs1], forms[2]: signed(5, rs1)}.get(funct3)

        def element(i):
            other = self.number(self.file, b + size * i, size) if scalar is None else scalar
            value = result(self.number(self.file, a + size * i, size), other, self.number(self.file, d + size * i, size))
            self.put(self.file, d + size * i, size, value)
            return 0
        return element

    def slide(self, up, vd, vs2, offset, scalar):
        """vslideup and vslidedown; by one, with the scalar put in: vslide1up and vslide1down. Elements come from the file before."""
        size, eighths = 1 << self.vtype // 8 % 8, (8, 16, 32, 64, 0, 1, 2, 4)[self.vtype % 8]
        d, a, before = self.group(vd, size), self.group(vs2, size), bytes(self.file)
        vlmax = 2 * eighths // size
        if up and abs(vd - vs2) < max(eighths // 8, 1):
            raise Illegal

        def element(i):
            k = i - offset if up else i + offset
            if scalar is not None and i == (0 if up else self.vl - 1):
                self.put(self.file, d + size * i, size, scalar)
            elif k >= 0:
                self.put(self.file, d + size * i, size, self.number(before, a + size * k, size) if k < vlmax else 0)
            return 0
        return element

    def access(self, d, size, base, store):
        def element(i):
            address = (base + size * i) % 2**64
            if address % size:
                return 6 if store else 4
            if address + size > 4096:
                return 7 if store else 5
            if self.rights[address // 256] < 1 + store:
                self.wanted = address // 256, 1 + store
                return 7 if store else 5
            of, to = ((self.file, d + size * i), (self.memory, address))[::1 if store else -1]
            self.put(to[0], to[1], size, self.number(of[0], of[1], size))
            return 0
        return element

    def turn(self, word, allow):
        if word & 0x707f == 0x7057:
            return self.set_type(word)
        try:
            element = self.plan(word)
        except Illegal:
            return 2
        for i in range(self.vstart, min(self.vl, self.vstart + allow)):
            trap = element(i)
            if trap:
                return trap
            self.vstart += 1
        if self.vstart < self.vl:
            return 1
        self.vstart = 0
        return 0

def run(sheet):
    """What a sheet prints."""
    try:
        (*parts, allow), words = parse(sheet)
    except Bad as bad:
        return 'sheet=bad\nline=%d\n' % bad.args
    m, text, answer = Machine(*parts), '', 0
    for word in words:
        while True:
            answer = m.turn(word, int(allow))
            if answer != 2:
                m.vs = 3
            text += 'word=%08x\nanswer=%d\n' % (word, answer)
            if 4 <= answer <= 7:
                text += 'page=%d\nright=%d\n' % m.wanted
            text += 'vstart=%d\nvl=%d\nvtype=%016x\nvs=%d\n' % (m.vstart, m.vl, m.vtype, m.vs)
            if answer != 1:
                break
        if answer:
            break
    text += ''.join('x%d=%016x\n' % (n, m.x[n]) for n in (10, 11, 12))
    registers = [m.file[16 * n:16 * n + 16][::-1] for n in range(32)]
    return text + ''.join('v%d=%s\n' % (n, value.hex()) for n, value in enumerate(registers) if any(value))

def damaged():
    """S1 cut off at each byte, or with that byte a NUL, left out or doubled; and long sheets."""
    s1 = (b'rights=w---------------\nx10=0000000000000003\nx11=00000000000000f8\nx12=0000000000000000\nallow=1\n'
          b'word=01057657\nword=0205e407\nend=1\n')
    for k in range(len(s1)):
        yield from (s1[:k], s1[:k] + b'\0' + s1[k + 1:], s1[:k] + s1[k + 1:], s1[:k + 1] + s1[k:])
    yield from (b'a' * 300000, b'rights=' + b'w' * 2000, s1 + b'x' * 2000)

def stored(folders):
    for name in sorted(name for folder in folders for name in glob.glob(folder + '/*.sheet')):
        sheet, out = open(name, 'rb').read(), open(name[:-6] + '.out').read()
        try:
            if run(sheet) != out:
                sys.exit('%s: the model does not give this output' % name)
        except Unknown:
            pass
        yield sheet, out

def main():
    if sys.argv[1] == '--model':
        sys.stdout.write(''.join(run(open(name, 'rb').read()) for name in sys.argv[2:]))
        return
    cases = [*stored(sys.argv[2:]), *((sheet, run(sheet)) for sheet in damaged())]
    with open(sys.argv[1] + '/stdin', 'wb') as f:
        f.write(b''.join(b'%08x' % len(sheet) + sheet for sheet, _ in cases))
    with open(sys.argv[1] + '/stdout', 'w') as f:
        f.write(''.join(out + 'rest=ok\nshort=ok\n' for _, out in cases))

main()
