#!/usr/bin/env python3
"""Lists of turns with changes between them, as crates/changes_main reads them.

    tests/changes.py crates/changes_main VECTORS..

writes stdin (the cases) and stdout (what the program must print), from instruction vectors (tests/vectors.py has their form) that finish. A
case is made of a vector so:
- Registers, scalars and memory are 0, but for what the word reads or writes (`registers_of`, `scalars_of`, `Case.addresses` below, written
  from documents 000 and 02 and not from specs/): were one forgotten, its 0 would show in the state after wherever it matters.
- The elements are cut into turns at random; some pages that they need are closed at first, and opened after the trap.
- Before the first turn and between turns, what the word does not touch is changed: of registers and memory mostly the nearest bytes.
The state after is the vector's, with the changes: no value is worked out here but a checksum. Of each kind of word some vectors are taken,
by a fixed seed.
"""
import collections
import os
import random
import sys

def scalar_image(n):
    return (n * 0x0123456789abcdef + 0x55) % 2**64 if n else 0x00f00d00deadbeef

def register_image(k):
    return (73 * k + 29) % 256

def memory_image(a):
    return ((167 * a + 59 * (a // 256) + 13) ^ (a // 8)) % 256

class Word:
    def __init__(self, word):
        self.word = word
        self.opcode, self.rd, self.funct3 = word % 128, word >> 7 & 31, word >> 12 & 7
        self.rs1, self.rs2, self.vm, self.funct6 = word >> 15 & 31, word >> 20 & 31, word >> 25 & 1, word >> 26
        self.mop, self.nf = word >> 26 & 3, (word >> 29) + 1
        self.eew = {0: 8, 5: 16, 6: 32, 7: 64}.get(self.funct3)
        self.is_memory = self.opcode != 0x57
        self.is_whole = self.is_memory and self.mop == 0 and self.rs2 == 8
        self.is_mask = self.is_memory and self.mop == 0 and self.rs2 == 11

    # words of one kind differ in register numbers, numbers and whether they are masked
    def kind(self):
        if self.is_memory:
            return (self.opcode, self.mop, self.nf, self.funct3, self.rs2 if self.mop == 0 else 0)
        chosen = self.rs1 if self.funct3 == 2 and self.funct6 in (16, 18, 20) else self.vm if self.funct6 == 23 else 0
        return (self.opcode, self.funct3, self.word >> 30 if self.funct3 == 7 else self.funct6, chosen)

# the operands of a word: (register, EEW as a multiple of SEW or None for one register of any kind)
def operands(w):
    vd, vs2, vs1 = (w.rd, 1), (w.rs2, 1), (w.rs1, 1)
    one = lambda r: (r, None)
    f3, f6 = w.funct3, w.funct6
    if f3 == 7:
        return []
    if f3 in (0, 3, 4):
        second = [vs1] if f3 == 0 else []
        if f6 in (44, 45, 46, 47):
            return [vd, (w.rs2, 2)] + second
        if f6 in (48, 49):
            return [one(w.rd), vs2, one(w.rs1)]
        if 24 <= f6 <= 31 or f6 in (17, 19):
            return [one(w.rd), vs2] + second
        if f6 == 23 and w.vm:
            return [vd] + second
        if f6 == 14 and f3 == 0:
            return [vd, vs2, (w.rs1, 'ei16')]
        return [vd, vs2] + second
    second = [vs1] if f3 == 2 else []
    if f3 == 2 and f6 <= 7:
        return [one(w.rd), vs2, one(w.rs1)]
    if f6 == 16:
        return [one(w.rs2)] if f3 == 2 else [one(w.rd)]
    if f6 == 18:
        return [vd, (w.rs2, {1: 1 / 8, 2: 1 / 4, 3: 1 / 2}[w.rs1 // 2])]
    if f6 == 20:
        return [one(w.rd), one(w.rs2)] if w.rs1 < 16 else [vd] + ([one(w.rs2)] if w.rs1 == 16 else [])
    if f6 == 23:
        return [vd, vs2, one(w.rs1)]
    if f3 == 2 and 24 <= f6 <= 31:
        return [one(w.rd), one(w.rs2), one(w.rs1)]
    if f6 >= 48:
        return [(w.rd, 2), (w.rs2, 2 if 52 <= f6 <= 55 else 1)] + second
    return [vd, vs2] + second

def registers_of(w, vtype):
    sew, lmul8 = 8 << (vtype >> 3 & 7), [8, 16, 32, 64, 0, 1, 2, 4][vtype & 7]
    group = lambda reg, eew, fields=1: range(reg, reg + fields * max(1, int(eew * lmul8 // sew) // 8))
    used = set() if w.vm or (not w.is_memory and w.funct3 == 7) else {0}
    if not w.is_memory:
        for reg, size in operands(w):
            used |= {reg} if size is None else set(group(reg, 16 if size == 'ei16' else size * sew))
    elif w.is_whole or w.is_mask:
        used |= set(range(w.rd, w.rd + (w.nf if w.is_whole else 1)))
    elif w.mop % 2:
        used |= set(group(w.rd, sew, w.nf)) | set(group(w.rs2, w.eew))
    else:
        used |= set(group(w.rd, w.eew, w.nf))
    return used

def scalars_of(w):
    if w.is_memory:
        return {w.rs1} | ({w.rs2} if w.mop == 2 else set())
    if w.funct3 == 7:
        return {w.rd} | (set() if w.word >> 30 == 3 else {w.rs1}) | ({w.rs2} if w.word >> 30 == 2 else set())
    return {w.rs1} if w.funct3 in (4, 6) else {w.rd} if w.funct3 == 2 and w.funct6 == 16 else set()

class Case:
    def __init__(self, vlenb, line):
        given, gives = (part.split() for part in line.split(' : '))
        self.vlenb, self.w = vlenb, Word(int(given[0], 16))
        self.control = [int(given[2], 16)] + [int(x) for x in given[3:8]]
        inputs = [i.split('=') for i in given[8:]]
        self.fits = len(gives) > 5 and gives[0] == '0' and not any(k in ('size', 'file', 'scalars', 'pages') for k, v in inputs)
        if not self.fits:
            return
        self.file = [register_image(k) for k in range(32 * vlenb)]
        self.x, self.rights = [scalar_image(n) for n in range(32)], [2] * 256
        for key, value in inputs:
            if key[0] == 'x':
                self.x[int(key[1:])] = int(value, 16)
            elif key[0] == 'v':
                self.put(self.file, vlenb * int(key[1:]), value)
            else:
                first, last = key[1:].split('-')
                self.rights[int(first):int(last) + 1] = [int(value)] * (int(last) + 1 - int(first))
        self.passed, self.after = int(gives[1]), [int(gives[5], 16)] + [int(x) for x in gives[6:11]]
        self.changes = [c.split('=') for c in gives[11:]]
        self.work_out()

    @staticmethod
    def put(part, at, value):
        data = bytes.fromhex(value)
        part[at:at + len(data)] = data

    def number(self, reg, bits, i):
        at = self.vlenb * reg * 8 + bits * i
        return sum(self.file[at // 8 + k] << 8 * k for k in range(bits // 8)) if bits > 1 else self.file[at // 8] >> at % 8 & 1

    # the bytes that element i addresses, field by field; none where it is masked off
    def addresses(self, i):
        w, sew = self.w, 8 << (self.control[0] >> 3 & 7)
        if not w.is_memory or not (w.vm or self.number(0, 1, i)):
            return []
        fields = 1 if w.is_whole or w.is_mask else w.nf
        size = sew // 8 if w.mop % 2 else w.eew // 8
        x = lambda r: self.x[r] if r else 0
        step = x(w.rs2) * i if w.mop == 2 else self.number(w.rs2, w.eew, i) if w.mop % 2 else i * fields * size
        return [[(x(w.rs1) + step + k * size + j) % 2**64 for j in range(size)] for k in range(fields)]

    def work_out(self):
        # a vector that finishes passes all that remains
        self.vstart = self.control[2]
        self.fields = {i: self.addresses(i) for i in range(self.vstart, self.vstart + self.passed)}
        self.used, self.named = registers_of(self.w, self.control[0]), scalars_of(self.w)
        self.bytes = {a for fields in self.fields.values() for field in fields for a in field}

    # ---- what is not touched

    def register_byte(self):
        near = [r for r in range(32) if r not in self.used and {r - 1, r + 1} & self.used]
        far = [r for r in range(32) if r not in self.used]
        if not far:
            return None
        reg = random.choice(near if near and random.random() < 0.7 else far)
        return ('v', self.vlenb * reg + random.choice([0, self.vlenb - 1, random.randrange(self.vlenb)]), random.randrange(256))

    def scalar(self):
        return ('x', random.choice([r for r in range(32) if r not in self.named]), random.getrandbits(64))

    def memory_byte(self):
        near = [a + d for a in sorted(self.bytes) for d in (-1, 1) if 0 <= a + d < 65536 and a + d not in self.bytes]
        a = random.choice(near) if near and random.random() < 0.7 else random.randrange(65536)
        return None if a in self.bytes else ('m', a, random.randrange(256))

    def change(self):
        return random.choice([self.register_byte, self.scalar, self.memory_byte])()

    # ---- the turns

    def closed(self, i, rights):
        needed = 2 if self.w.opcode == 0x27 else 1
        return [field[0] // 256 for field in self.fields[i] if rights[field[0] // 256] < needed]

    def turns(self):
        rights, at, last = self.rights[:], self.vstart, self.vstart + self.passed
        for page in {a // 256 for a in self.bytes}:
            if random.random() < 0.4:
                rights[page] = random.randrange(2) if self.w.opcode == 0x27 else 0
        yield ('rights', rights[:])
        yield from self.some()
        while True:
            allowance = random.choice([0, 1, 2, 3, 5, 7, 2**32 - 1, 2**32 - 1, random.randrange(200)])
            first = at
            while at < last and at - first < allowance and not self.closed(at, rights):
                at += 1
            yield ('turn', allowance)
            if at == last:
                return
            yield from self.some()
            if at - first < allowance:
                for page in self.closed(at, rights):
                    rights[page] = self.rights[page]
                yield ('rights', rights[:])

    def some(self):
        for _ in range(random.randrange(4)):
            c = self.change()
            if c:
                yield ('change', c)

    # ---- lines

    def rights_lines(self, letter, rights):
        first = 0
        for k in range(1, 257):
            if k == 256 or rights[k] != rights[first]:
                yield '%s%02x%02x%x' % (letter, first, k - 1, rights[first])
                first = k

    def part_lines(self, letter, part, indices):
        indices = sorted(indices)
        while indices:
            n = 1
            while n < min(16, len(indices)) and indices[n] == indices[0] + n:
                n += 1
            yield '%s%05x%02x%s' % (letter, indices[0], n, ''.join('%02x' % part(k) for k in indices[:n]).ljust(32, '0'))
            indices = indices[n:]

    def change_line(self, c):
        letter, at, value = c
        if letter == 'x':
            return 'x%02x%016x' % (at, value)
        return '%s%05x01%02x%s' % (letter, at, value, '0' * 30)

    def lines(self):
        steps = list(self.turns())
        self.count = sum(1 for what, _ in steps if what == 'change')
        self.taken = sum(1 for what, _ in steps if what == 'turn')
        indices = {self.vlenb * r + k for r in self.used for k in range(self.vlenb)}
        inside = {a for a in self.bytes if a < 65536}
        out = [('c' if self.vlenb == 16 else 's') + '%08x' % self.w.word + ''.join('%016x' % x for x in self.control)]
        out += self.part_lines('v', lambda k: self.file[k], indices)
        out += ['x%02x%016x' % (r, self.x[r]) for r in sorted(self.named)]
        out += self.part_lines('m', memory_image, inside)
        out += self.rights_lines('q', self.rights)
        out += ['u']
        file = [self.file[k] if k in indices else 0 for k in range(512)]
        x, mem = [self.x[r] if r in self.named else 0 for r in range(32)], [memory_image(a) if a in inside else 0 for a in range(65536)]
        for key, value in self.changes:
            if key[0] == 'x':
                x[int(key[1:])] = int(value, 16)
            else:
                self.put(file if key[0] == 'v' else mem, self.vlenb * int(key[1:]) if key[0] == 'v' else int(key[1:], 16), value)
        for what, value in steps:
            if what == 'rights':
                out += self.rights_lines('p', value)
            elif what == 'turn':
                out.append('t%08x' % value)
            else:
                out.append(self.change_line(value))
                {'v': file, 'x': x, 'm': mem}[value[0]][value[1]] = value[2]
        out.append('.')
        self.expected = '0 %d %d same' % (self.passed, checksum(file, x, self.after, mem))
        return out

def checksum(file, x, control, mem):
    s = 0
    for part in (file, x, control, mem):
        for value in part:
            s = (s * 31 + value % 65521) % 65521
    return s

def main():
    random.seed(12)
    kinds = collections.defaultdict(list)
    for name in sys.argv[2:]:
        vlenb = 8 if os.path.basename(name).startswith('small_') else 16
        for line in open(name):
            if line.strip() and line[0] != '#':
                case = Case(vlenb, line)
                if case.fits:
                    kinds[vlenb, case.w.kind()].append(case)
    cases, tally = [], collections.Counter()
    for (vlenb, kind), found in sorted(kinds.items()):
        # the longest ones, so that there is something to cut
        for case in sorted(found, key=lambda c: (-min(c.passed, 12), random.random()))[:2 if vlenb == 16 else 1]:
            cases.append((case.lines(), case.expected))
            tally[vlenb] += 1
            tally['turns'] += case.taken
            tally['changes'] += case.count
    with open(sys.argv[1] + '/stdin', 'w') as f:
        f.write(''.join(line + '\n' for lines, _ in cases for line in lines))
    with open(sys.argv[1] + '/stdout', 'w') as f:
        f.write(''.join(expected + '\n' for _, expected in cases))
    print('%d cases on the first board, %d on the smaller one; %d turns, %d changes'
          % (tally[16], tally[8], tally['turns'], tally['changes']))

main()
