#!/usr/bin/env python3
"""Cases for crates/element_cases: an independent model of the element operations, written from sections 12, 13 and 16.1 of the
standard on Python's integers.

    tests/element_cases.py crates/element_cases

writes stdin (the cases) and stdout (what the program must print). A case is a line: the word, SEW, vxrm, and the elements of vs2, vs1
and vd and the bit of v0, all hex. The program prints the result and whether it saturates, or 'none' where the word names no operation
of elements at that SEW.
"""
import random
import sys

def signed(w, x):
    return x - (1 << w) if x >> (w - 1) else x

def low(w, x):
    return x & ((1 << w) - 1)

def roundoff(mode, v, d):
    """Section 4.8; v is any integer, and bits of a negative one are those of its two's complement."""
    if d == 0:
        return v
    last, high, rest = v >> d & 1, v >> (d - 1) & 1, v & ((1 << (d - 1)) - 1)
    lost = v & ((1 << d) - 1)
    r = [high, high & int(rest != 0 or last == 1), 0, int(last == 0 and lost != 0)][mode]
    return (v >> d) + r

def clip(lo, hi, v):
    return (lo, 1) if v < lo else (hi, 1) if v > hi else (v, 0)

def clip_signed(w, v):
    x, s = clip(-(1 << (w - 1)), (1 << (w - 1)) - 1, v)
    return low(w, x), s

def clip_unsigned(w, v):
    return clip(0, (1 << w) - 1, v)

def toward_zero(a, b):
    q = abs(a) // abs(b)
    return q if (a < 0) == (b < 0) else -q

def div(w, a, b):
    return -1 if b == 0 else toward_zero(a, b)

def rem(w, a, b):
    return a if b == 0 else a - b * toward_zero(a, b)

# Each operation: its columns (funct3), funct6, function, the widths of vs2, vs1 and vd as multiples of SEW (0: a mask bit, None: no
# such operand), vm, the vs1 field where it is part of the number, and whether it is there at SEW 8 to 32 alone. The function is given
# SEW, vxrm, the elements a of vs2, b of vs1, d of vd, the bit c of v0, and the signed values A of a and B of b.
OPS = {}

def op(name, columns, funct6, f, vs2=1, vs1=1, vd=1, vm=1, field=None, narrow=False):
    OPS[name] = (columns, funct6, f, vs2, vs1, vd, vm, field, narrow)

plain = lambda f: lambda w, m, a, b, d, c, A, B: (f(w, m, a, b, d, c, A, B), 0)
V, VX, VXI, XI, MVX, MV, MX = [0], [0, 4], [0, 4, 3], [4, 3], [2, 6], [2], [6]

op('vadd', VXI, 0x00, plain(lambda w, m, a, b, d, c, A, B: a + b))
op('vsub', VX, 0x02, plain(lambda w, m, a, b, d, c, A, B: a - b))
op('vrsub', XI, 0x03, plain(lambda w, m, a, b, d, c, A, B: b - a))
op('vminu', VX, 0x04, plain(lambda w, m, a, b, d, c, A, B: min(a, b)))
op('vmin', VX, 0x05, plain(lambda w, m, a, b, d, c, A, B: min(A, B)))
op('vmaxu', VX, 0x06, plain(lambda w, m, a, b, d, c, A, B: max(a, b)))
op('vmax', VX, 0x07, plain(lambda w, m, a, b, d, c, A, B: max(A, B)))
op('vand', VXI, 0x09, plain(lambda w, m, a, b, d, c, A, B: a & b))
op('vor', VXI, 0x0a, plain(lambda w, m, a, b, d, c, A, B: a | b))
op('vxor', VXI, 0x0b, plain(lambda w, m, a, b, d, c, A, B: a ^ b))
op('vadc', VXI, 0x10, plain(lambda w, m, a, b, d, c, A, B: a + b + c), vm=0)
op('vmadc.vvm', VXI, 0x11, plain(lambda w, m, a, b, d, c, A, B: (a + b + c) >> w), vm=0, vd=0)
op('vmadc.vv', VXI, 0x11, plain(lambda w, m, a, b, d, c, A, B: (a + b + c) >> w), vd=0)
op('vsbc', VX, 0x12, plain(lambda w, m, a, b, d, c, A, B: a - b - c), vm=0)
op('vmsbc.vvm', VX, 0x13, plain(lambda w, m, a, b, d, c, A, B: int(a - b - c < 0)), vm=0, vd=0)
op('vmsbc.vv', VX, 0x13, plain(lambda w, m, a, b, d, c, A, B: int(a - b - c < 0)), vd=0)
op('vmerge', VXI, 0x17, plain(lambda w, m, a, b, d, c, A, B: b if c else a), vm=0)
op('vmv', VXI, 0x17, plain(lambda w, m, a, b, d, c, A, B: b), vs2=None)
op('vmseq', VXI, 0x18, plain(lambda w, m, a, b, d, c, A, B: int(a == b)), vd=0)
op('vmsne', VXI, 0x19, plain(lambda w, m, a, b, d, c, A, B: int(a != b)), vd=0)
op('vmsltu', VX, 0x1a, plain(lambda w, m, a, b, d, c, A, B: int(a < b)), vd=0)
op('vmslt', VX, 0x1b, plain(lambda w, m, a, b, d, c, A, B: int(A < B)), vd=0)
op('vmsleu', VXI, 0x1c, plain(lambda w, m, a, b, d, c, A, B: int(a <= b)), vd=0)
op('vmsle', VXI, 0x1d, plain(lambda w, m, a, b, d, c, A, B: int(A <= B)), vd=0)
op('vmsgtu', XI, 0x1e, plain(lambda w, m, a, b, d, c, A, B: int(a > b)), vd=0)
op('vmsgt', XI, 0x1f, plain(lambda w, m, a, b, d, c, A, B: int(A > B)), vd=0)
op('vsaddu', VXI, 0x20, lambda w, m, a, b, d, c, A, B: clip_unsigned(w, a + b))
op('vsadd', VXI, 0x21, lambda w, m, a, b, d, c, A, B: clip_signed(w, A + B))
op('vssubu', VX, 0x22, lambda w, m, a, b, d, c, A, B: clip_unsigned(w, a - b))
op('vssub', VX, 0x23, lambda w, m, a, b, d, c, A, B: clip_signed(w, A - B))
op('vsll', VXI, 0x25, plain(lambda w, m, a, b, d, c, A, B: a << b % w))
op('vsmul', VX, 0x27, lambda w, m, a, b, d, c, A, B: clip_signed(w, roundoff(m, A * B, w - 1)), narrow=True)
op('vsrl', VXI, 0x28, plain(lambda w, m, a, b, d, c, A, B: a >> b % w))
op('vsra', VXI, 0x29, plain(lambda w, m, a, b, d, c, A, B: A >> b % w))
op('vssrl', VXI, 0x2a, plain(lambda w, m, a, b, d, c, A, B: roundoff(m, a, b % w)))
op('vssra', VXI, 0x2b, plain(lambda w, m, a, b, d, c, A, B: roundoff(m, A, b % w)))
op('vnsrl', VXI, 0x2c, plain(lambda w, m, a, b, d, c, A, B: a >> b % (2 * w)), vs2=2)
op('vnsra', VXI, 0x2d, plain(lambda w, m, a, b, d, c, A, B: A >> b % (2 * w)), vs2=2)
op('vnclipu', VXI, 0x2e, lambda w, m, a, b, d, c, A, B: clip_unsigned(w, roundoff(m, a, b % (2 * w))), vs2=2)
op('vnclip', VXI, 0x2f, lambda w, m, a, b, d, c, A, B: clip_signed(w, roundoff(m, A, b % (2 * w))), vs2=2)
op('vaaddu', MVX, 0x08, plain(lambda w, m, a, b, d, c, A, B: roundoff(m, a + b, 1)))
op('vaadd', MVX, 0x09, plain(lambda w, m, a, b, d, c, A, B: roundoff(m, A + B, 1)))
op('vasubu', MVX, 0x0a, plain(lambda w, m, a, b, d, c, A, B: roundoff(m, a - b, 1)))
op('vasub', MVX, 0x0b, plain(lambda w, m, a, b, d, c, A, B: roundoff(m, A - B, 1)))
for f, part in ((2, 6), (4, 4), (8, 2)):
    op('vzext.vf%d' % f, MV, 0x12, plain(lambda w, m, a, b, d, c, A, B: a), vs2=1 / f, vs1=None, field=part)
    op('vsext.vf%d' % f, MV, 0x12, plain(lambda w, m, a, b, d, c, A, B: A), vs2=1 / f, vs1=None, field=part + 1)
for n, (name, f) in enumerate([
        ('vmandn', lambda a, b: a & ~b), ('vmand', lambda a, b: a & b), ('vmor', lambda a, b: a | b), ('vmxor', lambda a, b: a ^ b),
        ('vmorn', lambda a, b: a | ~b), ('vmnand', lambda a, b: ~(a & b)), ('vmnor', lambda a, b: ~(a | b)),
        ('vmxnor', lambda a, b: ~(a ^ b))]):
    op(name, MV, 0x18 + n, plain(lambda w, m, a, b, d, c, A, B, f=f: f(a, b)), vs2=0, vs1=0, vd=0)
op('vdivu', MVX, 0x20, plain(lambda w, m, a, b, d, c, A, B: div(w, a, b)))
op('vdiv', MVX, 0x21, plain(lambda w, m, a, b, d, c, A, B: div(w, A, B)))
op('vremu', MVX, 0x22, plain(lambda w, m, a, b, d, c, A, B: rem(w, a, b)))
op('vrem', MVX, 0x23, plain(lambda w, m, a, b, d, c, A, B: rem(w, A, B)))
op('vmulhu', MVX, 0x24, plain(lambda w, m, a, b, d, c, A, B: a * b >> w), narrow=True)
op('vmul', MVX, 0x25, plain(lambda w, m, a, b, d, c, A, B: a * b))
op('vmulhsu', MVX, 0x26, plain(lambda w, m, a, b, d, c, A, B: A * b >> w), narrow=True)
op('vmulh', MVX, 0x27, plain(lambda w, m, a, b, d, c, A, B: A * B >> w), narrow=True)
op('vmadd', MVX, 0x29, plain(lambda w, m, a, b, d, c, A, B: b * d + a))
op('vnmsub', MVX, 0x2b, plain(lambda w, m, a, b, d, c, A, B: -(b * d) + a))
op('vmacc', MVX, 0x2d, plain(lambda w, m, a, b, d, c, A, B: b * a + d))
op('vnmsac', MVX, 0x2f, plain(lambda w, m, a, b, d, c, A, B: -(b * a) + d))
for k, wide in ((0x30, 1), (0x34, 2)):
    op('vwaddu%d' % wide, MVX, k, plain(lambda w, m, a, b, d, c, A, B: a + b), vs2=wide, vd=2)
    op('vwadd%d' % wide, MVX, k + 1, plain(lambda w, m, a, b, d, c, A, B: A + B), vs2=wide, vd=2)
    op('vwsubu%d' % wide, MVX, k + 2, plain(lambda w, m, a, b, d, c, A, B: a - b), vs2=wide, vd=2)
    op('vwsub%d' % wide, MVX, k + 3, plain(lambda w, m, a, b, d, c, A, B: A - B), vs2=wide, vd=2)
op('vwmulu', MVX, 0x38, plain(lambda w, m, a, b, d, c, A, B: a * b), vd=2)
op('vwmulsu', MVX, 0x3a, plain(lambda w, m, a, b, d, c, A, B: A * b), vd=2)
op('vwmul', MVX, 0x3b, plain(lambda w, m, a, b, d, c, A, B: A * B), vd=2)
op('vwmaccu', MVX, 0x3c, plain(lambda w, m, a, b, d, c, A, B: b * a + d), vd=2)
op('vwmacc', MVX, 0x3d, plain(lambda w, m, a, b, d, c, A, B: B * A + d), vd=2)
op('vwmaccus', MX, 0x3e, plain(lambda w, m, a, b, d, c, A, B: b * A + d), vd=2)
op('vwmaccsu', MVX, 0x3f, plain(lambda w, m, a, b, d, c, A, B: B * a + d), vd=2)

def value(rng, w):
    """An element of w bits: ends of the range and their neighbours as often as anything else."""
    if w == 0:
        return 0
    edges = [0, 1, 2, 3, (1 << w) - 1, (1 << w) - 2, (1 << w) >> 1, ((1 << w) >> 1) - 1, ((1 << w) >> 1) + 1]
    return low(w, rng.choice(edges)) if rng.random() < 0.5 else rng.getrandbits(w)

def width(part, w):
    return 0 if part is None else 1 if part == 0 else int(part * w)

def case(rng, name, w, mode):
    columns, funct6, f, p2, p1, pd, vm, field, narrow = OPS[name]
    w2, w1, wd = width(p2, w), width(p1, w), width(pd, w)
    a, b, d, c = value(rng, w2), value(rng, w1), value(rng, wd), rng.getrandbits(1)
    rs1 = rng.randrange(32) if field is None else field
    vs2 = 0 if p2 is None else rng.randrange(32)
    word = funct6 << 26 | vm << 25 | vs2 << 20 | rs1 << 15 | rng.choice(columns) << 12 | rng.randrange(32) << 7 | 0x57
    if vm == 1:
        c = 0
    line = '%08x %02x %d %016x %016x %016x %d\n' % (word, w, mode, low(64, a), b, low(64, d), c)
    if max(w2, wd) > 64 or (narrow and w > 32):
        return line, 'none\n'
    r, s = f(w, mode, a, b, d, c, signed(w2, a) if w2 else 0, signed(w1, b) if w1 else 0)
    return line, '%016x %d\n' % (low(wd, r), s)

def main():
    rng = random.Random(1)
    cases = [case(rng, name, w, mode) for name in OPS for w in (8, 16, 32, 64) for mode in range(4) for _ in range(2)]
    for word in (0x57 | 7 << 12, 0x02050207, 0x42082057, 0xffffffff, 0):
        cases.append(('%08x 08 0 %016x %016x %016x 0\n' % (word, 0, 0, 0), 'none\n'))
    with open(sys.argv[1] + '/stdin', 'w') as f:
        f.write(''.join(l for l, _ in cases))
    with open(sys.argv[1] + '/stdout', 'w') as f:
        f.write(''.join(o for _, o in cases))

main()
