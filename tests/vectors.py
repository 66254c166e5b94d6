#!/usr/bin/env python3
"""Instruction vectors as crates/vectors_main reads them.

    tests/vectors.py crates/vectors_main VECTORS..

writes stdin (the cases) and stdout (what the program must print) from vector files whose lines are turns

    word allowance vtype vl vstart vxrm vxsat vs INPUT.. : answer passed fault page right vtype vl vstart vxrm vxsat vs CHANGE..

or access checks

    word vtype vl vstart vxrm vxsat vs INPUT.. : answer element pages page right

on the first board, or on the smaller one where the file's name begins with small_. An INPUT is xN=HEX, vN=BYTES, pA-B=RIGHT, size=N (of
memory), file=N, scalars=N or pages=N; a CHANGE is xN=HEX, vN=BYTES or mA=BYTES. What no INPUT names has the values of `scalars`,
`registers` and `memory` below. The program prints the bytes that differ, and so does this one: what is written does not depend on how a
vector groups its changes.
"""
import os
import sys

def scalars():
    return [0x00f00d00deadbeef] + [(n * 0x0123456789abcdef + 0x55) % 2**64 for n in range(1, 32)]

def registers(vlenb):
    return [(73 * k + 29) % 256 for k in range(32 * vlenb)]

def memory(size):
    return [((167 * a + 59 * (a // 256) + 13) ^ (a // 8)) % 256 if a < 65536 else 0 for a in range(size)]

def cut(values, n):
    return (values + [0] * n)[:n]

# the changed bytes: those that follow one another are one item, with the index of the first
def runs(label, before, after):
    changed = [k for k, (old, new) in enumerate(zip(before, after)) if old != new]
    return ''.join(('' if k - 1 in changed[max(n - 1, 0):n] else ' %s%x=' % (label, k)) + '%02x' % after[k] for n, k in enumerate(changed))

class Case:
    def __init__(self, vlenb, line):
        self.vlenb = vlenb
        given, gives = (part.split() for part in line.split(' : '))
        self.is_check = len(gives) == 5
        if self.is_check:
            given.insert(1, '0')
        head, self.inputs = given[:8], [i.split('=') for i in given[8:]]
        self.word, self.allowance, vtype = (int(x, 16) for x in head[:3])
        self.control = [vtype] + [int(x) for x in head[3:]]
        lengths = {'file': 32 * vlenb, 'scalars': 32, 'size': 65536, 'pages': 256}
        lengths.update((k, int(v)) for k, v in self.inputs if k in lengths)
        self.lengths = [lengths[k] for k in ('file', 'scalars', 'size', 'pages')]
        self.answer, self.changes = gives[:11], [c.split('=') for c in gives[11:]]

    def lines(self):
        yield ('c%08x%08x' % (self.word, self.allowance) + ''.join('%016x' % x for x in self.control)
               + ''.join('%08x' % n for n in self.lengths))
        for key, value in self.inputs:
            if key[0] == 'x':
                yield 'x%02x%016x' % (int(key[1:]), int(value, 16))
            elif key[0] == 'v':
                data = bytes.fromhex(value)
                for k in range(0, len(data), 16):
                    part = data[k:k + 16]
                    yield 'v%02x%02x%s' % ((self.vlenb * int(key[1:]) + k) // 8, len(part), part.hex().ljust(32, '0'))
            elif '-' in key:
                first, last = key[1:].split('-')
                yield 'p%03x%03x%02x' % (int(first), int(last), int(value))
        yield {8: ',!', 16: '.?'}[self.vlenb][self.is_check]

    def expected(self):
        file, x, mem = registers(self.vlenb), scalars(), memory(self.lengths[2])
        for key, value in self.inputs:
            if key[0] == 'x':
                x[int(key[1:])] = int(value, 16)
            elif key[0] == 'v':
                data = bytes.fromhex(value)
                at = self.vlenb * int(key[1:])
                file[at:at + len(data)] = data
        file, x = cut(file, self.lengths[0]), cut(x, self.lengths[1])
        after = {'v': file[:], 'x': x[:], 'm': mem[:]}
        for key, value in self.changes:
            if key[0] == 'x':
                after['x'][int(key[1:])] = int(value, 16)
                continue
            data, at = bytes.fromhex(value), self.vlenb * int(key[1:]) if key[0] == 'v' else int(key[1:], 16)
            after[key[0]][at:at + len(data)] = data
        scalars_after = ''.join(' x%d=%x' % (k, new) for k, (old, new) in enumerate(zip(x, after['x'])) if old != new)
        return (' '.join(self.answer) + runs('v', file, after['v']) + scalars_after + runs('m', mem, after['m']))

def main():
    cases = [Case(8 if os.path.basename(name).startswith('small_') else 16, line)
             for name in sys.argv[2:] for line in open(name) if line.strip() and line[0] != '#']
    with open(sys.argv[1] + '/stdin', 'w') as f:
        f.write(''.join(line + '\n' for case in cases for line in case.lines()))
    with open(sys.argv[1] + '/stdout', 'w') as f:
        f.write(''.join(case.expected() + '\n' for case in cases))

main()
