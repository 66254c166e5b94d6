#!/usr/bin/env python3
"""Reads and writes by CSR number, and calls of the register view, as crates/calls_main reads them.

    tests/calls.py crates/calls_main CALLS..

writes stdin (the cases) and stdout (what the program must print) from files with lines of the forms

    read csr vtype vl vstart vxrm vxsat vs : answer value
    write csr value vtype vl vstart vxrm vxsat vs : answer vtype vl vstart vxrm vxsat vs
    view file-length first count : answer first-byte size

on the first board, or on the smaller one where the file's name begins with small_. csr, value and vtype are hex, the others decimal. The
program prints what a write and a view give twice, each by two calls, and of a view a checksum of the bytes found, in a file whose byte k is
`byte(k)`.
"""
import os
import sys

def byte(k):
    return (k // 8 + k % 8 * 32) % 256

def checksum(start, size):
    total = 0
    for k in range(start, start + size):
        total = total % 65521 * 31 + byte(k)
    return total

def numbers(words, hexadecimal):
    return [int(word, 16 if k in hexadecimal else 10) for k, word in enumerate(words)]

def case(is_small, line):
    """The line of stdin, and those of stdout."""
    letters = 'RWV' if is_small else 'rwv'
    given, gives = line.strip().split(' : ')
    kind, *words = given.split()
    if kind == 'read':
        csr, *control = numbers(words, (0, 1))
        return letters[0], [csr, 0] + control, [gives]
    if kind == 'write':
        return letters[1], numbers(words, (0, 1, 2)), [gives] * 2
    start, size = (int(word) for word in gives.split()[1:])
    return letters[2], numbers(words, ()) + [0] * 5, ['%s %d' % (gives, checksum(start, size))] * 2

def main():
    cases = [case(os.path.basename(name).startswith('small_'), line)
             for name in sys.argv[2:] for line in open(name) if line.strip() and line[0] != '#']
    with open(sys.argv[1] + '/stdin', 'w') as f:
        f.write(''.join(kind + ''.join('%016x' % x for x in xs) + '\n' for kind, xs, _ in cases))
    with open(sys.argv[1] + '/stdout', 'w') as f:
        f.write(''.join(line + '\n' for _, _, lines in cases for line in lines))

main()
