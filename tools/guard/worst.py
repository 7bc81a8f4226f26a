#!/usr/bin/env python3
"""Pairs and certificates that make the guard work hardest: what its bounds on time and memory are measured on.

    worst.py FOLDER

writes NAME.img, NAME.cert and NAME.depths (options) for each of them into the folder. All have walks of nearly 10,000
nodes, or of more.

    slots     5,000 slots wait behind one store that never drains, while A goes on
    rescans   each of 4,000 slots meets the first and the last of 4,000 stores, and the first drains
    pending   4,000 filled slots, and then a branch at every other node that is not decided: each leaves a node ahead
    unfilled  4,896 slots behind one store that never drains, and then 5,000 branches that are not decided: the most slots
              and nodes ahead that a walk has room for
    covered   64 nodes of a certificate, each with the loop's counters and all but one register right, at every other node
    equal     a branch on the equality of two ranges of great steps without a common word, at every other node
"""

import os
import struct
import sys

ECALL = 0x73


def i_form(opcode, funct, rd, rs1, immediate):
    return (immediate & 0xFFF) << 20 | rs1 << 15 | funct << 12 | rd << 7 | opcode


def addi(rd, rs1, immediate):
    return i_form(0x13, 0, rd, rs1, immediate)


def lw(rd, rs1, immediate):
    return i_form(0x03, 2, rd, rs1, immediate)


def sw(rs2, rs1, immediate):
    return (immediate >> 5 & 0x7F) << 25 | rs2 << 20 | rs1 << 15 | 2 << 12 | (immediate & 0x1F) << 7 | 0x23


def branch(funct, rs1, rs2, offset):
    return ((offset >> 12 & 1) << 31 | (offset >> 5 & 0x3F) << 25 | rs2 << 20 | rs1 << 15 | funct << 12
            | (offset >> 1 & 0xF) << 8 | (offset >> 11 & 1) << 7 | 0x63)


def beq(rs1, rs2, offset):
    return branch(0, rs1, rs2, offset)


def bne(rs1, rs2, offset):
    return branch(1, rs1, rs2, offset)


def image(budget, code_a, code_e, memory=64):
    """The bytes of an image: the queues' budgets ld, al, sa, sd, ab, eb, cq, and the codes as words."""
    head = b'DAE1' + struct.pack('<I', 2) + struct.pack('<7I', *budget)
    head += struct.pack('<6I', memory, 1, 0, 0, 0, 0)
    head += struct.pack('<5I', len(code_a), len(code_e), 0, 0, 0)
    return head + b''.join(struct.pack('<I', word) for word in code_a + code_e)


def slots():
    code = [sw(30, 0, 16)] + [lw(31, 0, 16)] * 2500 + [lw(30, 0, 16)] * 2500 + [addi(5, 5, 1)] * 4990 + [ECALL]
    return image((0,) * 7, code, [ECALL]), [], {'ld': 4096, 'al': 4096, 'sa': 4096}


def rescans():
    stores = [sw(30, 0, 16)] + [sw(30, 0, 32)] * 3998 + [sw(30, 0, 16)]
    code = stores + [lw(30, 0, 16)] * 4000 + [addi(29, 5, 0)] + [addi(5, 5, 1)] * 1900 + [ECALL]
    # E waits for A's word, and then gives one datum.
    other = [addi(10, 29, 0), addi(30, 0, 0), ECALL]
    return image((0,) * 7, code, other), [], {'ld': 4096, 'sa': 4096}


def pending():
    code = [lw(31, 0, 16), addi(5, 31, 0), lw(31, 0, 20), addi(6, 31, 0)] + [lw(30, 0, 16)] * 3500
    last = len(code) + 3000
    code += [branch(5, 5, 6, 4)] * 3000 + [ECALL]
    assert last == len(code) - 1
    return image((0,) * 7, code, [ECALL]), [], {'ld': 4096, 'al': 2}


def unfilled():
    code = [lw(31, 0, 16), addi(5, 31, 0), lw(31, 0, 20), addi(6, 31, 0), sw(30, 0, 16)] + [lw(30, 0, 16)] * 4096 + [lw(31, 0, 16)] * 800
    return image((0,) * 7, code + [branch(5, 5, 6, 4)] * 5000 + [ECALL], [ECALL]), [], {'ld': 4096, 'al': 4096, 'sa': 2}


def covered():
    # E counts x27 down by 64 from a number of another rest for each node, so that no walk comes to another's number.
    code = [addi(27, 27, -64), branch(6, 26, 27, -4), ECALL]
    lines = []
    for number in range(64):
        lines.append('node halted 0')
        lines += ['a %d 0 4294967292 4' % register for register in range(1, 28)]
        lines += ['e %d 0 4294967292 4' % register for register in range(1, 26) if register != 17]
        lines += ['e 17 0 0 1', 'e 26 64 64 1', 'e 27 {0} {0} 1'.format(64 * 4990 + number)]
    return image((0,) * 7, [ECALL], code), lines, {}


def equal():
    # x5 is even and x6 is odd, so that no word is common; x5 moves on between.
    code = []
    for _ in range(4990):
        code += [beq(5, 6, 4), addi(5, 5, 2)]
    lines = []
    for _ in range(64):
        lines += ['node 0 halted', 'a 5 0 %d 65536' % (65536 * 65000), 'a 6 1 %d 65534' % (1 + 65534 * 65000)]
    return image((0,) * 7, code + [ECALL], [ECALL]), lines, {}


def main():
    if len(sys.argv) < 2 or sys.argv[1].startswith("-"):
        sys.exit(__doc__)
    folder = sys.argv[1]
    os.makedirs(folder, exist_ok=True)
    for make in (slots, rescans, pending, unfilled, covered, equal):
        data, lines, depths = make()
        base = os.path.join(folder, make.__name__)
        with open(base + '.img', 'wb') as file:
            file.write(data)
        with open(base + '.cert', 'w') as file:
            file.write(''.join(line + '\n' for line in lines))
        with open(base + '.depths', 'w') as file:
            file.write(' '.join('--%s=%d' % pair for pair in depths.items()) + '\n')


if __name__ == '__main__':
    main()
