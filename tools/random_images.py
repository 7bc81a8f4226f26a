#!/usr/bin/env python3
"""Random small images and what an independent machine answers on them: the lines of a test of the program.

    random_images.py COUNT COMMAND..

makes COUNT images by a fixed seed, runs `COMMAND.. exec OPTIONS FILE` on each under every kind of schedule, and prints
the lines. An image mostly matches each queue's items on both sides; some are damaged, or stuck, or go on.
"""

import os
import random
import struct
import subprocess
import sys
import tempfile
from concurrent.futures import ThreadPoolExecutor

QUEUES = ('ld', 'al', 'sa', 'sd', 'ab', 'eb', 'cq')
SCHEDULES = ('round', 'a', 'e', 'fill', 'drain', 'seed:1', 'seed:4294967295')
ECALL = 0x73


def i_form(opcode, funct, rd, rs1, immediate):
    return (immediate & 0xFFF) << 20 | rs1 << 15 | funct << 12 | rd << 7 | opcode


def s_form(funct, rs2, rs1, immediate):
    return (immediate >> 5 & 0x7F) << 25 | rs2 << 20 | rs1 << 15 | funct << 12 | (immediate & 0x1F) << 7 | 0x23


def r_form(funct7, funct3, rd, rs1, rs2):
    return funct7 << 25 | rs2 << 20 | rs1 << 15 | funct3 << 12 | rd << 7 | 0x33


def b_form(funct, rs1, rs2, offset):
    return ((offset >> 12 & 1) << 31 | (offset >> 5 & 0x3F) << 25 | rs2 << 20 | rs1 << 15 | funct << 12
            | (offset >> 1 & 0xF) << 8 | (offset >> 11 & 1) << 7 | 0x63)


def addi(rd, rs1, immediate):
    return i_form(0x13, 0, rd, rs1, immediate)


def plain(rng):
    """An instruction without a queue: arithmetic, a branch forward, a private access."""
    rd, rs1, rs2 = (rng.choice((5, 6, 7, 10, 11)) for _ in range(3))
    kind = rng.random()
    if kind < 0.35:
        return addi(rd, rs1, rng.randrange(-64, 64))
    if kind < 0.75:
        return r_form(rng.choice((0, 0, 1, 1, 0x20)), rng.randrange(8), rd, rs1, rs2)
    if kind < 0.85:
        return rng.choice((0x37, 0x17)) | rd << 7 | rng.randrange(1 << 20) << 12
    if kind < 0.93:
        return s_form(rng.randrange(3), rs1, 0, rng.randrange(0, 16))
    return i_form(0x03, rng.choice((0, 1, 2, 4, 5)), rd, 0, rng.randrange(0, 16))


def address(rng, width):
    return rng.randrange(16, 48 - width + 1) // width * width if rng.random() < 0.96 else rng.randrange(0, 70)


class Pair:
    """The two codes, grown in steps that match."""

    def __init__(self, rng):
        self.rng, self.a, self.e = rng, [], []

    def load(self):
        funct, width = self.rng.choice(((0, 1), (4, 1), (1, 2), (5, 2), (2, 4), (2, 4)))
        self.a.append(i_form(0x03, funct, 30, 0, address(self.rng, width)))
        self.e.append(addi(self.rng.choice((5, 6, 7, 10)), 30, 0))

    def own_load(self):
        funct, width = self.rng.choice(((0, 1), (4, 1), (1, 2), (5, 2), (2, 4)))
        self.a += [i_form(0x03, funct, 31, 0, address(self.rng, width)), addi(self.rng.choice((5, 6)), 31, 0)]

    def store(self):
        funct, width = self.rng.choice(((0, 1), (1, 2), (2, 4), (2, 4)))
        self.a.append(s_form(funct, 30, 0, address(self.rng, width)))
        self.e.append(addi(30, self.rng.choice((5, 6, 7, 10)), self.rng.randrange(-9, 9)))

    def message(self):
        self.a.append(addi(29, self.rng.choice((5, 6, 7)), 1))
        self.e.append(addi(self.rng.choice((5, 6, 7, 10)), 29, 0))

    def answer(self):
        self.e.append(addi(29, self.rng.choice((5, 6, 7)), 1))
        self.a.append(addi(self.rng.choice((5, 6, 7, 10)), 29, 0))

    def copy(self):
        self.a.append(addi(28, self.rng.choice((5, 6, 7)), 3))
        self.e.append(addi(self.rng.choice((5, 6, 7, 10)), 28, 0))

    def show(self):
        self.e += [addi(17, 0, self.rng.choice((1, 2, 3, 4))), ECALL]

    def count(self):
        """A loop on both sides, with a load in it."""
        turns = self.rng.randrange(2, 6)
        self.a += [addi(7, 0, turns), i_form(0x03, 2, 30, 0, address(self.rng, 4)), addi(7, 7, -1), b_form(1, 7, 0, -8)]
        self.e += [addi(11, 0, turns), addi(10, 30, 1), addi(11, 11, -1), b_form(1, 11, 0, -8)]

    def grow(self):
        for _ in range(self.rng.randrange(1, 7)):
            self.rng.choice((self.load, self.own_load, self.store, self.store, self.message, self.answer, self.copy,
                             self.show, self.show, self.count))()
            for code in (self.a, self.e):
                if self.rng.random() < 0.3:
                    code.append(plain(self.rng))
        return self

    def end(self):
        self.a.append(ECALL if self.rng.random() < 0.95 else b_form(0, 0, 0, -4 * self.rng.randrange(0, 3)))
        self.e += [addi(17, 0, self.rng.choice((0, 0, 0, 0, 5, 5, 6))), ECALL]
        for code in (self.a, self.e):
            if self.rng.random() < 0.12:
                code[self.rng.randrange(len(code))] = self.rng.choice((plain(self.rng), self.rng.getrandbits(32)))
        return self


def image(rng):
    pair = Pair(rng).grow().end()
    budget = [rng.choice((0, 1, 1, 2)) for _ in QUEUES]
    budget[6] = rng.choice((0, 1, 1, 1))
    data = [rng.getrandbits(8) for _ in range(rng.randrange(0, 33))]
    entry = lambda code: 4 * rng.randrange(len(code)) if rng.random() < 0.08 else 0
    head = [64, 1, rng.choice((0, 8, 16)), rng.choice((0, 8, 16)), entry(pair.a), entry(pair.e),
            len(pair.a), len(pair.e), len(data), 0, 0]
    code = pair.a + pair.e
    if budget[6] == 0 and rng.random() < 0.5:
        numbers = [0x31454144, 1] + budget[:6] + head + code
    else:
        numbers = [0x31454144, 2] + budget + head + code
    made = struct.pack('<%dI' % len(numbers), *numbers) + bytes(data)
    if rng.random() < 0.04:
        made = made[:rng.randrange(len(made))]
    elif rng.random() < 0.04:
        at = rng.randrange(0, min(84, len(made)))
        made = made[:at] + bytes([rng.getrandbits(8)]) + made[at + 1:]
    return made


def options(rng):
    chosen = ['--steps=%d' % rng.choice((0, 1, 3, 400, 400, 400, 400, 400, 400))]
    chosen[0] = chosen[0] if chosen[0] != '--steps=0' else '--steps=7'
    for queue in QUEUES:
        if rng.random() < 0.5:
            chosen.append('--%s=%d' % (queue, rng.choice((1, 1, 2, 3, 4096))))
    if rng.random() < 0.6:
        chosen.append('--show=%d,%d' % (rng.choice((0, 16, 20, 60, 64)), rng.choice((1, 8, 40, 64))))
    rng.shuffle(chosen)
    return chosen


def answer(command, path, chosen, schedule):
    done = subprocess.run(command + ['exec', '--schedule=' + schedule] + chosen + [path], capture_output=True)
    return done.returncode, done.stdout, done.stderr


def main():
    if len(sys.argv) < 3 or sys.argv[1].startswith("-"):
        sys.exit(__doc__)
    count, command = int(sys.argv[1]), sys.argv[2:]
    rng = random.Random(19820426)
    with tempfile.TemporaryDirectory() as folder, ThreadPoolExecutor() as pool:
        for _ in range(count):
            made, chosen = image(rng), options(rng)
            path = os.path.join(folder, 'i')
            with open(path, 'wb') as file:
                file.write(made)
            answers = list(pool.map(lambda s: answer(command, path, chosen, s), SCHEDULES))
            answers = answers[:1] if all(a == answers[0] for a in answers) else answers
            print(' '.join([made.hex()] + chosen) + ''.join(';%d %s %s' % (s, o.hex(), n.hex()) for s, o, n in answers))


if __name__ == '__main__':
    main()
