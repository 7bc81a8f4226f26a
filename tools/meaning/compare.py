"""compare.py OTHER FIRST COUNT

Compares what the typed trees of random programs do, by evaluate.py, with what an independent implementation says of the
programs: end, output, memory, reads and writes; and compares the work of the trees with that one's, which counts the nodes
of the untyped tree. OTHER is the folder of that implementation, which is in Python, with its maker of random programs. The
programs are those of the seeds from FIRST on, COUNT of them, and before them those of programs.txt. It prints the largest
quotient (work - 3) / that one's work, and ends with 1 where something differs or work > 3 * (that one's + 1) at an end or a
trap."""

import os
import sys

HERE = os.path.dirname(os.path.realpath(__file__))
if len(sys.argv) < 4 or sys.argv[1].startswith("-"):
    sys.exit(__doc__)
sys.path.insert(0, sys.argv[1])
sys.path.insert(0, os.path.join(sys.argv[1], "tests"))

import random_c                                                  # noqa: E402
from dae import deep, meaning                                    # noqa: E402
import evaluate                                                  # noqa: E402
import listed                                                    # noqa: E402
import typed                                                     # noqa: E402

ENDS = {"ended": "Halted", "trapped": "Trapped", "running": "Going"}


MOST = 300_000                                                   # units of work of a random program


class Differs(Exception):
    pass


def compare(sources, turns, limit, memory):
    program, trees = typed.load(sources, memory)
    want = meaning.run(program, limit, steps=MOST, turns=turns)
    if want.kind == "running" and turns is None:
        return "too long", 0.0
    got = evaluate.Run(trees, program, limit, (1 << 40) if turns is None else turns).main()
    end = (ENDS[want.kind],) if want.kind == "running" else (ENDS[want.kind], want.code & 0xFFFFFFFF)
    pairs = [("end", got.end, end), ("output", bytes(got.printed), bytes(want.output)),
             ("memory", bytes(got.memory), bytes(want.memory)), ("reads", got.loads, want.reads),
             ("writes", got.stores, want.writes)]
    for name, x, y in pairs:
        if x != y:
            raise Differs("%s: %r and %r" % (name, x, y))
    if want.kind != "running" and got.items > 3 * (want.work + 1):
        raise Differs("work: %d above 3 * (%d + 1)" % (got.items, want.work))
    return want.kind, (got.items - 3) / max(want.work, 1)


def main():
    first, count = int(sys.argv[2]), int(sys.argv[3])
    jobs = [(name, sources, turns, limit, memory) for group, name, sources, turns, limit, memory in listed.programs()]
    jobs += [("seed %d" % k, [random_c.Maker(k, 2).program().encode()], None, 100, 65536) for k in range(first, first + count)]
    kinds, largest, bad = {}, 0.0, 0
    for name, *job in jobs:
        try:
            kind, quotient = deep.run(compare, *job)
            kinds[kind] = kinds.get(kind, 0) + 1
            largest = max(largest, quotient)
        except Differs as differs:
            bad += 1
            print(name, differs)
    print("%d programs (%s), %d differ; work at most %.3f * that of the other and 3" % (
        len(jobs), ", ".join("%d %s" % (n, k) for k, n in sorted(kinds.items())), bad, largest))
    sys.exit(bad > 0)


main()
