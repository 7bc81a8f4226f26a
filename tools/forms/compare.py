"""compare.py OTHER write FOLDER FIRST COUNT
compare.py OTHER compare FOLDER GOT FIRST COUNT

Compares what the forms of programs do, by interpret.py, with what an independent implementation says of the programs: end,
output, memory, reads and writes; of one that goes on, under a bound on turns, only that with one turn more the form goes on
and has printed as much. OTHER is the folder of that implementation, which is in Python, with its maker of random programs. The
programs are those of tools/meaning/programs.txt and those of the seeds from FIRST on, COUNT of them.

It also prints the most variables and the most items of a function for each token of its definition.

`write` puts each program as numbers into a file of FOLDER. The program crate whose sources are main.txt and print.txt beside this
file (with another ending, so that they stand outside of the gate), over dae_accept and dae_lower_programs, prints the form of
each: `rt try --cases FOLDER > GOT`. `compare` reads these lines, runs each form, and ends with 1 where something differs."""

import os
import sys

HERE = os.path.dirname(os.path.realpath(__file__))
if len(sys.argv) < 3 or sys.argv[1].startswith("-"):
    sys.exit(__doc__)
sys.path.insert(0, sys.argv[1])
sys.path.insert(0, os.path.join(sys.argv[1], "tests"))
sys.path.insert(0, os.path.join(HERE, "..", "meaning"))

import random_c                                                  # noqa: E402
from dae import deep, front, meaning                             # noqa: E402
import interpret                                                 # noqa: E402
import listed                                                    # noqa: E402

ENDS = {"ended": "Halted", "trapped": "Trapped", "running": "Going"}
MOST = 300_000                                                   # units of work of a program


def programs(first, count):
    for group, name, sources, turns, limit, memory in listed.programs():
        yield name, sources, turns, limit, memory
    for k in range(first, first + count):
        yield "seed_%d" % k, [random_c.Maker(k, 2).program().encode()], None, 100, 65536


def write(folder, first, count):
    os.makedirs(folder, exist_ok=True)
    for name, sources, turns, limit, memory in programs(first, count):
        numbers = [memory, limit] + [n for source in sources for n in [len(source), *source]]
        with open(os.path.join(folder, name), "w") as file:
            file.write(" ".join(map(str, numbers)) + "\n")


def forms(path):
    """The line behind each line `== NAME`."""
    found, name = {}, None
    for line in open(path):
        if line.startswith("== "):
            name = line[3:].strip()
        elif name is not None:
            found[name], name = line.split(), None
    return found


def size(statements):
    """Items, Ifs and Loops; a call counts one more for each argument."""
    parts = {"If": lambda s: size(s[2]) + size(s[3]), "Loop": lambda s: size(s[1]) + size(s[2]), "Call": lambda s: len(s[3])}
    return sum(1 + parts.get(s[0], lambda s: 0)(s) for s in statements)


class Most:
    """The greatest quotients by the tokens of a function."""

    variables, items = 0.0, 0.0

    @classmethod
    def see(cls, form, program):
        assert form["main"] == program.functions.index(program.main)
        for f, d in zip(form["functions"], program.functions):
            cls.variables = max(cls.variables, f["variables"] / d.tokens)
            cls.items = max(cls.items, size(f["body"]) / d.tokens)


def differences(words, sources, turns, limit, memory):
    """How the other says that the program ends, and what differs; without a bound on turns only where it ends in time."""
    program = front.load([("%c.c" % (97 + k), s) for k, s in enumerate(sources)], memory, 2)
    data, form = interpret.read([int(word) for word in words])
    Most.see(form, program)
    want = meaning.run(program, limit, steps=MOST, turns=turns)
    if want.kind == "running" and turns is None:
        return "too long", []
    if want.kind == "running":
        got = interpret.Run(form, data, turns + 1).main()
        as_much = got.end == ("Going",) and bytes(got.printed).startswith(bytes(want.output))
        return "going on", [] if as_much else ["it goes on: %r and %r" % (bytes(got.printed), bytes(want.output))]
    got = interpret.Run(form, data, 1 << 33).main()
    pairs = [("end", got.end, (ENDS[want.kind], want.code & 0xFFFFFFFF)), ("output", bytes(got.printed), bytes(want.output)),
             ("memory", bytes(got.memory), bytes(want.memory)), ("reads", got.loads, want.reads),
             ("writes", got.stores, want.writes)]
    more = [] if got.items <= 33 * (want.work + 1) else ["items: %d above 33 * (%d + 1)" % (got.items, want.work)]
    return want.kind, ["%s: %r and %r" % (name, x, y) for name, x, y in pairs if x != y] + more


def compare(path, first, count):
    found, kinds, bad = forms(path), {}, 0
    for name, *job in programs(first, count):
        words = found.get(name, ["refused"])
        kind, wrong = ("refused", ["it is refused"]) if words == ["refused"] else deep.run(differences, words, *job)
        kinds[kind] = kinds.get(kind, 0) + 1
        bad += bool(wrong)
        for line in wrong:
            print(name, line)
    print("%d programs (%s), %d differ; at most %.2f variables and %.2f items a token" % (
        sum(kinds.values()), ", ".join("%d %s" % (n, k) for k, n in sorted(kinds.items())), bad, Most.variables, Most.items))
    return bad > 0


if sys.argv[2] == "write":
    write(sys.argv[3], int(sys.argv[4]), int(sys.argv[5]))
else:
    sys.exit(compare(sys.argv[4], int(sys.argv[5]), int(sys.argv[6])))
