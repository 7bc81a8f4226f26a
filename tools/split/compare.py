"""compare.py OTHER write FORMS WANTED FIRST COUNT [FILE..]
compare.py OTHER compare WANTED GOT

Writes forms, with the classes of their variables and a cap, as numbers into FORMS, and the two streams that an independent
implementation splits each into as numbers into WANTED, two lines a form. OTHER is the folder of that implementation, which
is in Python. The forms are those of the C files, and random ones from seed FIRST on, COUNT of each kind. What the program
of main.txt, build.txt and print.txt beside this file prints for FORMS is GOT: it is compared line by line, places and
numbers of groups included. (Those three files are sources of a program crate over dae_split, with another ending so that
they stand outside of the gate.)
"""

import os
import sys

if len(sys.argv) < 4 or sys.argv[1].startswith("-"):
    sys.exit(__doc__)
OTHER = sys.argv[1]
sys.path.insert(0, OTHER)
sys.path.insert(0, os.path.join(OTHER, "tests"))

from dae import front, ir as o, middle                           # noqa: E402
from dae.slices import classes                                   # noqa: E402
from dae.split import split                                      # noqa: E402
from random_forms import random_form, random_stretches           # noqa: E402

KINDS = ("I8", "U8", "I16", "U16", "I32")
RELATIONS = ("Eq", "Ne", "LtS", "GeS", "LtU", "GeU")
OPERATORS = ("Add", "Sub", "Mul", "DivS", "DivU", "RemS", "RemU", "And", "Or", "Xor", "Shl", "ShrS", "ShrU")
SPELLINGS = ("byte", "signed", "unsigned", "hex")


class Numbers:
    """The numbers of one form. The result is variable 0, the parameters come first, and the last variable takes a
    result that nobody wants."""

    def __init__(self, form):
        self.form = form
        self.places = {}
        self.maps = []
        for f in form.functions:
            others = [v for v in range(f.count) if v not in f.params]
            self.maps.append({v: k + 1 for k, v in enumerate(list(f.params) + others)})
        self.index = 0

    def at(self, place):
        return [self.places.setdefault(place, len(self.places) + 1)]

    def v(self, n):
        return self.maps[self.index][n]

    def operand(self, x):
        return [0, self.v(x.n)] if isinstance(x, o.Var) else [1, x & 0xFFFFFFFF]

    def test(self, t):
        return [RELATIONS.index(t.op)] + self.operand(t.x) + self.operand(t.y)

    def value(self, op, args):
        if op == "FrameAddress":
            return [4, args[0]]
        if op == "Copy":
            return [0] + self.operand(args[0])
        if op == "Neg":
            return [2, OPERATORS.index("Sub"), 1, 0] + self.operand(args[0])
        if op == "Not":
            return [2, OPERATORS.index("Xor")] + self.operand(args[0]) + [1, 0xFFFFFFFF]
        if op in KINDS:
            return [1, KINDS.index(op)] + self.operand(args[0])
        if op in RELATIONS:
            return [3] + self.test(o.Test(op, *args))
        return [2, OPERATORS.index(op)] + self.operand(args[0]) + self.operand(args[1])

    def check(self, c):
        if isinstance(c, o.Place):
            return [0, c.width] + self.operand(c.address)
        if isinstance(c, o.Zero):
            return [1] + self.operand(c.operand)
        if isinstance(c, o.Room):
            return [3] if c.function == self.form.main else [2, c.function]
        return [4]

    # -- the form -----------------------------------------------------------

    def list(self, body):
        out = [len(body)]
        for s in body:
            out += self.statement(s)
        return out

    def statement(self, s):
        if s.place is None:
            s.place = ("statement", len(self.places))
        at = self.at(s.place)
        if isinstance(s, o.Assign):
            return [0] + at + [self.v(s.v)] + self.value(s.op, s.args)
        if isinstance(s, o.Load):
            return [1] + at + [self.v(s.v), KINDS.index(s.kind)] + self.operand(s.address)
        if isinstance(s, o.Store):
            return [2] + at + [s.width] + self.operand(s.address) + self.operand(s.value)
        if isinstance(s, o.Print):
            return [3] + at + [SPELLINGS.index(s.what)] + self.operand(s.value)
        if isinstance(s, o.Check):
            return [4] + at + self.check(s.test)
        if isinstance(s, o.Break):
            return [5] + at
        if isinstance(s, o.Continue):
            return [6] + at
        if isinstance(s, o.Call):
            v = self.form.functions[self.index].count + 1 if s.v is None else self.v(s.v)
            return [7] + at + [v, s.function, len(s.args)] + [n for x in s.args for n in self.operand(x)]
        if isinstance(s, o.Return):
            return [8] + at + self.operand(s.operand)
        if isinstance(s, o.Halt):
            return [9] + at + self.operand(s.operand)
        if isinstance(s, o.If):
            test = self.test(s.test)
            return [10] + at + test + self.list(s.then) + self.list(s.other)
        return [11] + at + self.list(s.body) + self.list(s.step)

    def whole(self, found, cap):
        form = self.form
        out = [form.memory, form.frames, form.calls, form.main, len(form.functions)]
        for k, f in enumerate(form.functions):
            self.index = k
            out += [len(f.params), f.count + 2, f.frame] + self.list(f.body)
        for k, f in enumerate(form.functions):
            out += [int(found.result_a[k]), int(found.result_e[k])]
            for v in sorted(self.maps[k], key=self.maps[k].get):
                out += [int(v in found.a[k]), int(v in found.e[k])]
            out += [0, 0]
        return out + [cap]

    # -- a stream -----------------------------------------------------------

    def steps(self, body):
        out = [len(body)]
        for s in body:
            out += self.at(s.place) + [s.group] + self.action(s)
        return out

    def optional(self, x):
        return [0] if x is None else [1] + self.operand(x)

    def action(self, s):
        if isinstance(s, o.Set):
            return [0, self.v(s.v)] + self.value(s.op, s.args)
        if isinstance(s, o.Issue):
            return [1, KINDS.index(s.kind)] + self.operand(s.address)
        if isinstance(s, o.Own):
            return [2, self.v(s.v), KINDS.index(s.kind)] + self.operand(s.address)
        if isinstance(s, o.Receive):
            return [3, self.v(s.v)]
        if isinstance(s, o.Address):
            return [4, s.width] + self.operand(s.address)
        if isinstance(s, o.Datum):
            return [5] + self.operand(s.value)
        if isinstance(s, o.Offer):
            return [6, self.v(s.v)]
        if isinstance(s, o.Accept):
            return [7, self.v(s.v)]
        if isinstance(s, o.Emit):
            return [8, SPELLINGS.index(s.what)] + self.operand(s.value)
        if isinstance(s, o.Probe):
            return [9] + self.check(s.check)
        if isinstance(s, o.Tell):
            return [10] + self.operand(s.operand)
        if isinstance(s, o.Hear):
            return [11]
        if isinstance(s, o.Stop):
            return [12] + self.optional(s.operand)
        if isinstance(s, o.Break):
            return [13]
        if isinstance(s, o.Continue):
            return [14]
        if isinstance(s, o.Call):
            given = [n for k, x in enumerate(s.args) if x is not None for n in [k + 1] + self.operand(x)]
            count = sum(x is not None for x in s.args)
            return [15] + ([0] if s.v is None else [1, self.v(s.v)]) + [s.function, count] + given
        if isinstance(s, o.Return):
            return [16] + self.optional(s.operand)
        if isinstance(s, o.If):
            return [20, 0] + self.test(s.test) + self.steps(s.then) + self.steps(s.other)
        if isinstance(s, o.IfTold):
            return [20, 1] + self.test(s.test) + self.steps(s.then) + self.steps(s.other)
        if isinstance(s, o.IfHeard):
            return [20, 2] + self.steps(s.then) + self.steps(s.other)
        return [21] + self.steps(s.body) + self.steps(s.step)

    def stream(self, stream):
        form = self.form
        out = [0 if stream.side == "A" else 1, form.memory, form.frames, form.calls, form.main]
        for k, f in enumerate(stream.functions):
            self.index = k
            source = form.functions[k]
            out += [len(source.params), source.count + 2, source.frame] + self.steps(f.body)
        return out


def line(numbers):
    return " ".join(str(n) for n in numbers)


def forms(first, count, files):
    """Forms, each with a cap."""
    for name in files:
        with open(name, "rb") as file:
            program = front.load([(name, file.read())], 1048576, 2)
        for cap in (1, 4):
            yield middle.middle(program, cap=cap).form, cap
    for seed in range(first, first + count):
        for make in (random_form, random_stretches):
            yield make(seed)[0], (1, 2, 4, 64)[seed % 4]


def write(inputs, outputs, first, count, files):
    with open(inputs, "w") as questions, open(outputs, "w") as answers:
        for form, cap in forms(first, count, files):
            found = classes(form, True)
            numbers = Numbers(form)
            questions.write(line(numbers.whole(found, cap)) + "\n")
            pair = split(form, found, cap, True, True)
            for stream in (pair.a, pair.e):
                answers.write(line(numbers.stream(stream)) + "\n")


def compare(wanted, got):
    with open(wanted) as file:
        wanted = [x.rstrip() for x in file]
    with open(got) as file:
        got = [x.rstrip() for x in file]
    bad = [k + 1 for k in range(len(wanted)) if k >= len(got) or got[k] != wanted[k]]
    print("%d streams, %d differ%s" % (len(wanted), len(bad), "".join("\n  line %d" % k for k in bad[:10])))
    return 1 if bad or len(got) != len(wanted) else 0


if sys.argv[2] == "write":
    write(sys.argv[3], sys.argv[4], int(sys.argv[5]), int(sys.argv[6]), sys.argv[7:])
else:
    sys.exit(compare(sys.argv[3], sys.argv[4]))
