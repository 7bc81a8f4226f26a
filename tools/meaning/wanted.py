"""wanted.py OTHER FIRST COUNT

The wanted variables of typed trees, as dae_program's definitions have them, and how many reads are wanted and how many tests
are open to the access side. As a program it compares both, on random programs, with what an independent implementation
reports of its pairs: in each function the access side's own loads are no more than the wanted reads, and its own conditions
no more than the initialised aggregates and the open tests; and neither number is above that implementation's own bound. It
prints how often the first two are equal, and ends with 1 where something is above."""

import os
import sys


class Wanted:
    """`wants` has pairs of a function and a variable, 0 for the result; `reads` and `tests` a number a function."""

    def __init__(self, trees):
        self.trees, self.wants = trees, set()
        before = -1
        while before != len(self.wants):
            before = len(self.wants)
            self.reads = [self.of(f) for f in range(len(trees.functions))]
        self.tests = [Open(self, f).statements(function["body"]) for f, function in enumerate(trees.functions)]

    def of(self, f):
        self.f, self.count = f, 0
        self.statements(self.trees.functions[f]["body"])
        return self.count

    def want(self, flag, f, v):
        if flag:
            self.wants.add((f, v))

    def statements(self, ss):
        for s in ss:
            if s[0] == "Print":
                texts = {p[1] for p in s[2] if p[0] == "String"}
                for k, x in enumerate(s[1]):
                    self.value(k in texts, x)
            elif s[0] == "Switch":
                self.value(False, s[1])
                for labels, body in s[2]:
                    self.statements(body)
            elif s[0] != "Initialise":
                for x in s[1:]:
                    if isinstance(x, list):
                        self.statements(x)
                    elif x is not None:
                        self.value(s[0] == "Return" and (self.f, 0) in self.wants, x)

    def value(self, flag, e):
        name = e[0]
        if name == "Variable":
            self.want(flag, self.f, e[1])
        elif name == "Read":
            self.count += flag
            self.value(True, e[3])
        elif name in ("And", "Or", "Exit"):
            for x in e[1:]:
                self.value(False, x)
        elif name == "Conditional":
            self.value(False, e[1])
            self.value(flag, e[2])
            self.value(flag, e[3])
        elif name == "Comma":
            self.value(False, e[1])
            self.value(flag, e[2])
        elif name in ("Assign", "Update", "Step"):
            self.assignment(flag, e)
        elif name == "Call":
            self.want(flag, e[1], 0)
            for k, x in enumerate(e[2]):
                self.value((e[1], k + 1) in self.wants, x)
        elif name not in ("Number", "Address", "Frame", "Abort"):
            for x in e[1:]:
                if isinstance(x, tuple):
                    self.value(flag, x)

    def assignment(self, flag, e):
        reads = e[0] != "Assign"
        if e[2][0] == "InVariable":
            self.want(flag and reads, self.f, e[2][1])
            flag = flag or (self.f, e[2][1]) in self.wants
        else:
            self.count += flag and reads
            self.value(True, e[2][2])
        if e[0] != "Step":
            self.value(flag, e[-1])


class Open:
    """The initialised aggregates and open tests of a function."""

    def __init__(self, wanted, f):
        self.wants = {v for g, v in wanted.wants if g == f}

    def parts(self, e):
        yield e
        for x in e[1:]:
            for y in x if isinstance(x, list) else [x]:
                if isinstance(y, tuple) and y[0] == "AtAddress":
                    yield from self.parts(y[2])
                elif isinstance(y, tuple) and y[0] != "InVariable":
                    yield from self.parts(y)

    def operand(self, e):
        parts = list(self.parts(e))
        holds = any(x[0] in ("Comma", "Assign", "Update") or x[0] == "Variable" and x[1] in self.wants
                    or x[0] == "Step" and x[2][0] == "InVariable" and x[2][1] in self.wants for x in parts)
        return holds or not any(x[0] in ("Variable", "Read", "Update", "Step", "Call", "Putchar", "Exit", "Abort") for x in parts)

    def test(self, e):
        while e[0] == "Not":
            e = e[1]
        return self.operand(e[3]) and self.operand(e[4]) if e[0] == "Compare" else self.operand(e)

    def inside(self, e):
        n = 0
        for x in self.parts(e):
            if x[0] == "Conditional":
                n += self.test(x[1])
            elif x[0] in ("And", "Or"):
                n += self.test(x[1]) + self.test(x[2])
        return n

    def tested(self, e):
        return 0 if e is None else self.test(e) + self.inside(e)

    def statements(self, ss):
        return sum(self.statement(s) for s in ss)

    def statement(self, s):
        if s[0] == "Initialise":
            return 1
        if s[0] == "If":
            return self.tested(s[1]) + self.statements(s[2]) + self.statements(s[3])
        if s[0] == "Loop":
            return self.tested(s[1]) + self.statements(s[2]) + (self.inside(s[3]) if s[3] else 0)
        if s[0] == "Do":
            return self.statements(s[1]) + self.tested(s[2])
        if s[0] == "Switch":
            labels = sum(label is not None for labels, body in s[2] for label in labels)
            return (self.inside(s[1]) + (labels if self.test(s[1]) else 0)
                    + sum(self.statements(body) for labels, body in s[2]))
        if s[0] == "Print":
            return sum(self.inside(x) for x in s[1])
        return sum(self.inside(x) for x in s[1:] if x is not None)


def main():
    if len(sys.argv) < 4 or sys.argv[1].startswith("-"):
        sys.exit(__doc__)
    sys.path.insert(0, sys.argv[1])
    sys.path.insert(0, os.path.join(sys.argv[1], "tests"))
    import json
    import random_c
    from dae import deep, front, lower, middle
    import typed

    def one(seed):
        program, trees = typed.load([random_c.Maker(seed, 2).program().encode()], 4096)
        report = json.loads(middle.middle(program, 20, 100, 4).report_line())["functions"]
        wanted = Wanted(trees)
        bad = []
        for r, reads, tests, (most_reads, most_tests) in zip(report, wanted.reads, wanted.tests, lower.bounds(program)):
            if not (r["loads_a"] <= reads <= most_reads and r["conditions_a"] <= tests <= most_tests):
                bad.append("seed %d %s: loads %d %d %d, conditions %d %d %d" % (
                    seed, r["name"], r["loads_a"], reads, most_reads, r["conditions_a"], tests, most_tests))
        return bad, len(report), sum(r["loads_a"] == x for r, x in zip(report, wanted.reads)), sum(
            r["conditions_a"] == x for r, x in zip(report, wanted.tests))

    first, count = int(sys.argv[2]), int(sys.argv[3])
    totals, above = [0, 0, 0], 0
    for seed in range(first, first + count):
        try:
            bad, *numbers = deep.run(one, seed)
        except front.Refused:
            continue
        above += len(bad)
        totals = [a + b for a, b in zip(totals, numbers)]
        for line in bad:
            print(line)
    print("%d functions, %d above; reads met exactly in %d, tests in %d" % (totals[0], above, totals[1], totals[2]))
    sys.exit(above > 0)


if __name__ == "__main__":
    main()
