"""terms.py OTHER FOLDER

Writes the example programs of programs.txt, as typed trees, into the files FOLDER/GROUPExamples.antt, with what an independent
implementation finds of each: the end, the output, the counts of reads and writes, and the memory; and that the work is at
most three times that one's and one more, where no number is printed. OTHER is the folder of that implementation, which is
in Python. Nothing that is compared is computed by the definitions, or from the trees."""

import json
import os
import sys
import textwrap

HERE = os.path.dirname(os.path.realpath(__file__))
if len(sys.argv) < 3 or sys.argv[1].startswith("-"):
    sys.exit(__doc__)
sys.path.insert(0, sys.argv[1])

from dae import deep, lower, meaning, middle                     # noqa: E402
import listed                                                    # noqa: E402
import typed                                                     # noqa: E402
import wanted                                                    # noqa: E402

MASK = 0xFFFFFFFF
HEAD = open(os.path.join(HERE, "head.txt")).read()


# ---- terms

def flag(b):
    return "true" if b else "false"


def listing(items):
    return "[]" if not items else "(" + " ∷ ".join(items + ["[]"]) + ")"


def optional(e, term):
    return "None" if e is None else "(Some %s)" % term(e)


def expressions(es):
    text = "tree.no_expressions"
    for e in reversed(es):
        text = "(tree.expression_then %s %s)" % (expression(e), text)
    return text


def target(t):
    if t[0] == "InVariable":
        return "(tree.InVariable %d)" % t[1]
    return "(tree.AtAddress %s %s)" % (flag(t[1]), expression(t[2]))


def expression(e):
    name, rest = e[0], e[1:]
    if name == "Number":
        return "(tree.Number %d)" % rest
    if name == "Address":
        return "(tree.Address %d %d)" % rest
    if name in ("Frame", "Variable"):
        return "(tree.%s here %d)" % e
    if name == "Read":
        parts = ["kind." + e[1], flag(e[2]), expression(e[3])]
    elif name == "Convert":
        parts = ["kind." + e[1], expression(e[2])]
    elif name == "Binary":
        parts = ["op." + e[1], expression(e[2]), expression(e[3])]
    elif name == "Compare":
        parts = ["rel." + e[1], flag(e[2]), expression(e[3]), expression(e[4])]
    elif name == "Assign":
        parts = ["kind." + e[1], target(e[2]), expression(e[3])]
    elif name == "Update":
        parts = ["kind." + e[1], target(e[2]), "op." + e[3], expression(e[4])]
    elif name == "Step":
        parts = ["kind." + e[1], target(e[2]), str(e[3]), flag(e[4])]
    elif name == "Call":
        parts = [str(e[1]), expressions(e[2])]
    else:
        parts = [expression(x) for x in rest]
    if name == "Comma":
        return "(tree.Comma %s)" % " ".join(parts)
    return "(%s)" % " ".join(["tree." + name, "here"] + parts)


def piece(p):
    if p[0] == "Word":
        return "piece.Word spell.%s %d" % p[1:]
    return "piece.%s %d" % p


def arms(rows):
    text = "tree.no_arms"
    for labels, body in reversed(rows):
        text = "(tree.arm_then %s %s %s)" % (listing([optional(x, str) for x in labels]), statements(body), text)
    return text


def statements(ss):
    text = "tree.Done"
    for s in reversed(ss):
        text = "(%s)" % " ".join(["tree." + s[0], "here"] + statement(s) + [text])
    return text


def statement(s):
    name = s[0]
    if name == "Evaluate":
        return [expression(s[1])]
    if name == "Initialise":
        items = ["record { offset = %d; width = width.B%d; value = %s }" % (o, w, expression(x)) for o, w, x in s[3]]
        return [str(s[1]), str(s[2]), listing(items)]
    if name == "Print":
        return [expressions(s[1]), listing([piece(p) for p in s[2]])]
    if name == "If":
        return [expression(s[1]), statements(s[2]), statements(s[3])]
    if name == "Loop":
        return [optional(s[1], expression), statements(s[2]), optional(s[3], expression)]
    if name == "Do":
        return [statements(s[1]), expression(s[2])]
    if name == "Switch":
        return [expression(s[1]), arms(s[2])]
    return [optional(s[1], expression)] if name == "Return" else []


def chosen(texts):
    """A choice by the number f."""
    text = texts[-1]
    for k in reversed(range(len(texts) - 1)):
        text = "(if nat_eq f %d then %s else %s)" % (k, texts[k], text)
    return text


def wrapped(text, indent):
    lines = textwrap.wrap(text, 122 - indent, break_long_words=False, break_on_hyphens=False)
    return ("\n" + " " * indent).join(lines)


# ---- what the other implementation finds

class Logged(meaning.Interpreter):
    """The interpreter of the other implementation, which also keeps each print as a term."""

    def __init__(self, *args, **named):
        meaning.Interpreter.__init__(self, *args, **named)
        self.log = []
        self.numbers = False

    def builtin(self, e):
        code = meaning.Interpreter.builtin(self, e)
        if e.func.builtin != "putchar":
            return code

        def putchar(f):
            byte = code(f)
            self.log.append("spelled spell.Byte %d" % byte)
            return byte
        return putchar

    def statement_Printf(self, s):
        args = [self.expr(arg) for arg in s.args]

        def run(f):
            self.counts[2] += 3 + sum(meaning.weight(arg) for arg in s.args)
            values = [arg(f) for arg in args]
            for p in s.pieces:
                if isinstance(p, bytes):
                    self.log.extend("(%d ∷ [])" % byte for byte in p)
                elif p[0] == "s":
                    self.text(values[p[1]])
                else:
                    self.numbers = self.numbers or p[0] != "c"
                    word = values[p[1]] & (255 if p[0] == "c" else MASK)
                    self.log.append("spelled spell.%s %d" % (typed.SPELL[p[0]], word))
            return meaning.NORMAL
        return run

    def text(self, at):
        while True:
            if at < 16 or at >= self.program.memory:
                raise meaning.Trap(2)
            self.counts[0] += 1
            if self.memory[at] == 0:
                return
            self.log.append("spelled spell.Byte %d" % self.memory[at])
            at += 1


def bounds(name, program, trees, limit):
    """What the access side may load and decide, where the other implementation has one number for it."""
    report = json.loads(middle.middle(program, 20, limit, 4).report_line())["functions"]
    found = wanted.Wanted(trees)
    table = listing([listing([str(v) for g, v in sorted(found.wants) if g == f]) for f in range(len(trees.functions))])
    reads, tests = [], []
    for f, (r, (most_reads, most_tests)) in enumerate(zip(report, lower.bounds(program))):
        if r["loads_a"] == most_reads:
            reads.append("nat_eq (wanted_reads %s (among %s) %d) %d" % (name, table, f, most_reads))
        if r["conditions_a"] == most_tests:
            tests.append("nat_eq (open_tests %s (among %s) %d) %d" % (name, table, f, most_tests))
    out = []
    for what, lines in (("reads", reads), ("tests", tests)):
        if lines:
            out += ["", "%s_%s : %s ≡ true" % (name, what, wrapped("(" + " && (".join(lines) + " && true" + ")" * len(lines), 4)),
                    "%s_%s = refl" % (name, what)]
    return out


def example(name, sources, turns, limit, memory):
    program, trees = typed.load(sources, memory)
    checked = meaning.run(program, limit, turns=turns)
    logged = Logged(program, limit, None, turns)
    r = logged.run()
    assert (r.kind, r.code, r.memory, r.reads, r.writes) == (
        checked.kind, checked.code, checked.memory, checked.reads, checked.writes)
    out = ["-- " + line if line else "--" for s in sources for line in s.decode().strip().split("\n")]
    out += ["abbrev %s : Program" % name, "%s = record { limit = %d; function = function } where" % (name, limit),
            "  addresses : ℕ → ℕ", "  addresses k = slice_index %s k" % listing([str(a) for a in trees.addresses])]
    for k, f in enumerate(trees.functions):
        slots = [optional(s, lambda s: "(record { offset = %d; width = width.B%d })" % s) for s in f["parameters"]]
        out += ["", "  f%d : Function" % k, "  f%d = record {" % k, "    address = addresses;", "    callee = λ g. g;",
                "    parameters = %s;" % listing(slots), "    frame = %d;" % f["frame"],
                "    body = %s;" % wrapped(statements(f["body"]), 8), "  }"]
    out += ["", "  function : ℕ → Function", "  function f = " + chosen(["f%d" % k for k in range(len(trees.functions))]), ""]
    counts = "(slice_get %s)" % listing([str(len(f["parameters"])) for f in trees.functions])
    lawful = "true"
    for k in reversed(range(len(trees.functions))):
        lawful = "(is_lawful_body %d %d %s %s (let p = %s in p.function %d) && %s)" % (
            memory, trees.functions[k]["variables"], counts, flag(k != trees.main), name, k, lawful)
    out += ["%s_lawful : %s ≡ true" % (name, lawful), "%s_lawful = refl" % name, ""]
    out += ["abbrev %s_data : List ℕ" % name, "%s_data = %s" % (name, wrapped(listing([str(x) for x in program.data]), 4)), ""]
    run = "run %s %d %d (start %d %d %s_data)" % (
        name, 100000 if turns is None else turns, trees.main, memory, program.frames, name)
    end = {"ended": "Halted %d" % (r.code & MASK), "trapped": "Trapped %d" % r.code, "running": "Going"}[r.kind]
    used = max([k + 1 for k, x in enumerate(r.memory) if x] + [16])
    printed = "[]"
    for p in logged.log:
        printed = "(%s ++ %s)" % (printed, p)
    what = "record { end = %s; printed = %s; reads = %d; writes = %d; bytes = %s; rest_is_zero = true }" % (
        end, printed, r.reads, r.writes, listing([str(x) for x in r.memory[16:used]]))
    unfolding = "unfolding compared misplaced combined spelled most_bytes"
    out += ["%s_runs :" % name, "    seen %d (%s) ≡" % (used - 16, run), "    " + wrapped(what, 4), unfolding,
            "%s_runs = refl" % name]
    if not logged.numbers:
        out += ["", "%s_works : nat_le (work_of (%s)) %d ≡ true" % (name, run, 3 * (checked.work + 1)), unfolding,
                "%s_works = refl" % name]
    out += bounds(name, program, trees, limit)
    return "\n".join(out) + "\n"


def main():
    groups = {}
    for group, name, *job in listed.programs():
        groups.setdefault(group, []).append(deep.run(example, name, *job))
    for group, parts in groups.items():
        with open(os.path.join(sys.argv[2], group + "Examples.antt"), "w") as out:
            out.write("\n".join([HEAD.replace("GROUP", group.lower())] + parts))


main()
