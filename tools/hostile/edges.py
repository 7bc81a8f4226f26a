#!/usr/bin/env python3
"""edges.py [--every=N] PROGRAM [KIND..]

Calls PROGRAM at the edges, where stress.py goes by chance; with --every only at each N-th of them. The kinds (all without a word):

    nests       some 330 kinds of nesting, each as deep as it is accepted, and once deeper: that is refused `too-deep`
    types       eight kinds of types that are made of one another by tags and names, or of parameters, as deep as the tokens of a job or
                the largest object let them be; four of these are compared across two files, where two differ
    limits      a text, a file, a job or a word at each limit, with the note that is due, and one beyond, which is refused by its name
    images      each prefix of three images, and each with one byte changed in three ways, by exec and dis: a prefix is no image
    traces      each prefix of three traces, and each with one byte changed in three ways, by check

A call fails as in stress.py: by a signal, by more than ten seconds of a processor or a gigabyte, by a status or note that its job
doesn't have. At the end stand a line for each kind and status, how many kinds of nesting and limits there were, and the number of
calls that failed. The status is 1 where one did.
"""

import collections
import itertools
import os
import subprocess
import sys
import tempfile
from types import SimpleNamespace

sys.dont_write_bytecode = True
import stress                                                                   # noqa: E402

TOP = os.path.dirname(os.path.dirname(os.path.dirname(os.path.realpath(__file__))))
HEAD = "int x;int *p;int a[9];int f(int i){return i;}struct s{int m;}s;"
# What stands round an expression, and what round a statement.
ROUND = (("(", ")"), ("- ", ""), ("~", ""), ("!", ""), ("+ ", ""), ("1+(", ")"), ("(x=", ")"), ("1?1:", ""), ("x?", ":1"), ("(int)", ""),
         ("sizeof(", ")"), ("a[", "]"), ("f(", ")"), ("(1,", ")"), ("1&&", ""), ("1<<", ""))
STATEMENTS = (("{", "}"), ("if(1)", ""), ("if(1);else ", ""), ("while(0)", ""), ("for(;0;)", ""), ("do ", "while(0);"), ("switch(1){case 1:", "}"))
# What stands round the name that is declared.
DECLARATORS = (("*", ""), ("(", ")"), ("(*", ")"), ("", "[1]"))
OTHERS = (("int y[1]=", "{", "0", "}", ";"), ("struct t{", "struct{", "int x;", "}y;", "};"), ("int y=sizeof(int", "(*", "", ")", ");"))
DEEP, MAIN = 260, "int main(void){return 0;}"
LONG = 4096
KINDS = ("nests", "types", "limits", "images", "traces")


def nests():
    """Each kind of nesting: what gives its text for a count."""
    def of(before, begin, inside, end, behind):
        return lambda count: f"{HEAD}{before}{begin * count}{inside}{end * count}{behind}"
    for (one, end), (other, behind) in itertools.product(ROUND, ROUND):
        if one != other:
            yield of("int main(void){return ", one + other, "1", behind + end, ";}")
    for one, end in ROUND:
        yield of("int main(void){return ", one, "1", end, ";}")
    for (one, end), (other, behind) in itertools.product(STATEMENTS, STATEMENTS):
        yield of("int main(void){", one + other, ";", behind + end, "return 0;}")
    for (one, end), (other, behind) in itertools.product(DECLARATORS, DECLARATORS):
        yield lambda count, it=of("int ", one + other, "y", behind + end, ";"): it(count) + MAIN
    for it in OTHERS:
        yield lambda count, it=it: of(*it)(count) + MAIN


def types():
    """Each kind of types that are made of one another, as deep as 65,536 tokens let them be: its name, and its texts."""
    chain = lambda one, other, count: one + "".join(other(it) for it in range(1, count))
    texts = {
        "structures": chain("struct s0{int x;};", lambda it: f"struct s{it}{{struct s{it - 1} x;}};", 7_279) + "struct s7278 v={1};",
        "arrays": chain("typedef int a0[1];", lambda it: f"typedef a{it - 1} a{it}[1];", 9_359) + "a9358 v={1};",
        "pointers": "".join(chain(f"typedef int *{name}0;", lambda it, name=name: f"typedef {name}{it - 1} *{name}{it};", 6_550) for name in "ab")
                    + "extern a6549 x;extern b6549 x;",
        "parameters": 2 * f"int f({','.join(['int'] * 16_000)});",
    }
    names = ",".join(f"v{it}" for it in range(8_000))
    within = lambda base: chain(f"struct s0{{{base} x;}};", lambda it: f"struct s{it}{{struct s{it - 1} x;}};", 1_800)
    each = "".join(f"extern struct s{it} v{it};" for it in range(1_800))
    shared = {
        "structures in two files": within("int") + f"extern struct s1799 {names};",
        # of the greatest size, and of 67,108,864 parts
        "twice the same structure in two files": chain("struct s0{char x;};", lambda it: f"struct s{it}{{struct s{it - 1} x;struct s{it - 1} y;}};", 27) + "extern struct s26 v;",
    }
    apart = {
        "structures that differ at their bottom": f"extern struct s1799 {names};",
        "structures of which each differs at its bottom": each,
    }
    return (
        [(name, [text + MAIN]) for name, text in texts.items()]
        + [(name, [text, text + MAIN]) for name, text in shared.items()]
        + [(name, [within("int") + text, within("unsigned") + text + MAIN]) for name, text in apart.items()]
    )


def texts_at(count):
    """For each limit on texts a text that is so much beyond it, by the refusal of what is beyond."""
    literals = 65_536 + count
    return {
        "source-too-long": MAIN + " " * (1_048_576 + count - len(MAIN)),
        "too-many-tokens": "int x;" * (21_842 + count) + MAIN,
        "too-many-replacements": "#define A\n" + "A " * (65_536 + count) + MAIN,
        "literals-too-long": "char *p=" + f'"{"s" * 1000}"' * (literals // 1000) + f'"{"s" * (literals % 1000)}";' + MAIN,
        "function-too-long": "int main(void){" + ";" * (8_182 + count) + "return 0;}",
        "number-too-large": f"unsigned x={4_294_967_295 + count}u;{MAIN}",
        "object-too-large": f"struct s{{char a[{67_108_864 + count}];}};{MAIN}",
        # (the first 16 bytes of the common memory hold no object)
        "data-too-large": f"char a[{1_048_560 + count}];{MAIN}",
    }


# Files of zeros, as long as they can be and one byte longer.
LENGTHS = (
    # words before the file, its most bytes, what is due for so many zero bytes, and for one more
    (["exec"], 536_870_912, "image field magic 0", "image field magic 0"),
    (["dis"], 16_777_216, "image field magic 0", "refused image-too-long"),
    (["asm", "--to=kept"], 134_217_728, "refused asm-line 1", "refused text-too-long"),
    (["check", "passes.img"], 268_435_456, "not-a-run 1", "refused trace-too-long"),
    (["debug", "passes.img"], 1_048_576, "running", "refused script-too-long"),
    (["guard", "passes.img"], 1_048_576, "refused guard-line 1", "refused certificate-too-long"),
)
# the words of an option with a number, its least and its most, what lies between two, what stands behind it, and what is due
OPTIONS = (
    *((["run", f"--{it}="], 1, 4096, 1, "", ["one.c"], "ended 0") for it in ("ld", "al", "sa", "sd", "ab", "eb", "cq", "calls")),
    (["run", "--cap="], 1, 64, 1, "", ["one.c"], "ended 0"),
    (["run", "--memory="], 64, 67_108_864, 16, "", ["one.c"], "ended 0"),
    (["run", "--steps="], 1, 10 ** 12, 1, "", ["one.c"], ("running", "ended 0")),
    (["run", "--show="], 0, 4_294_967_295, 1, ",64", ["one.c"], "memory "),
    (["run", "--show=16,"], 1, 64, 1, "", ["one.c"], "memory "),
    (["run", "--schedule=seed:"], 0, 4_294_967_295, 1, "", ["one.c"], "ended 0"),
    *((["time", f"--{it}="], 1, 1000, 1, "", ["passes.img"], "ended 7") for it in ("load", "mul", "div")),
    (["time", "--ticks="], 1, 10 ** 11, 1, "", ["passes.img"], ("running", "ended 7")),
    (["big", ""], 1, 900, 1, "", [], "ended 0"),
)


def limits(file, hole):
    """The words of a call at each limit and of one beyond, and what one of its notes has to begin with."""
    for beyond in (0, 1):
        for name, text in texts_at(beyond).items():
            yield ["compile", "--to=kept", file(f"{name}{beyond}", text.encode())], f"refused {name}" if beyond else "kept"
    one = file("one.c", MAIN.encode())
    with open(f"{TOP}/examples/passes.img", "rb") as image:
        file("passes.img", image.read())
    files = [one, *(file(f"n{it}.c", f"int n{it};".encode()) for it in range(1024))]
    yield ["compile", "--to=kept", *files[:1024]], "kept"
    yield ["compile", "--to=kept", *files], "words"
    yield ["run", "x" * LONG], "read"
    yield ["run", "x" * (LONG + 1)], "words"
    # (no file of a real folder has a name so long, so the keep fails)
    yield ["compile", "--to=" + "x" * LONG, one], "budget"
    yield ["compile", "--to=" + "x" * (LONG + 1), one], "words"
    for words, most, at, beyond in LENGTHS:
        yield [*words, hole("zeros", most)], at
        yield [*words, hole("zeros", most + 1)], beyond
    for (*words, option), least, most, step, behind, files, due in OPTIONS:
        at_least, at_most = due if isinstance(due, tuple) else (due, due)
        for number, wanted in ((least, at_least), (most, at_most), (least - step, "words"), (most + step, "words")):
            yield [*words, f"{option}{number}{behind}", *files], wanted


# ---- calls

class Edges:
    """Calls the program in a folder of its own, and counts."""

    def __init__(self, program, room, every):
        self.program, self.room, self.every, self.failed = program, room, every, []
        self.table, self.kinds = collections.Counter(), collections.Counter()

    def file(self, name, text):
        with open(f"{self.room}/{name}", "wb") as to:
            to.write(text)
        return name

    def hole(self, name, length):
        """A file of so many zero bytes."""
        self.file(name, b"")
        os.truncate(f"{self.room}/{name}", length)
        return name

    def call(self, kind, words, says):
        """Makes a call, and gives its status and notes. `says` tells of it where it fails."""
        job = SimpleNamespace(job=words[0], words=words, folder=self.room, asked=0)
        status, _, kilobytes, notes = stress.ended(self.program, job, "/dev/null", None)
        self.table[kind, str(status)] += 1
        # (a private memory of up to 64 megabytes is part of what a call may take)
        why = stress.fault(job, status, kilobytes - (1 << 17), notes)
        if why:
            self.fail(kind, says, why)
        return status, notes

    def fail(self, kind, says, why):
        self.failed.append(f"{kind}: {says}: {why}")

    # ---- the kinds

    def nests(self):
        for text in itertools.islice(nests(), 0, None, self.every):
            says = text(2).removeprefix(HEAD)
            self.kinds["kinds of nesting"] += 1
            depth = lambda count, text=text, says=says: self.call("nests", ["compile", "--to=kept", self.file("x.c", text(count).encode())], says)
            low, high = 1, DEEP
            while high - low > 1:
                middle = (low + high) // 2
                status, _ = depth(middle)
                low, high = (middle, high) if status == 0 else (low, middle)
            if depth(low)[0] != 0 or not any(it.startswith("refused too-deep ") for it in depth(high)[1]):
                self.fail("nests", says, f"{high} times isn't refused too-deep, and {low} accepted: {depth(high)[1][-1]}")

    def types(self):
        for name, texts in types():
            files = [self.file(f"x{it}.c", text.encode()) for it, text in enumerate(texts)]
            status, notes = self.call("types", ["compile", "--to=kept", *files], name)
            if status not in (0, 2):
                self.fail("types", name, f"status {status}, {notes[-1][:80]}")

    def limits(self):
        for words, wanted in limits(self.file, self.hole):
            status, notes = self.call("limits", words, " ".join(words)[:60])
            self.kinds["limits, each with one beyond"] += 0.5
            if not any(it.startswith(wanted) for it in notes):
                self.fail("limits", " ".join(words)[:60], f"status {status}, {notes[-1][:80]}, and not {wanted}")

    def images(self):
        for name, image in self.stock():
            for job in (["exec", "--steps=1000", "x.img"], ["dis", "x.img"]):
                for at in range(0, len(image), self.every):
                    self.file("x.img", image[:at])
                    if self.call("images", job, f"{name}, {at} bytes, {job[0]}")[0] != 8:
                        self.fail("images", f"{name}, {at} bytes, {job[0]}", "a prefix is taken for an image")
                for at, change in itertools.product(range(0, len(image), self.every), (1, 0x80, 0xFF)):
                    self.file("x.img", image[:at] + bytes([image[at] ^ change]) + image[at + 1:])
                    self.call("images", job, f"{name}, byte {at} by {change}, {job[0]}")

    def traces(self):
        for name, image in self.stock():
            self.file("y.img", image)
            words = [self.program, "trace", "--steps=60", "y.img"]
            trace = subprocess.run(words, cwd=self.room, capture_output=True, check=False).stdout
            for at in range(0, len(trace), self.every):
                self.file("x.txt", trace[:at])
                self.call("traces", ["check", "y.img", "x.txt"], f"{name}, {at} bytes")
            for at, change in itertools.product(range(0, len(trace), self.every), (1, 0x80, 0xFF)):
                self.file("x.txt", trace[:at] + bytes([trace[at] ^ change]) + trace[at + 1:])
                if self.call("traces", ["check", "y.img", "x.txt"], f"{name}, byte {at} by {change}")[0] == 0:
                    self.fail("traces", f"{name}, byte {at} by {change}", "another text is the trace too")

    def stock(self):
        """Three images: one of two stores and loads by hand, a pair, and a compiled program."""
        with open(f"{TOP}/examples/passes.img", "rb") as file:
            yield "passes", file.read()
        words = [sys.executable, f"{TOP}/tools/listing/assemble.py", f"{TOP}/examples/pairs/count.s"]
        yield "count", subprocess.run(words, capture_output=True, check=True).stdout
        words = [self.program, "compile", "--to=kept", f"{TOP}/examples/answer.c"]
        subprocess.run(words, cwd=self.room, capture_output=True, check=True)
        with open(f"{self.room}/kept", "rb") as file:
            yield "answer", file.read()


def main(words):
    every = next((int(it[8:]) for it in words if it.startswith("--every=")), 1)
    words = [it for it in words if not it.startswith("--every=")]
    kinds = words[1:] or list(KINDS)
    if not words or not set(kinds) <= set(KINDS):
        sys.exit(__doc__)
    with tempfile.TemporaryDirectory() as room:
        edges = Edges(os.path.abspath(words[0]), room, every)
        for kind in kinds:
            getattr(edges, kind)()
    for (kind, status), count in sorted(edges.table.items()):
        print(f"{kind:8} {status:>4} {count:8}")
    print(*(f"{count:.0f} {kind}" for kind, count in edges.kinds.items()), sep="\n")
    print(*edges.failed[:200], f"{sum(edges.table.values())} calls, {len(edges.failed)} failed", sep="\n")
    return 1 if edges.failed else 0


if __name__ == "__main__":
    sys.exit(main(sys.argv[1:]))
