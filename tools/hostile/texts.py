"""What a hostile caller gives: texts of C, images, traces, scripts, certificates and assembly, each random, cut, spliced or damaged.

A maker takes a random.Random and gives bytes. `Stock` has what the damage begins with: sources, and what the program itself makes
of them once (images, traces, listings).
"""

import glob
import os
import struct
import subprocess

HERE = os.path.dirname(os.path.realpath(__file__))
TOP = os.path.dirname(os.path.dirname(HERE))

TOKENS = """int char short long unsigned signed void struct union enum typedef static extern const sizeof if else for while do
switch case default break continue return goto main printf exit abort putchar NULL x y f g p a 0 1 7 2147483647 4294967296 'a' "s" "%d\\n"
( ) [ ] { } ; , . -> ++ -- & * + - ~ ! / % << >> < > <= >= == != ^ | && || ? : = += -= *= <<= #include <stdio.h> <stdlib.h> #define #if
/* */ \\""".split()

NESTS = [
    ("int main(void){return ", "(", "0", ")", ";}"),
    ("int main(void){", "{", ";", "}", "return 0;}"),
    ("int main(void){", "if(1)", ";", "", "return 0;}"),
    ("int main(void){int x=0;x=", "x=", "1", "", ";return 0;}"),
    ("int main(void){return ", "- ", "1", "", ";}"),
    ("int main(void){return ", "1+(", "1", ")", ";}"),
    ("int ", "*", "x", "", ";int main(void){return 0;}"),
    ("int x", "[1]", "", "", ";int main(void){return 0;}"),
    ("int x[1]=", "{", "0", "}", ";int main(void){return 0;}"),
    ("int ", "(", "x", ")", ";int main(void){return 0;}"),
    ("struct a{", "struct{", "int x;", "}y;", "};int main(void){return 0;}"),
    ("int main(void){return ", "1?1:", "0", "", ";}"),
    ("int main(void){return ", "sizeof(", "int", ")", ";}"),
    ("int main(void){", "do ", ";", "while(0);", "return 0;}"),
    ("int main(void){", "for(;0;)", ";", "", "return 0;}"),
    ("int main(void){int x=1;", "switch(x)", ";", "", "return 0;}"),
    ("int main(void){", "x:", ";", "", "return 0;}"),
    ("#define a 1\n", "#define a a\n", "", "", "int main(void){return a;}"),
    ("", "/*", "", "*/", "int main(void){return 0;}"),
    ("", "int f(void);", "", "", "int main(void){return 0;}"),
]

LENGTHS = [1, 2, 10, 60, 63, 64, 65, 100, 127, 128, 129, 200, 255, 256, 257, 1000, 1024, 4096, 10000, 65536]


def nested(r):
    """A text that nests one of the kinds of parts so deep."""
    before, begin, inside, end, behind = r.choice(NESTS)
    count = r.choice(LENGTHS)
    return (before + begin * count + inside + end * count + behind).encode()


def lengthy(r):
    """A text with a name, a literal, a number, a replacement or a line that is so long."""
    n = r.choice([1, 255, 4095, 4096, 65535, 65536, 1048000, 1048576 - 40, 1048576, 1048577])
    kind = r.randrange(6)
    if kind == 0:
        text = "int %s;int main(void){return 0;}" % ("x" * n)
    elif kind == 1:
        text = 'int main(void){printf("%s");return 0;}' % ("s" * n)
    elif kind == 2:
        text = "int main(void){return %s;}" % ("1" * n)
    elif kind == 3:
        text = "#define a %s\nint main(void){return 0;}" % ("1+" * (n // 2) + "1")
    elif kind == 4:
        text = "int main(void){return 0;}" + " " * n
    else:
        text = "int main(void){return 0;}" + "\n" * n
    return text.encode()


def tokens(r):
    """Random tokens."""
    return " ".join(r.choices(TOKENS, k=r.randrange(1, 200))).encode()


def noise(r):
    """Random bytes."""
    return r.randbytes(r.choice([0, 1, 2, 7, 50, 84, 108, 500, 4000]))


def damaged(r, text):
    """A text with some bytes changed, cut out, put in, doubled or exchanged."""
    text = bytearray(text)
    for _ in range(r.choice([1, 1, 1, 2, 5, 20])):
        at = r.randrange(len(text) + 1)
        end = min(len(text), at + r.choice([1, 1, 4, 16, 200]))
        kind = r.randrange(6)
        if kind == 0:
            text[at:end] = r.randbytes(end - at)
        elif kind == 1:
            del text[at:end]
        elif kind == 2:
            text[at:at] = r.randbytes(r.choice([1, 4, 16]))
        elif kind == 3:
            text[at:at] = text[at:end]
        elif kind == 4:
            to = r.randrange(len(text) + 1)
            text[to:to] = text[at:end]
        elif end > at:
            text[at] ^= 1 << r.randrange(8)
    return bytes(text)


def spliced(r, one, other):
    """The first part of a text, and the last of another."""
    return one[: r.randrange(len(one) + 1)] + other[r.randrange(len(other) + 1) :]


def cut(r, text):
    """The first bytes of a text."""
    return text[: r.randrange(len(text) + 1)]


def numbers_changed(r, image):
    """An image in which some of its numbers have values at the edges of their ranges."""
    image = bytearray(image)
    for _ in range(r.choice([1, 1, 2, 4])):
        at = 4 * r.randrange(max(1, min(len(image) // 4, r.choice([20, 20, 10000]))))
        value = r.choice([0, 1, 2, 3, 4, 16, 63, 64, 65, 4096, 4097, 65536, 1 << 26, 1 << 30, 1 << 31, (1 << 32) - 1, r.getrandbits(32)])
        image[at : at + 4] = struct.pack("<I", value)
    return bytes(image)


def script(r):
    """Commands of a debugger, most of them good."""
    number = lambda: r.choice([0, 1, 2, 7, 16, 100, 1000, 999999, 1000000, 1000001, 4294967295, 4294967296, r.getrandbits(20)])
    kinds = [
        lambda: "step " + r.choice(["A", "E", "D", "F A %d" % number(), "F E %d" % number(), "", "X"]),
        lambda: "go %d" % number(),
        lambda: "break %s %d %d" % (r.choice("AE"), r.choice([0, 1, number()]), number()),
        lambda: "regs " + r.choice("AEX"),
        lambda: r.choice(["queues", "stores", "queues ", "", "quit" if r.random() < 0.1 else "stores"]),
        lambda: "memory %d %d" % (number(), r.choice([0, 1, 4, 64, 65, number()])),
    ]
    lines = [r.choice(kinds)() for _ in range(r.choice([0, 1, 5, 50, 1000]))]
    return "\n".join(lines).encode() + (b"\n" if r.random() < 0.8 else b"")


def certificate(r):
    """Lines of a certificate, most of them good."""
    counter = lambda: r.choice(["halted", "0", str(4 * r.randrange(10)), str(r.getrandbits(r.choice([5, 32, 33])))])
    lines = []
    for _ in range(r.choice([0, 1, 2, 3, 64, 65])):
        lines.append(f"node {counter()} {counter()}")
        for _ in range(r.choice([0, 0, 1, 5])):
            low, step = r.getrandbits(r.choice([1, 4, 31, 32])), r.choice([0, 1, 1, 2, 4, 8, r.getrandbits(31)])
            lines.append(f"{r.choice('ae')} {r.randrange(1, 29)} {low} {low + step * r.randrange(100)} {step}")
    return "\n".join(lines).encode() + r.choice([b"\n", b"\n", b"", b"\n\n"])


def assembly(r):
    """Lines of assembly in their order, with marks and labels, all of them good or some of them not."""
    badly = r.choice([0, 0, 0.001, 0.02])
    pick = lambda good, bad: r.choice(bad if r.random() < badly else good)
    number = lambda *good: pick(good, [-1, 0, 1, 3, 31, 2048, 4096, 1 << 20, 1 << 32])
    register = lambda: "x" + pick(["0", "5", "10", "17", "29", "30", "31"], ["28", "32", "05"])
    marks = [0, 0]

    def target(side):
        """A label of this side, or a place in it."""
        return pick([f"l{side}{r.randrange(marks[side])}"] if marks[side] else ["4", "-4"], ["l7", "8", "-4096", "1"])

    def label(side):
        marks[side] += 1
        return f"l{side}{pick([marks[side] - 1], [0])}:"
    code = [
        lambda _: f"addi {register()},{register()},{number(1, -1, 2047)}",
        lambda _: f"{r.choice(['lw', 'sw', 'lbu', 'sh'])} {register()},{number(16, 20)}({register()})",
        lambda side: f"beq {register()},{register()},{target(side)}",
        lambda side: f"jal x0,{target(side)}",
        lambda _: f"lui {register()},{number(1, 1048575)}",
        label,
        lambda _: pick(["ecall", ".word 115", "; a comment", "", "mul x5,x6,x7"], ["ebreak", ".word", "mul x5,x6", "l0"]),
    ]
    lines = [f".budget {' '.join(str(number(1, 8)) for _ in range(7))}", f".memory {number(64, 1024)}", f".calls {number(1, 9)}",
             f".private {number(16)} {number(16)}", f".entry {number(0)} {number(0, 4)}"]
    for side, word in enumerate((".a", ".e")):
        lines += [word, "ecall", *(r.choice(code)(side) for _ in range(r.choice([1, 5, 50, 500]))), "ecall"]
    count = r.choice([0, 1, 16, 17])
    lines += [".data", *(".byte " + " ".join(str(number(0, 255)) for _ in range(it)) for it in ([16] * (count // 16) + [count % 16]) if it)]
    names = r.choice([0, 0, 1, 2])
    lines += [f".line a {it} {number(0)} {number(1, 7)}" for it in range(2 * names)] + [f".name {number(97)}" for _ in range(names)]
    for _ in range(r.choice([0, 0, 1, 2]) if badly else 0):
        lines.insert(r.randrange(len(lines) + 1), lines.pop(r.randrange(len(lines))))
    return "\n".join(lines).encode() + (b"\n" if r.random() < 0.9 else b"")


class Stock:
    """What damage begins with."""

    def __init__(self, program, folder):
        names = sorted(glob.glob(f"{TOP}/examples/*.c") + glob.glob(f"{TOP}/examples/course/*.c"))
        self.sources = [open(it, "rb").read() for it in names]
        self.images, self.traces, self.listings = [], [], []
        self.certificates = [open(it, "rb").read() for it in sorted(glob.glob(f"{TOP}/examples/pairs/*.cert"))]
        for number, name in enumerate(names):
            image = f"{folder}/stock-{number}.img"
            if subprocess.run([program, "compile", f"--to={image}", name], capture_output=True, check=False).returncode != 0:
                continue
            self.images.append(open(image, "rb").read())
            traced = subprocess.run([program, "trace", "--steps=300", image], capture_output=True, check=False)
            listed = subprocess.run([program, "dis", image], capture_output=True, check=False)
            self.traces.append(traced.stdout)
            self.listings.append(listed.stdout)

    def changed(self, r, texts, makers=()):
        """One of the texts, damaged, cut or spliced; or whole; or what one of the makers makes."""
        if not texts or r.random() < 0.15:
            return r.choice([noise, *makers])(r)
        text = r.choice(texts)
        return r.choice([damaged, damaged, cut, lambda r, text: spliced(r, text, r.choice(texts)), lambda _, text: text])(r, text)

    def source(self, r):
        return self.changed(r, self.sources, [tokens, nested, lengthy, nested, lengthy])

    def image(self, r):
        if r.random() < 0.4:
            return numbers_changed(r, r.choice(self.images))
        return self.changed(r, self.images)

    def trace(self, r):
        return self.changed(r, self.traces)

    def listing(self, r):
        return self.changed(r, self.listings, [assembly, assembly, assembly])

    def certificate(self, r):
        return self.changed(r, self.certificates, [certificate, certificate])
