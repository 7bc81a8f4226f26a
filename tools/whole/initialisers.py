"""Programs with random initialisers: constants and addresses for scalars of every width, in members, arrays and structures, at
file scope and in blocks; and null pointer constants in conditional expressions, comparisons, assignments, calls and returns."""

import random

HEAD = """#include <stdio.h>
struct s { char a; short b; int c; char d[3]; struct s *n; };
struct t { struct s x; int *p; char *q; unsigned short r; void *v; };
enum { E = 3, F = -1 };
int g; short h; char k[5]; int w[4]; struct s x; struct s y[2]; struct t z;
int *take(int *p) { return p; }
void *none(int i) { return i ? (void *)0 : &g; }
"""

INTEGERS = ["char", "signed char", "unsigned char", "short", "unsigned short", "int", "unsigned", "long", "unsigned long"]
WIDE = ["int", "unsigned", "long", "unsigned long"]
POINTERS = ["int *", "char *", "void *", "short *", "struct s *"]

ADDRESSES = [
    "&g", "&h", "k", "k + 2", "&k[3]", "w", "w + 1", "&w[2]", "1 + w", "&w[3] - 1", "&x", "&x.c", "&x.b", "x.d", "&y[1]",
    "&y[1].c", "y", "&z.x.d[1]", "&z.p", "y->d", "&(&y[1])->c", "(char *)&g", "(int *)&x", "(void *)&h", "(void *)w", '"ab"',
    '"ab" + 1', "(int *)65", "(char *)0", "(void *)0", "(int *)0", "0", "(void *)(char *)0", "(int *)(void *)0", "(void *)(0)",
    "(void *)(1 - 1)", "(void *)E", "&*w", "*&w", "(struct s *)(void *)&x", "w + E", "&w[0] + F",
]

NUMBERS = [
    "0", "1", "-1", "65", "300", "70000", "'a'", "E", "F", "sizeof(struct s)", "sizeof w", "2 * 3 + 4", "1 << 4", "-5 / 2", "~0",
    "!0", "4294967295", "(char)200", "(unsigned char)-1", "(short)70000", "1 ? 2 : 3", "0 && 1 / 0", "(unsigned)-1 > 0",
]

# no constants, or none that is accepted
WILD = ["1 || g", "(1, 2)", "g", "1 / 0", "h + 1", "x.c", "w[0]", "(g = 1)", "take(0) != 0", "&g == 0", "!&g", "k[1]", "*w", "x", "y[0]"]


class Maker:
    ASKED = [
        "printf(\"%%d\\n\", (i ? &x : %s)->c);", "printf(\"%%d\\n\", (!i ? %s : &y[1])->b);", "printf(\"%%d\\n\", *(i ? w : %s));",
        "printf(\"%%d\\n\", p == %s);", "printf(\"%%d\\n\", %s != p);", "p = %s;", "printf(\"%%d\\n\", take(%s) == p);",
        "printf(\"%%d\\n\", (i ? %s : 0) == p);", "printf(\"%%d\\n\", p < %s);", "p = i ? %s : (void *)0;",
        "printf(\"%%d\\n\", (int)sizeof *(i ? p : %s));", "if (!(%s)) printf(\"n\\n\");",
    ]

    def __init__(self, seed):
        self.r = random.Random(seed)
        self.count = 0
        self.wildness = self.r.choice([0, 0, 0.05, 0.3])

    def address(self):
        return self.r.choice(ADDRESSES)

    def wild(self):
        """An address of some width, a sum of one, or what is no constant."""
        r = self.r
        a = "(%s)" % self.address()
        kind = r.randrange(6)
        if kind == 0:
            return "(%s)%s" % (r.choice(["int", "unsigned", "long", "char", "short", "unsigned short"]), a)
        if kind == 1:
            return "(%s)(int)%s" % (r.choice(INTEGERS), a)
        if kind == 2:
            return "(int)%s %s %s" % (a, r.choice("+-*&"), r.choice(["1", "4", "2", "E", "(int)&g"]))
        if kind == 3:
            return "%s (int)%s" % (r.choice(["4 +", "8 -", "-", "~", "!"]), a)
        return a if kind == 4 else r.choice(WILD)

    def value(self, of_type):
        r = self.r
        if r.random() < self.wildness:
            return self.wild()
        if of_type in POINTERS:
            a = self.address()
            return "(%s)(%s)" % (of_type, a) if r.random() < 0.9 else r.choice(["0", "(void *)0", "1 - 1"])
        if of_type in WIDE and r.random() < 0.6:
            a = "(%s)(%s)" % (r.choice(WIDE), self.address())
            return r.choice(["%s", "%s + 4", "%s - 2", "8 + %s"]) % a
        return r.choice(NUMBERS)

    def member(self):
        """The items of a struct s."""
        r = self.r
        items = [self.value("char"), self.value("short"), self.value("int"), "{ %s, %s }" % (self.value("char"), self.value("char")),
                 self.value("struct s *")]
        if r.random() < 0.3:
            items[3] = r.choice(['"ab"', '{ "a" }', "1, 2, 3", "{ 0 }"])
        return ", ".join(items[:r.randrange(1, 6)])

    def declare(self, local):
        """A declaration, and what of it is printed."""
        r = self.r
        self.count += 1
        n = "v%d" % self.count
        kind = r.randrange(6)
        t = r.choice(INTEGERS + POINTERS + POINTERS)
        if kind == 0 or (kind == 1 and not local):
            v = self.value(t)
            return "%s %s = %s;" % (t, n, "{ %s }" % v if r.random() < 0.2 else v), ["(int)%s" % n]
        if kind == 1:
            n2 = r.choice(["%s", "%s + 1", "(%s)", "sizeof %s + 1"]) % n
            return "int %s = %s;" % (n, n2), ["%s" % n]
        if kind == 2:
            many = r.randrange(1, 4)
            size = r.choice(["", str(many), str(many + 1), "1"])
            items = ", ".join(self.value(t) for _ in range(many))
            return "%s %s[%s] = { %s };" % (t, n, size, items), ["(int)%s[0]" % n, "(int)sizeof %s" % n]
        if kind == 3:
            return "struct s %s = { %s };" % (n, self.member()), ["%s.a" % n, "%s.b" % n, "%s.c" % n, "%s.d[1]" % n, "(int)%s.n" % n]
        if kind == 4:
            items = "{ %s }, %s, %s" % (self.member(), self.value("int *"), self.value("char *"))
            return "struct t %s = { %s };" % (n, items), ["%s.x.c" % n, "(int)%s.p" % n, "(int)%s.q" % n, "%s.r" % n]
        items = "{ %s }, { %s }" % (self.member(), self.member())
        return "struct s %s[%s] = { %s };" % (n, r.choice(["", "2", "3"]), items), ["%s[0].c" % n, "%s[1].b" % n, "(int)sizeof %s" % n]

    def null(self):
        """A use of a null pointer constant or of what is none."""
        r = self.r
        if r.random() > self.wildness:
            n = r.choice(["(void *)0", "(void *)0", "0", "(void *)(1 - 1)"])
            return r.choice(self.ASKED[:8]) % n
        n = r.choice(["(void *)0", "(void *)0", "0", "(void *)(1 - 1)", "(void *)(char *)0", "(int *)0", "(void *)i", "(void *)1", "none(1)"])
        return r.choice(self.ASKED) % n

    def text(self):
        r = self.r
        top, inside, shown = [], [], []
        for _ in range(r.randrange(1, 3)):
            d, p = self.declare(False)
            top.append(d)
            shown += p
        for _ in range(r.randrange(0, 3)):
            d, p = self.declare(True)
            inside.append(d)
            shown += p
        uses = [self.null() for _ in range(r.randrange(0, 3))]
        lines = ["int i = 1; int *p = w; int j;", *inside, "x.c = 7; y[1].b = 9; w[0] = 5;", *uses]
        lines += ['printf("%%d\\n", %s);' % e for e in shown]
        body = "\n  ".join(lines)
        if r.random() < 0.3:
            body = "int j; for (j = 0; j < 2; j++) {\n  %s\n  }" % body
        return HEAD + "\n".join(top) + "\nint main(void)\n{\n  " + body + "\n  return 0;\n}\n"


def initialisers(seed):
    """A program of this seed."""
    return Maker(seed).text()
