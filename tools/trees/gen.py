"""gen.py FOLDER SEED PROGRAMS CHANGED [FILE..]

Writes texts in hexadecimal, one a line, to files 0000, 0001 and so on in FOLDER, each with so few that the program of main.txt
beside this file prints less than a mebibyte for it: the C files, PROGRAMS random programs, the rows below, and CHANGED texts
that are one of those with one to three tokens left out, added or changed. The grammar takes the random programs, but some of
them are too deep. They mean nothing, but names of types are declared, hidden and seen again in them as scopes want it.
"""

import os
import random
import re
import sys

NAMES = ["a", "b", "c", "f", "g", "s", "t", "u", "v", "w", "x_1", "_y", "T", "L", "printf"]
TYPES = [
    "char", "signed char", "unsigned char", "short", "short int", "signed short", "signed short int", "unsigned short",
    "unsigned short int", "int", "signed", "signed int", "unsigned", "unsigned int", "long", "long int", "signed long",
    "signed long int", "unsigned long", "unsigned long int", "void",
]
NUMBERS = [
    "0", "1", "2", "7", "10", "255", "2147483647", "2147483648", "4294967295", "0x0", "0xFf", "0X7fffffff", "0x80000000", "00",
    "017", "3u", "3U", "3l", "3L", "3ul", "3LU", "0xAuL", "'a'", "'\\n'", "'\\0'", "'\\x41'", "'\\377'", "'\\''", "'\"'",
]
STRINGS = ['""', '"a"', '"%d\\n"', '"\\x41\\0b"', '"\\\\\\""', '"/* no */"', '"\'"']
LEVELS = ["* / %", "+ -", "<< >>", "< > <= >=", "== !=", "&", "^", "|", "&&", "||"]      # 4 to 13
ASSIGNMENTS = "= *= /= %= += -= <<= >>= &= ^= |=".split()
PIECES = (
    "int char void struct enum typedef const static unsigned t u a b f 1 \"s\" ( ) ( ) [ ] { } ; , : ? = == + - * & ++ -- . -> "
    "sizeof if else while do for return break case default switch < && +="
).split()

# Texts at the edges of the grammar, some of them with no tree.
ROWS = [
    "typedef int t; int f(t); int g(t t); int h(t(t)); int i(t(*t)(t)); int j(t[3]); int k(t *t); int l(int(t)); int m(t t, int u[(t) + 1]); t n;",
    "typedef int t; int f(int t, t u);",
    "typedef int t; int f(int a[sizeof(t)], int t, int b[sizeof(t)], int (*g)(int t, int c[(t) + 1]));",
    "typedef int t; int f(int t, int u) { return (t) + (u); } int g(t u) { return (t) + (u); }",
    "typedef int t; int (*f(int t))(int u) { return (t)(u); }",
    "typedef int t; int (*f(int u))(int t) { return (t)(u); }",
    "typedef int t; int (*(f)(int t)) { return (t)(1); }",
    "typedef int t; int (*f)(int t) { return (t)(1); }",
    "typedef int t; int ((f(int t))) { return (t)(1); }",
    "typedef int t; int f(int t)[3] { return (t)(1); }",
    "typedef int t; int f { t u; } int f[2] { return (t)1; }",
    "typedef int t; int f(void) { t t; t = (t)(1); { t * 2; } } t u;",
    "typedef int t; int f(void) { t t = sizeof(t), *u = (t); }",
    "typedef int t; int f(void) { enum { t } u; return (t) + 1; } t v;",
    "typedef int t; int f(void) { int u = sizeof(enum { t }); return (t) + 1; } t v;",
    "typedef int t; int f(void) { for (sizeof(enum { t }); (t) + 1; (t)(2)) (t) - 1; return (t) - 1; }",
    "typedef int t; int f(void) { if ((enum { t }) 0) (t) - 1; else (t) + 1; { t * 1; } }",
    "typedef int t; int f(void) { { sizeof(enum { t }); } t u; }",
    "typedef int t; int f(void) { { sizeof(enum { t }); (t) - 1; } (t) - 1; { t u; } }",
    "typedef int t; int f(void) { while (1) sizeof(enum { t }); return (t) - 1; }",
    "typedef int t; int f(enum { t } u, int v[(t) + 1]); t w;",
    "typedef int t; int f(enum { t } u) { return (t) + 1; } t w;",
    "typedef int t; enum { t = sizeof(t), u = (t) + 1 } v;",
    "typedef int t; enum t { a = (t) 1, b = sizeof(t), } v; t w; enum t x;",
    "typedef int t; struct t { t t; t u[sizeof(t)], *t; struct t *v; } t; int x = (t).t + t.t;",
    "typedef int t; struct { int t; } a; t b; int c = a.t + (&a)->t;",
    "typedef int t; t const a; const t b; static t c; t static d; t typedef u; u e; typedef t v, *w; v x; w y;",
    "typedef int t; const t; static t; t; typedef t; t const u, t; int v = (t) + 1;",
    "typedef int t; int t; int u = (t) + 1;",
    "typedef int t, u; typedef t u; typedef u t; t a; u b;",
    "typedef int t; typedef int f(t), g(t t), (*h)(t); f a; g b; h c;",
    "typedef int t; int a = (t) - 1, b = (t)(1), c = (t) * &a, d = (t) &a, e = (t) + (t) ~ (t) ! (t) 1;",
    "typedef int t; int a = sizeof(t), b = sizeof(t) - 1, c = sizeof (a) - 1, d = sizeof (a)[1], e = sizeof (a)++, g = sizeof -(t) 1;",
    "typedef int t; int a = sizeof sizeof(t) * 2, b = sizeof(sizeof(t)), c = sizeof(t *), d = sizeof(t (*)(t)), e = sizeof(t[2]);",
    "typedef int t; int a = sizeof(int()), b = sizeof(int(t)), c = sizeof(int(*)[2]), d = sizeof(int(())), e = sizeof(int([3]));",
    "typedef int t; int f(int(), int(t), int(*), int(a), int([2]), int(*[2])(t), int((a)), int((*a)()), int(void));",
    "typedef int t; int f(int (t)(int)); int g(int (t[2])); int h(int (*(t)));",
    "typedef int t; int f(t, t(), t(t), t(*)(t), t[], t*const*); int g(register t); int h(typedef t, t);",
    "typedef int t; int f(const t, t const, const);",
    "typedef int t; int f(const t, t const, const t const u, t const *const, const t (*)[2]);",
    "typedef int t; int f(unsigned t); int g(short t, short int t); int h(t unsigned, t u);",
    "typedef int t; int f(unsigned t); int g(short t, short int t); int h(t t); int i(t (t));",
    "int f(void); int g(); int h(void *); int i(void, void); int j(void (void)); int k(void()); int l(const void); int m(void const);",
    "int f(void a); int g(int, void); int h(void[2]); int i(void (a));",
    "int a = 1 ? 2 : 3 ? 4 : 5, b = 1 ? 2 ? 3 : 4 : 5, c = 1 ? 2, 3 : 4, d = (1 ? a = 2 : 3);",
    "int f(void) { a ? b : c = d; }",
    "int f(void) { a ? b : (c = d); a ? b = c : d; a = b ? c = d : e; a ? b, c : d ? e : f, g; a || b ? c : d || e; }",
    "int f(void) { a = b ? c : d; a = b = c += d -= e; *a = b; a[1] = b; a++ = b; ++a = b; f() = 1; 1 = 2; \"s\" = 3; -a = b; sizeof a = b; }",
    "int f(void) { a || b && c | d ^ e & f == g < h << i + j * k; a * b + c << d < e == f & g ^ h | i && j || k; }",
    "int f(void) { a - b - c; a / b * c % d; a << b >> c; a < b > c <= d >= e; a == b != c; a & b & c; a ^ b ^ c; a | b | c; a && b && c; a || b || c; }",
    "int f(void) { a - -b; a - --b; a-- - b; a + ++b; a++ + +b; - - a; -- -- a; a ++ ++ --; & & a; & * & a; a & & b; a * * b; ! ~ - + a; }",
    "int f(void) { a+++b; a---b; a+++++b; }",
    "int f(void) { *a++; *a.b; &a->b; *a[1]; -a++; (*a)++; ++*a; ++a.b; ++a[1]; ++a->b(); ! a(b); ~a.b.c->d[1](2)++; }",
    "int f(void) { a, b, c; a, (b, c), d; f(a, b, c); f((a, b), c); f(a = b, c ? d : e); f(); f()(); f()[1](2).a->b; a[b, c]; }",
    "int f(void) { (int) a + b; (int) -a; (int) (a); (int) a[1]; (int) a++; (int) (int) a; - (int) a; * (char *) a; (int) sizeof a; sizeof (a); sizeof a + b; }",
    "int f(void) { if (a) if (b) c; else d; if (a) if (b) c; else d; else e; if (a) { if (b) c; } else d; }",
    "int f(void) { if (a) while (b) if (c) d; else e; if (a) for (;;) if (c) d; else e; else g; if (a) do if (b) c; else d; while (e); else g; }",
    "int f(void) { if (a) switch (b) case 1: if (c) d; else e; if (a) default: if (c) d; else e; else ; }",
    "int f(void) { switch (a) { case 1: case 2: default: a; break; case 3 ? 4 : 5: ; } case 1: ; default: default: ; switch (a) ; }",
    "int f(void) { do ; while (a); do do ; while (b); while (c); for (;;) ; for (a; b; c) { } for (a, b; ; c, d) ; while (a) while (b) ; }",
    "int f(void) { return; return a; return a, b; return (a); break; continue; ; { } { ; } { { } } }",
    "int f(void) { int a; int b = 1, *c = &a, d[2] = { 1, 2 }, e[] = { 1, }; struct s { int a; }; enum { x }; extern int g(int), h; a; }",
    "int f(void) { a; int b; }",
    "int a = { 1 }, b[2][2] = { { 1, 2 }, { 3, 4, }, }, c[] = { { { { 1 } } } }, d = {{1},}; char e[] = \"ab\" \"c\", f[] = { \"d\" }, *g[] = { \"\", \"h\" };",
    "int a = { }; ", "int a = { , };", "int a[] = { 1, , };", "int a = 1, ;", "int a = (1, 2), b = { 1, (2, 3) };", "enum { }; ", "enum { a, , };", "struct { };",
    "enum { a }; enum e { b, }; enum e; enum e c; enum { d = 1, e = 2, } g; const enum h { i } typedef j; j k;",
    "struct s; struct s { int a; }; struct { int a, b[2], *c, (*d)(int), e(int); const f; } g;",
    "struct s; struct s { int a; }; struct { int a, b[2], *c, (*d)(int), e(int), ((f)); const int g; } h; struct s *i, j(struct s);",
    "struct s { int a; const int *const *const b; unsigned; } c;",
    "struct s { int a; const int *const *const b; unsigned c; } d;",
    "struct s { struct t { struct u { int a; } b; } c; struct t d; enum { e, f } g; } h;",
    "int * const a, * const * b, * const const c, ** d, *(*e), (*f)[2], *g[2], (*h[2])(void), *(*(*i)(void))[2], (**j)(), *(k)(), ((l));",
    "int a[], b[1][2], c[][2], d[1 + 2], e[f ? 1 : 2], g[(1, 2)], h[sizeof(int)];",
    "int a[1, 2];", "int a[b = 1];", "enum { a = 1, 2 };", "int f(void) { case a, b: ; }", "int f(void) { case a = b: ; }",
    "unsigned long int const static a; long unsigned b; int short c; const const int d; static const int e; signed; char signed f; int long unsigned const g;",
    "const const a;", "static const a;", "unsigned signed;", "long int long a;", "unsigned char int a;", "short char a;",
    "long long a;", "short long a;", "char int a;", "signed unsigned a;", "void int a;", "static extern a;", "struct s int a;", "int struct s a;",
    "static int a; extern int b; typedef int c; auto int d; register int e; int static g; int typedef h; h i;",
    "int f(void) { 0; 1u; 0x10; 010; 'a'; '\\0'; '\\377'; '\\xff'; \"\"; \"\\0\"; \"a\" \"\\x41\" \"b\"; 4294967295; 2147483648; 0x7fffffff; 0xffffffffL; }",
    "#define A (1 + B)\n#define B A\n#define C int\n#define D ;\n#define E [2]\nC a E D C f(void) { return A D }",
    "#define T t\ntypedef int T; T a; int f(T T) { return T; }",
    "#define P (\n#define Q )\n#define S P P a Q Q\nint f(void) { S; return S + S; }",
    "#include <stdio.h>\n#include <stdlib.h>\nint main(void) { printf(\"%d\\n\", NULL); exit(EXIT_FAILURE); return EXIT_SUCCESS; }",
    "int\\\n a; in\\\nt b\\\nc = 1\\\n2; char *s = \"a\\\nb\"; int d = 1 +\\\n+ 2; int e = a +\\\n+;",
    "int\\\n a; in\\\nt b\\\nc = 1\\\n2; char *s = \"a\\\nb\"; int d = 1 +\\\n+ b; int e = a +\\\n+;",
    "int\\\n a; in\\\nt b\\\nc = 1\\\n2; char *s = \"a\\\nb\"; int d = +\\\n+ b; int e = a +\\\n+; // c \\\n int c;\n/* d\n*/ int g;",
]

ROOM = 30000


class Program:
    def __init__(self, random):
        self.random = random
        self.out = []
        self.scopes = [{}]
        self.fuel = random.choice([15, 40, 80, 150, 300, 500])
        self.is_thin = self.chance(0.6)       # short expressions, many statements
        self.macros = []
        self.lines = []

    def put(self, *tokens):
        self.out += tokens

    def chance(self, p):
        return self.random.random() < p

    def goes_on(self, p):
        """Whether something more may follow."""
        self.fuel -= 1
        return self.fuel > 0 and self.chance(p)

    # -- names

    def is_type(self, name):
        for scope in reversed(self.scopes):
            if name in scope:
                return scope[name]
        return False

    def variable(self):
        while True:
            name = self.random.choice(NAMES)
            if not self.is_type(name):
                return name

    def types(self):
        return [name for name in NAMES if self.is_type(name)]

    # -- expressions

    def leaf(self):
        r = self.random.random()
        if r < 0.5:
            self.put(self.variable())
        elif r < 0.85:
            self.put(self.random.choice(NUMBERS))
        elif r < 0.9 and self.macros:
            self.put(self.random.choice(self.macros))
        else:
            for _ in range(self.random.choice([1, 1, 1, 2, 3])):
                self.put(self.random.choice(STRINGS))

    def expression(self, level=16, depth=0):
        """An expression that binds no looser than level."""
        self.fuel -= 1
        if self.fuel < 0 or depth > 30 or self.chance(0.55 if self.is_thin else 0.15):
            return self.leaf()
        kind = self.random.randint(0, level)
        if kind in (2, 3) or self.chance(0.2):
            kind = min(level, self.random.choice([0, 1, 1, 2, 2, 3]))
        depth += 1
        if kind == 0:
            self.put("(")
            self.expression(16, depth)
            self.put(")")
        elif kind == 1:
            self.expression(1, depth)
            self.suffix(depth)
        elif kind == 2:
            self.unary(depth)
        elif kind == 3:
            self.put("(")
            self.type_name()
            self.put(")")
            self.expression(3, depth)
        elif kind <= 13:
            self.expression(kind, depth)
            self.put(self.random.choice(LEVELS[kind - 4].split()))
            self.expression(kind - 1, depth)
        elif kind == 14:
            self.expression(13, depth)
            self.put("?")
            self.expression(16, depth)
            self.put(":")
            self.expression(14, depth)
        elif kind == 15:
            self.expression(2, depth)
            self.put(self.random.choice(ASSIGNMENTS))
            self.expression(15, depth)
        else:
            self.expression(16, depth)
            self.put(",")
            self.expression(15, depth)

    def suffix(self, depth):
        r = self.random.randrange(5)
        if r == 0:
            self.put("[")
            self.expression(16, depth)
            self.put("]")
        elif r == 1:
            self.put("(")
            count = self.random.choice([0, 1, 1, 2, 3])
            for k in range(count):
                if k:
                    self.put(",")
                self.expression(15, depth)
            self.put(")")
        elif r == 2:
            self.put(self.random.choice([".", "->"]), self.random.choice(NAMES))
        else:
            self.put(self.random.choice(["++", "--"]))

    def unary(self, depth):
        r = self.random.randrange(12)
        if r < 2:
            self.put(self.random.choice(["++", "--"]))
            self.expression(2, depth)
        elif r == 2:
            self.put("sizeof")
            self.expression(2, depth)
        elif r == 3:
            self.put("sizeof", "(")
            self.type_name()
            self.put(")")
        else:
            self.put(self.random.choice("&*+-~!"))
            self.expression(3, depth)

    # -- types

    def specifiers(self, storages=()):
        """Specifiers in any order. Gives the storage class."""
        storage = self.random.choice(storages) if storages else None
        around = ["const"] * self.random.choice([0, 0, 0, 0, 1, 1, 2]) + ([storage] if storage else [])
        r = self.random.random()
        types = self.types()
        if types and r < 0.4:
            parts = [(self.put, self.random.choice(types))]
        elif r < 0.7 or self.fuel < 0:
            words = self.random.choice(TYPES).split()
            self.random.shuffle(words)
            parts = [(self.put, word) for word in words]
        elif r < 0.85:
            parts = [(self.structure, None)]
        else:
            parts = [(self.enumeration, None)]
        places = sorted(self.random.randint(0, len(parts)) for _ in around)
        self.random.shuffle(around)
        for k in range(len(parts) + 1):
            while places and places[0] == k:
                places.pop(0)
                self.put(around.pop())
            if k < len(parts):
                do, what = parts[k]
                do() if what is None else do(what)
        return storage

    def structure(self):
        self.put("struct")
        is_tagged = self.chance(0.7)
        if is_tagged:
            self.put(self.random.choice(NAMES))
        if is_tagged and self.chance(0.5):
            return
        self.put("{")
        while True:
            self.specifiers([None, None, None, None, "static", "typedef"])
            self.named()
            while self.goes_on(0.3):
                self.put(",")
                self.named()
            self.put(";")
            if not self.goes_on(0.5):
                break
        self.put("}")

    def enumeration(self):
        self.put("enum")
        is_tagged = self.chance(0.7)
        if is_tagged:
            self.put(self.random.choice(NAMES))
        if is_tagged and self.chance(0.5):
            return
        self.put("{")
        while True:
            name = self.random.choice(NAMES)
            self.put(name)
            if self.chance(0.4):
                self.put("=")
                self.expression(14, 10)
            self.scopes[-1][name] = False
            if not self.goes_on(0.5):
                break
            self.put(",")
        if self.chance(0.3):
            self.put(",")
        self.put("}")

    def type_name(self):
        self.specifiers()
        self.abstract(True)

    # -- declarators. Each gives its name and what holds it but parentheses: None, "other" or the parameters' scope.

    def named(self, names=None):
        if self.goes_on(0.25):
            self.put("*")
            self.put(*["const"] * self.random.choice([0, 0, 0, 1, 2]))
            name, part = self.named(names)
            return name, part or "other"
        if self.goes_on(0.2):
            self.put("(")
            name, part = self.named(names)
            self.put(")")
        else:
            name, part = self.random.choice(names or NAMES), None
            self.put(name)
        return name, self.suffixes(part, 0)

    def suffixes(self, part, least):
        count = 0
        while count < least or self.goes_on(0.25):
            found = self.array() if self.chance(0.5) else self.function()
            if part is None:
                part = found
            count += 1
        return part

    def array(self):
        self.put("[")
        if self.chance(0.7):
            self.expression(14, 10)
        self.put("]")
        return "other"

    def function(self):
        self.put("(")
        r = self.random.random()
        scope = {}
        if r < 0.2:
            self.put("void")
        elif r < 0.8:
            self.scopes.append({})
            while True:
                storage = self.specifiers([None] * 12 + ["register", "typedef"])
                name = self.parameter()
                if name is not None:
                    self.scopes[-1][name] = storage == "typedef"
                if not self.goes_on(0.4):
                    break
                self.put(",")
            scope = self.scopes.pop()
        self.put(")")
        if self.out[-3:] == ["(", "void", ")"]:
            scope = {}
        return scope

    def parameter(self):
        if self.chance(0.4):
            self.abstract(True)
            return None
        if self.goes_on(0.3):
            self.put("*")
            self.put(*["const"] * self.random.choice([0, 0, 1]))
            return self.parameter()
        if self.goes_on(0.25):
            # within parentheses no type may come first
            self.put("(")
            name, _ = self.named([self.variable()])
            self.put(")")
        else:
            name = self.random.choice(NAMES)
            self.put(name)
        self.suffixes("other", 0)
        return name

    def abstract(self, may_be_absent):
        r = self.random.random()
        if may_be_absent and (r < 0.5 or self.fuel < 0):
            return
        if r < 0.7 or self.fuel < 0:
            self.put("*")
            self.put(*["const"] * self.random.choice([0, 0, 1]))
            self.abstract(True)
        elif r < 0.85:
            self.put("(")
            self.abstract(False)
            self.put(")")
            self.suffixes("other", 0)
        else:
            self.suffixes("other", 1)

    # -- declarations

    def initialiser(self, depth=0):
        if depth < 12 and self.goes_on(0.3):
            self.put("{")
            self.initialiser(depth + 1)
            while self.goes_on(0.5):
                self.put(",")
                self.initialiser(depth + 1)
            if self.chance(0.3):
                self.put(",")
            self.put("}")
        else:
            self.expression(15, 5)

    def declaration(self, is_outside=False):
        at = "static extern typedef typedef typedef".split() + ([] if is_outside else ["auto", "register"])
        storage = self.specifiers([None] * 5 + at)
        if self.chance(0.1):
            return self.put(";")
        while True:
            name, part = self.named()
            self.scopes[-1][name] = storage == "typedef"
            if is_outside and self.chance(0.5 if isinstance(part, dict) else 0.02):
                return self.definition(part)
            is_outside = False
            if self.chance(0.4):
                self.put("=")
                self.initialiser()
            if not self.goes_on(0.4):
                break
            self.put(",")
        self.put(";")

    def function_definition(self):
        self.specifiers([None, None, None, "static", "extern"])
        name = self.random.choice(NAMES)
        self.put(*["*"] * self.random.choice([0, 0, 0, 1]), name)
        part = self.function()
        self.scopes[-1][name] = False
        self.definition(part)

    def definition(self, part):
        self.scopes.append(dict(part) if isinstance(part, dict) else {})
        self.block_here(0)
        self.scopes.pop()

    # -- statements

    def block_here(self, depth):
        self.put("{")
        while self.goes_on(0.5):
            self.declaration()
        while self.goes_on(0.8):
            self.statement(depth + 1)
        self.put("}")

    def test(self):
        self.put("(")
        self.expression(16, 5)
        self.put(")")

    def optional(self):
        if self.chance(0.6):
            self.expression(16, 5)

    def statement(self, depth):
        r = self.random.randrange(14)
        self.fuel -= 1
        if self.fuel < 0 or depth > 40:
            r = self.random.choice([0, 9, 10, 11])
        if r == 0:
            self.put(";")
        elif r == 1:
            self.scopes.append({})
            self.block_here(depth)
            self.scopes.pop()
        elif r == 2:
            self.put("if")
            self.test()
            self.statement(depth + 1)
        elif r == 3:
            self.put("if")
            self.test()
            self.statement(depth + 1)
            self.put("else")
            self.statement(depth + 1)
        elif r == 4:
            self.put("while")
            self.test()
            self.statement(depth + 1)
        elif r == 5:
            self.put("do")
            self.statement(depth + 1)
            self.put("while")
            self.test()
            self.put(";")
        elif r == 6:
            self.put("for", "(")
            self.optional()
            self.put(";")
            self.optional()
            self.put(";")
            self.optional()
            self.put(")")
            self.statement(depth + 1)
        elif r == 7:
            self.put("switch")
            self.test()
            self.statement(depth + 1)
        elif r == 8:
            self.put("case")
            self.expression(14, 5)
            self.put(":")
            self.statement(depth + 1)
        elif r == 9:
            self.put("break", ";")
        elif r == 10:
            self.put("continue", ";")
        elif r == 11:
            self.put("return")
            self.optional()
            self.put(";")
        elif r == 12:
            self.put("default", ":")
            self.statement(depth + 1)
        else:
            self.expression(16, 0)
            self.put(";")

    def deep(self):
        """A definition with one deep expression or statement."""
        self.put("int", "f", "(", "void", ")", "{")
        ends = []
        for _ in range(self.random.choice([20, 60, 100, 150, 180, 190, 196, 198, 200, 202])):
            r = self.random.randrange(6)
            if r == 0:
                self.put("(")
                ends.append([")"])
            elif r == 1:
                self.put(self.random.choice("*-~!"))
            elif r == 2:
                self.put("(")
                ends.append(self.random.choice([["+", "a", ")"], [",", "b", ")", "[", "c", "]"], ["?", "1", ":", "2", ")"]]))
            elif r == 5:
                self.put("(", "a", self.random.choice(["=", "<<=", "||", "<=", ","]))
                ends.append([")"])
            elif r == 3:
                self.put("f", "(")
                ends.append([")"])
            else:
                self.put("(", "int", ")")
        self.put("a")
        for end in reversed(ends):
            self.put(*end)
        self.put(";", "}")

    def file(self):
        if self.chance(0.3):
            self.lines.append("#include <%s.h>" % self.random.choice(["stdio", "stdlib"]))
            self.macros.append("NULL")
        if self.chance(0.2):
            self.lines.append("#define ONE 1")
            self.lines.append("#define SUM (sum + ONE * 2)")
            self.macros += ["ONE", "SUM"]
        if self.chance(0.1):
            self.deep()
        if self.chance(0.5):
            for name in self.random.sample(NAMES, self.random.choice([1, 2, 3])):
                self.put("typedef", "int", name, ";")
                self.scopes[-1][name] = True
        while self.goes_on(0.95):
            if self.is_thin and self.chance(0.5):
                self.function_definition()
            else:
                self.declaration(True)
        return "\n".join(self.lines + [self.text()])

    def text(self):
        """The tokens with blanks between, none where none is wanted."""
        out = [""]
        style = self.random.random()
        for tok in self.out:
            before = out[-1][-1:]
            is_apart = before in "()[]{};,?:~" or tok[0] in "()[]{};,?:~"
            r = self.random.random()
            if is_apart and r < 0.7:
                pass
            elif r > 0.97 and style > 0.5:
                out.append(self.random.choice(["/* c */", "/**/", " // c\n"]) if r > 0.985 and before != "/" else " \\\n ")
            else:
                out.append(self.random.choice([" ", " ", " ", "\n", "\t", "  "]) if style > 0.3 else " ")
            out.append(tok)
        return "".join(out) + "\n"


def tokens_of(text):
    """The tokens of a text without directives, roughly."""
    lines = [line for line in text.replace("\\\n", "").split("\n") if not line.startswith("#")]
    return re.findall(r'"(?:\\.|[^"\\])*"|\'(?:\\.|[^\'\\])*\'|\w+|<<=|>>=|[-+*/%=<>&|^!]=|\+\+|--|->|&&|\|\||<<|>>|[^\s\w]', "\n".join(lines))


def changed(random, text):
    tokens = tokens_of(text)
    for _ in range(random.choice([1, 1, 1, 2, 3])):
        k = random.randrange(len(tokens)) if tokens else 0
        r = random.random()
        if r < 0.35 and tokens:
            del tokens[k]
        elif r < 0.7 or not tokens:
            tokens.insert(k, random.choice(PIECES))
        else:
            tokens[k] = random.choice(PIECES)
    return " ".join(tokens)


def main():
    if len(sys.argv) < 5 or sys.argv[1].startswith("-"):
        sys.exit(__doc__)
    folder = sys.argv[1]
    chooser = random.Random(int(sys.argv[2]))
    texts = [open(name, encoding="latin-1", newline="").read() for name in sys.argv[5:]]
    for _ in range(int(sys.argv[3])):
        texts.append(Program(chooser).file())
    texts += ROWS
    base = list(texts)
    for _ in range(int(sys.argv[4])):
        texts.append(changed(chooser, chooser.choice(base)))
    os.makedirs(folder)
    parts, size = [[]], 0
    for text in texts:
        if parts[-1] and size + len(text) > ROOM:
            parts.append([])
            size = 0
        parts[-1].append(text.encode("latin-1").hex() + "\n")
        size += len(text)
    for k, lines in enumerate(parts):
        with open(os.path.join(folder, "%04d" % k), "w") as out:
            out.writelines(lines)


main()
