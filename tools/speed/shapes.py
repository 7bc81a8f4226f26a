"""shapes.py PROGRAM [TOKENS [ROUNDS [SHAPE..]]]

Makes C sources of many shapes, each with about TOKENS tokens (60,000 if not told), and times PROGRAM, the built compiler, beside
`gcc -O0 -c` on each, in one run on one machine. A line of the table has the processor time of each, the best of ROUNDS runs (3)
by turns, and their ratio, where below 1 PROGRAM is the faster one. The status is 1 where a ratio is above 1 or a source isn't compiled.
A SHAPE picks the shapes whose name has that text.
"""

import os
import re
import resource
import subprocess
import sys
import tempfile

# A definition has at most 8,192 tokens: this many are filled with statements, and its head and end take a few more.
INSIDE = 7800
TOKEN = re.compile(r'[A-Za-z_0-9]+|"[^"]*"|<<|>>|<=|>=|==|!=|&&|\|\||\+\+|[^\sA-Za-z_0-9]')
CALLED = "int h(int a, int b, int c) { return a + b * c; }\n"
NUMBERS = range(1_000_000)


def count(text):
    """The tokens of a text."""
    return len(TOKEN.findall(text))


def until(pieces, tokens):
    """Pieces, until there are so many tokens."""
    taken, total = [], 0
    for piece in pieces:
        taken.append(piece)
        total += count(piece)
        if total >= tokens:
            break
    return taken


def repeat(first, step, last, times):
    """Text for each of so many numbers, between two texts."""
    return first + "".join(step(k) for k in range(times)) + last


def function(number, body):
    return f"int f{number}(int a, int b) {{ int c = 0; int d = 1; int i; {body} return c; }}\n"


def calls(definitions):
    """main calls each of the functions, or the first 300."""
    terms = "".join(f"r += f{k}({k}, 3); " for k in range(min(definitions, 300)))
    return f'int main(void) {{ int r = 0; {terms}printf("%d\\n", r); return 0; }}\n'


def source(piece, tokens, main=calls, head=""):
    """A source of definitions, one for each number, with a main behind them."""
    pieces = until((piece(k) for k in NUMBERS), tokens - INSIDE // 2)
    return "#include <stdio.h>\n" + head + "".join(pieces) + main(len(pieces))


def filled(statement, inside=INSIDE):
    """Functions that are as long as a function may be, of one kind of statement."""
    return lambda n: function(n, "".join(until((statement(n * 1000 + k) for k in NUMBERS), inside)))


def small(n):
    return f"int f{n}(int a, int b) {{ int c; c = a * {n % 7 + 1} + b; if (c > a) c = c - b; return c; }}\n"


def live_locals(n):
    locals_ = repeat("", lambda k: f"int v{k} = a + {k}; ", "", 500)
    return f"int f{n}(int a, int b) {{ int c = 0; {locals_}" + repeat("", lambda k: f"c = c + v{k} * v{k * 7 % 500}; ", "return c; }\n", 450)


def live_calls(n):
    locals_ = repeat("", lambda k: f"int v{k} = a + {k}; ", "", 400)
    called = repeat("", lambda k: f"c = h(c, v{k % 400}, {k % 9}); ", "", 260)
    return f"int f{n}(int a, int b) {{ int c = 0; {locals_}{called}" + repeat("", lambda k: f"c = c + v{k}; ", "return c; }\n", 400)


def local_initialiser(n):
    return f"int f{n}(int a, int b) {{ int t[] = {{ {', '.join(str(k) for k in range(3800))} }}; return t[a]; }}\n"


def switch(n):
    cases = repeat("", lambda k: f"case {k}: c = c + {k}; break; ", "default: c = b; ", 600)
    return f"int f{n}(int a, int b) {{ int c = 0; switch (a) {{ {cases}}} return c; }}\n"


def labels(n):
    cases = repeat("", lambda k: f"case {k}: ; ", "c = b; ", 1900)
    return f"int f{n}(int a, int b) {{ int c = 0; switch (a) {{ {cases}}} return c; }}\n"


def terms(k):
    return "c = " + " + ".join(f"a * {j}" for j in range(90)) + "; "


def nested_terms(k):
    return "c = " + "(" * 70 + "a" + repeat("", lambda j: f" + {j})", "; ", 70)


def nested_ifs(k):
    return repeat("", lambda j: f"if (a > {j}) {{ ", "c++; " + "} " * 60, 60)


def nested_loops(k):
    return repeat("", lambda j: f"while (a > {j}) {{ ", "c++; a--; " + "} " * 60, 60)


def deep_loops(k):
    return repeat("", lambda j: f"while (a > {j}) ", "{ c++; a--; } ", 150)


def deep_loops_and_locals(n):
    locals_ = repeat("", lambda k: f"int v{k} = a + {k}; ", "", 300)
    inside = repeat("{ ", lambda k: f"c = c + v{k}; ", "a--; } ", 300)
    return f"int f{n}(int a, int b) {{ int c = 0; {locals_}" + "while (a > 3) " * 150 + inside + "return c; }\n"


def declared_locals(n):
    return f"int f{n}(int a, int b) {{ int c = 0; " + repeat("", lambda k: f"int v{k}; ", "return c; }\n", 2500)


def chain(k):
    return "if (" + " && ".join(f"a > {j}" for j in range(90)) + ") c++; "


def structure(n):
    kind = f"struct s{n} {{ int a; char b[{n % 9 + 1}]; struct s{n} *n; }}; struct s{n} x{n}; "
    return kind + f"int f{n}(int a, int b) {{ struct s{n} y; y.a = a; x{n}.a = y.a; x{n}.n = &x{n}; return x{n}.n->a + b; }}\n"


def pair(n):
    return f"int f{n}(int a, int b) {{ if (a < 1) return b; return f{n}(a - 1, b + 1) + f{max(n - 1, 0)}(a - 1, b); }}\n"


def printing(text):
    return lambda n: f"int main(void) {{ {text.format(last=n - 1)} return 0; }}\n"


def macros():
    return "#define M0 (a + 1)\n" + "".join(f"#define M{k} (a * {k} + b)\n" for k in range(1, 200))


def uses_of_first(tokens):
    """Globals, each of which takes its address from the first one."""
    return source(lambda n: f"int g{n}; int *p{n} = &g0;\n", tokens, printing('printf("%d\\n", *p{last});'))


SHAPES = {
    "many small functions": lambda t: source(small, t),
    "assignments": lambda t: source(filled(lambda k: f"c = c + a * {k % 50} - (b ^ {k % 13}); d = d + c; "), t),
    "ifs": lambda t: source(filled(lambda k: f"if (a > {k % 90}) c = c + {k}; else d = d - {k}; "), t),
    "loops": lambda t: source(filled(lambda k: f"for (i = 0; i < {k % 5}; i++) c = c + i; "), t),
    "arrays": lambda t: source(filled(lambda k: f"g[{k % 100}] = g[{k * 7 % 100}] + c; "), t, head="int g[100];\n"),
    "calls": lambda t: source(filled(lambda k: f"c = h(c, a, {k % 9}); "), t, head=CALLED),
    "500 live locals": lambda t: source(live_locals, t),
    "400 live locals, calls": lambda t: source(live_calls, t, head=CALLED),
    "2,500 declared locals": lambda t: source(declared_locals, t),
    "many globals": lambda t: source(lambda n: f"int g{n};\n", t, printing('g{last} = 3; printf("%d\\n", g{last} + g0);')),
    "initialised globals": lambda t: source(lambda n: f"int g{n} = {n}; int *p{n} = &g{n};\n", t, printing('printf("%d\\n", *p{last} + g0);')),
    "uses of the first global": uses_of_first,
    "initialisers": lambda t: source(lambda n: f"int t{n}[] = {{ {', '.join(str(k) for k in range(3900))} }};\n", t, printing('printf("%d\\n", t0[3]);')),
    "local initialisers": lambda t: source(local_initialiser, t),
    "string literals": lambda t: source(lambda n: f'char *s{n} = "ab{n}";\n', t, printing('printf("%s\\n", s0);')),
    "switches of 600 labels": lambda t: source(switch, t),
    "switches of 1,900 labels": lambda t: source(labels, t),
    "expressions of 90 terms": lambda t: source(filled(terms), t),
    "expressions nested 70": lambda t: source(filled(nested_terms), t),
    "ifs nested 60": lambda t: source(filled(nested_ifs, 7500), t),
    "loops nested 60": lambda t: source(filled(nested_loops, 7500), t),
    "loops nested 150": lambda t: source(filled(deep_loops, 7000), t),
    "loops nested 150, locals": lambda t: source(deep_loops_and_locals, t),
    "chains of 90 &&": lambda t: source(filled(chain), t),
    # what a macro stands for has seven tokens, and these count
    "macros": lambda t: source(filled(lambda k: f"c = M{k % 200}; ", 2900), 2 * t // 5, head=macros()),
    "printf": lambda t: source(filled(lambda k: 'printf("%d %x %s\\n", a, c, "t"); '), t),
    "structures": lambda t: source(structure, t),
    "recursion": lambda t: source(pair, t),
}


def seconds(words):
    """The processor seconds of a run, or None where it fails."""
    before = resource.getrusage(resource.RUSAGE_CHILDREN)
    done = subprocess.run(words, stdout=subprocess.DEVNULL, stderr=subprocess.PIPE, check=False)
    after = resource.getrusage(resource.RUSAGE_CHILDREN)
    if done.returncode != 0:
        print(done.stderr.decode(errors="replace").strip()[:200], file=sys.stderr)
        return None
    return after.ru_utime + after.ru_stime - before.ru_utime - before.ru_stime


def best_by_turns(commands, rounds):
    """The least seconds of each of some commands, run by turns so many times, or None where a run fails."""
    runs = [[seconds(words) for words in commands] for _ in range(rounds)]
    if any(None in row for row in runs):
        return None
    return [min(column) for column in zip(*runs)]


def main():
    if len(sys.argv) < 2 or sys.argv[1].startswith("-"):
        sys.exit(__doc__)
    program = os.path.abspath(sys.argv[1])
    tokens, rounds = [int(word) for word in sys.argv[2:4]] + [60_000, 3][len(sys.argv[2:4]):]
    picked = sys.argv[4:]
    good = True
    print("| shape | tokens | seconds | gcc -O0 | ratio |")
    print("|---|---:|---:|---:|---:|")
    with tempfile.TemporaryDirectory() as folder:
        text, image, code = [os.path.join(folder, name) for name in ("shape.c", "shape.img", "shape.o")]
        for name, make in SHAPES.items():
            if picked and not any(word in name for word in picked):
                continue
            made = make(tokens)
            with open(text, "w") as file:
                file.write(made)
            taken = best_by_turns([[program, "compile", f"--to={image}", text],
                                   ["gcc", "-O0", "-c", "-w", "-o", code, text]], rounds)
            if taken is None:
                print(f"| {name} | {count(made)} | - | - | - |")
                good = False
            else:
                ours, theirs = taken
                print(f"| {name} | {count(made)} | {ours:.2f} | {theirs:.2f} | {ours / theirs:.2f} |", flush=True)
                good = good and ours <= theirs
    sys.exit(0 if good else 1)


main()
