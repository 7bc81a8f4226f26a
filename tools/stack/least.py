#!/usr/bin/env python3
"""least.py [--write] PROGRAM

Measures how much stack PROGRAM, the built program, needs for sources that nest: each kind of nesting of tools/hostile/texts.py as deep
as the compiler takes it, and types that are made of one another by tags and names. A source is compiled with less and less stack
(`ulimit -s`), and the least is told in steps of 32 KB. It says whether the table of docs/MEASURES.md still holds, up to two steps;
with --write it puts what it measured there, between the line `<!-- stack -->` and `<!-- end -->`.
"""

import os
import re
import resource
import subprocess
import sys
import tempfile

sys.dont_write_bytecode = True
TOP = os.path.dirname(os.path.dirname(os.path.dirname(os.path.realpath(__file__))))
sys.path.insert(0, f"{TOP}/tools/hostile")
import texts                                                                    # noqa: E402

PAGE, STEP, MOST, DEEPEST = f"{TOP}/docs/MEASURES.md", 32, 8192, 200
TABLE = re.compile(r"<!-- stack -->\n(.*?)<!-- end -->", re.S)
MAIN = "int main(void){return 0;}"


def structures(count):
    return "struct s0{int x;};" + "".join(f"struct s{it}{{struct s{it - 1} x;}};" for it in range(1, count)) + f"struct s{count - 1} v={{1}};" + MAIN


def arrays(count):
    return "typedef int a0[1];" + "".join(f"typedef a{it - 1} a{it}[1];" for it in range(1, count)) + f"a{count - 1} v={{1}};" + MAIN


def pointers(count):
    chains = "".join(f"typedef int *{name}0;" + "".join(f"typedef {name}{it - 1} *{name}{it};" for it in range(1, count)) for name in "ab")
    return f"{chains}extern a{count - 1} x;extern b{count - 1} x;{MAIN}"


def parameters(count):
    return 2 * f"int f({','.join(['int'] * count)});" + MAIN


def nested(kind, count):
    before, begin, inside, end, behind = kind
    return before + begin * count + inside + end * count + behind


OF_TYPES = {"structures in structures": structures, "arrays of arrays": arrays, "pointers to pointers, twice": pointers,
            "parameters of a function, declared twice": parameters}


class Compiler:
    """Compiles a text with so many kilobytes of stack."""

    def __init__(self, program, room):
        self.program, self.room = program, room

    def status(self, text, stack=MOST):
        with open(f"{self.room}/x.c", "w", encoding="ascii") as file:
            file.write(text)
        limit = lambda: (resource.setrlimit(resource.RLIMIT_STACK, (stack * 1024, stack * 1024)), resource.setrlimit(resource.RLIMIT_CORE, (0, 0)))
        words = [self.program, "compile", "--to=image", "x.c"]
        return subprocess.run(words, cwd=self.room, env={}, preexec_fn=limit, capture_output=True, check=False).returncode

    def deepest(self, kind):
        """How often a part can stand in itself, up to the depth of a tree."""
        low, high = 0, DEEPEST
        while low < high:
            middle = (low + high + 1) // 2
            low, high = (middle, high) if self.status(nested(kind, middle)) == 0 else (low, middle - 1)
        return low

    def least(self, text):
        low, high = 0, MOST // STEP
        while high - low > 1:
            middle = (low + high) // 2
            low, high = (low, middle) if self.status(text, middle * STEP) >= 0 else (middle, high)
        return high * STEP


def rows(compiler):
    for kind in texts.NESTS:
        count = compiler.deepest(kind)
        least = compiler.least(nested(kind, count))
        # (what takes so little doesn't nest in the tree)
        if least > 2 * STEP:
            name = nested(kind, 2).replace("\n", " ")
            yield f"`{name}`", count, least
    for name, text in OF_TYPES.items():
        for count in (1000, 2000):
            yield name, count, compiler.least(text(count))


def holds(made, kept):
    one, other = ([int(it) for it in re.findall(r"(\d+) \|$", text, re.M)] for text in (made, kept))
    return len(one) == len(other) and all(abs(x - y) <= 2 * STEP for x, y in zip(one, other))


def main(words):
    programs = [it for it in words if it != "--write"]
    if len(programs) != 1 or programs[0].startswith("-"):
        sys.exit(__doc__)
    with tempfile.TemporaryDirectory() as room:
        made = "| source, nested twice here | times | kilobytes |\n|---|---:|---:|\n" + "".join(
            f"| {name.replace('|', chr(92) + '|')} | {count} | {least} |\n" for name, count, least in rows(Compiler(os.path.abspath(programs[0]), room)))
    with open(PAGE, encoding="utf-8") as file:
        text = file.read()
    kept = TABLE.search(text)
    is_held = kept is not None and holds(made, kept[1])
    if "--write" in words:
        with open(PAGE, "w", encoding="utf-8") as file:
            file.write(TABLE.sub(lambda _: f"<!-- stack -->\n{made}<!-- end -->", text))
    print(made if not is_held else "", "1 passed, 0 failed" if is_held else "0 passed, 1 failed", sep="")
    return 0 if is_held or "--write" in words else 1


if __name__ == "__main__":
    sys.exit(main(sys.argv[1:]))
