#!/usr/bin/env python3
"""draw.py [--command=WORDS]

Draws the pictures of docs/COURSE.md again, into docs/pictures. COMMAND compiles the programs and assembles the pairs (./dae).
"""

import os
import shlex
import subprocess
import sys
import tempfile

TOP = os.path.dirname(os.path.dirname(os.path.dirname(os.path.realpath(__file__))))
# Each picture: its name, and the words of tools/see/see.py before the image of a program.
PICTURES = (
    ("dot_pipeline", "dot", ("pipeline", "--load=64", "--from=5000", "--to=5150")),
    ("greatest_waits_pipeline", "greatest_waits", ("pipeline", "--load=64", "--from=8000", "--to=8300")),
    ("gather_lines", "gather", ("lines", "--load=64")),
    ("histogram_queues", "histogram", ("queues", "--load=8", "--from=3000", "--to=3300")),
)
# Those of pairs: the name, the pair, the words.
OF_PAIRS = (
    ("gather16_pipeline", "gather16", ("pipeline", "--load=64", "--al=16", "--ld=64", "--from=600", "--to=750")),
)
CURVES = ("dot", "greatest", "matrix", "chain", "divide", "gather", "list", "greatest_waits", "search")


def call(words):
    done = subprocess.run(words, cwd=TOP, capture_output=True, check=False)
    if done.returncode:
        sys.exit(f"draw.py: {shlex.join(words)}: {done.stderr.decode('utf-8', 'replace')}")
    return done.stdout


def keep(name, svg):
    with open(f"{TOP}/docs/pictures/{name}.svg", "wb") as file:
        file.write(svg)


def main(words):
    if any(not it.startswith("--command=") for it in words):
        sys.exit(__doc__)
    command = next((it.partition("=")[2] for it in words if it.startswith("--command=")), "./dae")
    os.makedirs(f"{TOP}/docs/pictures", exist_ok=True)
    with tempfile.TemporaryDirectory() as folder:
        for name, program, kind in PICTURES:
            image, source = f"{folder}/{program}.img", f"examples/course/{program}.c"
            call([*shlex.split(command), "compile", f"--to={image}", source])
            keep(name, call([sys.executable, "tools/see/see.py", *kind, image]))
        for name, pair, kind in OF_PAIRS:
            image = f"{folder}/{pair}.img"
            call([*shlex.split(command), "asm", f"--to={image}", f"examples/pairs/{pair}.s"])
            keep(name, call([sys.executable, "tools/see/see.py", *kind, image]))
    sources = [f"examples/course/{it}.c" for it in CURVES]
    keep("curves", call([sys.executable, "tools/see/curves.py", f"--command={command}", *sources]))


if __name__ == "__main__":
    main(sys.argv[1:])
