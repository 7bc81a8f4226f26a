#!/usr/bin/env python3
"""damaged.py [--keep=FOLDER] FIRST COUNT PROGRAM.. -- OTHER..

Compares what two assemblers say of damaged texts: the status, the notes and the bytes that are kept must be the same. A text is one
of examples/pairs, or one of many marks and names, with one to three changes: a line dropped, doubled or moved, a number, a name or a
sign put in place of another, a byte changed, a comment or blanks put in. The texts have the seeds FIRST, FIRST + 1 and so on, COUNT
of them. PROGRAM and OTHER are commands that take `asm --to=NAME FILE`, as `./dae` and `python3 FOLDER/other`. A text that differs
is told with both answers, and stays in the folder of --keep. The last line has the number of texts for each outcome. The status is
1 where a text differs.
"""

import collections
import concurrent.futures
import glob
import os
import random
import re
import subprocess
import sys
import tempfile

TOP = os.path.dirname(os.path.dirname(os.path.dirname(os.path.realpath(__file__))))
NUMBERS = """-1 0 1 2 3 4 5 7 8 15 16 17 31 32 63 64 80 255 256 1024 2047 2048 -2048 -2049 4094 4095 4096 -4096 -4098 8192 65536
    1048575 1048576 -1048576 -1048578 67108864 67108880 134217724 134217728 1073741824 1073741828 4294967295 4294967296
    99999999999999999999 00 01 +1 0x10 -0""".split()
WORDS = """start loop done next x0 x5 x31 x32 x05 a0 a e .a .e .data .word .byte .line .name .budget .memory .calls .private
    .entry .text add addi sub lw sw lb sb jal jalr beq bltu lui auipc ecall mul slli nop _l Up é""".split()
SIGNS = [",", "(", ")", ":", ";", " ", "\t", "", "\r", "-", "."]
TOKEN = re.compile(r"-?[0-9]+|[.A-Za-z_][A-Za-z0-9_]*|[,():]")
# one text that has each kind of line
WHOLE = """.budget 2 1 1 1 1 1 1
.memory 1024
.calls 4
.private 16 32
.entry start 0
.a
start:
lui x5,74565
auipc x6,1048575
loop: ; a loop
addi x5,x5,-1
bne x5,x0,loop
jal x1,start
jalr x0,0(x1)
.word 115
.e
mulhsu x7,x8,x9
sw x7,-4(x2)
slli x7,x7,31
ecall
.data
.byte 0 1 2 3 4 5 6 7 8 9 10 11 12 13 14 15
.byte 255 254
.line a 0 0 1
.line a 3 1 7
.line e 0 0 4294967295
.name 97 46 99
.name 98 195 169
"""


def texts():
    """The texts that are damaged."""
    found = [WHOLE]
    for path in sorted(glob.glob(f"{TOP}/examples/pairs/*.s")):
        with open(path, encoding="utf-8") as file:
            found.append(file.read())
    return found


def moved(rng, lines):
    """A line dropped, doubled or put elsewhere."""
    at = rng.randrange(len(lines))
    line = lines.pop(at)
    kind = rng.random()
    if kind > 0.3:
        lines.insert(at if kind < 0.6 else rng.randrange(len(lines) + 1), line)
    if 0.3 < kind < 0.6:
        lines.insert(at, line)


def exchanged(rng, lines):
    """A token in place of another, mostly one of its kind."""
    at = rng.randrange(len(lines))
    found = list(TOKEN.finditer(lines[at]))
    if not found:
        lines[at] = rng.choice(WORDS)
        return
    token = rng.choice(found)
    kinds = [NUMBERS if token[0][-1].isdigit() and token[0][0] != "x" else WORDS, NUMBERS, WORDS, SIGNS]
    new = rng.choice(kinds[0] if rng.random() < 0.7 else rng.choice(kinds))
    lines[at] = lines[at][:token.start()] + new + lines[at][token.end():]


def put_in(rng, lines):
    """A token, a comment, an empty line or a byte put in somewhere."""
    at = rng.randrange(len(lines))
    if rng.random() < 0.2:
        lines.insert(at, rng.choice(["", " \t", "; nothing", "start:", "more:", "\x0b", ".word 0"]))
        return
    place = rng.randrange(len(lines[at]) + 1)
    lines[at] = lines[at][:place] + rng.choice(SIGNS + ["; a", "  ", "9", "z", "\0"]) + lines[at][place:]


def damaged(seed):
    """The text of a seed."""
    rng = random.Random(seed)
    lines = rng.choice(texts()).split("\n")
    for _ in range(rng.randrange(1, 4)):
        if lines:
            rng.choice([moved, exchanged, exchanged, put_in])(rng, lines)
    return "\n".join(lines).encode("utf-8", "surrogateescape")


def answer(command, path, to):
    """The status, what is put out, the notes but for the name that is kept, and the bytes that are kept."""
    done = subprocess.run([*command, "asm", f"--to={to}", path], capture_output=True, check=False)
    kept = None
    if os.path.exists(to):
        with open(to, "rb") as file:
            kept = file.read()
        os.remove(to)
    return done.returncode, done.stdout, done.stderr.replace(to.encode(), b"NAME"), kept


def compare(seed, folder, commands):
    """The outcome of one text, and both answers, if they differ."""
    path = f"{folder}/{seed}.s"
    with open(path, "wb") as file:
        file.write(damaged(seed))
    first, second = (answer(command, path, f"{folder}/{seed}.{at}.img") for at, command in enumerate(commands))
    words = second[2].split()
    outcome = " ".join(it.decode() for it in words[:2]) if second[0] else "kept"
    if first == second:
        os.remove(path)
    return outcome, None if first == second else (path, first[:3], second[:3])


def main(words):
    keep = [it.split("=", 1)[1] for it in words if it.startswith("--keep=")]
    words = [it for it in words if not it.startswith("--keep=")]
    if len(words) < 5 or "--" not in words[3:]:
        sys.exit(__doc__)
    cut = words.index("--", 3)
    commands = words[2:cut], words[cut + 1:]
    outcomes, differ = collections.Counter(), 0
    with tempfile.TemporaryDirectory() as made, concurrent.futures.ThreadPoolExecutor() as pool:
        folder = keep[0] if keep else made
        seeds = range(int(words[0]), int(words[0]) + int(words[1]))
        for outcome, found in pool.map(lambda seed: compare(seed, folder, commands), seeds):
            outcomes[outcome] += 1
            if found:
                differ += 1
                print(*found, sep="\n    ")
    told = ", ".join(f"{count} {outcome}" for outcome, count in sorted(outcomes.items()))
    print(f"{len(seeds)} texts, {differ} of them differ: {told}")
    return min(differ, 1)


if __name__ == "__main__":
    sys.exit(main(sys.argv[1:]))
