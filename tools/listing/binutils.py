#!/usr/bin/env python3
"""binutils.py [--command=WORDS] [--count=N] [--seed=N] OBJDUMP

Holds the text of each instruction in a listing against what OBJDUMP of the GNU binutils (riscv64-unknown-elf-objdump) prints for
the same word, with registers by number and without pseudo instructions. Each of the 46 instructions is tried with N words (200)
whose other bits are random, and with the least and the greatest bits; then N times 10 words of any bits but those that begin a
shorter or a longer encoding. A word that spells no instruction of RV32IM is `.word` in the listing; there the two must agree that
it is none of these 46 (OBJDUMP also prints shifts by 32 and more, which are none of 32 bits). COMMAND lists an image, by its job
`dis` (./dae). The last line is 'N words agree, N differ'.
"""

import os
import random
import re
import shlex
import struct
import subprocess
import sys
import tempfile

sys.dont_write_bytecode = True
from instructions import ALL, BRANCHES, SHIFTED, TABLE                       # noqa: E402

TOP = os.path.dirname(os.path.dirname(os.path.dirname(os.path.realpath(__file__))))


def words_of(count, seed):
    """The words that are tried."""
    bits = random.Random(seed)
    made = []
    for _, fixed, mask in TABLE:
        free = ALL & ~mask
        made += [fixed, fixed | free]
        made += [fixed | bits.getrandbits(32) & free for _ in range(count)]
    others = [bits.getrandbits(32) | 3 for _ in range(10 * count)]
    return made + [it for it in others if it & 0x1F != 0x1F]


def image(words):
    """The image whose code of A is these words."""
    head = (0x31454144, 2, 0, 0, 0, 0, 0, 0, 0, 64, 1, 0, 0, 0, 0, len(words), 1, 0, 0, 0)
    return struct.pack(f"<{len(head)}I", *head) + struct.pack(f"<{len(words)}I", *words) + struct.pack("<I", 0x73)


def listed(words, command, folder):
    """The text of each word in the listing."""
    name = f"{folder}/image"
    with open(name, "wb") as file:
        file.write(image(words))
    done = subprocess.run([*command, "dis", name], capture_output=True, check=False)
    if done.returncode:
        sys.exit(f"binutils.py: dis: {done.stderr.decode('utf-8', 'replace').strip()}")
    lines = done.stdout.decode("ascii").splitlines()
    return lines[lines.index(".a") + 1:lines.index(".e")]


def printed(words, objdump, folder):
    """What OBJDUMP prints for each word."""
    name = f"{folder}/words"
    with open(name, "wb") as file:
        file.write(struct.pack(f"<{len(words)}I", *words))
    call = [objdump, "-b", "binary", "-m", "riscv:rv32", "-M", "no-aliases,numeric", "-D", "-z", name]
    done = subprocess.run(call, capture_output=True, check=True)
    found = {}
    for line in done.stdout.decode("utf-8", "replace").splitlines():
        parts = line.split("\t")
        if len(parts) >= 3 and re.fullmatch(r" *[0-9a-f]+:", parts[0]):
            found[int(parts[0].strip(" :"), 16)] = parts[2:]
    return found


def as_listed(address, parts):
    """The text that OBJDUMP printed, in the spelling of a listing: targets as offsets, and the upper bits as a number."""
    name = parts[0].strip()
    operands = parts[1].split(" <")[0].split(" #")[0].strip() if len(parts) > 1 else ""
    if name in BRANCHES or name == "jal":
        *registers, target = operands.split(",")
        offset = (int(target, 16) - address + 0x80000000) % 0x100000000 - 0x80000000
        operands = ",".join([*registers, str(offset)])
    elif name in ("lui", "auipc"):
        register, number = operands.split(",")
        operands = f"{register},{int(number, 16)}"
    elif name in SHIFTED:
        *registers, number = operands.split(",")
        operands = ",".join([*registers, str(int(number, 16))])
    return f"{name} {operands}".strip()


def main(words):
    command, count, seed = [f"{TOP}/dae"], 200, 1
    while words and words[0].startswith("--"):
        name, _, value = words.pop(0).partition("=")
        if name == "--command":
            command = shlex.split(value)
        elif name == "--count":
            count = int(value)
        elif name == "--seed":
            seed = int(value)
        else:
            sys.exit(__doc__)
    if len(words) != 1:
        sys.exit(__doc__)
    tried, names = words_of(count, seed), {name for name, _, _ in TABLE}
    with tempfile.TemporaryDirectory() as folder:
        texts = listed(tried, command, folder)
        shown = printed(tried, words[0], folder)
    agree = 0
    for k, (word, text) in enumerate(zip(tried, texts, strict=True)):
        parts = shown.get(4 * k, ["missing"])
        other = as_listed(4 * k, parts) if parts[0].strip() in names else ""
        if not other or other.startswith(SHIFTED) and int(other.split(",")[2]) >= 32:
            other = f".word {word}"
        if text == other:
            agree += 1
        else:
            print(f"{word:#010x}: {text}, and not {other}")
    print(f"{agree} words agree, {len(tried) - agree} differ")
    return 0 if agree == len(tried) else 1


if __name__ == "__main__":
    sys.exit(main(sys.argv[1:]))
