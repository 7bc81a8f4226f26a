#!/usr/bin/env python3
"""listing.py [--command=WORDS] IMAGE [SOURCE..]

Shows the code of both processors beside each other, beneath the source lines that it was made of. Each line of a SOURCE is
printed with its number, and with a `*` where a mark names it; beneath it stand the words of A on the left and those of E on the
right, each with its address, its instruction, and the queue that it uses: `-> ld` where it puts something into a queue, `<- ld`
where it takes something out. Code that no mark covers stands first. The sources are those of the names of the image, in their
order (by default the files of these names, where they can be read). COMMAND lists the image, by its job `dis` (./dae).
"""

import os
import re
import shlex
import subprocess
import sys
from dataclasses import dataclass, field

TOP = os.path.dirname(os.path.dirname(os.path.dirname(os.path.realpath(__file__))))
SIDES = ("a", "e")
LOADS = ("lb", "lh", "lw", "lbu", "lhu")
STORES = ("sb", "sh", "sw")
BRANCHES = ("beq", "bne", "blt", "bge", "bltu", "bgeu")
# The queue of a register of a side: where an instruction reads it, and where it writes it.
TAKES = {("a", 29): "eb", ("a", 31): "al", ("e", 28): "cq", ("e", 29): "ab", ("e", 30): "ld"}
PUTS = {("a", 28): "cq", ("a", 29): "ab", ("e", 29): "eb", ("e", 30): "sd"}


@dataclass
class Listing:
    """What a listing says: the words of each side as texts, where each side's marks begin (the word, the file, the line), the
    names, and how many copies the queue cq holds."""
    words: dict = field(default_factory=lambda: {side: [] for side in SIDES})
    marks: dict = field(default_factory=lambda: {side: [] for side in SIDES})
    names: list = field(default_factory=list)
    copies: int = 0


def read(text):
    """The listing that a text is."""
    listing, side = Listing(), None
    for line in text.splitlines():
        word, *rest = line.split(" ")
        if word == ".budget":
            listing.copies = int(rest[6])
        elif word in (".a", ".e"):
            side = word[1]
        elif word == ".data":
            side = None
        elif word == ".line":
            listing.marks[rest[0]].append(tuple(map(int, rest[1:])))
        elif word == ".name":
            listing.names.append(bytes(map(int, rest)))
        elif side:
            listing.words[side].append(line)
    return listing


def registers(text):
    """The register that an instruction writes, or None, and those that it reads."""
    name, _, operands = text.partition(" ")
    found = [int(it) for it in re.findall(r"x(\d+)", operands)]
    if name in STORES or name in BRANCHES:
        return None, found
    return (found[0] if found else None), found[1:]


def queue(side, text, copies):
    """The queue that an instruction uses, with the way, or nothing."""
    name = text.split(" ")[0]
    if name == ".word" or name == "ecall":
        return ""
    target, sources = registers(text)
    if side == "a" and name in LOADS and target in (30, 31):
        return "-> ld" if target == 30 else "-> al"
    if side == "a" and name in STORES and sources[0] == 30:
        return "-> sa"
    for table, arrow, used in ((PUTS, "->", [target]), (TAKES, "<-", sources)):
        for register in used:
            of = table.get((side, register))
            if of and (of != "cq" or copies):
                return f"{arrow} {of}"
    return ""


def by_line(listing, side):
    """The words of a side by file and line, and those before the first mark under None."""
    found, marks, at = {}, listing.marks[side], None
    begins = {word: (file, line) for word, file, line in marks}
    for k, text in enumerate(listing.words[side]):
        at = begins.get(k, at)
        found.setdefault(at, []).append(f"{4 * k:6x}  {text:<22}{queue(side, text, listing.copies)}".rstrip())
    return found


def beside(a, e):
    """The words of A and of E, side by side."""
    for k in range(max(len(a), len(e))):
        left, right = (it[k] if k < len(it) else "" for it in (a, e))
        print(f"    {left:<44}| {right}".rstrip())


def show(listing, sources):
    """Prints each file with the codes beneath its lines."""
    codes = {side: by_line(listing, side) for side in SIDES}
    print(f"    {'A':<44}| E")
    beside(*(codes[side].get(None, []) for side in SIDES))
    for file, name in enumerate(listing.names):
        lines = sources[file] if file < len(sources) else []
        marked = {line for side in SIDES for _, of, line in listing.marks[side] if of == file}
        print(f"\n{name.decode('utf-8', 'replace')}")
        for number in range(1, max([len(lines), *marked]) + 1):
            text = lines[number - 1] if number <= len(lines) else ""
            print(f"{'*' if number in marked else ' '}{number:5}  {text}".rstrip())
            beside(*(codes[side].get((file, number), []) for side in SIDES))


def lines_of(name):
    """The lines of a file, or none where it cannot be read."""
    try:
        with open(name, encoding="latin-1") as file:
            return file.read().split("\n")[:-1]
    except OSError:
        return []


def main(words):
    command = [f"{TOP}/dae"]
    while words and words[0].startswith("--"):
        name, _, value = words.pop(0).partition("=")
        if name != "--command":
            sys.exit(__doc__)
        command = shlex.split(value)
    if not words:
        sys.exit(__doc__)
    image, *sources = words
    done = subprocess.run([*command, "dis", image], capture_output=True, check=False)
    if done.returncode:
        sys.exit(f"listing.py: {image}: {done.stderr.decode('utf-8', 'replace').strip()}")
    listing = read(done.stdout.decode("ascii"))
    show(listing, [lines_of(it) for it in sources or [name.decode("utf-8", "replace") for name in listing.names]])


if __name__ == "__main__":
    main(sys.argv[1:])
