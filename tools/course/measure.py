#!/usr/bin/env python3
"""measure.py [--write] [--command=WORDS]

Measures each table of docs/COURSE.md, docs/SMITH.md and docs/GUIDE.md again, and says of each whether it still holds; with --write
it puts what it measured into the pages. A table stands between a line that asks for it and the line `<!-- end -->`:

    <!-- latency PROGRAM LOADS DEPTHS -->       a row for each latency: one processor alone, and each depth of all queues
    <!-- programs LOADS PROGRAMS -->            a row for each program: for each latency its ticks, and those of one processor alone
    <!-- waits LOAD PROGRAMS -->                a row for each program: ticks, for which queues A waits, one processor alone
    <!-- depths PROGRAM LOAD DEPTHS .. -->      a row for each choice of depths (`ld=64,ab=64`, or `-` for 8 each): ticks, A's waits
    <!-- pairs LOADS PAIR[:DEPTHS] .. -->       a row for each pair of examples/pairs: its ticks for each latency; PROGRAM.c is a program
    <!-- said WORDS .. -->                      what `./dae WORDS ..` prints and notes; NAME.img is the image of a program or a pair

Lists have commas. The programs are those of examples/course; counted are the ticks of what stands behind their line `measured from
here`, which is a program less the same program without that part. A pair is counted whole. Depths are 8 where nothing else is said,
a product takes 3 ticks and a quotient 20. `Alone` is gcc's code at -O1 on one processor that waits for each load of an object with
static storage. COMMAND compiles the programs and assembles the pairs (./dae); runs are counted by tools/record.
"""

import os
import re
import shlex
import subprocess
import sys
import tempfile
from functools import cache

sys.dont_write_bytecode = True
TOP = os.path.dirname(os.path.dirname(os.path.dirname(os.path.realpath(__file__))))
sys.path[:0] = [f"{TOP}/tools/record", f"{TOP}/tools/measure"]
import alone                                                                    # noqa: E402
import record                                                                   # noqa: E402

PAGES = (f"{TOP}/docs/COURSE.md", f"{TOP}/docs/SMITH.md", f"{TOP}/docs/GUIDE.md")
TABLE = re.compile(r"<!-- (latency|programs|waits|depths|pairs|said) ([^>]*) -->\n(.*?)<!-- end -->", re.S)
PRODUCT, QUOTIENT = 3, 20


class Lab:
    """Compiles the programs once each, and counts their runs."""

    def __init__(self, command, folder):
        self.command, self.folder = command, folder

    def call(self, *words):
        """Calls the program, which keeps an image."""
        done = subprocess.run([*self.command, *words], cwd=TOP, capture_output=True, text=True, check=False)
        if done.returncode:
            sys.exit(f"measure.py: {shlex.join([*self.command, *words])}: {done.stderr}")

    @cache
    def sources(self, program):
        """The files of a program and of the same program without what is measured."""
        with open(f"{TOP}/examples/course/{program}.c", encoding="ascii") as file:
            whole = file.read()
        before, _, behind = whole.partition("    /* measured from here */\n")
        without = before + behind[behind.rindex("    return 0;\n}"):]
        names = []
        for part, text in (("whole", whole), ("without", without)):
            names.append(f"{self.folder}/{program}-{part}.c")
            with open(names[-1], "w", encoding="ascii") as file:
                file.write(text)
        return names

    @cache
    def images(self, program):
        """The images of both."""
        names = []
        for source in self.sources(program):
            names.append(source.removesuffix(".c") + ".img")
            self.call("compile", f"--to={names[-1]}", source)
        return names

    @cache
    def pair(self, name):
        """The image of a pair that is kept as text."""
        image = f"{self.folder}/{name}-pair.img"
        self.call("asm", f"--to={image}", f"{TOP}/examples/pairs/{name}.s")
        return image

    def image(self, name):
        """The image of a whole program of that name, or else of a pair."""
        return self.images(name)[0] if os.path.exists(f"{TOP}/examples/course/{name}.c") else self.pair(name)

    @cache
    def timed(self, program, load, depths):
        """The ticks of what is measured, and A's waits in it, with these depths (pairs of a queue and a depth; 8 else)."""
        whole, without = (run_of(image, load, depths) for image in self.images(program))
        waits = {queue: count - without.waits["A"][queue] for queue, count in whole.waits["A"].items()}
        return whole.ticks - without.ticks, waits

    @cache
    def alone(self, program, load):
        """The ticks of what is measured on one processor."""
        whole, without = (alone.count([source], "-O1", self.folder).ticks(load, PRODUCT, QUOTIENT) for source in self.sources(program))
        return whole - without


def run_of(image, load, depths):
    """The machine behind a whole run of an image."""
    machine = record.opened(image, {**record.NUMBERS, **dict(depths), "load": load, "mul": PRODUCT, "div": QUOTIENT})
    for _ in record.ticks(machine):
        pass
    return machine


def depths_of(text):
    """The pairs of a queue and a depth that a text says, as `ld=64,ab=64`."""
    return tuple((it.split("=")[0], int(it.split("=")[1])) for it in text.split(",") if it)


def shown(pairs):
    return ", ".join(f"`{queue}` {depth}" for queue, depth in pairs) or "all 8"


def row(cells):
    return "| " + " | ".join(map(str, cells)) + " |"


def table(heads, rows):
    return "\n".join([row(heads), "|---|" + "---:|" * (len(heads) - 1), *map(row, rows)]) + "\n"


def all_deep(depth):
    return tuple((queue, depth) for queue in record.decoupled.QUEUES)


def told(waits):
    """A's waits, the longest first, without those that are short."""
    long = sorted(((count, queue) for queue, count in waits.items() if count >= 16), reverse=True)
    return ", ".join(f"`{queue}` {count:,}" for count, queue in long) or "none"


def latency(lab, program, loads, depths):
    rows = [[load, f"{lab.alone(program, load):,}",
             *(f"{lab.timed(program, load, all_deep(int(depth)))[0]:,}" for depth in depths.split(","))]
            for load in map(int, loads.split(","))]
    return table(["ticks of a load", "alone", *(f"depth {it}" for it in depths.split(","))], rows)


def programs(lab, loads, names):
    listed = list(map(int, loads.split(",")))
    rows = [[name, *(f"{it:,}" for load in listed for it in (lab.timed(name, load, ())[0], lab.alone(name, load)))]
            for name in names.split(",")]
    return table(["", *(f"{who} {load}" for load in listed for who in ("load", "alone"))], rows)


def waits(lab, load, names):
    rows = []
    for name in names.split(","):
        ticks, by_queue = lab.timed(name, int(load), ())
        plain = lab.alone(name, int(load))
        rows.append([name, f"{ticks:,}", told(by_queue), f"{plain:,}", f"{plain / ticks:.2f}"])
    return table(["", "ticks", "A waits", "alone", "times as fast"], rows)


def depths(lab, program, load, *choices):
    rows = []
    for choice in choices:
        chosen = depths_of(choice.strip("-"))
        ticks, by_queue = lab.timed(program, int(load), chosen)
        rows.append([shown(chosen), f"{ticks:,}", told(by_queue)])
    return table(["depths", "ticks", "A waits"], rows)


def pairs(lab, loads, *choices):
    rows = []
    for choice in choices:
        name, _, text = choice.partition(":")
        chosen, program = depths_of(text), name.removesuffix(".c")
        ticks = [lab.timed(program, load, chosen)[0] if name != program else run_of(lab.pair(name), load, chosen).ticks
                 for load in map(int, loads.split(","))]
        rows.append([name if name != program else f"{name}.s", shown(chosen), *(f"{it:,}" for it in ticks)])
    return table(["", "depths", *(f"load {it}" for it in loads.split(","))], rows)


def said(lab, *words):
    words = [lab.image(it.removesuffix(".img")) if it.endswith(".img") and "/" not in it else it for it in words]
    done = subprocess.run([*lab.command, *words], cwd=TOP, capture_output=True, text=True, check=False)
    notes = [line for line in done.stderr.splitlines() if not line.startswith("dae:")]
    lines = [*done.stdout.splitlines(), *notes]
    return "\n" + "".join(f"    {line.rstrip()}\n" for line in lines) + "\n"


KINDS = {"latency": latency, "programs": programs, "waits": waits, "depths": depths, "pairs": pairs, "said": said}


def again(name, lab, held, is_written):
    """Measures the tables of a page again, and writes them where that is asked."""
    def measured(found):
        made = KINDS[found[1]](lab, *found[2].split())
        held.append(made == found[3])
        print(f"{'holds' if held[-1] else 'differs'}: {found[1]} {found[2]}")
        return f"<!-- {found[1]} {found[2]} -->\n{made}<!-- end -->"

    with open(name, encoding="utf-8") as file:
        page = TABLE.sub(measured, file.read())
    if is_written:
        with open(name, "w", encoding="utf-8") as file:
            file.write(page)


def main(words):
    command = next((shlex.split(it.partition("=")[2]) for it in words if it.startswith("--command=")), ["./dae"])
    if not set(words) <= {"--write", *(it for it in words if it.startswith("--command="))}:
        sys.exit(__doc__)
    if not alone.is_there():
        sys.exit(f"measure.py: {alone.COMPILER} isn't installed")
    held = []
    with tempfile.TemporaryDirectory() as folder:
        lab = Lab(command, folder)
        for name in PAGES:
            again(name, lab, held, "--write" in words)
    print(f"{held.count(True)} passed, {held.count(False)} failed")
    return 1 if False in held and "--write" not in words else 0


if __name__ == "__main__":
    sys.exit(main(sys.argv[1:]))
