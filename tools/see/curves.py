#!/usr/bin/env python3
"""curves.py [--depth=N] [--command=WORDS] SOURCE.. > FILE.svg

Draws what decoupling gains over the latency of a load: for each C program how many times as fast its two streams are as one
processor, where a load takes 1, 8, 64 and 200 ticks, a product 3 and a quotient 20. The queues are N deep (64). The one
processor runs the code of gcc -O1, and waits for each load of an object with static storage; its loads from the stack take one
tick. Whole programs are counted. The numbers are printed as a table on standard error. COMMAND compiles (./dae).
"""

import math
import os
import shlex
import subprocess
import sys
import tempfile

sys.dont_write_bytecode = True
import runs                                                                     # noqa: E402
import svg                                                                      # noqa: E402
from runs import record                                                         # noqa: E402
import alone                                                                    # noqa: E402

LOADS, PRODUCT, QUOTIENT = (1, 8, 64, 200), 3, 20
COLOURS = (svg.BLUE, svg.RED, svg.GREEN, svg.ORANGE, svg.PURPLE, svg.SKY, svg.INK)
DASHES = ("", "6 3", "2 3")
GAINS = (.125, .25, .5, 1, 2, 4, 8, 16)


def gains(source, depth, command, folder):
    """For each latency how many times as fast a program's two streams are as one processor."""
    image = f"{folder}/image"
    done = subprocess.run([*command, "compile", f"--to={image}", source], capture_output=True, check=False)
    if done.returncode:
        sys.exit(f"curves.py: {source}: {done.stderr.decode('utf-8', 'replace')}")
    plain = alone.count([source], "-O1", folder)
    told = []
    for load in LOADS:
        numbers = {**record.NUMBERS, **dict.fromkeys(record.decoupled.QUEUES, depth), "load": load, "mul": PRODUCT, "div": QUOTIENT}
        machine = record.opened(image, numbers)
        for _ in record.ticks(machine):
            pass
        if machine.counts.output != plain.output:
            sys.exit(f"curves.py: {source} prints something else by gcc")
        told.append(plain.ticks(load, PRODUCT, QUOTIENT) / machine.ticks)
    return told


def draw(rows, depth):
    picture = svg.Picture(900, 440, "How many times as fast as one processor, by the latency of a load",
                          f"gcc -O1's code on one processor that waits for each load / the two streams, queues {depth} deep")

    def at(load, gain):
        return 70 + math.log(load) / math.log(LOADS[-1]) * 600, 250 - math.log2(gain) * 44

    picture.text(14, 62, "times as fast", size=10)
    for gain in GAINS:
        y = at(1, gain)[1]
        picture.line((70, y), (670, y), svg.INK if gain == 1 else svg.GRID, 1.4 if gain == 1 else 1)
        picture.text(62, y + 4, f"{gain:g}", anchor="end")
    for load in LOADS:
        x = at(load, 1)[0]
        picture.line((x, at(1, GAINS[-1])[1]), (x, at(1, GAINS[0])[1]), svg.GRID)
        picture.text(x, at(1, GAINS[0])[1] + 18, str(load), anchor="middle")
    picture.text(670, at(1, GAINS[0])[1] + 36, "ticks of a load", anchor="end")
    below = 0
    for place, (name, told) in enumerate(sorted(rows, key=lambda row: -row[1][-1])):
        colour, dash = COLOURS[place % len(COLOURS)], DASHES[place // len(COLOURS) % len(DASHES)]
        points = [at(*it) for it in zip(LOADS, told)]
        for begin, end in zip(points, points[1:]):
            picture.line(begin, end, colour, 2, dash)
        below = max(points[-1][1], below + 13)
        picture.text(680, below + 4, f"{told[-1]:.2f} {name}", fill=colour)
    return picture.svg()


def main(words):
    depth, command, sources = 64, ["./dae"], []
    for word in words:
        name, _, value = word[2:].partition("=") if word.startswith("--") else ("", "", "")
        if name == "depth" and value.isdigit():
            depth = int(value)
        elif name == "command":
            command = shlex.split(value)
        elif name:
            sys.exit(__doc__)
        else:
            sources.append(word)
    if not sources or not alone.is_there():
        sys.exit(__doc__ if not sources else f"curves.py: {alone.COMPILER} isn't installed")
    with tempfile.TemporaryDirectory() as folder:
        rows = [(os.path.basename(it).removesuffix(".c"), gains(it, depth, command, folder)) for it in sources]
    print(f"{'ticks of a load':>20}", *(f"{load:>7}" for load in LOADS), file=sys.stderr)
    for name, told in rows:
        print(f"{name:>20}", *(f"{gain:7.2f}" for gain in told), file=sys.stderr)
    sys.stdout.write(draw(rows, depth))


if __name__ == "__main__":
    main(sys.argv[1:])
