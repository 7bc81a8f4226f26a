#!/usr/bin/env python3
"""instructions.py [--write] PROGRAM

Counts by valgrind's callgrind how many instructions of the processor a step takes, on the image of compare.py: by `exec` of PROGRAM,
the built program, and by the simulator in C that stands beside this file, for each schedule and depth of all queues. Counted are the
steps from the FIRST to the LAST, a run to the one less a run to the other. Such counts hardly differ from run to run, whatever else
the machine does. It says whether the table of docs/MEASURES.md still holds, to one of fifty; with --write it puts what it counted
there, between the lines `<!-- speed instructions DEPTHS SCHEDULES -->`, which are lists with commas, and `<!-- end -->`. It wants gcc
and valgrind.
"""

import os
import re
import subprocess
import sys
import tempfile
from concurrent.futures import ThreadPoolExecutor

sys.dont_write_bytecode = True
import compare                                                                  # noqa: E402

PAGE = f"{os.path.dirname(os.path.dirname(compare.HERE))}/docs/MEASURES.md"
TABLE = re.compile(r"(<!-- speed instructions (\S+) (\S+) -->\n)(.*?)(?=<!-- end -->)", re.S)
FIRST, LAST = 20_000, 30_000


def collected(words):
    """The instructions of a call."""
    done = subprocess.run(["valgrind", "--tool=callgrind", "--callgrind-out-file=/dev/null", *words],
                          stdout=subprocess.DEVNULL, stderr=subprocess.PIPE, text=True, check=False)
    found = re.search(r"Collected : (\d+)", done.stderr)
    if not found:
        sys.exit(f"instructions.py: {' '.join(words)}: {done.stderr[-500:]}")
    return int(found[1])


def a_step(words_of):
    """The instructions of a step of a run, whose words are those for its number of steps."""
    return round((collected(words_of(LAST)) - collected(words_of(FIRST))) / (LAST - FIRST))


def table(program, room, depths, schedules):
    image, simulator = f"{room}/stream.img", f"{room}/simulator"
    compare.write_image(image)
    subprocess.run(["gcc", "-O2", "-o", simulator, f"{compare.HERE}/simulator.c"], check=True)

    def cell(asked):
        depth, schedule = asked
        ours = a_step(lambda steps: compare.run_words(program, image, steps, depth, schedule))
        theirs = a_step(lambda steps: [simulator, image, depth, str(steps), schedule])
        return f"{ours} ({theirs})"

    with ThreadPoolExecutor(2) as pool:
        made = dict(zip(asked := [(depth, it) for depth in depths for it in schedules], pool.map(cell, asked)))
    rows = [[depth, *(made[depth, it] for it in schedules)] for depth in depths]
    heads = "| " + " | ".join(["depth", *(f"`{it}`" for it in schedules)]) + " |\n|---|" + "---:|" * len(schedules) + "\n"
    return heads + "".join(f"| {' | '.join(it)} |\n" for it in rows)


def holds(made, kept):
    one, other = ([int(it) for it in re.findall(r"\d+", text)] for text in (made, kept))
    return len(one) == len(other) and all(abs(x - y) <= max(x, y) / 50 for x, y in zip(one, other))


def main(words):
    programs = [it for it in words if it != "--write"]
    if len(programs) != 1 or programs[0].startswith("-"):
        sys.exit(__doc__)
    with tempfile.TemporaryDirectory() as room, open(PAGE, encoding="utf-8") as file:
        page = file.read()
        head, depths, schedules, kept = TABLE.search(page).groups()
        made = table(os.path.abspath(programs[0]), room, depths.split(","), schedules.split(","))
    is_good = holds(made, kept)
    print(f"{'holds' if is_good else 'differs'}: speed instructions\n{'' if is_good else made}", end="")
    if "--write" in words:
        with open(PAGE, "w", encoding="utf-8") as file:
            file.write(TABLE.sub(lambda _: head + made, page))
    print(f"{int(is_good)} passed, {int(not is_good)} failed")
    return 0 if is_good or "--write" in words else 1


if __name__ == "__main__":
    sys.exit(main(sys.argv[1:]))
